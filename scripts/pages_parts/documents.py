"""Judges docs/PROVED.md, the comments of definitions and of calls, and the code on pages by the sources.

1. Each definition of specs/ has a comment right above it. A case of a `data` has its data's; a lemma needs none.
2. Each public call and trait has a row in PROVED.md that links its file (a link that ends with CRATE/src/FILE), and a `///`
   comment in the source.
3. Each call in a row of PROVED.md is in one of the files that the row links, and a name in brackets is a clause of a call of
   the row.
4. Each block of code between fences in README.md, docs/USING.md, docs/LAYERS.md and docs/BINDINGS.md stands word for word,
   but for its indent, in a file that something compiles or runs: a program SHOWN, or on BINDINGS.md a file of bindings/. Each of
   these pages has one at least, and those in docs/ have no code without fences.
Definitions, calls and blocks are counted.
"""
import re

from pages_parts import found, read
from statements import uncommented

CRATES = ['sshwire', 'sshpacket', 'sshmsg', 'sshneg', 'sshcore', 'sshworld', 'sshpromises', 'sshpolynomials', 'sshkeccak', 'sshmlkem', 'sshcurve', 'sshsuite', 'sshlabsuites',
          'sshlab', 'sshidentity', 'rezdolin']
# the programs whose code pages show
SHOWN = ['sshauth', 'sshexamples']
PROGRAMS = {'rust': [f'crates/{crate}/src/*.rt' for crate in SHOWN]}
# by page, and there by the word after a fence: the files that may have the block
CODE = {
    'README.md': PROGRAMS,
    'docs/USING.md': PROGRAMS,
    'docs/LAYERS.md': PROGRAMS,
    'docs/BINDINGS.md': {
        'rust': ['bindings/rust/src/*.rs', 'bindings/rust/examples/*.rs', *PROGRAMS['rust']],
        'c': ['bindings/c/*.c', 'bindings/c/*.h'],
        'python': ['bindings/python/*.py'],
    },
}
PUBLIC = re.compile(r'pub (?:unsafe )?(?:extern "C" )?(fn|trait) (\w+)')
CALL_OF_TRAIT = re.compile(r'    fn (\w+)')
# what may stand between a comment and the item that it is about: attributes
BETWEEN = re.compile(r'\s*(#\[|\)\]|//(?!/))')


class Sources:
    """What the crates claim in public: `clauses` {(file, call): [(kind, name)]}."""

    def __init__(self, book):
        self.book, self.clauses, self.codes = book, {}, {}
        for path in self.files('src/*.rt'):
            for item, kind, name, _ in book.open(path).public_clauses():
                self.clauses.setdefault((path, item.split('::')[-1]), []).append((kind, name))

    def files(self, pattern):
        """The files of all crates, each by its path below crates/."""
        return [x.removeprefix('crates/') for crate in CRATES for x in found(f'crates/{crate}/{pattern}')]

    def code(self, path):
        """The text of a source without comments, empty where there is none."""
        if path not in self.codes:
            source = self.book.open(path)
            self.codes[path] = uncommented('\n'.join(source.lines)) if source else ''
        return self.codes[path]


def definitions_of(book, faults):
    """How many definitions specs/ has, in all crates; a fault for each that has no comment."""
    specs = [book.open(x.removeprefix('crates/')) for x in found('crates/*/specs/**/*.antt')]
    there = [it for spec in specs for it in spec.found.values() if it.is_definition]
    faults += [f'crates/{it.file.path}:{it.line}: {it.name} has no comment' for it in there if not it.comment]
    return len(there)


def uncommented_calls(path, lines):
    """A fault for each public function or trait of a source, or function of a public trait, without a `///` comment."""
    is_in_trait = False
    for at, line in enumerate(lines):
        is_in_trait = line.startswith('pub trait ') or is_in_trait and not line.startswith('}')
        public = PUBLIC.match(line.strip())
        name = public[2] if public else is_in_trait and CALL_OF_TRAIT.match(line) and CALL_OF_TRAIT.match(line)[1]
        above = at - 1
        while above >= 0 and BETWEEN.match(lines[above]):
            above -= 1
        if name and (above < 0 or not lines[above].strip().startswith('///')):
            yield f'crates/{path}:{at + 1}: {name} has no comment'


def calls_of(sources, lines, faults):
    """How many public calls and traits there are; a fault for each that PROVED.md has no row for, or that has no comment."""
    calls = 0
    for path in sources.files('src/*.rt'):
        for _, name in PUBLIC.findall(sources.code(path)):
            calls += 1
            if not any(f'crates/{path})' in line and re.search(rf'[`:]{name}`', line.split('|')[1]) for line in lines):
                faults.append(f'PROVED.md has no row for {name} of {path} that links the file')
        faults += uncommented_calls(path, sources.book.open(path).lines)
    return calls


def wrong_in_row(sources, parts, places):
    """What is wrong with a row of PROVED.md: calls that are in none of its files, and names in brackets that are no clause of its calls."""
    bodies = {place: sources.code(place) for place in places}
    said, known = '|'.join(parts[3:]), set()
    for call in [it.split('::')[-1] for it in re.findall(r'`([^`]+)`', parts[1])]:
        there = [place for place in places if re.search(rf'\b(fn|trait|struct|enum) {call}\b', bodies[place])]
        if not there:
            yield f'PROVED.md: {call} is in none of {", ".join(places)}'
        for place in there:
            known |= {name for _, name in sources.clauses.get((place, call), [])}
            if re.search(rf'\btrait {call}\b', bodies[place]):
                known |= {name for (of, _), clauses in sources.clauses.items() if of == place for _, name in clauses}
    for group in re.findall(r'\(((?:clauses )?`\w+`(?:(?:, | to | and )`\w+`)*)\)', said):
        for name in re.findall(r'`(\w+)`', group):
            if name not in known:
                yield f'PROVED.md: {name} is no clause of {parts[1].strip()}'


def unindented(lines):
    """The lines without the indent that all of them have."""
    indent = min((len(line) - len(line.lstrip(' ')) for line in lines if line), default=0)
    return [line[indent:] for line in lines]


def stands(block, lines):
    """Whether the lines of a block stand among these, one after the other."""
    return any(unindented(lines[at:at + len(block)]) == block for at in range(len(lines) - len(block) + 1))


def blocks_of(page, faults):
    """How many blocks of code a page has; a fault for each that no file has."""
    files = {word: [read(file).split('\n') for pattern in patterns for file in found(pattern)] for word, patterns in CODE[page].items()}
    parts = re.split(r'^```(.*)\n', read(page), flags=re.M)
    # text, what stands after a fence that opens, a block, what stands after one that closes, text, ..
    if len(parts) % 4 != 1 or len(parts) < 5:
        faults.append(f'{page}: no block of code, or a fence that isn\'t closed')
    for word, block in zip(parts[1::4], parts[2::4]):
        lines = block.rstrip('\n').split('\n')
        if word not in files:
            faults.append(f'{page}: a block of code that isn\'t marked {", ".join(files)}: {lines[0]}')
        elif not any(stands(lines, file) for file in files[word]):
            faults.append(f'{page}: no file of {", ".join(CODE[page][word])} has this block: {lines[0]}')
    if page != 'README.md' and re.search(r'^(?: {4}|\t)', ''.join(parts[0::4]), re.M):
        faults.append(f'{page}: code without fences')
    return len(parts[2::4])


def judged(book, *_):
    faults, sources = [], Sources(book)
    definitions = definitions_of(book, faults)
    lines = [l for l in read('docs/PROVED.md').split('\n') if l.startswith('|')]
    calls = calls_of(sources, lines, faults)
    for line in lines:
        parts = line.split('|')
        places = re.findall(r'crates/(\w+/src/\w+\.rt)\)', parts[2]) if len(parts) > 3 else []
        faults += wrong_in_row(sources, parts, places) if places else []
    blocks = sum(blocks_of(page, faults) for page in CODE)
    told = [f'{blocks} blocks of code, {calls} public calls and traits, {definitions} definitions']
    # each definition, each call and each block counts one; a fault takes one of them away
    return told + [f'FAULT {it}' for it in faults], max(definitions + calls + blocks - len(faults), 0), len(faults)
