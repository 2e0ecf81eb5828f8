"""Makes the maps of the sources, which `scripts/pages --print` prints, and judges that the sources give them.

files: each file of src/ and specs/, crate by crate, with the first sentence of the comment at its top.
definitions: each definition of specs/ with its line and the first sentence of its comment.
edits: each edit that the prover has to refuse, with its line `shows:`, which says what a refusal shows; who tries edits passes over it.

1. Each file of src/ and specs/ begins with a comment; `specs/Lib.antt` only lists its folder and needs none.
2. Each edit has one line `shows:`.
3. A crate has at most one edit in must-fail/, since `rt ci` proves the whole crate once more for it.

Files and edits are counted.
"""
import re

from pages_parts import ROOT, found, read
from statements import Book

FOLDERS = ['must-fail', 'refused', 'refused/wrong']


def crates():
    """The crates of crates.txt, in its order: each stands after those that it names."""
    return [x.split(':')[0].split()[0] for x in read('crates.txt').split('\n') if ':' in x and not x.startswith('#')]


def sentence_of(path):
    """The first sentence of the comment at a file's top, empty where there is none."""
    mark, words = '//!' if path.endswith('.rt') else '--', []
    for line in read(path).split('\n'):
        text = line.removeprefix(mark).strip()
        if not line.startswith(mark) or not text:
            break
        words.append(text)
    return first_sentence(words)


def first_sentence(words):
    """The first sentence of a comment's lines."""
    return re.split(r'(?<=\.)\s+(?=[A-Z`])', ' '.join(words))[0].rstrip('.')


def shown_by(path):
    """What an edit's refusal shows, empty where it has no line that says so, or two."""
    lines = [x.removeprefix('shows:').strip() for x in read(path).split('\n') if x.startswith('shows:')]
    return lines[0] if len(lines) == 1 else ''


def files():
    """[(path below crates/, its sentence)]."""
    paths = [path for crate in crates() for path in found(f'crates/{crate}/src/*.rt') + found(f'crates/{crate}/specs/*.antt')]
    return [(path.removeprefix('crates/'), sentence_of(path)) for path in paths if not path.endswith('/Lib.antt')]


def definitions():
    """[(path below crates/ with the line and the name, its sentence)]."""
    book, out = Book(ROOT), []
    for path in [path for crate in crates() for path in found(f'crates/{crate}/specs/**/*.antt')]:
        named = book.open(path.removeprefix('crates/')).found.values()
        out += [(f'{it.file.path}:{it.line} {it.name}', first_sentence([x.strip(' -') for x in it.comment])) for it in named if it.is_definition]
    return out


def edits():
    """[(path below crates/, what its refusal shows)]."""
    paths = [path for crate in crates() for folder in FOLDERS for path in found(f'crates/{crate}/{folder}/*.edit')]
    return [(path.removeprefix('crates/'), shown_by(path)) for path in paths]


# by the word after --print
MAPS = {'files': files, 'definitions': definitions, 'edits': edits}


def printed(name):
    """A map as lines: a path, and below it what it has. A crate's lines begin with its name."""
    out, crate = [], None
    for path, words in MAPS[name]():
        own, rest = path.split('/', 1)
        if own != crate:
            out += ([''] if out else []) + [own]
            crate = own
        out.append(f'  {rest}: {words}')
    return '\n'.join(out)


def judged(*_):
    files_there, edits_there = files(), edits()
    faults = [f'crates/{path} begins with no comment' for path, words in files_there if not words]
    faults += [f'crates/{path} has no line `shows:`, or two' for path, words in edits_there if not words]
    faults += [f'crates/{crate}/must-fail has more than one edit' for crate in crates() if len(found(f'crates/{crate}/must-fail/*.edit')) > 1]
    told = f'{len(files_there)} files, {len(edits_there)} edits'
    return [told] + [f'FAULT {it}' for it in faults], len(files_there) + len(edits_there) - len(faults), len(faults)
