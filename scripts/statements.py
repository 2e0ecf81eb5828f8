"""The statements of specs/ and src/, which of them each one names, and the clauses of functions, as scripts/pages reads them.

A statement is a definition of specs/, or an item of src/ that a definition or a signature names: a type with what contracts
see of it, a constant, or a trait with its ghost members. A name is found as the prover finds it, by the `use` lines of its
file. A variable isn't taken for the definition that is spelled like it where it is bound: by a pattern, a λ, a parameter, a
`let` or a field above. Nothing of a folder proofs/ is read.
"""
import glob
import os
import re

# A word that is no field: after no dot. It may have parts after dots of its own.
WORD = re.compile(r'(?<![^\s(){}\[\],;:])[^\s(){}\[\],;:"]+')
START = re.compile(r'(?:(?P<how>abbrev|unfoldable|foldable|irreducible|opaque)\s+)?'
                   r'(?:(?P<public>pub)\s+(?:(?P<kind>record|data|abbrev|unfoldable)\s+)?|(?=[^\s:({]+ : ))(?P<name>[^\s:({]+)')
USE = re.compile(r'\s*(?:ghost )?use (Rattle\.[^\s;{]+?)(?:\.\{([^}]*)\})?(?: as (\w+))?;?\s*$')
RUST_USE = re.compile(r'^use (\w+)((?:::\w+)*)(?:::\{([^}]*)\})?;', re.M)
# words of the language
OF_LANGUAGE = set('λ let in if then else do record module where pub data abbrev unfoldable Type Unit ghost requires ensures'.split())
BINDERS = [re.compile(r'λ((?:\s+[^\s(){}.]+)+)\.'), re.compile(r'[({]((?:[^\s(){}:]+\s+)*[^\s(){}:]+)\s+:(?=\s)'),
           re.compile(r'\blet\s+(\S+)\s+='), re.compile(r'(?:^|[\s;{])(\w+) ←')]
# how a head ends that no clause follows, and what stands after another: a clause, a comment before one, a body
LAST = re.compile(r'(?:[{;]|\{.*\})\s*$')
AFTER_HEAD = re.compile(r'\s*(requires|ensures)\b|\s*//|\s*\{')
CLAUSE = re.compile(r'\s*(requires|ensures\*?)\s*(\w*)\s*\{')
PUBLIC_FUNCTION = re.compile(r'\s*pub (?:unsafe )?(?:extern "C" )?fn (\w+)')
# who has ghost members that the public sees, and such a member
OPEN = re.compile(r'(?:pub (trait)|impl(?:<.*?>)? (Model|Suite) for) (\w+)')
MEMBER = re.compile(r'\s+ghost (\w+)(?::| =) *\{')
SEEN = {'Model': ('Value', 'view', 'invariant'), 'Suite': ('meaning',)}


class Wrong(Exception):
    """Why a source can't be read so, or what isn't there."""


def uncommented(text):
    """The text of a source without its comments; attributes stay."""
    return re.sub(r'//.*', '', text)


def without_comments(lines):
    return '\n'.join(re.sub(r'(^|\s)--.*$', '', line) for line in lines)


def imports_of(lines):
    """What `use` lines bring: {name: path} and {alias: path}."""
    names, aliases = {}, {}
    for line in lines:
        m = USE.match(line)
        if not m:
            continue
        path, inner, alias = m.groups()
        if alias:
            aliases[alias] = path
        for name in filter(None, (it.strip() for it in (inner or '').split(','))):
            of, _, own = name.partition(' as ')
            names[own or of] = f'{path}.{of}'
    return names, aliases


class Statement:
    """A definition or an item, word for word, with the place where it stands."""

    def __init__(self, file, name, comment, lines, head=None, line=0, is_definition=False):
        self.file, self.name, self.comment, self.lines = file, name, comment, lines
        # the parameters that stand in front of it, its line in a file of specs/, and whether it is a definition there, not a lemma
        self.head, self.line, self.is_definition = head, line, is_definition

    @property
    def is_code(self):
        return isinstance(self.file, Source)

    def names(self, book):
        return self.file.names(self, book)


class Spec:
    """A file of specs/."""

    def __init__(self, root, path):
        self.path = path
        with open(f'{root}/crates/{path}', encoding='utf-8') as file:
            self.lines = file.read().rstrip('\n').split('\n')
        self.imports, self.aliases = imports_of(self.lines)
        self.found, self.owner = {}, {}
        self.read()

    def read(self):
        comment, head, level, current, kind = [], None, 0, None, ''
        for number, line in enumerate(self.lines, 1):
            text, indent = line.strip(), len(line) - len(line.lstrip())
            if line.startswith('module '):
                head, level, comment, current = text, 2, [], None
                continue
            if text and indent == 0:
                head, level = (None, 0) if not line.startswith('--') else (head, 0)
            if not text:
                if current:
                    current.lines.append(line)
                comment = []
            elif indent == level and text.startswith('--'):
                if indent == 0:
                    head = None
                comment, current = comment + [line[level:]], None
            elif indent == level and (m := START.match(text)) and m['name'] not in ('mod', 'use'):
                kind = m['how'] or m['kind'] or ''
                current = Statement(self, m['name'], comment, [line[level:]], head, number, bool(kind))
                self.found[m['name']] = current
                comment = []
            elif current and not re.match(r'use |pub mod |infix', text):
                current.lines.append(line[level:])
                if kind == 'data' and (m := re.match(r'\s+(?:pub )?([^\s:]+)\s*:', line)):
                    self.owner.setdefault(m[1], current)
            elif not re.match(r'use |pub mod |infix', text):
                raise Wrong(f'{self.path}:{number}: this belongs to no definition: {text}')
        for it in self.found.values():
            while not it.lines[-1].strip():
                it.lines.pop()

    def get(self, name):
        return self.found.get(name) or self.owner.get(name)

    def names(self, it, book):
        """The statements that a definition names, in order, each once."""
        found = []
        for text, bound in segments(it):
            found += book.resolve(text, self.imports, self.aliases, self, bound)
        return found


def bound_by(text):
    """The names that a text binds, wherever."""
    return {name for binder in BINDERS for m in binder.finditer(text) for name in m[1].split()}


def segments(it):
    """The parts of a definition, each with the names that are bound there: its signature and its equations, or the lines
    of a record, of which each sees the fields above it."""
    outer = bound_by(it.head) if it.head else set()
    if it.head:
        yield it.head, outer
    text = without_comments(it.lines)
    if re.match(r'pub (record|data) ', text):
        head, *rest = re.split(r'\n(?=  (?:pub )?[^\s:]+ :)', text)
        bound = outer | bound_by(head)
        yield head, bound | {it.name}
        for part in rest:
            label, _, body = part.partition(' : ')
            yield body, bound | bound_by(body)
            if text.startswith('pub record'):
                bound = bound | {label.split()[-1]}
        return
    signature, *equations = re.split(r'\n(?=\S)', text)
    yield signature, outer | bound_by(signature) | {it.name}
    for equation in equations:
        left, right, *_ = [*re.split(r'\s=\s', equation, maxsplit=1), '']
        patterns = {w for w in WORD.findall(left) if '.' not in w and w[0].islower()}
        yield left, outer | patterns | {it.name}
        yield right, outer | patterns | bound_by(right)


class Source:
    """A file of src/."""

    def __init__(self, root, path):
        self.path, self.crate = path, path.split('/')[0]
        with open(f'{root}/crates/{path}', encoding='utf-8') as file:
            self.lines = file.read().rstrip('\n').split('\n')
        self.imports, self.aliases = imports_of([x for x in self.lines if x.startswith('ghost use')])
        self.brought = {}
        for crate, module, inner in RUST_USE.findall('\n'.join(self.lines)):
            for name in [x.strip() for x in inner.split(',') if x.strip()] or [module.split('::')[-1]]:
                self.brought[name] = (crate if crate != 'crate' else self.crate)
        self.items = {}

    def end_of(self, start):
        """The last line of the item that begins at this one."""
        depth, seen = 0, False
        for at in range(start, len(self.lines)):
            code = uncommented(self.lines[at])
            depth += code.count('{') - code.count('}')
            seen = seen or '{' in code
            if depth == 0 and (seen or code.rstrip().endswith(';')):
                return at
        return start

    def begin_of(self, head):
        """The first line of the comment and attributes above a line."""
        while head > 0 and re.match(r'\s*(///|#\[)', self.lines[head - 1]):
            head -= 1
        return head

    def get(self, name):
        if name not in self.items:
            self.items[name] = self.item(name)
        return self.items[name]

    def item(self, name):
        at = next((at for at, x in enumerate(self.lines) if re.match(rf'(?:pub(?:\(\w+\))? )?(?:struct|enum|trait|const|type) {name}\b', x)), None)
        if at is None:
            return None
        begin, end = self.begin_of(at), self.end_of(at)
        lines = self.lines[begin:end + 1]
        if re.search(r'\btrait ', self.lines[at]):
            lines = self.trait_of(begin, at, end)
        lines = lines + self.view_of(name)
        return Statement(self, name, [], lines)

    def trait_of(self, begin, head, end):
        """A trait with its ghost members; its functions are told, not copied."""
        kept = self.lines[begin:head + 1]
        ghosts = [x for x in self.lines[head + 1:end] if re.match(r'\s+ghost \w+:', x)]
        calls = sum(bool(re.match(r'\s+fn ', x)) for x in self.lines[head + 1:end])
        told = [f'    // and {calls} functions, each with what is asked of a call and what it answers'] if calls else []
        return kept + ghosts + told + ['}']

    def view_of(self, name):
        """What contracts see of a type, where they see another thing than its fields."""
        at = next((at for at, x in enumerate(self.lines) if re.match(rf'impl(?:<.*?>)? Model for {name}\b', x)), None)
        if at is None:
            return []
        kept, depth = [], 0
        for line in self.lines[at:self.end_of(at) + 1]:
            if depth or re.match(r'\s*ghost (invariant|coded|use)\b', line):
                depth += line.count('{') - line.count('}')
                continue
            if line.strip() or kept[-1].strip() not in ('', kept[0].strip()):
                kept.append(line)
        return ['', *(x for at, x in enumerate(kept) if x.strip() or at != len(kept) - 2)]

    def names(self, it, book):
        """What an item names: where contracts see another thing than its fields, what that is; else the types of its
        fields. What always holds of them (a `ghost` member of a struct) says nothing more."""
        text = uncommented('\n'.join(it.lines))
        fields, _, view = text.partition('\nimpl')
        if not view and not re.search(r'\btrait ', text):
            fields = re.sub(r'ghost \w+: \{.*?\},', '', fields, flags=re.S)
            return book.types(fields, self, it.name)
        at = next((at for at, x in enumerate(self.lines) if re.match(rf'impl(?:<.*?>)? Model for {it.name}\b', x)), len(self.lines))
        own = {**self.imports, **imports_of(self.lines[at:self.end_of(at) + 1] if at < len(self.lines) else [])[0]}
        supers = book.types(re.search(r'trait \w+([^{]*)', text)[1], self, it.name) if not view else []
        ghost = view or '\n'.join(re.findall(r'ghost [^\n]*', text))
        return supers + self.looked_into(fields, view, it.name, book) + book.resolve(ghost, own, self.aliases, None, bound_by(ghost))

    def looked_into(self, fields, view, own, book):
        """The types of the fields into which a view looks: what contracts see of such a field is its type's own view."""
        kinds = dict(re.findall(r'(?m)^\s+(?:pub(?:\(\w+\))? )?(\w+): (.*),$', fields))
        looked = dict.fromkeys(re.findall(r'\b\w+\.(\w+)\.\w', view))
        return [it for name in looked if name in kinds for it in book.types(kinds[name], self, own)[:1]]

    def public_clauses(self):
        """What the public sees claimed here: (item, kind, name, text) of each clause of a public function and of a public
        trait's functions, and of each ghost member that a contract of another may name."""
        trait, end = None, -1
        for at, line in enumerate(self.lines):
            if m := OPEN.match(line):
                end = self.end_of(at)
                trait = m[3] if m[1] else None
                yield from self.members(m, at, end)
            own = trait if at <= end else None
            head = re.match(r'\s+fn (\w+)', line) if own else PUBLIC_FUNCTION.match(line)
            if head:
                for kind, name, lines in Function(self, at, head[1]).clauses:
                    yield f'{own}::{head[1]}' if own else head[1], kind.rstrip('*'), name, inner(lines)

    def members(self, opened, at, end):
        """The ghost members of a trait, a model or a suite that begins at a line."""
        seen = SEEN.get(opened[2])
        for begin in range(at, end):
            m = MEMBER.match(self.lines[begin])
            if m and (not seen or m[1] in seen):
                yield opened[3], 'ghost', m[1], inner(self.lines[begin:self.end_of(begin) + 1])


def inner(lines):
    """What stands between the outer braces of some lines."""
    text = uncommented('\n'.join(lines))
    return text[text.index('{') + 1:text.rindex('}')]


class Book:
    """All files that were opened, and how names lead from one to another."""

    def __init__(self, root):
        self.root, self.files, self.library = root, {}, set()

    def open(self, path):
        if path not in self.files:
            there = os.path.exists(f'{self.root}/crates/{path}')
            self.files[path] = (Spec if path.endswith('.antt') else Source)(self.root, path) if there else None
        return self.files[path]

    def source_of(self, crate, name):
        """The item of a crate, in whichever file."""
        for path in sorted(glob.glob(f'{self.root}/crates/{crate}/src/*.rt')):
            it = self.open(os.path.relpath(path, f'{self.root}/crates')).get(name)
            if it:
                return it
        return None

    def follow(self, path):
        """The statement that a path of the prover names, or nothing where that is of a library or no statement."""
        _, crate, _, *rest = path.split('.')
        if not os.path.isdir(f'{self.root}/crates/{crate}'):
            self.library.add(rest[-1])
            return None
        if rest[0] == 'declared':
            source = self.open(f'{crate}/src/{rest[1]}.rt')
            name = rest[3] if rest[2] == 'TheConstants' and len(rest) > 3 else rest[2]
            return source and source.get(name)
        spec = self.open(f'{crate}/specs/{rest[0]}.antt')
        if not spec or len(rest) < 2:
            return None
        return spec.get(rest[1]) or (self.follow(spec.imports[rest[1]]) if rest[1] in spec.imports else None)

    def resolve(self, text, names, aliases, spec=None, bound=()):
        """The statements that a text of the prover's language names, in order."""
        text, found = re.sub(r'"[^"]*"', '""', text), []
        # a label of a record's field is no use of what is spelled like it
        text = re.sub(r'([{;]\s*)[^\s(){};]+(?= = )', r'\1', text)
        for m in WORD.finditer(text):
            word, *rest = m[0].split('.')
            it = None
            if word in aliases and rest and rest[0]:
                it = self.follow(f'{aliases[word]}.{rest[0]}')
            elif word in bound or word in OF_LANGUAGE or not word:
                continue
            elif spec and spec.get(word):
                it = spec.get(word)
            elif word in names:
                it = self.follow(names[word])
            if it:
                found.append(it)
        for name in names:
            middle = name.strip('◌')
            if '◌' in name and (f' {middle} ' in text or (middle == '>>=' and '←' in text)):
                it = self.follow(names[name])
                found += [it] if it else []
        return found

    def types(self, text, source, own=None):
        """The items that a text of the code names, by the capital letter of their names."""
        found = []
        for name in re.findall(r"(?<![\w'])([A-Z]\w+)", text):
            if name == own:
                continue
            it = source.get(name) or (self.source_of(source.brought[name], name) if name in source.brought else None)
            if it:
                found.append(it)
        return found

    def function(self, path, name):
        """A function of a file, by its name after that of its type."""
        source, owner = self.open(path), name.rpartition('::')[0]
        if not source:
            raise Wrong(f'there is no file crates/{path}')
        lines, inside = source.lines, range(len(source.lines))
        if owner:
            at = next((at for at, x in enumerate(lines) if re.match(rf'impl(?:<.*?>)? {owner}\b', x)), None)
            inside = range(at, source.end_of(at)) if at is not None else range(0)
        head = next((at for at in inside if re.match(rf'\s*(?:pub )?fn {name.split("::")[-1]}\b', lines[at])), None)
        if head is None:
            raise Wrong(f'crates/{path} has no function {name}')
        return Function(source, head, name)


class Function:
    """A function: its comment, its head and its clauses, word for word."""

    def __init__(self, source, at, name):
        self.source, self.name, self.owner, self.line = source, name, name.rpartition('::')[0], at + 1
        lines = source.lines
        self.comment = [x for x in lines[source.begin_of(at):at] if '///' in x]
        self.head, self.clauses = [lines[at]], []
        while not LAST.search(uncommented(lines[at])) and not AFTER_HEAD.match(lines[at + 1]):
            at += 1
            self.head.append(lines[at])
        if not LAST.search(uncommented(lines[at])):
            self.read_clauses(lines, at)

    def read_clauses(self, lines, at):
        """The clauses after a line, each with the comments above it; a trait's function has a `;` after its last."""
        note = []
        while not uncommented(lines[at]).rstrip().endswith(';') and not re.match(r'\s*\{', lines[at + 1]):
            at += 1
            block, depth = [lines[at]], lines[at].count('{') - lines[at].count('}')
            while depth > 0:
                at += 1
                block.append(lines[at])
                depth += lines[at].count('{') - lines[at].count('}')
            m = CLAUSE.match(block[0])
            if m:
                self.clauses.append((m[1], m[2], note + block))
            note = [] if m else note + block

    def chosen(self, wanted):
        """The conditions and these clauses, and the names of the others. A clause without a name is `-`."""
        known = {name or '-' for kind, name, _ in self.clauses if kind != 'requires'}
        lacking = [x for x in wanted if x not in known]
        if lacking:
            raise Wrong(f'{self.source.path}: {self.name} has no clause {", ".join(lacking)}')
        taken = [x for x in self.clauses if x[0] == 'requires' or (x[1] or '-') in wanted]
        return taken, [x[1] or '-' for x in self.clauses if x[0] != 'requires' and (x[1] or '-') not in wanted]

    def text(self, wanted):
        """What a page shows of it."""
        taken, _ = self.chosen(wanted)
        shown = [*self.comment, *self.head, *(line for it in taken for line in it[2])]
        indent = min(len(x) - len(x.lstrip()) for x in shown)
        return [x[indent:] for x in shown]

    def whole(self):
        """All of it, its body too, which ends by a brace below the head."""
        lines, at = self.source.lines, self.line - 1
        indent = lines[at][:len(lines[at]) - len(lines[at].lstrip())]
        end = next(x for x in range(at, len(lines)) if lines[x] == indent + '}')
        return [*self.comment, *lines[at:end + 1]]

    def names(self, wanted, book):
        """What these clauses name."""
        taken, _ = self.chosen(wanted)
        text = uncommented('\n'.join(line for it in taken for line in it[2]))
        return book.resolve(text, self.source.imports, self.source.aliases, None, bound_by(text))

    def types(self, book):
        """The types and traits of its head, its own first."""
        return book.types(self.owner + ' ' + '\n'.join(self.bounds() + self.head), self.source)

    def bounds(self):
        """The head of the `impl` that it stands in."""
        heads = [x for x in self.source.lines[:self.line] if x.startswith('impl')] if self.owner else []
        return heads[-1:]
