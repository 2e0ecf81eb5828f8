"""Lays copies of functions into a copy of a crate, so that one check tries many edits: each edit in a copy of its function.

A copy stands behind its function, under a name of its own, with the function's comment, attributes, contract and stored proof.
Nothing calls it. So the prover has the same goals for it as for the function with that edit in its place. Of a function with a
stored proof one copy has no edit: it shows that the proof fits the copies, but for what their edits change.

An edit may also change a constant that only bodies use: then its copy uses a copy of the constant."""
import glob
import os
import re
from typing import NamedTuple

from stubs import Function, files_of, functions_in, read, types_in, write

# What stands above a function's head and belongs to it: goals may be told of its first line.
ABOVE = re.compile(r"\s*(?:///|#\[)")
# A constant's first line, where `rt fmt` lays it out.
CONSTANT = re.compile(r"(?:pub(?:\([^)]*\))? )?const (\w+): ")


class Constant(NamedTuple):
    """A constant: its name, and its first and its last line in its file, counted from 0."""

    name: str
    begins: int
    ends: int


class Copy(NamedTuple):
    """A copy of a function: its file, its function, its name, and the lines of its text."""

    file: str
    function: Function
    name: str
    lines: tuple

    def path(self):
        """Its path in the crate, as `rt check --only` takes it."""
        return "::".join([*self.function.path.split("::")[:-1], self.name])

    def with_constant(self, constant, lines):
        """The same over a copy of a constant, from the lines of the file, which it uses in the constant's place."""
        own = f"{constant.name}_{self.name.upper()}"
        text = [*lines[constant.begins : constant.ends + 1], "", *self.lines]
        return self._replace(lines=tuple(re.sub(rf"\b{constant.name}\b", own, x) for x in text))


class Copies(NamedTuple):
    """Copies of a crate's functions: without an edit, by the function's name in the edits' lines `only:`, and with one, by the edit."""

    unedited: dict
    edited: dict

    def all(self):
        return [*dict.fromkeys([*self.unedited.values(), *self.edited.values()])]

    def without(self, some):
        """The same without some of them, or none at all where these are none."""
        return Copies(*({x: copy for x, copy in of.items() if some and copy not in some} for of in self))


class Source:
    """The sources of a crate, of whose functions copies are made."""

    def __init__(self, folder):
        self.types = types_in(folder)
        self.modules = {os.path.relpath(path, folder): module for path, module in files_of(folder)}
        self.lines = {file: read(f"{folder}/{file}").split("\n") for file in self.modules}

    def functions(self, file):
        return [*functions_in(self.lines[file], self.modules[file], self.types)]

    def function_of(self, edit, file):
        """The function of a file that an edit's line `only:` names, or None where it can't be a stub, or is a method of a trait."""
        found = [x for x in self.functions(file) if f"::{x.path}".endswith(f"::{edit.only}")]
        return found[0] if len(found) == 1 and not found[0].is_of_trait else None

    def is_of_bodies(self, constant, file):
        """Whether a constant of a file is used by nothing but bodies that stubs don't have."""
        for other, lines in self.lines.items():
            apart = {at for x in self.functions(other) for at in range(x.opens + 1, x.closes)}
            if other == file:
                apart |= {*range(constant.begins, constant.ends + 1)}
            if any(re.search(rf"\b{constant.name}\b", x.split("//")[0]) for at, x in enumerate(lines) if at not in apart):
                return False
        return True

    def edited(self, function, file, after, word):
        """The copy of a function that has what the new lines of its file change, or None where they change something else than its
        body or, of a function that is no method, a constant that only bodies use, or it calls itself."""
        before = self.lines[file]
        changed = [at for at, (old, new) in enumerate(zip(before, after)) if old != new]
        if not changed or len(before) != len(after) or any(calls_itself(x, function) for x in (before, after)):
            return None
        copy = copy_of(function, file, after, word)
        if all(function.opens < at < function.closes for at in changed):
            return copy
        constant = None if is_method(before, function) else constant_of(before, changed)
        return copy.with_constant(constant, after) if constant and self.is_of_bodies(constant, file) else None


def begin(lines, head):
    """The first line, counted from 0, of the function whose head stands on this one."""
    while head and ABOVE.match(lines[head - 1]):
        head -= 1
    return head


def is_method(lines, function):
    return lines[function.head].startswith(" ")


def calls_itself(lines, function):
    """Whether a function's body calls the function, whose copy would call that one."""
    owner, name = ["", *function.path.split("::")][-2:]
    before = rf"(?:\bself\.|\bSelf::|\b{owner}::)" if is_method(lines, function) else r"(?<![\w.:])(?:(?:self|super|crate)::(?:\w+::)*)?"
    return re.search(f"{before}{name}[(]", "\n".join(lines[function.opens : function.closes]))


def constant_of(lines, changed):
    """The constant in which these lines stand, or None."""
    begins = max((at for at in range(changed[0] + 1) if CONSTANT.match(lines[at])), default=None)
    if begins is None:
        return None
    last = re.compile(r".*;$" if lines[begins].endswith(";") else r"\S.*;$")
    ends = next((at for at in range(begins, len(lines)) if last.match(lines[at])), -1)
    return Constant(CONSTANT.match(lines[begins])[1], begins, ends) if changed[-1] <= ends else None


def copy_of(function, file, lines, word):
    """The copy of a function under its name with a word behind it, from the lines of its file."""
    name = function.path.split("::")[-1]
    first = begin(lines, function.head)
    text = lines[first : function.closes + 1]
    text[function.head - first] = re.sub(rf"\bfn {name}\b", f"fn {name}_{word}", lines[function.head], count=1)
    return Copy(file, function, f"{name}_{word}", tuple(text))


def copies_of(edits, texts_of, folder):
    """The copies by which edits of a crate are tried, of those that can be tried so. texts_of gives the texts of the files that an
    edit changes, if it can be made."""
    source, found = Source(folder), Copies({}, {})
    for number, edit in enumerate(edits, 1):
        texts = texts_of(edit)
        file = next(iter(texts), None)
        function = source.function_of(edit, file) if len(texts) == 1 and file in source.modules else None
        copy = function and source.edited(function, file, texts[file].split("\n"), f"edit_{number}")
        if copy:
            found.edited[edit] = copy
            if os.path.isdir(f"{folder}/proofs/{function.path.replace('::', '/')}"):
                found.unedited[edit.only] = copy_of(function, file, source.lines[file], "unedited")
    return found


def lay_copies(copies, folder):
    """Lays copies into a copy of their crate. Gives for each its file and its lines there: the first, and the one after the last."""
    places = {}
    for file in {x.file for x in copies}:
        laid = []
        for at, line in enumerate(read(f"{folder}/{file}").split("\n")):
            laid.append(line)
            for copy in [x for x in copies if x.file == file and x.function.closes == at]:
                laid.append("")
                places[copy] = file, len(laid) + 1, len(laid) + 1 + len(copy.lines)
                laid += copy.lines
        write(f"{folder}/{file}", "\n".join(laid))
    for copy in copies:
        lay_proof(copy, folder)
    return places


def lay_proof(copy, folder):
    """Lays a copy of what is written of a function's proof. It names the function where it imports the function's goals."""
    proofs = f"Rattle.{os.path.basename(folder)}.proofs"
    old, new = (x.split("::") for x in (copy.function.path, copy.path()))
    there, here = (f"{folder}/proofs/{'/'.join(x)}" for x in (old, new))
    for path in glob.glob(f"{there}/**/*.antt", recursive=True):
        text = read(path).replace(f"{proofs}.{'.'.join(old)}.", f"{proofs}.{'.'.join(new)}.")
        write(f"{here}/{os.path.relpath(path, there)}", text)
