"""Stubs the functions of a copy of a crate, but a few: an empty loop for the body, a hole for the proof.

With `--allow-holes` the prover takes a stub at its contract, and checks neither its body nor what that calls. So of a
function that is no stub it has the same goals as in the crate itself, without a proof of what the function calls.
Lines keep their numbers. These stay as they are: constant functions, those of a cycle, tests, functions of one line, and
the methods of traits and of their impls, except those that TRAITS names."""
import glob
import os
import re
from typing import NamedTuple

# A function's head, where `rt fmt` lays it out: what stands before it, whether it is constant, its name.
HEAD = re.compile(r"(\s*)(?:pub(?:\([^)]*\))? )?(const )?fn (\w+)")
IMPL = re.compile(r"(unsafe )?impl\b")
TRAIT = re.compile(r"(pub(\([^)]*\))? )?trait\b")
TYPE = re.compile(r"(?m)^(?:pub(?:\([^)]*\))? )?(?:struct|enum|union) (\w+)")
# Traits whose methods have their proofs at the type's module, where the impl stands beside the type.
TRAITS = ("Suite", "Decisions", "Inventory")
# What is written of a function's proof.
WRITTEN = ("Answers", "Invariants", "Proof")


class Function(NamedTuple):
    """A function that can be a stub: its path in its crate, the lines of its file, counted from 0, on which its head stands and
    its body opens and closes, and whether it is a method of a trait."""

    path: str
    head: int
    opens: int
    closes: int
    is_of_trait: bool


def read(path):
    with open(path, encoding="utf-8") as file:
        return file.read()


def write(path, text):
    os.makedirs(os.path.dirname(path), exist_ok=True)
    with open(path, "w", encoding="utf-8") as file:
        file.write(text)


def without_parameters(text):
    """A type or a trait without what stands in angle brackets."""
    depth, kept = 0, ""
    for before, char in zip(" " + text, text):
        depth += char == "<"
        kept += char if not depth else ""
        depth -= char == ">" and before != "-"
    return kept


def owner_of(line, module, types):
    """The name under which the functions of an `impl` have their proofs, or None where they stay as they are."""
    if not IMPL.match(line):
        return None
    words = without_parameters(line.split("impl", 1)[1]).split("{")[0].split()
    if "for" not in words:
        return words[0].split("::")[-1]
    trait, name = (x.split("::")[-1] for x in (words[0], words[2]))
    return name + trait if types.get(name) == [module] and trait.endswith(TRAITS) else None


def body_of(lines, head):
    """The lines on which a function's body opens and closes, or None where it has no body or one line."""
    indent = HEAD.match(lines[head])[1]
    for at in range(head, len(lines)):
        line = lines[at]
        is_outer = at == head or line.startswith((f"{indent})", f"{indent}where "))
        if line == f"{indent}{{" or is_outer and line.endswith("{"):
            return at, lines.index(f"{indent}}}", at)
        if is_outer and line.endswith((";", "}")) or at > head and HEAD.match(line):
            return None
    return None


def is_bound(lines, head):
    """Whether a function is one of a cycle or a test, by the attributes above its head."""
    above = head
    while above and lines[above - 1].strip().startswith("#["):
        above -= 1
    return re.search(r"#\[(cycle|test)\b", "\n".join(lines[above:head]))


def files_of(folder):
    """The source files of a crate, each with its module."""
    for path in sorted(glob.glob(f"{folder}/src/**/*.rt", recursive=True)):
        words = os.path.relpath(path, f"{folder}/src").removesuffix(".rt").split("/")
        yield path, [] if words in (["lib"], ["main"]) else words


def types_in(folder):
    """The modules of each type of a crate, by the type's name: its methods have their proofs there, wherever they stand."""
    found = {}
    for path, module in files_of(folder):
        for name in TYPE.findall(read(path)):
            found.setdefault(name, []).append(module)
    return found


def functions_in(lines, module, types):
    """The functions of a file that can be stubs."""
    owner, is_of_trait, at = "", False, 0
    while at < len(lines):
        if IMPL.match(lines[at]) or TRAIT.match(lines[at]):
            owner = owner_of(lines[at], module, types)
            is_of_trait = " for " in without_parameters(lines[at])
        elif lines[at] == "}":
            owner = ""
        head = HEAD.match(lines[at])
        body = head and not head[2] and owner is not None and bool(head[1]) == bool(owner) and body_of(lines, at)
        if body:
            homes = types.get(owner) or [module]
            home = module if module in homes else homes[0]
            if body[1] > body[0] + 1 and not is_bound(lines, at):
                path = "::".join(x for x in (*home, owner, head[3]) if x)
                yield Function(path, at, *body, bool(owner) and is_of_trait)
            at = body[1]
            if lines[at] == "}":
                owner = ""
        at += 1


def stub_file(path, module, types, kept):
    """Empties the functions of a file, but those that are kept; gives the paths of all, and of each whether it is kept."""
    lines, found = read(path).split("\n"), {}
    for it in [*functions_in(lines, module, types)]:
        found[it.path] = any(f"::{it.path}".endswith(f"::{x}") for x in kept)
        if not found[it.path]:
            indent = lines[it.closes].removesuffix("}")
            lines[it.opens + 1 : it.closes] = [f"{indent}    loop {{}}"] + [""] * (it.closes - it.opens - 2)
    write(path, "\n".join(lines))
    return found


def leave_open(crate, parts, place):
    """Gives a stub a hole for its proof."""
    for file in (f"{place}/{x}.antt" for x in WRITTEN):
        if os.path.exists(file):
            os.remove(file)
    imports = f"use Rattle.{crate}.proofs.{'.'.join(parts)}.Statement.{{statement}}\n\n"
    write(f"{place}/Proof.antt", f"{imports}pub {parts[-1]}_spec : {{M : Type 1}} → statement M\n{parts[-1]}_spec = ?\n")


def stub(folder, kept):
    """Stubs the functions of a copy of a crate, but those that are named by the ends of their paths. Of these, one whose proof
    needs nothing written gets an empty file of answers: for one without a file the prover runs again, to print one."""
    types = types_in(folder)
    for path, module in files_of(folder):
        for name, is_kept in stub_file(path, module, types, kept).items():
            parts = name.split("::")
            place = f"{folder}/proofs/{'/'.join(parts)}"
            if not is_kept:
                leave_open(os.path.basename(folder), parts, place)
            elif not any(os.path.exists(f"{place}/{x}.antt") for x in WRITTEN):
                write(f"{place}/Answers.antt", "")
