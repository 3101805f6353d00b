"""The functions of crates/*/src with the clauses of their contracts; and which definitions of
crates/*/specs are promised."""
import glob
import os
import re

import reading_list
from program import TOP

FUNCTION = re.compile(r"( *)((?:pub(?:\([^)]*\))? )?)(?:const )?(?:unsafe )?fn (\w+)")
CLAUSE = re.compile(r"(?:ensures|requires)\b")
# What begins an item that has functions. Those of traits and of their implementations are public.
OWNER = re.compile(r"(?:pub )?trait \w+|impl\b")
# A ghost member, which may go on over lines.
GHOST = re.compile(r"^ *ghost (?!use\b).*(?:\n(?! *(?:fn|pub|ghost|type|//|\})).*)*", re.M)


class Function:
    """A function: its crate, its path in there, its place, whether others may call it, and its
    clauses."""

    def __init__(self, path, at, match):
        self.crate = path.split(os.sep)[1]
        self.path = f"{self.crate}::{match[3]}"
        self.place = f"{path}:{at + 1}"
        self.is_public = match[2] == "pub "
        self.is_of_trait = False
        self.clauses = []

    def __str__(self):
        return f"{self.place}: {self.path} has {len(self.clauses)} clauses"


def clauses_at(lines, at):
    """The clauses of the function that begins at this line, each on one line."""
    found, depth = [], 0
    for line in lines[at:]:
        text = line.strip()
        if text.startswith("//"):
            continue
        if not depth and text.startswith("{"):
            break
        if not depth and CLAUSE.match(text):
            found.append(text)
        elif found and depth:
            found[-1] += " " + text
        depth += sum(text.count(it) for it in "({") - sum(text.count(it) for it in ")}")
        is_head = not found and text.endswith(("{", "{}"))
        if is_head or not depth and text.endswith(";"):
            break
    return found


def functions_of(path):
    with open(path, encoding="utf-8") as file:
        lines = file.read().splitlines()
    found, owner = [], ""
    for at, line in enumerate(lines):
        if OWNER.match(line):
            owner = line
        elif line == "}":
            owner = ""
        match = FUNCTION.match(line)
        if match:
            it = Function(os.path.relpath(path, TOP), at, match)
            it.is_of_trait = "trait " in owner or " for " in owner
            it.clauses = clauses_at(lines, at)
            found.append(it)
    return found


def sources():
    return sorted(glob.glob(os.path.join(TOP, "crates", "*", "src", "**", "*.rt"), recursive=True))


def functions():
    """All functions of the crates."""
    return [it for path in sources() for it in functions_of(path)]


def not_promised(specs):
    """The definitions, but those in Steps, that no contract of a public function and no ghost
    member cites, and no definition that these cite."""
    cited = set()
    for path in sources():
        with open(path, encoding="utf-8") as file:
            text = file.read()
        called = [it for it in functions_of(path) if it.is_public or it.is_of_trait]
        said = [clause for it in called for clause in it.clauses] + GHOST.findall(text)
        cited |= specs.cited("\n".join(said), reading_list.used_names(text))
    promised = specs.reached(cited)
    return [".".join(key).removeprefix("Rattle.") for key in specs.definitions
            if key not in promised and ".Steps." not in key[0] + "."]


def in_two_crates(specs):
    """The names that two crates define."""
    found = {}
    for module, name in specs.definitions:
        found.setdefault(name, set()).add(module.split(".")[1])
    return sorted(name for name, crates in found.items() if len(crates) > 1)
