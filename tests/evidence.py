#!/usr/bin/env python3
"""What is proved of a crate, and which wrong bodies it has.

`tests/evidence.py [CRATE..]` prints, for each file of a crate (of all, without one), the public
functions and the members of traits with the names of their clauses and the definitions that these
cite, each record with its fields; then the wrong bodies, by the function that each one turns.
"""
import os
import re
import signal
import sys
import textwrap

from edit_list import by_function
from reading_list import (
    CRATES, WHOLE, Sources, Specs, clauses_of, crates, fields_of, used_names,
)


def wrapped(head, text):
    return textwrap.fill(text, 98, initial_indent=head, subsequent_indent=" " * len(head), **WHOLE)


def owner_of(line):
    """The type or the trait whose functions follow a line, and whether all of them are public."""
    found = re.match(r"(pub trait|impl)\b(.*)$", line)
    if not found:
        return None
    name = re.sub(r"\s+", " ", re.sub(r"<[^<>]*(?:<[^<>]*>[^<>]*)*>", "", found[2]))
    name = re.sub(r"(\S+) for (\S+)", r"\2 as \1", name.partition("{")[0].strip())
    return name.partition(":")[0] + "::", found[1] != "impl" or " as " in name


def public_functions(lines):
    """Each public function of a file, and each one of a trait, with its contract."""
    owner, are_public = "", False
    for at, line in enumerate(lines):
        owner, are_public = owner_of(line) or (owner, are_public)
        if line == "}":
            owner, are_public = "", False
        found = re.match(r"\s*(pub )?fn (\w+)", line)
        if found and (found[1] or are_public):
            yield owner + found[2], Sources.block(lines, at)


def cited_by(specs, lines, contract):
    """The definitions that the clauses of a contract cite, with the fields of the records."""
    _, _, clauses = contract.partition("ensures")
    for module, name in sorted(specs.cited(clauses, used_names("\n".join(lines)))):
        fields = fields_of(specs.definitions[module, name])
        yield name + (f" ({', '.join(fields)})" if fields else "")


def part_of(specs, sources, crate):
    """What is printed of a crate, in lines."""
    yield crate
    for path, lines in sources.files:
        if os.path.relpath(path, CRATES).split(os.sep)[0] != crate:
            continue
        said = [(name, contract) for name, contract in public_functions(lines)
                if "ensures" in contract]
        if said:
            yield "\n  " + os.path.relpath(path, os.path.join(CRATES, crate))
        for name, contract in said:
            yield "    " + name
            for title, words in (("clauses", clauses_of(contract)),
                                 ("cites", cited_by(specs, lines, contract))):
                text = ", ".join(words)
                if text:
                    yield wrapped(f"      {title}: ", text)
    for title, folder in (("wrong bodies", "must-fail"), ("on demand", "edits-on-demand")):
        found = by_function(crate, folder)
        if found:
            yield f"\n  {title}"
        for function, edits in found.items():
            yield wrapped(f"    {function}: ", ", ".join(edits))


def main(names):
    known = crates()
    for name in names:
        if name not in known:
            print(f"evidence.py: there is no crate {name}", file=sys.stderr)
            return 2
    specs, sources = Specs(), Sources()
    parts = ["\n".join(part_of(specs, sources, it)) for it in names or known]
    print("\n\n".join(parts))
    return 0


if __name__ == "__main__":
    signal.signal(signal.SIGPIPE, signal.SIG_DFL)
    sys.exit(main(sys.argv[1:]))
