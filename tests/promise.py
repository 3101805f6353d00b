#!/usr/bin/env python3
"""What to read to know what a promise of docs/PROMISES.md says.

`tests/promise.py NUMBER` prints it in one piece, in the order of reading: the contracts of the
promise's calls; the definitions that these reach, each file before those that it cites; the types
of the sources that the definitions name; and the names that they have from the toolchain, with the
file of each. `tests/promise.py 7 --first | less` is the first reading of the headline, which leaves
shut what clauses hand on to each other and what other promises speak of; `7 --then` is the second,
of what promises 2 and 5 speak of, without the types that the first one has. The first line says how
much there is to read.
"""
import os
import re
import signal
import sys

from reading_list import (
    CRATES, HANDED_ON, OF_OTHERS, PROMISES, TOP, Sources, Specs, cited_first, lines_of, order)

NAMES = r"\b(\w+)\.([^\s(){}\[\].,;:]+)"
# A variant whose fields have a line each.
VARIANT = re.compile(r"^    \w+ \{\n(?:        \w+: .*,\n)+    \},$", re.M)


def path_of(module):
    """The file of a module of specs."""
    _, crate, _, *inner = module.split(".")
    return os.path.join(CRATES, crate, "specs", *inner) + ".antt"


def contracts(sources, calls):
    """The signature and the clauses of each call."""
    for call in calls:
        lines, contract = sources.contract(call)
        at = next(i for i, line in enumerate(lines)
                  if re.match(rf"\s*(?:pub )?fn {call.rpartition('::')[2]}\b", line))
        yield f"{sources.places[call]}:{at + 1}\n" + re.sub(r"\n\s*\{(\})?$", "", contract)


def definitions(specs, keys, first, shown):
    """Those that are shown, file by file, with the lines that give several of them more
    arguments."""
    for module in order(specs, keys, first):
        found = [specs.definitions[it] for it in shown if it[0] == module]
        if not found:
            continue
        path, scope = path_of(module), None
        yield os.path.relpath(path, TOP)
        for it in sorted(found, key=lambda it: it.first):
            if it.scope not in (None, scope):
                scope = it.scope
                yield scope_at(lines_of(path), scope)
            yield "\n".join(it.lines)


def scope_at(lines, at):
    end = next(i for i in range(at, len(lines)) if lines[i].rstrip().endswith("where"))
    return "\n".join(lines[at:end + 1])


def others(specs, keys):
    """The names that the definitions have from elsewhere, each with its module."""
    for key in keys:
        names, modules = specs.uses[key[0]]
        code = specs.definitions[key].code
        words = set(re.findall(r"[^\s(){}\[\].,;]+", code))
        found = {names[it] for it in words if it in names and it not in specs.local[key[0]]}
        found |= {(modules[module], name) for module, name in re.findall(NAMES, code)
                  if module in modules}
        yield from (it for it in found if specs.key(*it) is None)


def of_sources(named):
    """Those of the names that are types of the sources of this repository."""
    return {it for it in named if ".specs.declared." in it[0]
            and os.path.isdir(os.path.join(CRATES, it[0].split(".")[1]))}


def in_one_line(variant):
    """A variant in one line, if that is not too long."""
    text = re.sub(r",\n    \}", " }", re.sub(r"\n {8}", " ", variant[0]))
    return text if len(text) <= 100 else variant[0]


def types(named):
    """The types of the sources among the names, with their places."""
    for module, name in sorted(named):
        _, crate, _, _, *inner = module.split(".")
        if inner[-1] == "TheConstants":
            inner[-1] = name
        inner = [it for it in inner if it != "TheVariants"]
        path = os.path.join(CRATES, crate, "src", *inner[:-1]) + ".rt"
        lines = lines_of(path)
        at = next(i for i, line in enumerate(lines) if re.match(
            rf"pub(\(crate\))? (struct|enum|trait|const) {inner[-1]}\b", line))
        ends = re.compile(r"}" if lines[at].startswith("pub trait") else r"}|.*;")
        end = next(i for i in range(at, len(lines)) if ends.fullmatch(lines[i]))
        text = VARIANT.sub(in_one_line, "\n".join(lines[at:end + 1]))
        yield f"{os.path.relpath(path, TOP)}:{at + 1}\n{text}"


def reading(number, shut=frozenset(), later=frozenset()):
    """All that is to be read for a promise, in parts, if some definitions stay shut; or only what
    some others lead to."""
    specs, sources = Specs(), Sources()
    calls = PROMISES[number - 1][1]
    first = [it for it in cited_first(specs, sources, calls) if it[1] not in shut]
    keys, read = specs.reached(first, shut), set()
    if later:
        read = specs.reached([it for it in first if it[1] not in later], shut | later)
    shown = keys - read
    named = set(others(specs, shown))
    declared = of_sources(named)
    kit = {}
    for module, name in named - declared:
        _, crate, *inner = module.split(".")
        kit.setdefault("/".join([crate, *inner]), []).append(name)
    yield from () if later else contracts(sources, calls)
    yield from definitions(specs, keys, first, shown)
    seen = set(types(of_sources(others(specs, read))))
    yield from (it for it in dict.fromkeys(types(declared)) if it not in seen)
    yield ("From the toolchain, below the folder `rattle` next to the page that `rt doc` prints;\n"
           "if a file is not there, `specs/Lib.antt` of its crate says where it is. A name below\n"
           "`declared` is a type: `grep -rnwE '(struct|enum|trait) NAME' */src` finds it.")
    yield "\n".join(f"{it}: {', '.join(sorted(kit[it]))}" for it in sorted(kit))
    size = sum(specs.definitions[key].size for key in shown)
    yield f"{len(shown)} definitions, {size:,} lines"


def show(parts, without=frozenset()):
    """Prints the parts, below a line that says how much there is to read, and what stays shut."""
    *parts, size = parts
    text = "\n\n".join(parts)
    count = sum(bool(line.strip()) for line in text.split("\n"))
    left = "; without " + ", ".join(sorted(without)) if without else ""
    print(f"{size}{left}.\nWith calls, types and the names of files {count:,} lines, which are "
          f"not empty.\n\n{text}")


def main(words):
    if words == ["7", "--first"]:
        show(reading(7, HANDED_ON | OF_OTHERS), HANDED_ON | OF_OTHERS)
        return 0
    if words == ["7", "--then"]:
        show(reading(7, HANDED_ON, OF_OTHERS))
        return 0
    if len(words) != 1 or words[0] not in map(str, range(1, len(PROMISES) + 1)):
        print(f"usage: promise.py NUMBER, from 1 to {len(PROMISES)}; or 7 --first, 7 --then",
              file=sys.stderr)
        return 2
    show(reading(int(words[0])))
    return 0


if __name__ == "__main__":
    signal.signal(signal.SIGPIPE, signal.SIG_DFL)
    sys.exit(main(sys.argv[1:]))
