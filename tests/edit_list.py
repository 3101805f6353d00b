"""The wrong bodies (edits) of each crate: the function that each one turns, and the promise that
it would break.

`tests/edit_list.py` writes their counts between the marks of docs/PROOFS.md; run it after an edit
was added or went. A test compares them.
"""
import os
import re
import textwrap
from collections import Counter

TOP = os.path.dirname(os.path.dirname(os.path.abspath(__file__)))

PAGE = os.path.join(TOP, "docs", "PROOFS.md")
FOLDERS = ("must-fail", "edits-on-demand")
BEGINS, ENDS = "<!-- edits: begins -->\n", "<!-- edits: ends -->\n"


def read(path):
    with open(path, encoding="utf-8") as file:
        return file.read()


def crates():
    return re.findall(r"^(pid_\w+):", read(os.path.join(TOP, "crates.txt")), re.M)


def edits(crate, folder):
    """The paths of the edits of a crate in `must-fail` or `edits-on-demand`."""
    at = os.path.join(TOP, "crates", crate, folder)
    names = sorted(os.listdir(at)) if os.path.isdir(at) else []
    return [os.path.join(at, it) for it in names if it.endswith(".edit")]


def turned(crate, path):
    """The function that has the last line which the edit replaces, or that begins after it; the
    file if that has none."""
    text = read(path)
    file = re.findall(r"^file: (.+)$", text, re.M)[-1]
    old = re.findall(r"^old: (.*)$", text, re.M)[-1]
    source = read(os.path.join(TOP, "crates", crate, file))
    start = source.find(old.strip())
    assert start >= 0, path
    before = re.findall(r"\bfn (\w+)", source[:start + len(old)])
    after = re.findall(r"\bfn (\w+)", source[start:])
    return (before[-1:] + after[:1] + [os.path.basename(file)])[0]


def applied(crate, *paths):
    """The sources that edits change, one after the other, by their files, as the prover tries them.
    Raises ValueError unless each text that they replace stands there once."""
    found = {}
    for path in paths:
        file = old = ""
        for kind, text in re.findall(r"^(file|old|new): ?(.*)$", read(path), re.M):
            if kind == "file":
                file = text.strip()
                found.setdefault(file, read(os.path.join(TOP, "crates", crate, file)))
            elif kind == "old":
                old = text
            elif not old or found[file].count(old) != 1:
                raise ValueError(f"{os.path.basename(path)}: {found[file].count(old)} times: {old}")
            else:
                found[file], old = found[file].replace(old, text), ""
    return found


def faults(crate):
    """What is wrong with the edits of a crate."""
    for folder in FOLDERS:
        for path in edits(crate, folder):
            try:
                applied(crate, path)
            except ValueError as fault:
                yield f"{crate}: {fault}"


def promise(path):
    """The number of the promise in docs/PROMISES.md that an edit names in its first line."""
    found = re.match(r"# promise (\d+)\n", read(path))
    return found and found[1]


def by_function(crate, folder):
    """The edits of the gate, or those on demand, by the functions that they turn."""
    found = {}
    for path in edits(crate, folder):
        name, breaks = os.path.basename(path)[:-len(".edit")], promise(path)
        shown = f"{name} (promise {breaks})" if breaks else name
        found.setdefault(turned(crate, path), []).append(shown)
    return found


def page_part():
    """The part of docs/PROOFS.md between its marks."""
    counts = {crate: [len(edits(crate, it)) for it in FOLDERS] for crate in crates()}
    gate, others = map(sum, zip(*counts.values()))
    shown = ", ".join(f"`{crate}` {it[0]} and {it[1]}" for crate, it in counts.items() if any(it))
    named = Counter(promise(it) for crate in crates() for it in edits(crate, FOLDERS[1]))
    by_promise = ", ".join(f"{named[it]} promise {it}" for it in sorted(named, key=int))
    text = (f"The gate tries {gate} edits, and {others} are tried on demand: {shown}. "
            f"Each of those on demand names in its first line the promise that it would break: "
            f"{by_promise}.")
    return "\n" + textwrap.fill(text, 100, break_on_hyphens=False) + "\n\n"


def shown_part():
    return read(PAGE).partition(BEGINS)[2].partition(ENDS)[0]


def write():
    before, _, rest = read(PAGE).partition(BEGINS)
    text = before + BEGINS + page_part() + ENDS + rest.partition(ENDS)[2]
    with open(PAGE, "w", encoding="utf-8") as page:
        page.write(text)


if __name__ == "__main__":
    write()
