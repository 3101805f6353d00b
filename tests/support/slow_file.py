"""Small files as docs/FILE_FORMAT.md says: their names by paths, or their first fault."""
import re
from functools import lru_cache

CONTROL = re.compile("[\x00-\x08\x0a-\x1f\x7f]")
# What comes before the name of an entry, by its block and its depth.
FOUR, TWO = "([0-9a-fA-F]{4})", "([0-9a-fA-F]{2})"
SHAPES = {
    "PC": (FOUR, FOUR, f"{FOUR}[ \t]{FOUR}"),
    "PD": ("C " + TWO, TWO, TWO),
    "PS": (None, FOUR),
}


class FileFault(Exception):
    """The first fault of a file."""

    def __init__(self, line, kind):
        self.line, self.kind = line, kind


def is_name(text):
    return 1 <= len(text.encode()) <= 1_000 and text[0] not in " \t" and not CONTROL.search(text)


@lru_cache(None)
def names_of(file):
    """The names of a file by their paths."""
    names, block, above = {}, None, []
    lines = file.split(b"\n")
    for number, line in enumerate(lines if lines[-1] else lines[:-1], 1):
        def check(kind, is_kept):
            if not is_kept:
                raise FileFault(number, kind)

        try:
            line = line.removesuffix(b"\r").decode()
        except UnicodeDecodeError:
            check(1, False)
        depth, rest = len(line) - len(line.lstrip("\t")), line.lstrip(" \t")
        if rest == "" or rest[0] == "#":
            continue
        if depth == 0:
            other = "skipped" if re.match("[A-Z] ", line) else "PC"
            block, above = {"C ": "PD", "S ": "PS"}.get(line[:2], other), []
        if block == "skipped":
            continue
        check(2, depth < (2 if block == "PS" else 3))
        check(3, depth <= len(above))
        is_generic_block = block == "PS" and depth == 0
        shape = f"S {FOUR}[ \t]*()" if is_generic_block else SHAPES[block][depth] + "[ \t]+(.*)"
        found = re.fullmatch(shape, line[depth:], re.S)
        check(4, found)
        *digits, name = found.groups()
        it = "/".join([above[depth - 1] if depth else block, "".join(digits).lower()])
        if is_generic_block:
            check(8, it.replace("PS", "PC") in names)
        else:
            check(5, name)
            check(6, is_name(name))
            check(7, it not in names)
            names[it] = name
        above = [*above[:depth], it]
    return names


def parent(path):
    """The path above a path; above a vendor and a class there is none."""
    block, *digits = path.split("/")
    above = ["PC" if block == "PS" else block, *digits[:-1]]
    return "/".join(above) if len(digits) > 1 else None
