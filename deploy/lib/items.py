"""The entries of a canonical text, and names as text of a page."""
import html
import re
import sys
import unicodedata

# A line of a canonical text. Only LF ends one: a name may have what Unicode calls a line separator.
LINE = re.compile(r"(\t*)(C |S )?([0-9a-f]{2}|[0-9a-f]{4}(?: [0-9a-f]{4})?)(?:  ([^\n]+))?")

# Written as nothing, though they are letters to Unicode.
BLANK_LETTERS = "\u115f\u1160\u3164\uffa0\u2800"

# Latin letters that nobody takes for others, as site/safe_text.js has them.
USUAL = re.compile("[a-zA-Z\u00aa\u00b5\u00ba\u00c0-\u0130\u0132-\u024f\u1e00-\u1eff]")

# Strokes and points that look like those of ASCII, and the wide forms of ASCII.
LOOKALIKE = re.compile(
    "[\u2010-\u2012\u2015\u2024\u2044\u2212\u2215\u2236\ua789\uff01-\uff5e]"
)

# A character; or the marks above and below a letter, from the third on, as many as there are.
MARK = "[\u0300-\u036f\u1ab0-\u1aff\u1dc0-\u1dff\u20d0-\u20ff\ufe20-\ufe2f]"
CELL = re.compile(f"(?<={MARK}{MARK})({MARK}+)|.", re.S)


class Item:
    """An entry of the file: its path, its number and name, its line, and the entries below it."""

    def __init__(self, path, number, name, line):
        self.path, self.number, self.name, self.line = path, number, name, line
        self.below = []

    def has_page(self):
        return bool(self.below) or self.path.count("/") == 1


def read_items(text):
    """All entries of a canonical text by path, in its order."""
    items, above = {}, ["", "", ""]
    for line in text.split("\n"):
        if not line or line.startswith("#"):
            continue
        found = LINE.fullmatch(line)
        if not found:
            sys.exit(f"publish: no line of a canonical text: {line!r}")
        depth, front, number, name = len(found[1]), found[2], found[3], found[4]
        if front == "S ":
            above[0] = "PS/" + number
            continue
        if depth == 0:
            path = ("PD/" if front else "PC/") + number
        else:
            path = above[depth - 1] + "/" + number.replace(" ", "")
        above[depth : depth + 1] = [path]
        items[path] = Item(path, number, name, line)
        parent = above[depth - 1].replace("PS/", "PC/") if depth else ""
        if parent:
            items[parent].below.append(items[path])
    return items


def names_of(text):
    """The names of a canonical text by their paths."""
    return {path: it.name for path, it in read_items(text).items()}


def number_of(path):
    """The number of an item as people write it: 8086:1237."""
    numbers = path.split("/")[1:]
    if len(numbers) == 3 and path.startswith("PC/"):
        return f"{numbers[0]}:{numbers[1]} {numbers[2][:4]}:{numbers[2][4:]}"
    return ("" if path.startswith("PD/") else ":").join(numbers)


def shown_cell(found):
    """A character as text of a page. What has no shape, or turns the direction, is spelt by its
    code; what passes for another letter has its code after it."""
    if found[1]:
        return f"[+{len(found[1])} mark{'s' * (len(found[1]) > 1)}]"
    it = found[0]
    kind, code = unicodedata.category(it), f"[U+{ord(it):04X}]"
    hides = kind in ("Cc", "Cf", "Cn", "Co", "Zl", "Zp") or (kind == "Zs" and it != " ")
    if hides or it in BLANK_LETTERS:
        return code
    deceives = kind[0] in "LM" and not USUAL.match(it) or LOOKALIKE.match(it)
    return html.escape(it) + (code if deceives else "")


def shown(text):
    """A name as text of a page."""
    if text.isascii() and text.isprintable():
        return html.escape(text)
    return CELL.sub(shown_cell, text)
