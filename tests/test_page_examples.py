"""The examples of three pages, read from the pages: the files of docs/FILE_FORMAT.md, the look-ups
of docs/LOOKUP.md and the script of docs/REGISTRY.md."""
import os
import re

import program
from program import TOP


def section_of(page, heading):
    """A section of a page, without its heading. In a block of code no line is a heading."""
    lines, is_code, is_in = [], False, False
    with open(os.path.join(TOP, "docs", page), encoding="utf-8") as file:
        for line in file:
            is_code ^= line.startswith("```")
            if line.startswith("#") and not is_code:
                is_in = line.lstrip("#").strip() == heading
            elif is_in:
                lines.append(line)
    return "".join(lines)


def rows_of(section):
    """The rows of the last table of a section, without its head."""
    rows = [[cell.strip() for cell in line[1:-1].split("|")]
            for line in re.findall(r"^\|.*\|$", section, re.M)]
    heads = [at for at, row in enumerate(rows) if row[0].startswith("---")]
    return rows[heads[-1] + 1:]


def blocks_of(section):
    return re.findall(r"^```\n(.*?)^```$", section, re.M | re.S)


def bytes_of(text):
    """A text in which an arrow stands for a tab."""
    return text.replace("→", "\t").encode()


def text_of(cell):
    """The lines that a cell lists."""
    lines = re.findall(r"`([^`]*)`|(an empty line)", cell)
    return "".join(line + "\n" for line, _ in lines)


def test_files(cases):
    section = section_of("FILE_FORMAT.md", "Examples")
    blocks = list(map(bytes_of, blocks_of(section)))
    cases.equal("docs/FILE_FORMAT.md: a text and its canonical form, twice", len(blocks), 4)
    for text, printed in zip(blocks[::2], blocks[1::2]):
        cases.printed(f"docs/FILE_FORMAT.md: {text!r}", text, printed)
    rows = rows_of(section)
    cases.equal("docs/FILE_FORMAT.md: texts with their answers", len(rows) > 8, True)
    for cell, answer in rows:
        ran = program.run(bytes_of(text_of(cell)), "check")
        cases.equal(f"docs/FILE_FORMAT.md: {cell}", ran.out.decode(), answer.strip("`") + "\n")


def words_of(flags, arguments):
    """The words of a look-up, by its row."""
    number, _, size = flags.partition(", size ")
    words = ["--flags", number, *(("--size", size) if size else ())]
    for it in filter(None, arguments.split(", ")):
        name, value = it.split()
        words += ["--" + name, value]
    return words


def test_look_ups(cases, folder):
    section = section_of("LOOKUP.md", "Worked examples")
    path = os.path.join(folder, "pci.ids")
    with open(path, "w", encoding="utf-8") as file:
        file.write(blocks_of(section)[0])
    rows = rows_of(section)
    cases.equal("docs/LOOKUP.md: there are some", len(rows) > 15, True)
    for flags, arguments, answer in rows:
        ran = program.run(b"", "lookup", "--ids", path, *words_of(flags, arguments))
        shown = re.match(r"`([^`]*)`", answer)
        want = f"text {shown[1]}\n" if shown else "none\n"
        cases.equal(f"docs/LOOKUP.md: {flags}, {arguments}", ran.out.decode(), want)


def test_script(cases):
    block = blocks_of(section_of("REGISTRY.md", "Reply lines"))[0]
    lines = [re.split(r" {2,}", line) for line in block.splitlines()]
    cases.equal("docs/REGISTRY.md: lines with their replies", {len(it) for it in lines}, {2})
    script = "".join(f"{line}\n" for line, _ in lines)
    ran = program.run(script.encode(), "script")
    cases.equal("docs/REGISTRY.md", ran.out.decode().splitlines(), [it for _, it in lines])
