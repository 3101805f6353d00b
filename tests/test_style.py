"""The form of sources: columns, the layout of code, shell scripts, and the words of comments and of
help. tests/test_documents.py looks at the pages."""
import glob
import io
import os
import re
import shutil
import subprocess
import tokenize
from concurrent.futures import ThreadPoolExecutor

import pytest

from program import TOP
from words_to_change import WORDS, WORDS_OF_SOURCES, found_in

# What people read beside the pages, and how wide its lines may be.
TEXTS = ("pciids", "test", ".ci/*", "bench/*", "tests/**/*", "tools/*")
WIDEST = 100
# Its statements of SQL are those of the program.
WIDE = ("bench/registry.c",)
SOURCES = ("crates/*/src/**/*.rt", "crates/*/specs/**/*.antt")
WIDEST_SOURCE = 120
# `rt fmt` keeps an attribute on one line.
ATTRIBUTE = "#["

# Help is a part of these.
HELP = ("crates/pid_cli_help/src/pages.rt",)


def files(*patterns):
    """The text files that match, by their paths from the top."""
    found = set()
    for pattern in patterns:
        for path in glob.glob(os.path.join(TOP, pattern), recursive=True):
            name = os.path.relpath(path, TOP)
            is_text = os.path.isfile(path) and not name.endswith((".md", ".png", ".pyc", ".svg"))
            if is_text and "__pycache__" not in name:
                found.add(name)
    return sorted(found)


def text_of(name):
    with open(os.path.join(TOP, name), encoding="utf-8") as file:
        return file.read()


def wide_lines(names, widest, but=None):
    """The lines that are too wide, but those that begin so."""
    return [f"{name}:{number}" for name in names
            for number, line in enumerate(text_of(name).splitlines(), 1)
            if len(line) > widest and not (but and line.lstrip().startswith(but))]


def scripts():
    """The shell scripts, by their first lines or the ends of their names."""
    names = files(*TEXTS, "deploy/**/*", "debian/*")
    is_script = re.compile(r"#!.*\b(ba|da)?sh\b").match
    return [it for it in names if it.endswith(".bash") or is_script(text_of(it).partition("\n")[0])]


# How comments begin, by the end of a file's name; those of shell scripts begin with `#`.
MARKS = {".c": r"//|/\*|(?<=^)\s*\*", ".rs": "//", ".rt": "//", ".antt": "--"}


def comments_of_python(text):
    """The comments and the texts in three quotes, on their lines."""
    kept = [""] * (text.count("\n") + 1)
    for it in tokenize.generate_tokens(io.StringIO(text).readline):
        if it.type == tokenize.COMMENT or it.string.startswith('"""'):
            for at, line in enumerate(it.string.split("\n"), it.start[0] - 1):
                kept[at] += line + " "
    return "\n".join(kept)


def comments_of(name):
    """A file of which only comments are left, on their lines."""
    text = text_of(name)
    if name.endswith(".py") or text.startswith("#!/usr/bin/env python"):
        return comments_of_python(text)
    mark = MARKS.get(os.path.splitext(name)[1], "#")
    found = [re.search(rf"(?:^|\s)(?:{mark})\S*(\s.*)$", line) for line in text.splitlines()]
    return "\n".join(it[1] if it else "" for it in found)


def words_of(names, read, words=WORDS):
    return [f"{name}:{line}: {word!r}, say {better}" for name in names
            for line, word, better in found_in(read(name), words)]


def test_columns(cases):
    names = [it for it in files(*TEXTS) if it not in WIDE]
    cases.equal("lines that are too wide", wide_lines(names, WIDEST), [])


def test_columns_of_sources(cases):
    cases.equal("lines that are too wide", wide_lines(files(*SOURCES), WIDEST_SOURCE, ATTRIBUTE),
                [])


def test_words(cases):
    cases.equal("words of comments to change", words_of(files(*TEXTS), comments_of), [])
    cases.equal("words of help to change", words_of(HELP, text_of), [])
    found = words_of(files(*SOURCES), comments_of, WORDS_OF_SOURCES)
    cases.equal("words of comments in sources to change", found, [])


@pytest.mark.needs("shellcheck")
def test_shell_scripts(cases):
    names = scripts()
    cases.equal("there are some", len(names) > 10, True)
    words = ["shellcheck", "-x", *names]
    ran = subprocess.run(words, cwd=TOP, capture_output=True, text=True, timeout=120)
    cases.equal("shellcheck", (ran.stdout, ran.returncode), ("", 0))


def laid_out(crate):
    """Lays out a copy of a crate. Returns what `rt fmt` said, if it failed."""
    ran = subprocess.run(["rt", "fmt"], cwd=crate, capture_output=True, text=True, timeout=120)
    return ran.stdout + ran.stderr if ran.returncode else ""


@pytest.mark.needs("rt")
def test_layout(cases, folder):
    """`rt fmt` changes nothing. The gate refuses another layout too, but at its end."""
    names = files("crates/*/src/**/*", "crates/*/specs/**/*", "crates/*/proofs/**/*",
                  "crates.txt", "HANDLES")
    for name in names:
        os.makedirs(os.path.dirname(os.path.join(folder, name)), exist_ok=True)
        shutil.copyfile(os.path.join(TOP, name), os.path.join(folder, name))
    os.mkdir(os.path.join(folder, ".git"))
    with ThreadPoolExecutor(os.cpu_count()) as pool:
        said = list(pool.map(laid_out, glob.glob(os.path.join(folder, "crates", "*"))))
    cases.equal("rt fmt fails nowhere", [it for it in said if it], [])
    other = []
    for name in names:
        with open(os.path.join(folder, name), encoding="utf-8") as file:
            other += [name] if file.read() != text_of(name) else []
    cases.equal("files that rt fmt lays out otherwise", other, [])


def test_library_names(cases):
    """No item has the name of a library. The gate refuses it as well, at its end."""
    uses = "".join(it.partition(":")[2] for it in text_of("crates.txt").splitlines())
    item = re.compile(r"\b(?:mod|struct|enum|trait|type) (\w+)")
    found = [f"{name}: {it}" for name in files("crates/*/src/**/*.rt")
             for it in item.findall(text_of(name)) if it in {"core", "std", *uses.split()}]
    cases.equal("items with the name of a library", found, [])
