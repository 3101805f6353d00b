"""The manual page has each command and each option of the help. All places that name the version
agree."""
import os
import re
import subprocess

import pytest

from program import TOP, run as run_program

PAGE = os.path.join(TOP, "docs", "pciids.1")
# These need no description.
HELP = {"help", "--help", "--version"}


def words_of(told):
    """The commands that a help lists under 'Commands:'."""
    listed = told.partition("\nCommands:\n")[2].partition("\n\n")[0]
    return [line.split()[0] for line in listed.splitlines()]


def text_of(*path):
    """A file of the source; empty if it does not exist."""
    file = os.path.join(TOP, *path)
    if not os.path.exists(file):
        return ""
    with open(file, encoding="utf-8") as opened:
        return opened.read()


def test_versions(cases):
    """The program, the manual page, the newest entry of the changelog and the README name the same
    version."""
    version = run_program(b"", "--version").out.decode().removeprefix("pciids ").strip()
    cases.equal(
        "--version: three numbers",
        re.fullmatch(r"\d+\.\d+\.\d+", version) is not None or version,
        True,
    )
    found = re.findall(r'^\.Os "pciids (.*)"$', text_of("docs", "pciids.1"), re.M)
    cases.equal("the version of the manual page", found, [version])
    heads = re.findall(r"^## \[(\d[^]]*)\] - \d{4}-\d{2}-\d{2}$", text_of("CHANGELOG.md"), re.M)
    cases.equal("the newest version of the changelog", heads[:1], [version])
    named = re.findall(r"\bpciids v?(\d+\.\d+(?:\.\d+)?)\b", text_of("README.md"))
    cases.equal("the versions that the README names", set(named) - {version}, set())


@pytest.mark.needs("man-db")
def test_manual(cases):
    environment = dict(
        os.environ, LC_ALL="C", MANWIDTH="100", MAN_KEEP_FORMATTING="", MANPAGER="cat"
    )
    ran = subprocess.run(
        ["man", "-l", "--warnings", PAGE],
        stdout=subprocess.PIPE,
        stderr=subprocess.PIPE,
        env=environment,
        timeout=60,
    )
    cases.equal(
        "the manual page: laid out without a warning", (ran.stderr, ran.returncode), (b"", 0)
    )
    page = ran.stdout.decode()
    # The table of the help, whose columns are two in its first half.
    told = run_program(b"", "lookup", "--help").out.decode().partition("What to look up:\n")[2]
    told = told.partition("Numbers that")[0]
    flags = dict(re.findall(r"\b([0-9ab]+)  +(.+?)(?=  |$)", told, re.M))
    cases.equal("the manual page: the help lists flags", len(flags), 11)
    table = page.partition("What to look up:")[2].partition("with the numbers in brackets")
    shown = dict(re.findall(r"^ +([0-9ab]+) +(\S.*)$", table[0] + table[1], re.M))
    cases.equal("the manual page: the flags", {it: shown.get(it) for it in flags}, flags)
    words = words_of(run_program(b"", "--help").out.decode())
    cases.equal("the manual page: the help lists commands", len(words) > 5, True)
    for word in set(words) - HELP:
        usage = [line for line in page.splitlines() if re.match(rf" +pciids \[?{word}\b", line)]
        cases.equal(f"the manual page: how {word} is used", len(usage) >= 1, True)
        cases.equal(
            f"the manual page: what {word} does",
            re.search(rf"^ +{word}( |$)", page, re.M) is not None,
            True,
        )
        section = page.partition("SYNOPSIS")[2].partition("DESCRIPTION")[0]
        asked = re.search(rf"pciids \[?{word}\b.*?(?=\n +pciids|\Z)", section, re.S)
        for option in sorted(
            set(
                re.findall(
                    r"--[a-z]+",
                    run_program(b"", word, "--help")
                    .out.decode()
                    .partition("Options:")[2]
                    .partition("Example:")[0],
                )
            )
            - HELP
        ):
            cases.equal(
                f"the manual page: {word} {option}",
                asked is not None and re.search(rf"{option}\b", asked.group()) is not None,
                True,
            )
