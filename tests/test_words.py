"""The arguments of the program, its exit statuses, and files that fail."""
import os
import subprocess

import pytest

import program
from program import HEADER

TEXT = b"8086  I\n"
KINDS = (
    "NotUtf8",
    "TooDeep",
    "NoParent",
    "BadId",
    "NoName",
    "BadName",
    "Duplicate",
    "VendorMissing",
)


def test_tidy(cases, either):
    ran = program.run(TEXT, "tidy")
    cases.equal("tidy", (ran.out, ran.err, ran.status), (HEADER + TEXT, b"", 0))


def into_full(*words):
    """What the program reports if its standard output is full."""
    with open("/dev/full", "wb") as full:
        ran = subprocess.run(
            [program.PROGRAM, *words], input=TEXT, stdout=full, stderr=subprocess.PIPE, timeout=60
        )
    return ran.stderr, ran.returncode


def of_folder(*words):
    """What the program reports if its standard input is a folder, which cannot be read."""
    folder = os.open("/", os.O_RDONLY)
    try:
        ran = subprocess.run(
            [program.PROGRAM, *words],
            stdin=folder,
            stdout=subprocess.PIPE,
            stderr=subprocess.PIPE,
            timeout=60,
        )
    finally:
        os.close(folder)
    return ran.stdout, ran.stderr, ran.returncode


def first_line(text):
    """The first line of the output, what is reported and the status, if nothing more than that line
    is read."""
    program_run = subprocess.Popen(
        [program.PROGRAM], stdin=subprocess.PIPE, stdout=subprocess.PIPE, stderr=subprocess.PIPE
    )
    program_run.stdin.write(text)
    program_run.stdin.close()
    line = program_run.stdout.readline()
    program_run.stdout.close()
    told = program_run.stderr.read()
    program_run.stderr.close()
    return line, told, program_run.wait(timeout=60)


def test_asked_for(cases, either):
    """Help and the version: on standard output, with status 0."""
    for words in (
        ["--help"],
        ["-h"],
        ["help"],
        ["check", "--help"],
        ["tidy", "-h"],
        ["help", "check"],
    ):
        ran = program.run(TEXT, *words)
        cases.equal(f"{words}: status", (ran.err, ran.status), (b"", 0))
        shown = b"Usage: pciids" in ran.out and b"< FILE" in ran.out
        cases.equal(f"{words}: shows where the file comes from", shown, True)
    ran = program.run(TEXT, "--help")
    cases.equal("--help: names the commands", b"check" in ran.out and b"tidy" in ran.out, True)
    for words in (["check", "--help"], ["help", "check"]):
        lines = program.run(TEXT, *words).out.decode().splitlines()
        for number, kind in enumerate(KINDS, 1):
            told = [line for line in lines if line.split()[:2] == [str(number), kind]]
            cases.equal(f"{words}: a line on {kind}", len(told), 1)
    for word in ("--version", "-V"):
        ran = program.run(TEXT, word)
        cases.equal(word, (ran.out, ran.err, ran.status), (b"pciids 0.1.0\n", b"", 0))
    for words in (["--help"], ["help"], ["check", "-h"], ["--version"], ["-V"]):
        cases.equal(f"{words}: no room for it", into_full(*words), (b"file: failed\n", 3))
        cases.equal(f"{words}: nobody reads it", program.into_left(b"", *words), (b"", 3))


def test_wrong_arguments(cases):
    """Invalid arguments: reported on standard error with what to type instead, status 2."""
    for words in (
        ["chekc"],
        ["check", "x"],
        ["tidy", "check"],
        ["--db", "x"],
        [""],
        ["version"],
        ["check", "-V"],
    ):
        ran = program.run(TEXT, *words)
        cases.equal(f"{words}: nothing is done", (ran.out, ran.status), (b"", 2))
        cases.equal(f"{words}: the fault is reported", ran.err.startswith(b"error: "), True)
    for words, typed in (([], b"pciids"), (["check"], b"pciids check"), (["tidy"], b"pciids tidy")):
        ran = program.run(b"", *words, program.REAL_FILE)
        hint = b"To read a file, redirect standard input: " + typed + b" < FILE\n"
        cases.equal(f"{words} and a file: nothing is done", (ran.out, ran.status), (b"", 2))
        cases.equal(
            f"{words} and a file: the fault is reported", ran.err.startswith(b"error: "), True
        )
        cases.equal(f"{words} and a file: what to type", ran.err.endswith(b"\n" + hint), True)
    ran = program.run(TEXT, b"\xff")
    fault = b"error: an argument is not valid UTF-8\n"
    cases.equal("an argument that is not UTF-8", (ran.out, ran.err, ran.status), (b"", fault, 2))


def test_files_that_fail(cases, either):
    """A file that fails is reported in one line; a reader that has gone away only by the status."""
    for words in ([], ["tidy"], ["check"]):
        cases.equal(f"{words}: no room for the output", into_full(*words), (b"file: failed\n", 3))
        cases.equal(
            f"{words}: a folder as the input", of_folder(*words), (b"", b"file: failed\n", 3)
        )
        cases.equal(f"{words}: nobody reads the output", program.into_left(TEXT, *words), (b"", 3))
    cases.equal("check: nobody reads the fault", program.into_left(b"\t1237  X", "check"), (b"", 3))
    cases.equal(
        "tidy: a fault, and nobody reads the output",
        program.into_left(b"\t1237  X"),
        (b"line 1: 3 NoParent\n", 1),
    )
    many = b"".join(b"%04x  a name\n" % vendor for vendor in range(65_536))
    cases.equal("the first line alone is read", first_line(many), (HEADER, b"", 3))


REGISTRY_WORDS = (
    ["lookup", "--ids", "x", "--flags", "1"],
    ["script"],
    ["script", "--db", "x"],
    ["import", "--db", "x", "--account", "root", "y"],
    ["export", "--db", "x"],
    ["serve", "--db", "x", "--port", "80"],
)
# Arguments that are missing, given twice, unknown, or out of range.
WRONG_WORDS = (
    ["lookup"],
    ["lookup", "--ids", "x"],
    ["lookup", "--flags", "1"],
    ["lookup", "--ids", "x", "--flags", "1", "y"],
    ["lookup", "--ids", "x", "--flags", "1", "--flags", "2"],
    ["script", "x"],
    ["script", "--db"],
    ["import", "--db", "x", "y"],
    ["import", "--db", "x", "--account", "root"],
    ["import", "--account", "root", "y"],
    ["export"],
    ["export", "x"],
    ["serve", "--db", "x"],
    ["serve", "--port", "80"],
    ["serve", "--db", "x", "--port", "0"],
    ["serve", "--db", "x", "--port", "65536"],
    ["serve", "--db", "x", "--port", "http"],
    ["serve", "--db", "x", "--port", "80", "--connections", "0"],
    ["serve", "--db", "x", "--port", "80", "--connections", "1000001"],
)


def test_registry_help(cases, either):
    """Help for the commands that need a registry or a named file."""
    for words in REGISTRY_WORDS:
        ran = program.run(TEXT, words[0], "--help")
        cases.equal(f"{words[0]} --help", (ran.err, ran.status), (b"", 0))
        cases.equal(
            f"{words[0]} --help: an example",
            b"Example: pciids " + words[0].encode() in ran.out,
            True,
        )


def test_wrong_arguments_of_a_registry(cases):
    """Invalid arguments of these commands."""
    for words in WRONG_WORDS:
        ran = program.run(TEXT, *words)
        cases.equal(f"{words}: nothing is done", (ran.out, ran.status), (b"", 2))
        cases.equal(f"{words}: the fault is reported", ran.err.startswith(b"error: "), True)


@pytest.mark.first
def test_left_to_the_whole_program(cases):
    """The first program leaves what needs the whole one to it, and prints nothing."""
    if program.FIRST is None:
        raise program.Skip("there is no first program")
    for words in (
        *REGISTRY_WORDS,
        *WRONG_WORDS,
        ["--db", "x"],
        ["help", "help"],
        ["help", "nosuch"],
    ):
        left = ran_of(program.FIRST, words)
        cases.equal(f"{words}: left to the whole program", left, (b"", b"", 4))


COMMANDS = ("tidy", "check", "lookup", "script", "import", "export", "serve", "migrate")
# Both programs answer these alike, and suggest the same commands for an unknown one.
SHARED_WORDS = (
    *([it] for it in ("chekc", "imprt", "xport", "hepl", "serv", "loookup", "m")),
    [],
    ["tidy"],
    ["check"],
    ["--version"],
    ["-V"],
    ["--help"],
    ["-h"],
    ["help"],
    [""],
    ["version"],
    ["x.ids"],
    ["x.ids", "y"],
    ["tidy", "x"],
    ["check", "x.ids"],
    ["tidy", "check"],
    ["check", ""],
    [b"\xff"],
)


def test_both_programs_alike(cases):
    """What both programs print on every page of help, and on the mistakes that the first one
    reports."""
    if program.FIRST is None:
        raise program.Skip("there is no first program")
    whole, first = program.WHOLE, program.FIRST
    pages = [words for it in COMMANDS for words in ([it, "--help"], [it, "-h"], ["help", it])]
    for words in (*SHARED_WORDS, *pages):
        wanted, ran = (ran_of(it, words) for it in (whole, first))
        cases.equal(f"{words}: as the whole program", ran, wanted)


def ran_of(it, words):
    done = subprocess.run([it, *words], input=TEXT, capture_output=True, timeout=60)
    return done.stdout, done.stderr, done.returncode
