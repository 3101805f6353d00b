"""What a person at a terminal reads below a fault line: what is in the way, and what to do. Each
mistake is made at a pseudo-terminal, and then without one, where the fault line stays alone."""
import gzip
import os
import shutil
import socket
import sqlite3
import subprocess

import pytest

import program
from http_server import free_port
from program import HEADER
from terminals import at_terminal

TEXT = b"8086  Intel\n\t1237  440FX\n"
SAID = b"pciids: "


def without(words, text=b"", **how):
    """What the program prints, what it reports and its status, without a terminal."""
    ran = subprocess.run(words, input=text, capture_output=True, timeout=60, **how)
    return ran.stdout, ran.stderr, ran.returncode


def tells(cases, name, words, wanted, *said, text=b"", **how):
    """The program reports what is wanted without a terminal; at one, these lines follow it."""
    words = [program.PROGRAM, *words]
    cases.equal(f"{name}: without a terminal", without(words, text, **how), wanted)
    out, err, status = wanted
    below = b"".join(SAID + line.encode() + b"\n" for line in said)
    cases.equal(name, at_terminal(words, text, **how), (out, err + below, status))


# What a file begins with, the fault of its first line, and what is said of it.
LOOKS = (
    (gzip.compress(TEXT), "1 NotUtf8", "is compressed by gzip: decompress it first, as zcat does"),
    (TEXT.decode().encode("utf-16"), "1 NotUtf8", "looks like UTF-16: save it as UTF-8"),
    (TEXT.decode().encode("utf-16-le"), "4 BadId", "looks like UTF-16: save it as UTF-8"),
    (
        b"\xef\xbb\xbf" + TEXT,
        "4 BadId",
        "begins with a byte order mark: save it as UTF-8 without one",
    ),
    (b"<!DOCTYPE html>\n", "4 BadId", "looks like a page of the web: save the file itself"),
)


def test_looks(cases, either):
    """A file that is no text of pci.ids, on standard input."""
    for text, fault, looks in LOOKS:
        line = f"line 1: {fault}\n".encode()
        said = f"standard input {looks}"
        tells(cases, f"tidy: {text[:4]}", [], (b"", line, 1), said, text=text)
        tells(cases, f"check: {text[:4]}", ["check"], (line, b"", 1), said, text=text)
    tells(cases, "another fault", [], (b"", b"line 1: 3 NoParent\n", 1), text=b"\tx\n")
    tells(cases, "no fault", [], (HEADER + TEXT, b"", 0), text=TEXT)


def test_streams(cases, either):
    """A standard stream that fails, and one that is a terminal."""
    failed = b"file: failed\n"
    for words in ([], ["check"]):
        folder = os.open("/", os.O_RDONLY)
        cases.equal(
            f"{words}: a folder as the input",
            at_terminal([program.PROGRAM, *words], folder),
            (b"", failed + b"pciids: cannot read standard input: it is a folder\n", 3),
        )
        os.close(folder)
        with open("/dev/full", "wb") as full:
            cases.equal(
                f"{words}: no room for the output",
                at_terminal([program.PROGRAM, *words], TEXT, output=full),
                (None, failed + b"pciids: cannot write standard output: no space is left\n", 3),
            )
        out, shown, status = at_terminal([program.PROGRAM, *words], typed=TEXT)
        reading = b"pciids: reading a pci.ids file from the terminal; end it with Ctrl-D"
        cases.equal(
            f"{words}: typed", (shown.startswith(reading), bool(out), status), (True, True, 0)
        )

NOT_THERE = "there is no such file or folder"
FAILED = (b"", b"file: failed\n", 3)
STORE = (b"", b"open: Store\n", 3)
BAD = (b"refused 3 BadText\n", b"", 1)
# A user who may less than root does.
NOBODY = {"user": 65_534, "group": 65_534, "extra_groups": []} if os.geteuid() == 0 else {}


def made(path):
    """What is said of a registry that was made."""
    return f"{path} was not there: a new, empty registry was made"


def new_registry(folder):
    """The path of a new registry."""
    path = os.path.join(folder, "registry.db")
    subprocess.run([program.WHOLE, "migrate", "--db", path], check=True, capture_output=True)
    return path


def test_unread_files(cases, folder):
    """A pci.ids file that cannot be opened or read, and output that finds no room."""
    none, ids = os.path.join(folder, "none"), os.path.join(folder, "ids")
    with open(ids, "wb") as file:
        file.write(TEXT)
    db = new_registry(folder)
    bring_in = ["import", "--db", db, "--account", "root"]
    for words in (["lookup", "--flags", "1", "--ids"], bring_in):
        for path, said in (
            (none, f"cannot open {none}: {NOT_THERE}"),
            (f"{ids}/x", f"cannot open {ids}/x: a part of the path is no folder"),
            (folder, f"cannot read {folder}: it is a folder"),
        ):
            tells(cases, f"{words[0]} {path}", [*words, path], FAILED, said)
    at, said = "/dev/full", b"pciids: cannot write standard output: no space is left\n"
    for words in (
        ["lookup", "--flags", "1", "--vendor", "8086", "--ids", ids],
        ["import", "--db", db, "--account", "root", ids],
        ["export", "--db", db],
        ["migrate", "--db", db],
        ["script", "--db", db],
        ["serve", "--db", db, "--port", str(free_port())],
    ):
        with open(at, "wb") as full:
            got = at_terminal([program.PROGRAM, *words], b"read path=PC/8086\n", output=full)
        cases.equal(f"{words[0]}: no room", got, (None, b"file: failed\n" + said, 3))
    here = os.open(folder, os.O_RDONLY)
    got = at_terminal([program.PROGRAM, "script", "--db", db], here)
    os.close(here)
    said = b"pciids: cannot read standard input: it is a folder\n"
    cases.equal("script: a folder as the input", got, (b"", b"file: failed\n" + said, 3))


def test_unopened_registries(cases, folder):
    """A registry that cannot be opened, and one that is damaged."""
    text, db = os.path.join(folder, "text"), new_registry(folder)
    with open(text, "wb") as file:
        file.write(TEXT * 100)
    there = os.path.join(folder, "none", "x.db")
    two, journal = os.path.join(folder, "two.db"), os.path.join(folder, "journal.db")
    for path in (two, journal):
        shutil.copy(db, path)
    os.link(two, os.path.join(folder, "other-name"))
    with open(f"{journal}-journal", "wb") as file:
        file.write(b"x")
    for path, reason in (
        (there, "there is no such folder"),
        (folder, "it is a folder"),
        (f"{text}/x", "a part of the path is no folder"),
        (text, "it is no SQLite database"),
        (two, "it or its -wal is a link or a device, or has a second name"),
        (journal, "it has a rollback journal: open it with sqlite3 first"),
    ):
        for words in (["export"], ["script"], ["migrate"], ["serve", "--port", "1"]):
            said = f"cannot open {path}: {reason}"
            tells(cases, f"{words[0]} {path}", [*words, "--db", path], STORE, said)
    with sqlite3.connect(db) as rows:
        rows.execute("DELETE FROM meta WHERE label = 'items'")
    rows.close()
    damaged = (b"", b"open: Damaged\n", 3)
    said = f"{db} is damaged: see 'When something fails' in OPERATE.md"
    tells(cases, "damaged", ["export", "--db", db], damaged, said)


def test_registry_in_use(cases, folder):
    """A registry that another program has open, and one that the user may not write."""
    db = new_registry(folder)
    words = [program.WHOLE, "script", "--db", db]
    with subprocess.Popen(words, stdin=subprocess.PIPE, stdout=subprocess.PIPE) as holder:
        holder.stdin.write(b"read path=PC/8086\n")
        holder.stdin.flush()
        cases.equal("the other program", holder.stdout.readline(), b"refused 25 NoItem\n")
        said = f"cannot open {db}: another program has it open; fuser -v FILE shows which"
        tells(cases, "in use", ["export", "--db", db], STORE, said)
        holder.stdin.close()
    os.chmod(folder, 0o555)
    os.chmod(db, 0o444)
    for path in (db, os.path.join(folder, "new.db")):
        said = f"cannot open {path}: permission denied"
        tells(cases, f"not allowed: {path}", ["export", "--db", path], STORE, said, **NOBODY)
    os.chmod(folder, 0o755)


def journaled(folder, name, commands):
    """A registry that was given so many commands without a journal, and the journal that begins
    there."""
    db, journal = os.path.join(folder, f"{name}.db"), os.path.join(folder, name)
    lines = "".join(f"account root who={name}{at}&rank=0\n" for at in range(commands))
    without([program.WHOLE, "script", "--db", db], lines.encode())
    without([program.WHOLE, "script", "--db", db, "--journal", journal])
    return db, journal


def test_journals(cases, folder):
    """A journal that does not fit, that cannot be had, or that another program has."""
    (one, first), (other, later) = (journaled(folder, *it) for it in (("a", 0), ("b", 2)))
    lines = b"submit root path=PC/8086&name=Intel\n" * 3
    without([program.WHOLE, "script", "--db", one, "--journal", first], lines)
    file = os.path.join(folder, "file")
    shutil.copy(one, file)
    new, there = os.path.join(folder, "new.db"), os.path.join(folder, "none", "journal")
    failed = "cannot open {}: {}"
    for db, journal, fault, said in (
        (other, first, "Another", "{} is the journal of another registry: nothing was changed"),
        (new, later, "Missing", "{} begins after the registry, or lacks a file in between"),
        (one, there, "failed", failed.format("{}", "there is no such folder")),
        (one, file, "failed", failed.format("{}", "it is no folder")),
    ):
        for words in (["script"], ["serve", "--port", str(free_port())]):
            words = [*words, "--db", db, "--journal", journal]
            wanted = b"", f"journal: {fault}\n".encode(), 3
            tells(cases, f"{words[0]}: {fault}", words, wanted, said.format(journal))
    words = [program.WHOLE, "script", "--db", one, "--journal", first]
    with subprocess.Popen(words, stdin=subprocess.PIPE, stdout=subprocess.PIPE) as holder:
        holder.stdin.write(b"read path=PC/8086\n")
        holder.stdin.flush()
        cases.equal("the other program", holder.stdout.readline(), b"refused 25 NoItem\n")
        why = "another program has it open; fuser -v FOLDER/lock shows which"
        words = ["script", "--db", new, "--journal", first]
        tells(cases, "in use", words, (b"", b"journal: failed\n", 3), failed.format(first, why))
        holder.stdin.close()


def test_new_registry_of_a_journal(cases, folder):
    """A registry that is made anew by its journal, and one whose journal is new, too."""
    db, journal = journaled(folder, "a", 0)
    words = [program.PROGRAM, "script", "--db", db, "--journal", journal]
    said = f"pciids: {db} was not there: it was made, with the commands of {journal}\n".encode()
    without(words, b"import root file=8086++Intel%0A\n")
    for ran, told in ((without, b""), (at_terminal, said)):
        os.remove(db)
        cases.equal("made anew", ran(words), (b"", told, 0))
        asked = without([program.WHOLE, "script", "--db", db], b"read path=PC/8086\n")
        cases.equal("it has them", asked, (b"name Intel\n", b"", 0))


def test_gap(cases, folder):
    """Commands that a registry was given without its journal."""
    db, journal = journaled(folder, "a", 0)
    words = [program.PROGRAM, "script", "--db", db, "--journal", journal]
    said = "lacks commands that the registry was given without it; a new segment begins"
    for number, ran in enumerate((without, at_terminal)):
        lines = "".join(f"account root who=b{number}{at}&rank=0\n" for at in range(2))
        without([program.WHOLE, "script", "--db", db], lines.encode())
        more = f"pciids: {journal} {said}\n".encode() if ran is at_terminal else b""
        cases.equal("a gap", ran(words), (b"", b"journal: gap\n" + more, 0))
        cases.equal("once", ran(words), (b"", b"", 0))


def test_ports(cases, folder):
    """A port that another program has, and one that the user may not use."""
    db, failed = new_registry(folder), (b"", b"socket: failed\n", 3)
    with socket.create_server(("127.0.0.1", 0)) as other:
        port = other.getsockname()[1]
        said = f"cannot listen on port {port}: another program has it"
        tells(cases, "in use", ["serve", "--db", db, "--port", str(port)], failed, said)
    with open("/proc/sys/net/ipv4/ip_unprivileged_port_start", encoding="ascii") as file:
        if int(file.read()) < 2:
            raise program.Skip("each user may use each port here")
    os.chmod(folder, 0o777)
    for name in os.listdir(folder):
        os.chmod(os.path.join(folder, name), 0o666)
    said = "cannot listen on port 1: permission denied"
    tells(cases, "not allowed", ["serve", "--db", db, "--port", "1"], failed, said, **NOBODY)


def test_values(cases, folder):
    """Values of a lookup and of an import that break their rules."""
    look_up = ["lookup", "--ids", os.path.join(folder, "none")]
    for words, said in (
        (["--flags", "xyz"], ["--flags takes 1 to 8 hex digits: not 'xyz'"]),
        (
            ["--flags", "0x3", "--vendor", "0x8086", "--device", "1d"],
            [
                "--flags takes 1 to 8 hex digits, without 0x: not '0x3'",
                "--vendor takes 4 hex digits, without 0x: not '0x8086'",
                "--device takes 4 hex digits: not '1d'",
            ],
        ),
        (
            ["--flags", "1", "--size", "1k", "--subvendor", "", "--subdevice", "12345"],
            [
                "--size takes 1 to 9 decimal digits: not '1k'",
                "--subvendor takes 4 hex digits: not ''",
                "--subdevice takes 4 hex digits: not '12345'",
            ],
        ),
        (
            ["--flags", "10", "--class", "01", "--progif", "8"],
            [
                "--class takes 4 hex digits: not '01'",
                "--progif takes 2 hex digits: not '8'",
            ],
        ),
    ):
        tells(cases, f"lookup {words}", [*look_up, *words], BAD, *said)
    large, none = os.path.join(folder, "large"), os.path.join(folder, "none")
    with open(large, "wb") as file:
        file.write(b"#" * 4_194_305)
    for account, more, ids, said in (
        ("Root", [], none, "--account takes 1 to 32 of a to z, 0 to 9 and -: not 'Root'"),
        ("root", ["--key", "a b"], none, "--key takes 1 to 64 visible ASCII characters: not 'a b'"),
        ("root", [], large, f"{large} is larger than 4,194,304 bytes"),
    ):
        words = ["import", "--db", new_registry(folder), "--account", account, *more, ids]
        tells(cases, f"import {account} {more}", words, BAD, said)


def test_looks_of_files(cases, folder):
    """A file that is no text of pci.ids, of a lookup and of an import."""
    ids, db = os.path.join(folder, "ids"), new_registry(folder)
    look_up = ["lookup", "--ids", ids, "--flags", "1"]
    bring_in = ["import", "--db", db, "--account", "root", ids]
    for text, fault, looks in LOOKS:
        with open(ids, "wb") as file:
            file.write(text)
        line, refused = f"line 1: {fault}\n", "refused 14 FileFault line=1 kind={} {}\n"
        refused = refused.format(*fault.split())
        said = f"{ids} {looks}"
        tells(cases, f"lookup: {text[:4]}", look_up, (b"", line.encode(), 1), said)
        tells(cases, f"import: {text[:4]}", bring_in, (refused.encode(), b"", 1), said)
    with open(ids, "wb") as file:
        file.write(TEXT + gzip.compress(TEXT))
    tells(cases, "another line", look_up, (b"", b"line 3: 1 NotUtf8\n", 1))
    refused = b"refused 14 FileFault line=3 kind=1 NotUtf8\n"
    tells(cases, "another line: import", bring_in, (refused, b"", 1))


def test_new_registries(cases, folder):
    """A registry that a command makes; of an export it is said to programs, too."""
    ids = os.path.join(folder, "ids")
    with open(ids, "wb") as file:
        file.write(TEXT)
    for words, out in (
        (["script"], b""),
        (["import", "--account", "root", ids], b"ok added=2 renamed=0 same=0\n"),
        (["export"], HEADER),
        (["migrate"], b"created schema 2\n"),
    ):
        name, new, other = words[0], *(os.path.join(folder, f"{words[0]}{it}.db") for it in "12")
        said = f"pciids: {made(new)}\n".encode()
        wanted = said if name == "export" else b""
        words = [program.PROGRAM, *words, "--db"]
        cases.equal(f"{name}: without a terminal", without([*words, new]), (out, wanted, 0))
        said = f"pciids: {made(other)}\n".encode()
        cases.equal(f"{name}: at one", at_terminal([*words, other]), (out, said, 0))
    none, db = os.path.join(folder, "none"), os.path.join(folder, "import3.db")
    tells(
        cases,
        "nothing was made",
        ["import", "--db", db, "--account", "root", none],
        FAILED,
        f"cannot open {none}: {NOT_THERE}",
    )


def test_new_registry_of_a_server(cases, folder):
    """A server says that it made a registry as soon as it listens."""
    db, port = os.path.join(folder, "new.db"), str(free_port())
    here, there = os.openpty()
    server = subprocess.Popen(
        [program.WHOLE, "serve", "--db", db, "--port", port], stdout=subprocess.PIPE, stderr=there
    )
    os.close(there)
    cases.equal("listens", server.stdout.readline(), f"listening on 127.0.0.1:{port}\n".encode())
    cases.equal("says so", os.read(here, 1_000), f"pciids: {made(db)}\r\n".encode())
    server.terminate()
    server.communicate()
    os.close(here)


# Lines of a script, and what is replied to each of them.
LINES = (
    (b"# a comment\r\n", b""),
    (b"\r\n", b""),
    (b"import root file=8086++Intel%0A\r\n", b"ok added=1 renamed=0 same=0\n"),
    (b"export\n", HEADER + b"8086  Intel\n"),
    (b"#" * 70_000 + b"\n", b""),
    (b"read path=PC/8086\n", b"name Intel\n"),
    (b"# a comment in Latin-1: \xe9\n", b"refused 3 BadText\n"),
    (b"approve bob num=1\n", b"refused 4 NoAccount\n"),
    (b"export\n", HEADER + b"8086  Intel\n"),
    (b"import root file=%09x%0A", b"refused 14 FileFault line=1 kind=3 NoParent\n"),
)


@pytest.mark.parametrize("ends", (b"\n", b""))
def test_refused_lines(cases, ends):
    """The lines of a script that were refused: how many, and the first one."""
    for begin, said in (
        (0, "3 lines were refused, the first is line 7: 3 BadText"),
        (7, "2 lines were refused, the first is line 1: 4 NoAccount"),
        (8, "line 2 was refused: 14 FileFault line=1 kind=3 NoParent"),
    ):
        lines = LINES[begin:]
        text = b"".join(line for line, _ in lines) + ends
        replies = b"".join(reply for _, reply in lines)
        if begin > 2:
            replies = replies.replace(HEADER + b"8086  Intel\n", HEADER)
        tells(cases, f"from line {begin}", ["script"], (replies, b"", 0), said, text=text)
    tells(cases, "none", ["script"], (b"", b"", 0), text=LINES[0][0])
    long = b"read path=PC/8086\n" + b"#" * 16_777_217
    tells(
        cases,
        "a long line",
        ["script"],
        (b"refused 25 NoItem\nrefused 3 BadText\n", b"", 1),
        "2 lines were refused, the first is line 1: 25 NoItem",
        text=long,
    )
    tells(
        cases,
        "a long line alone",
        ["script"],
        (b"refused 3 BadText\n", b"", 1),
        "line 2 was refused: 3 BadText",
        text=b"\n" + b"#" * 16_777_217,
    )


def test_typed_script(cases):
    """A script that is typed."""
    out, shown, status = at_terminal([program.PROGRAM, "script"], typed=b"export\n")
    reading = b"pciids: reading commands from the terminal; end it with Ctrl-D"
    cases.equal("typed", (shown.startswith(reading), out, status), (True, HEADER, 0))


@pytest.mark.parametrize(
    "word, tip", (("exprot", b"'export'"), ("looku", b"'lookup'"), ("--prot", b"'--port'"))
)
def test_similar(cases, word, tip):
    """A word like a command or an option gets that one."""
    words = ["serve", "--db", "x", word, "1"] if word.startswith("-") else [word]
    out, told, status = at_terminal([program.PROGRAM, *words])
    cases.equal(f"{word}: {told}", (out, tip in told, status), (b"", True, 2))
