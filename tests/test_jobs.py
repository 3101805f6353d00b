"""The words that ask for a registry or a look-up: their replies, statuses and order of faults;
scripts that are killed between lines and within them."""
import contextlib
import fcntl
import os
import random
import struct
import subprocess
import termios
import threading
import time

import pytest

from program import HEADER, REAL_FILE, WHOLE, into_left
from registry import asked, script, work
from script_rows import ROWS

BAD = (b"refused 3 BadText\n", b"", 1)
FAILED = (b"", b"file: failed\n", 3)
ROW_10 = b"8086  Intel Corporation"
EXPORTED = HEADER + b"8086  Intel\n"


def look_up(folder, text, *words):
    path = os.path.join(folder, "ids")
    with open(path, "wb") as file:
        file.write(text)
    return work(b"", "lookup", "--ids", path, *words)


def test_nobody_reads(cases, folder):
    """A reader that has gone away shows by the status alone, whatever the job."""
    path, names = os.path.join(folder, "r.db"), os.path.join(folder, "names")
    with open(names, "wb") as file:
        file.write(ROW_10)
    cases.equal("a registry", script(path, "import root file=8086++Intel")[2], 0)
    for text, *words in (
        (b"", "export", "--db", path),
        (b"export\n", "script", "--db", path),
        (b"pending\n", "script"),
        (b"", "lookup", "--ids", names, "--flags", "1", "--vendor", "8086"),
        (b"", "import", "--db", path, "--account", "root", names),
        (b"", "migrate", "--db", path),
    ):
        cases.equal(f"{' '.join(words)}: nobody reads", into_left(text, *words), (b"", 3))


def test_look_ups(cases, folder):
    for words, told in (
        (
            ("--flags", "3", "--vendor", "8086", "--device", "ffff"),
            (b"text Intel Corporation Device ffff\n", b"", 0),
        ),
        (("--flags", "20003", "--vendor", "8086", "--device", "ffff"), (b"none\n", b"", 1)),
        (("--flags", "30001", "--vendor", "8086"), (b"refused 26 BadFlags\n", b"", 1)),
        (
            ("--flags", "1", "--vendor", "8086", "--size", "17"),
            (b"text Intel Corpora...\n", b"", 0),
        ),
        (("--flags", "0"), (b"text <pci_lookup_name: invalid request>\n", b"", 0)),
        (("--flags", "xyz"), BAD),
        (("--flags", "1", "--vendor", "808"), BAD),
        (("--flags", "10", "--class", "0101", "--progif", "8"), BAD),
        (("--flags", "1", "--size", "1234567890"), BAD),
    ):
        cases.equal(f"lookup {' '.join(words)}", look_up(folder, ROW_10, *words), told)
    classes = b"C 01  Mass storage controller\n\t01  IDE interface\n"
    told = (b"text Master SecP PriP\n", b"", 0)
    cases.equal(
        "lookup of an interface",
        look_up(folder, classes, "--flags", "10", "--class", "0101", "--progif", "8a"),
        told,
    )
    card = b"8086  Intel\n\t1237  440FX\n\t\t1af4 1100  Qemu machine\n1af4  Red Hat, Inc.\n"
    words = (
        "--flags",
        "b",
        "--vendor",
        "8086",
        "--device",
        "1237",
        "--subvendor",
        "1af4",
        "--subdevice",
        "1100",
    )
    cases.equal(
        "lookup of a subsystem",
        look_up(folder, card, *words),
        (b"text Red Hat, Inc. Qemu machine\n", b"", 0),
    )
    cases.equal(
        "lookup in a faulty file",
        look_up(folder, b"8086  I\n8086  J", "--flags", "1"),
        (b"", b"line 2: 7 Duplicate\n", 1),
    )
    cases.equal(
        "lookup in a large file",
        look_up(folder, b"#" * 4_194_305, "--flags", "1"),
        (b"", b"too large\n", 1),
    )
    cases.equal(
        "lookup in no file",
        work(b"", "lookup", "--ids", os.path.join(folder, "none"), "--flags", "1"),
        FAILED,
    )
    cases.equal("lookup in a folder", work(b"", "lookup", "--ids", folder, "--flags", "1"), FAILED)
    cases.equal(
        "a bad value before the file",
        work(b"", "lookup", "--ids", os.path.join(folder, "none"), "--flags", "g"),
        BAD,
    )
    if os.path.exists(REAL_FILE):
        told = (b"text Intel Corporation 440FX - 82441FX PMC [Natoma]\n", b"", 0)
        cases.equal(
            "lookup in the real file",
            work(
                b"",
                "lookup",
                "--ids",
                REAL_FILE,
                "--flags",
                "3",
                "--vendor",
                "8086",
                "--device",
                "1237",
            ),
            told,
        )
    else:
        cases.skipped("lookup in the real file", "pci.ids is not installed")


def test_imports(cases, folder):
    """Each fault is reported before those after it, and none of them makes a registry."""
    db, ids, none = (os.path.join(folder, name) for name in ("import.db", "ids", "none"))
    with open(ids, "wb") as file:
        file.write(b"8086  Intel\n")

    def bring_in(account, file, *more):
        return work(b"", "import", "--db", db, "--account", account, *more, file)

    cases.equal("import: an account", bring_in("Root", none), BAD)
    cases.equal("import: a key", bring_in("root", none, "--key", "a b"), BAD)
    cases.equal("import: no file", bring_in("root", none), FAILED)
    cases.equal("import: nothing was made", os.path.exists(db), False)
    cases.equal("import: a folder", bring_in("root", folder), FAILED)
    cases.equal(
        "import: accepted",
        bring_in("root", ids, "--key", "k1"),
        (b"ok added=1 renamed=0 same=0\n", b"", 0),
    )
    cases.equal(
        "import: the key again",
        bring_in("root", ids, "--key", "k1"),
        (b"ok added=1 renamed=0 same=0\n", b"", 0),
    )
    cases.equal("import: again", bring_in("root", ids), (b"ok added=0 renamed=0 same=1\n", b"", 0))
    cases.equal("import: nobody", bring_in("bob", ids), (b"refused 4 NoAccount\n", b"", 1))
    with open(ids, "wb") as file:
        file.write(b"#" * 4_194_305)
    cases.equal("import: too long", bring_in("root", ids), BAD)
    cases.equal("import: too long under a key", bring_in("root", ids, "--key", "k1"), BAD)
    cases.equal("import: too long of nobody", bring_in("bob", ids), BAD)
    cases.equal("export", work(b"", "export", "--db", db), (HEADER + b"8086  Intel\n", b"", 0))
    with open("/dev/full", "wb") as full:
        ran = subprocess.run(
            [WHOLE, "export", "--db", db], stdout=full, stderr=subprocess.PIPE, timeout=60
        )
    cases.equal("export: no room", (ran.stderr, ran.returncode), (b"file: failed\n", 3))
    missing = os.path.join(folder, "new.db")
    told = f"pciids: {missing} was not there: a new, empty registry was made\n".encode()
    cases.equal("export of a new file", work(b"", "export", "--db", missing), (HEADER, told, 0))


def import_in_two(folder, database, text, cut, *more):
    """An import whose file is a pipe that gives a text in two pieces."""
    ids = os.path.join(folder, "pipe")
    words = [WHOLE, "import", "--db", database, "--account", "root", *more, ids]
    running = subprocess.Popen(words, stdout=subprocess.PIPE, stderr=subprocess.PIPE)
    with contextlib.suppress(BrokenPipeError), open(ids, "wb", buffering=0) as pipe:
        pipe.write(text[:cut])
        while struct.unpack("i", fcntl.ioctl(pipe, termios.FIONREAD, bytes(4)))[0]:
            time.sleep(0.0002)
        pipe.write(text[cut:])
    out, err = running.communicate(timeout=60)
    return out, err, running.returncode


def test_imports_in_two(cases, folder):
    """Wherever a file is cut, its import is answered as one of the whole file."""
    good, faulty = b"8086  Intel\n", b"8086  I\n\t1237  A\n\t1237  B"
    added, same = (b"ok added=1 renamed=0 same=0\n", b"", 0), (
        b"ok added=0 renamed=0 same=1\n",
        b"",
        0,
    )
    fault = (b"refused 14 FileFault line=3 kind=7 Duplicate\n", b"", 1)
    os.mkfifo(os.path.join(folder, "pipe"))
    for text, told in (
        (good, [("k1", added), ("k1", added), (None, same)]),
        (faulty, [(None, fault)]),
    ):
        for cut in range(len(text) + 1):
            database = os.path.join(folder, f"{len(text)}.{cut}.db")
            got = [
                import_in_two(folder, database, text, cut, *(("--key", key) if key else ()))
                for key, _ in told
            ]
            left = HEADER + (text if text == good else b"")
            if (got, work(b"", "export", "--db", database)) != (
                [it for _, it in told],
                (left, b"", 0),
            ):
                cases.equal(f"import of {text}, cut at {cut}", got, told)
                return
    cases.equal("imports cut at each byte", True, True)


def test_scripts(cases, folder):
    cases.equal(
        "a script over memory",
        work(b"read path=PC/8086\n", "script"),
        (b"refused 25 NoItem\n", b"", 0),
    )
    cases.equal(
        "a line that is too long",
        work(b"#" * 16_777_217 + b"\nexport\n", "script"),
        (b"refused 3 BadText\n", b"", 1),
    )
    longest, path = 16_777_216, os.path.join(folder, "long")
    with open(path, "w+b") as file:
        file.write(b"#" * longest + b"\r\nread path=PC/8086\n")
        file.write(b"#" * (longest + 1) + b"\nexport\n" + b"\n" * 1_000_000)
        file.seek(0)
        ran = subprocess.run([WHOLE, "script"], stdin=file, stdout=subprocess.PIPE, timeout=60)
        read = os.lseek(file.fileno(), 0, os.SEEK_CUR) - 2 * longest
    told = (b"refused 25 NoItem\nrefused 3 BadText\n", 1)
    cases.equal("the longest line, and one more", (ran.stdout, ran.returncode), told)
    cases.equal(f"no more is read than it: {read}", read < 100_000, True)
    with open("/dev/full", "wb") as full:
        ran = subprocess.run(
            [WHOLE, "script"], input=b"export\n", stdout=full, stderr=subprocess.PIPE, timeout=60
        )
    cases.equal("a script: no room", (ran.stderr, ran.returncode), (b"file: failed\n", 3))
    here = os.open(folder, os.O_RDONLY)
    ran = subprocess.run(
        [WHOLE, "script"], stdin=here, stdout=subprocess.PIPE, stderr=subprocess.PIPE, timeout=60
    )
    os.close(here)
    cases.equal("a script: a folder as the input", (ran.stdout, ran.stderr, ran.returncode), FAILED)


def test_names_of_files(cases, folder):
    """A registry is in the file that is named, whatever the name; what is no name of a file is
    refused."""
    line, names = b"import root file=8086++Intel\n", ("-", " ", "a b.db", "\u00e9.db", "x" * 200)
    for name in names:
        told = work(line, "script", "--db", name, cwd=folder)
        cases.equal(f"a file named {name!r}", told, (b"ok added=1 renamed=0 same=0\n", b"", 0))
        there = os.path.isfile(os.path.join(folder, name))
        left = work(b"", "export", "--db", name, cwd=folder)
        cases.equal(f"a file named {name!r}: it has the name", (there, left[0]), (True, EXPORTED))
    before = sorted(os.listdir(folder))
    for name in ("", ":memory:", "file:r.db"):
        told = work(line, "script", "--db", name, cwd=folder)
        cases.equal(f"no file: {name!r}", told, (b"", b"open: Store\n", 3))
    cases.equal("no file: none is made", sorted(os.listdir(folder)), before)

def test_killed_between_lines(cases, folder):
    """Each line by a program of its own, which is killed once it has replied."""
    for name, lines in ROWS.items():
        db = os.path.join(folder, "rows.db")
        for end in ("", "-wal"):
            if os.path.exists(db + end):
                os.remove(db + end)
        for line, reply in lines:
            running = subprocess.Popen(
                [WHOLE, "script", "--db", db], stdin=subprocess.PIPE, stdout=subprocess.PIPE
            )
            running.stdin.write(line.encode() + b"\n")
            running.stdin.flush()
            got = b"".join(running.stdout.readline() for _ in reply.splitlines())
            running.kill()
            running.communicate()
            cases.equal(
                f"killed behind each line: {name}: {line[:60]}",
                got,
                reply.encode(errors="surrogateescape"),
            )


def submissions(turn):
    return b"".join(b"submit bob path=PC/%04x&name=n%d\n" % (it, turn) for it in range(500))


def time_of_script(folder):
    """How long a script of so many submissions takes here, in seconds."""
    other = os.path.join(folder, "other.db")
    script(other, "account root who=bob&rank=1")
    start = time.monotonic()
    work(submissions(0), "script", "--db", other)
    return time.monotonic() - start


@pytest.mark.needs("sqlite3")
def test_killed_anywhere(cases, folder):
    """A script is killed at any moment, fifty times, and goes on where its file stands: nothing
    that it acknowledged is lost."""
    chance = random.Random(17)
    db = os.path.join(folder, "killed.db")
    script(db, "account root who=bob&rank=1")
    known, whole = 0, time_of_script(folder)
    for turn in range(50):
        lines = submissions(turn)
        running = subprocess.Popen(
            [WHOLE, "script", "--db", db], stdin=subprocess.PIPE, stdout=subprocess.PIPE
        )
        killer = threading.Timer(chance.random() * whole, running.kill)
        killer.start()
        told = running.communicate(lines)[0].splitlines(True)
        killer.join()
        numbers = [
            int(line[3:]) for line in told if line.startswith(b"ok ") and line.endswith(b"\n")
        ]
        kept = int(asked(db, "SELECT count(*) FROM submission") or 0)
        last = max(numbers, default=known)
        if not last <= kept:
            cases.equal(f"killed {turn}: what was acknowledged is there", kept, last)
            return
        known = kept
    cases.equal(
        "killed 50 times: nothing acknowledged is lost",
        asked(db, "PRAGMA integrity_check; PRAGMA foreign_key_check"),
        "ok\n",
    )
    cases.equal("killed 50 times: the registry opens", script(db), (b"", b"", 0))
    print(f"killed in the middle: {known} commands kept")
    cases.equal("killed in the middle: there were commands", known > 50, True)
