"""Each word over a registry's file while one call of the disk or one request for memory fails, each
in turn: the program ends by itself with a status of the manual page and prints whole lines, the
file holds all rows from before the command or all from after it, from after it where it was
answered, and the same words again are answered as if nothing had been."""
import os
import shutil
import sqlite3
import subprocess
import tempfile
from concurrent.futures import ThreadPoolExecutor
from functools import lru_cache
from typing import NamedTuple

import pytest

from old_files import old_file
from program import HEADER
from registry import copied, script, work
from shims import ROOM, SAMPLE

BEGIN = [
    "account root who=alice&rank=0",
    "account root who=mona&rank=2",
    "import root file=8086++Intel%0A%091237++440FX",
    "submit alice path=PC/10ec&name=Realtek",
]
VENDORS = b"".join(b"%04x  A vendor\n" % number for number in range(50))
TEXT = HEADER + b"8086  Intel\n\t1237  440FX\n"

# How the disk or memory fails: by which library, and with which error number, where a call fails
# only once (5: EIO, 28: ENOSPC).
FAULTS = {
    "the disk stops": ("refuse_disk", 0),
    "a call fails": ("refuse_disk", 5),
    "the disk is full": ("refuse_disk", 28),
    "memory": ("refuse_malloc", 0),
}

# Refusals that have such a cause, and what is said where no reply was to be had.
REFUSED = [b"refused 16 Memory\n", b"refused 17 Store\n", b"refused 18 Failed\n"]
SAID = [b"", b"no memory\n", b"open: Memory\n", b"open: Store\n", b"file: failed\n"] + REFUSED

# What is said of a registry that is not opened, where the disk fails and where memory does.
OPENING = {False: {b"open: Store\n"}, True: {b"open: Memory\n"}}

# The runs of a case at most: requests for memory are refused at as many places, evenly spread.
MOST = 60

# Requests for memory before the registry is opened: for the arguments, and for the buffer of
# `export`, which is one request. Each of these is refused in `export`.
FIRST = 300


class Case(NamedTuple):
    """Words over a file as it was before, `none`, of schema 1 (`old`) or a registry, with what they
    read and print."""

    before: str
    words: tuple
    text: bytes
    printed: bytes


def line(text, printed):
    return Case("registry", ("script", "--db", "DB"), text + b"\n", printed)


MIGRATE, OPEN = ("migrate", "--db", "DB"), ("script", "--db", "DB")

# What opens the file alone comes first: each other case on a registry is tried from there on.
CASES = {
    "open": Case("registry", OPEN, b"", b""),
    "open, no file": Case("none", OPEN, b"", b""),
    "open, schema 1": Case("old", OPEN, b"", b""),
    "migrate": Case("registry", MIGRATE, b"", b"schema 2 already\n"),
    "migrate, no file": Case("none", MIGRATE, b"", b"created schema 2\n"),
    "migrate, schema 1": Case("old", MIGRATE, b"", b"moved to schema 2\n"),
    "import": Case(
        "registry",
        ("import", "--db", "DB", "--account", "mona", "--key", "k", "IDS"),
        VENDORS,
        b"ok added=50 renamed=0 same=0\n",
    ),
    "export": Case("registry", ("export", "--db", "DB"), b"", TEXT),
    "lookup": Case(
        "none",
        ("lookup", "--ids", "IDS", "--flags", "3", "--vendor", "0007", "--device", "1237"),
        VENDORS,
        b"text A vendor Device 1237\n",
    ),
    "a line: account": line(b"account root key=k&who=bob&rank=1", b"ok\n"),
    "a line: submit": line(b"submit alice key=k&path=PC/8086/7000&name=82371SB", b"ok 2\n"),
    "a line: comment": line(b"comment mona key=k&num=1&text=seen", b"ok\n"),
    "a line: withdraw": line(b"withdraw alice key=k&num=1", b"ok\n"),
    "a line: approve": line(b"approve mona key=k&num=1", b"ok\n"),
    "a line: reject": line(b"reject mona key=k&num=1&reason=no", b"ok\n"),
    "a line: import": line(
        b"import mona key=k&file=8086++Intel+Corporation%0A10de++NVIDIA",
        b"ok added=1 renamed=1 same=0\n",
    ),
    "a line: read": line(b"read path=PC/8086", b"name Intel\n"),
    "a line: lookup": line(b"lookup flags=3&vendor=8086&device=1237", b"text Intel 440FX\n"),
    "a line: export": line(b"export", TEXT),
}


def rows(path):
    """All rows that sqlite3 finds, on a copy, since it writes to a file that it recovers; None
    where it finds no table, or no database yet."""
    copy = path + ".copy"
    if not copied(path, copy):
        return None
    asked = sqlite3.connect(copy)
    try:
        tables = [
            name
            for name, in asked.execute(
                "SELECT name FROM sqlite_master WHERE type = 'table' ORDER BY name"
            )
        ]
        found = {
            name: asked.execute(f"SELECT * FROM {name} ORDER BY 1, 2").fetchall() for name in tables
        }
        whole = (
            asked.execute("PRAGMA integrity_check").fetchall() == [("ok",)]
            and not asked.execute("PRAGMA foreign_key_check").fetchall()
        )
        return (found or None) if whole else "broken"
    except sqlite3.DatabaseError:
        return None
    finally:
        asked.close()
        for end in ("", "-wal", "-shm"):
            if os.path.exists(copy + end):
                os.remove(copy + end)


def is_allowed(case, ran):
    """All is answered; or whole lines of it, a refusal that has such a cause, and status 3."""
    out, err, status = ran
    if status == 0:
        return (out, err) == (case.printed, b"")
    front = next((out[: -len(it)] for it in REFUSED if out.endswith(it)), out)
    return (
        status == 3
        and err in SAID
        and case.printed.startswith(front)
        and (front == b"" or front.endswith(b"\n"))
    )


class Trials:
    """Runs of the cases, each in a folder of its own."""

    def __init__(self, folder, shims):
        self.shims = shims
        self.files = {
            before: os.path.join(folder, before) for before in ("none", "old", "registry")
        }
        old_file(self.files["old"])
        if script(self.files["registry"], *BEGIN) != (
            b"ok\nok\nok added=2 renamed=0 same=0\nok 1\n",
            b"",
            0,
        ):
            raise RuntimeError("the registry of the cases was not made")
        self.after = {name: self.without_fault(case) for name, case in CASES.items()}
        # What was said where a registry was opened.
        self.said = set()

    def prepared(self, case, folder):
        """The database of a case in a folder, and its words over that."""
        database, ids = os.path.join(folder, "r.db"), os.path.join(folder, "ids")
        if case.before != "none":
            shutil.copy(self.files[case.before], database)
        if "IDS" in case.words:
            with open(ids, "wb") as file:
                file.write(case.text)
        places = {"DB": database, "IDS": ids}
        return database, [places.get(word, word) for word in case.words]

    def without_fault(self, case):
        """The rows after a run without a fault."""
        with tempfile.TemporaryDirectory(dir=ROOM) as folder:
            database, words = self.prepared(case, folder)
            ran = work(case.text, *words)
            return rows(database) if ran == (case.printed, b"", 0) else ran

    def failing(self, case, words, fault, at):
        """What the program with these words came to with its call number `at` failing, and what the
        shim reported of that."""
        shim, once = FAULTS[fault]
        told, telling = os.pipe()
        environment = dict(
            os.environ,
            LD_PRELOAD=self.shims[shim],
            REFUSE_AT=str(at),
            REFUSE_ONCE=str(once),
            REFUSE_FD=str(telling),
        )
        try:
            ran = work(case.text, *words, env=environment, pass_fds=[telling])
        finally:
            os.close(telling)
            with os.fdopen(told, "rb") as pipe:
                self_told = pipe.read()
        return ran, self_told

    @lru_cache(maxsize=None)
    def count(self, name, fault):
        """How many calls there are to fail."""
        with tempfile.TemporaryDirectory(dir=ROOM) as folder:
            _, words = self.prepared(CASES[name], folder)
            return int(self.failing(CASES[name], words, fault, 1_000_000_000)[1])

    def wrong(self, name, fault, at):
        """What is wrong where this call fails, or None."""
        case = CASES[name]
        with tempfile.TemporaryDirectory(dir=ROOM) as folder:
            database, words = self.prepared(case, folder)
            before = rows(database)
            try:
                ran, told = self.failing(case, words, fault, at)
            except subprocess.TimeoutExpired:
                return at, "it does not end"
            self.said.add(ran[1])
            found = rows(database)
            is_done = ran[0].startswith(case.printed) and case.printed != b"" or ran[2] == 0
            if not is_allowed(case, ran) or found not in (
                [self.after[name]] if is_done else [before, self.after[name]]
            ):
                return at, told, ran, found
            again = work(case.text, *words)
            printed = (
                b"schema 2 already\n"
                if case.words[0] == "migrate" and found == self.after[name]
                else case.printed
            )
            if again != (printed, b"", 0) or rows(database) != self.after[name]:
                return at, told, ran, again, rows(database)
        return None


def places(first, last, most):
    """Each place from the first to the last; or as many as may be, evenly spread: the first, the
    last, and between them others in each run."""
    if last - first < most:
        return range(first, last + 1)
    step, moved = (last - first) / (most - 1), SAMPLE % 97 / 97
    return [first, *(first + int(step * (number + moved)) for number in range(most - 2)), last]


def chosen(trials, name, fault, most):
    """The places of a case at which calls fail."""
    last = trials.count(name, fault)
    if FAULTS[fault][0] != "refuse_malloc" or CASES[name].before != "registry" or name == "open":
        return places(1, last, most)
    if name == "export":
        return [*range(1, FIRST), *places(FIRST, last, most)]
    # Requests up to the opening of the registry are refused in the first case.
    return places(1 if most > last else trials.count("open", fault) * 9 // 10, last, most)


@pytest.fixture(scope="module")
def trials(shims):
    with tempfile.TemporaryDirectory() as folder:
        yield Trials(folder, shims)


@pytest.mark.needs("gcc", "libc6-dev", "sqlite3")
@pytest.mark.parametrize("name", CASES)
@pytest.mark.parametrize("fault", FAULTS)
def test_refusing(cases, request, trials, name, fault):
    most = 1_000_000 if request.config.option.all else MOST
    tried = chosen(trials, name, fault, most)
    trials.said.clear()
    with ThreadPoolExecutor(os.cpu_count()) as pool:
        wrong = [it for it in pool.map(lambda at: trials.wrong(name, fault, at), tried) if it]
    cases.equal(f"{name}: {fault}", wrong[:1], [])
    if name.startswith("open"):
        # A fault of the disk is not reported as one of memory, and the other way round.
        is_memory, faults = fault == "memory", trials.said & {b"open: Memory\n", b"open: Store\n"}
        cases.equal(f"{name}: {fault}: what is said", faults, OPENING[is_memory])
    print(
        f"refusing: {name}: {fault}: {len(tried)} of {trials.count(name, fault)} calls failed, one"
        f" in each run; sample {SAMPLE}"
    )
