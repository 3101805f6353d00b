"""The progress of an import, an export, and an opening that obeys a journal: shown on standard
error, only at a terminal, if it takes over a second."""
import os
import re
import select
import signal
import subprocess
import threading
import time

import pytest

from journal_room import lose, name_of
from program import HEADER, WHOLE
from registry import asked, bring_in, copied, script
from terminals import read_all

LINES = [b"%04x  A vendor of the number %d\n" % (vendor, vendor) for vendor in range(20_000)]
TEXT = b"".join(LINES)
TOLD = rb"(\r%s: [0-9]{1,3}(,[0-9]{3})* lines)+\r +\r"
# When progress is shown, in seconds, and a pause that is longer, which tests make so that a job
# takes as long on any machine.
SECOND, PAUSE = 1, 1.4
REPLAYED = 30_000


class Running:
    """The program, running with a terminal or a pipe as its standard error."""

    def __init__(self, at_terminal, *words, output=subprocess.PIPE):
        self.read, write = os.openpty() if at_terminal else os.pipe()
        self.program = subprocess.Popen(
            [WHOLE, *words], stdin=subprocess.DEVNULL, stdout=output, stderr=write
        )
        os.close(write)
        self.told = []
        self.reader = threading.Thread(target=read_all, args=(self.read, self.told))
        self.reader.start()

    def ended(self):
        """Its standard output, its standard error and its exit status."""
        out = self.program.communicate(timeout=60)[0]
        self.reader.join()
        os.close(self.read)
        return out, b"".join(self.told), self.program.returncode


def slow_import(folder, at_terminal, last):
    """An import of a text that comes from a named pipe, in two parts."""
    db, ids = os.path.join(folder, f"slow{at_terminal}.db"), os.path.join(folder, "pipe")
    os.mkfifo(ids)
    script(db)
    running = Running(at_terminal, "import", "--db", db, "--account", "root", ids)
    with open(ids, "wb") as pipe:
        pipe.writelines(LINES[:15_000])
        pipe.flush()
        time.sleep(PAUSE)
        pipe.writelines(LINES[15_000:])
        pipe.write(last)
    os.remove(ids)
    return running.ended()


def slow_export(db, at_terminal):
    """An export whose output is not read for a while once it has begun."""
    running = Running(at_terminal, "export", "--db", db)
    pause_after(running.program.stdout)
    return running.ended()


def pause_after(output):
    """Waits until there is something to read, and then for a while."""
    select.select([output], [], [])
    time.sleep(PAUSE)


def pause_within(program, db):
    """Stops the program for a while when it has obeyed some lines of a journal, and not yet all.
    Returns whether there was such a moment."""
    while program.poll() is None:
        program.send_signal(signal.SIGSTOP)
        while state_of(program) not in "TZ":
            time.sleep(0.001)
        is_within = 0 < submissions_in(db) < REPLAYED
        time.sleep(PAUSE if is_within else 0)
        program.send_signal(signal.SIGCONT)
        if is_within:
            return True
        time.sleep(0.002)
    return False


def state_of(program):
    with open(f"/proc/{program.pid}/stat") as file:
        return file.read().rpartition(")")[2].split()[0]


def submissions_in(db):
    """How many a stopped program has left in its file and its log."""
    copied(db, f"{db}.copy")
    return int(asked(f"{db}.copy", "SELECT count(*) FROM submission"))


def is_told(cases, name, told, job):
    cases.equal(
        f"{name}: the progress, erased at the end",
        re.fullmatch(TOLD % job, told) is not None or told,
        True,
    )


def both_at_terminal(cases, db):
    """An export to the terminal itself shows no progress: its lines are there."""
    here, there = os.openpty()
    running = subprocess.Popen(
        [WHOLE, "export", "--db", db], stdin=subprocess.DEVNULL, stdout=there, stderr=there
    )
    os.close(there)
    pause_after(here)
    pieces = []
    read_all(here, pieces)
    os.close(here)
    cases.equal(
        "a long export to a terminal",
        (b"".join(pieces), running.wait(timeout=60)),
        ((HEADER + TEXT).replace(b"\n", b"\r\n"), 0),
    )


IMPORTS = {
    "good": (b"", b"ok added=20000 renamed=0 same=0\n", 0),
    "faulty": (b"0000  Again\n", b"refused 14 FileFault line=20001 kind=7 Duplicate\n", 1),
}


@pytest.mark.parametrize("last, reply, status", IMPORTS.values(), ids=IMPORTS)
def test_long_import(cases, folder, last, reply, status):
    for at_terminal in (True, False):
        out, told, ended = slow_import(folder, at_terminal, last)
        name = f"a long import, {'at a terminal' if at_terminal else 'with a pipe'}: {reply}"
        cases.equal(name, (out, ended), (reply, status))
        if at_terminal:
            is_told(cases, name, told, b"importing")
        else:
            cases.equal(f"{name}: nothing is shown", told, b"")


def short_import(folder):
    """A registry, and an import into it that took less than a second. On a busy machine another may
    take longer."""
    ids = os.path.join(folder, "ids")
    with open(ids, "wb") as file:
        file.write(LINES[0])
    for number in range(100):
        db = os.path.join(folder, f"short{number}")
        script(db)
        start = time.monotonic()
        ended = Running(True, "import", "--db", db, "--account", "root", ids).ended()
        if time.monotonic() - start < SECOND:
            return db, ended
    return db, "none took less than a second"


def test_short_import_and_long_export(cases, folder):
    db, short = short_import(folder)
    cases.equal("a short import at a terminal", short, (b"ok added=1 renamed=0 same=0\n", b"", 0))
    cases.equal(
        "the rest of the names", bring_in(db, TEXT), (b"ok added=19999 renamed=0 same=1\n", b"", 0)
    )
    out, told, ended = slow_export(db, True)
    cases.equal("a long export, at a terminal", (out == HEADER + TEXT, ended), (True, 0))
    is_told(cases, "a long export, at a terminal", told, b"exporting")
    out, told, ended = slow_export(db, False)
    cases.equal("a long export, with a pipe", (out == HEADER + TEXT, told, ended), (True, b"", 0))
    both_at_terminal(cases, db)


def test_long_replay(cases, room):
    """A registry that is new obeys the lines of its journal."""
    db, journal = os.path.join(room, "db"), os.path.join(room, "journal")
    os.mkdir(journal)
    with open(os.path.join(journal, name_of(0)), "w") as file:
        for number in range(REPLAYED):
            file.write(f"# time=1&revision={number}&accounts=1&items=0&submissions={number}\n"
                       "submit root path=PC/8086&name=Intel&note=\n# ended&revision="
                       f"{number + 1}&accounts=1&items=0&submissions={number + 1}\n\n")
    for at_terminal in (True, False):
        lose(db)
        script(db)
        running = Running(at_terminal, "script", "--db", db, "--journal", journal)
        name = f"a long replay, {'at a terminal' if at_terminal else 'with a pipe'}"
        cases.equal(f"{name}: stopped within it", pause_within(running.program, db), True)
        out, told, ended = running.ended()
        cases.equal(name, (out, ended), (b"", 0))
        cases.equal(f"{name}: all of it", submissions_in(db), REPLAYED)
        if at_terminal:
            is_told(cases, name, told, b"replaying the journal")
        else:
            cases.equal(f"{name}: nothing is shown", told, b"")
