"""The order in which a program with a journal writes and syncs: a library notes its calls."""
import os
import subprocess
import threading

import pytest

from program import WHOLE
from shims import ROOM

pytestmark = pytest.mark.needs("gcc", "libc6-dev")

# A command of each kind, one that is refused, and a question.
LINES = [
    "account root who=bob&rank=1",
    "import root file=8086++Intel",
    "submit bob path=PC/8086&name=Intel+Corp.&key=s1",
    "comment bob num=1&text=seen",
    "approve root num=1",
    "approve root num=1",
    "submit bob path=PC/8086&remove=yes",
    "withdraw bob num=2",
    "submit bob path=PD/01&name=Storage",
    "reject root num=3&reason=no",
    "read path=PC/8086",
]
COMMANDS = len(LINES) - 1


def noted(shims, db, journal, lines):
    """The calls of a script whose lines come one by one, each after the reply to the one before."""
    reading, writing = os.pipe()
    calls = []

    def collect():
        with os.fdopen(reading, "rb") as pipe:
            calls.extend(line.decode().split(" ") for line in pipe.read().splitlines())

    collector = threading.Thread(target=collect)
    collector.start()
    environment = dict(os.environ, LD_PRELOAD=shims["note_calls"], NOTE_FD=str(writing))
    words = [WHOLE, "script", "--db", db, "--journal", journal]
    pipes = {"stdin": subprocess.PIPE, "stdout": subprocess.PIPE}
    with subprocess.Popen(words, env=environment, pass_fds=[writing], **pipes) as program:
        os.close(writing)
        replies = []
        for line in lines:
            program.stdin.write(line.encode() + b"\n")
            program.stdin.flush()
            replies.append(program.stdout.readline())
        program.stdin.close()
    collector.join()
    return calls, replies, program.returncode


def faults_of_lines(calls, db):
    """What is wrong in the order of these calls. Each command has a line: that is written, then
    synced, then the registry's files are written, if at all, and then comes its reply."""
    faults, lines, replies, is_synced = [], 0, 0, True
    for at, (call, path, front, ends) in enumerate(calls):
        if path.endswith(".script"):
            if front == "#.time":
                lines, is_synced = lines + 1, False
            elif call == "sync":
                is_synced = True
        elif path == "reply":
            replies += int(ends)
            if not is_synced or lines <= min(replies - int(ends), COMMANDS - 1):
                faults.append((at, "a reply", lines, replies))
        elif path.startswith(db) and call in ("write", "cut") and lines:
            if not is_synced or lines == replies < COMMANDS:
                faults.append((at, "the registry is written", lines, replies))
    return faults, lines, replies


def faults_of_names(calls, journal):
    """What is wrong with the segments that are made: what is above the folder is synced, and before
    anything is written to a segment, its file is, and then the folder."""
    faults, synced, written = [], [], set()
    for call, path, *_ in calls:
        if call == "sync":
            synced.append(path)
        elif call == "write" and path.endswith(".script") and path not in written:
            written.add(path)
            want = [os.path.dirname(journal), path, journal]
            if [it for it in synced if it in want][:3] != want:
                faults.append((path, synced))
    return faults, len(written)


def paths_in(room):
    """The paths of a registry and of its journal, which has a folder of its own above it."""
    os.mkdir(os.path.join(room, "disk"))
    return [os.path.join(os.path.realpath(room), it) for it in ("r.db", "disk/journal")]


def test_order(cases, shims, room):
    """Each line is safe before the registry is written, and before its reply."""
    db, journal = paths_in(room)
    calls, replies, status = noted(shims, db, journal, LINES)
    cases.equal("the status", status, 0)
    cases.equal("the commands", sum(it.startswith(b"ok") for it in replies), COMMANDS - 1)
    cases.equal("the refused one", replies[5], b"refused 8 NotPending\n")
    cases.equal("the lines", faults_of_lines(calls, db), ([], COMMANDS, len(LINES)))
    cases.equal("the name", faults_of_names(calls, journal), ([], 1))


def swapped(calls):
    """The calls of a program that syncs before it writes a line."""
    told = list(calls)
    for at, (_, _, front, _) in enumerate(calls):
        if front == "#.time":
            told[at], told[at + 1] = calls[at + 1], calls[at]
    return told


def test_other_orders(cases, shims, room):
    """Other orders are found."""
    db, journal = paths_in(room)
    calls, _, _ = noted(shims, db, journal, LINES[:3])
    unsynced = [it for it in calls if it[0] != "sync" or not it[1].endswith(".script")]
    cases.equal("synced before", faults_of_lines(swapped(calls), db)[0] != [], True)
    cases.equal("not synced", faults_of_lines(unsynced, db)[0] != [], True)
    cases.equal("the name not synced", faults_of_names(unsynced, journal)[0] != [], True)
    folders = [it for it in calls if it[0] != "sync" or it[1] != journal]
    cases.equal("the folder not synced", faults_of_names(folders, journal)[0] != [], True)
