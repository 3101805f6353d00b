"""A script over a file with its disk stopped at each call in turn, which keeps what was written or
only what was synced, and with every seventh request for memory refused, others in each run: the
file holds what some of the commands came to, the first ones, and at least those that were answered.
With a journal on the same disk, and on another one, so does a registry that is opened anew, and one
whose file is gone by then."""
import os
import tempfile

import pytest

from journal_room import lose
from registry import asked, copied, work
from shims import ROOM, SAMPLE, first_of, run_refusing

LINES = [
    "account root who=bob&rank=1&key=a1",
    "import root file=8086++Intel&key=i1",
    "submit bob path=PC/0000&name=renamed&key=s1",
    "approve root num=1&key=a2",
]
REPLIES = [b"ok\n", b"ok added=1 renamed=0 same=0\n", b"ok 1\n", b"ok\n"]
TEXT = "".join(line + "\n" for line in LINES).encode()

# What the tables hold after each transaction: accounts, items by meta and by rows, submissions
# likewise, the state of the first.
STATES = ["nothing", "1|0|0|0|0|", "2|0|0|0|0|", "2|1|1|0|0|", "2|1|1|1|1|0", "2|2|2|1|1|1"]

QUESTION = """SELECT (SELECT count(*) FROM account),
    (SELECT value FROM meta WHERE label = 'items'), (SELECT count(*) FROM item),
    (SELECT value FROM meta WHERE label = 'submissions'), (SELECT count(*) FROM submission),
    (SELECT state FROM submission WHERE num = 1)"""


def state(path):
    """What sqlite3 finds, on a copy, since it writes to a file that it recovers."""
    with tempfile.TemporaryDirectory(dir=ROOM) as folder:
        copy = os.path.join(folder, "copy.db")
        if not copied(path, copy):
            return "nothing"
        told = asked(copy, QUESTION).strip()
        return "nothing" if told.startswith("Error: ") else told


def is_allowed(replies, status, found):
    """The replies are the first ones, and where it stopped a refusal; the file holds what they
    acknowledge and at most one command more."""
    kept = replies[:-1] if replies and replies[-1].startswith(b"refused 1") else replies
    states = STATES[len(kept) + 1 : len(kept) + 3] if kept else STATES[:3]
    if status == 0:
        return replies == REPLIES and found == STATES[-1]
    return status == 3 and kept == REPLIES[: len(kept)] and found in states


def refuse_in_turn(cases, shim, name, step, within):
    """Refuses every step-th call of a run, each in a new file, and answers how many there were."""
    refusals = 0
    for at in range(first_of(step), 100_000, step):
        with tempfile.TemporaryDirectory(dir=ROOM) as folder:
            path = os.path.join(folder, "r.db")
            words = ("script", "--db", path)
            (out, _, status), was_refused = run_refusing(shim, at, TEXT, *words, within=within)
            replies = out.splitlines(True)
            found = state(path)
            if not is_allowed(replies, status, found):
                cases.equal(f"{name} {at}: replies {replies}, status {status}", found, STATES)
                return refusals
            if not was_refused:
                cases.equal(
                    f"{name}: none refused", (replies, status, found), (REPLIES, 0, STATES[-1])
                )
                return refusals
            refusals += 1
            # Also a file in which sqlite3 finds no table, or no database yet, is one that the
            # program goes on with. The same lines under the same keys are answered as at first.
            again = *work(TEXT, *words), state(path), asked(path, "PRAGMA integrity_check")
            want = b"".join(REPLIES), b"", 0, STATES[-1], "ok\n"
            if again != want:
                cases.equal(f"{name} {at}: sent again", again, want)
                return refusals


@pytest.mark.needs("gcc", "libc6-dev", "sqlite3")
@pytest.mark.parametrize(
    "name, step, least, within, forgets",
    [
        ("refuse_disk", 1, 40, None, False),
        ("refuse_disk", 1, 40, None, True),
        # The log and the database on two disks, of which one stops.
        ("refuse_disk", 1, 20, "=-wal", True),
        ("refuse_disk", 1, 4, "=.db", True),
        ("refuse_malloc", 7, 100, None, False),
    ],
)
def test_stops(cases, shims, monkeypatch, name, step, least, within, forgets):
    if forgets:
        monkeypatch.setenv("REFUSE_FORGET", "1")
    refusals = refuse_in_turn(cases, shims[name], name, step, within)
    print(f"{name}: {refusals} calls refused, one in each run; sample {SAMPLE}")
    cases.equal(f"{name}: calls were refused", refusals >= least, True)


def opened(path, journal):
    """What a file holds once it was opened with its journal."""
    told = work(b"", "script", "--db", path, "--journal", journal)
    return state(path) if told == (b"", b"", 0) else told


def stopped_at(shim, at, within):
    """A run with a journal whose disk stops at a call: the replies and the status, what the file
    then holds, what once it was opened and what once it was gone, and whether there was a call."""
    with tempfile.TemporaryDirectory(dir=ROOM) as folder:
        path, journal = os.path.join(folder, "r.db"), os.path.join(folder, "journal")
        words = ("script", "--db", path, "--journal", journal)
        (out, _, status), was_refused = run_refusing(shim, at, TEXT, *words, within=within)
        found = [state(path), opened(path, journal)]
        lose(path)
        return out.splitlines(True), status, [*found, opened(path, journal)], was_refused


@pytest.mark.needs("gcc", "libc6-dev", "sqlite3")
@pytest.mark.parametrize("forgets", [False, True])
@pytest.mark.parametrize("within", [None, "/r.db", "/journal"])
def test_with_journal(cases, shims, monkeypatch, within, forgets):
    """The disk of both, that of the registry, and that of the journal."""
    if forgets:
        monkeypatch.setenv("REFUSE_FORGET", "1")
    for at in range(1, 100_000):
        replies, status, found, was_refused = stopped_at(shims["refuse_disk"], at, within)
        is_good = [is_allowed(replies, status, it) for it in found] + [found[1] == found[2]]
        name = f"{within or 'both'} {at}: replies {replies}, status {status}, {found}"
        cases.equal(name, is_good, [True] * 4)
        if not was_refused:
            break
    cases.equal("the whole script", (replies, status, found), (REPLIES, 0, [STATES[-1]] * 3))
    print(f"{within or 'both'}: {at - 1} calls refused, one in each run")
    cases.equal("calls were refused", at > 12, True)
