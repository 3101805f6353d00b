"""A replay that meets a fault goes on at the next opening; a session of every kind of command, with
the disk of the registry, of the journal, or of both stopped at each call; a line that is cut off,
which leaves the marks above it; and a registry that stands within a gap of its journal."""
import os
import shutil
import tempfile

import pytest

from journal_room import lose, names_in, text_of
from registry import asked, copied, work
from shims import ROOM, SAMPLE, first_of, run_refusing

pytestmark = pytest.mark.needs("gcc", "libc6-dev", "sqlite3")

# Submissions without a key, which would double if their lines were obeyed twice.
LINES = [
    "account root who=bob&rank=2",
    "import bob file=8086++Intel%0A%091237++440FX%0A&key=i1",
    "submit bob path=PC/8086&name=A",
    "submit bob path=PC/8086&name=B",
    "comment root num=1&text=seen",
    "approve root num=1",
    "reject root num=9&reason=x",
    "submit root path=PS/1af4/1100&name=Card",
    "withdraw bob num=2",
]
REPLIES = "ok,ok added=2 renamed=0 same=0,ok 1,ok 2,ok,ok,refused 7 NoSubmission,ok 3,ok".split(",")
EIO = 5
FAULTS = (b"refused 16", b"refused 17", b"refused 18")

# How a call is refused: by which library, whether it alone is, and how many calls are passed over.
HOWS = {
    "one request for memory": ("refuse_malloc", None, 31),
    "each call of the disk from one on": ("refuse_disk", None, 1),
    "one call of the disk": ("refuse_disk", EIO, 1),
}


def text_from(lines):
    return "".join(line + "\n" for line in lines).encode()


def opened(db, journal, lines=()):
    return work(text_from(lines), "script", "--db", db, "--journal", journal)


def refused_at(at, how, db, journal, lines=()):
    """A run of which a call is refused: output, faults, status, and whether there was that call."""
    shim, once = how
    os.environ.pop("REFUSE_ONCE", None)
    if once is not None:
        os.environ["REFUSE_ONCE"] = str(once)
    try:
        return run_refusing(shim, at, text_from(lines), "script", "--db", db, "--journal", journal)
    finally:
        os.environ.pop("REFUSE_ONCE", None)


def is_all(request):
    return request.config.getoption("--all")


@pytest.mark.parametrize("name", HOWS)
@pytest.mark.parametrize("begin", [0, 5])
def test_replays(cases, request, shims, room, name, begin):
    """Whichever call of a replay is refused, the next opening brings the registry to the end of its
    journal: each line was obeyed once. The registry was gone before, or it was an older copy."""
    db, journal, copy = (os.path.join(room, it) for it in ("r.db", "journal", "copy.db"))
    told = opened(db, journal, LINES[:begin])[0]
    copied(db, copy)
    cases.equal("the replies", told + opened(db, journal, LINES[begin:])[0], text_from(REPLIES))
    cases.equal("no line is in doubt", opened(db, journal), (b"", b"", 0))
    want = (asked(db, ".dump"), text_of(journal), names_in(journal))
    shim, once, step = HOWS[name]
    step = 1 if is_all(request) else step
    faults = 0
    for at in range(first_of(step), 100_000, step):
        with tempfile.TemporaryDirectory(dir=ROOM) as folder:
            path, there = os.path.join(folder, "r.db"), os.path.join(folder, "journal")
            shutil.copytree(journal, there)
            if begin:
                copied(copy, path)
            (out, _, status), was_refused = refused_at(at, (shims[shim], once), path, there)
            faults += status != 0
            again = opened(path, there)
            found = (asked(path, ".dump"), text_of(there), names_in(there))
            if (out, again, found) != (b"", (b"", b"", 0), want):
                cases.equal(f"{at}: status {status}, then {again}", found, want)
                return
            if not was_refused:
                break
    print(f"{name}: {at} calls, {faults} openings had a fault; sample {SAMPLE}")
    cases.equal("openings had faults", faults >= (4 if shim == "refuse_malloc" else 10), True)


# Each kind of command.
KINDS = [
    *LINES[3:],
    "submit bob path=PC/8086&name=C",
    "confirm root num=4&was=A",
    "submit bob path=PD/01&name=Storage",
    "reject root num=5&reason=no",
    "account root who=eve&rank=1",
    "import root file=8086++Intel%0A%091237++440FX%0A%091238++Other%0A",
]


def rows_found(journal, db, copy):
    """The rows of the registry once it is opened with its journal, of an older copy, and of one
    that is gone."""
    found = []
    for is_lost, older in ((False, None), (True, copy), (True, None)):
        if is_lost:
            lose(db)
        if older is not None:
            copied(older, db)
        told = opened(db, journal)
        found.append(asked(db, ".dump") if told == (b"", b"", 0) else told)
    return found


@pytest.mark.parametrize("within", [None, "/r.db", "/journal"])
def test_each_kind(cases, shims, room, within):
    """The disk of both, of the registry, or of the journal stops at each call of a session of every
    kind of command: reopened, the registry has the history of all whole lines, and so has
    an older copy of it, or one that was gone."""
    first, notes, copy = (os.path.join(room, it) for it in ("first.db", "notes", "copy.db"))
    cases.equal("the first lines", opened(first, notes, LINES[:3])[2], 0)
    copied(first, copy)
    for at in range(1, 100_000):
        with tempfile.TemporaryDirectory(dir=ROOM) as folder:
            db, journal, plain = (os.path.join(folder, it) for it in ("r.db", "journal", "p.db"))
            shutil.copytree(notes, journal)
            copied(copy, db)
            words = (text_from(KINDS), "script", "--db", db, "--journal", journal)
            told, was_refused = run_refusing(shims["refuse_disk"], at, *words, within=within)
            out, _, status = told
            found = rows_found(journal, db, copy)
            work(text_of(journal), "script", "--db", plain)
            want = asked(plain, ".dump")
            lines = text_of(journal).count(b"# time=") - 3
            answered = [it for it in out.splitlines() if it[:10] not in FAULTS]
            name = f"{at}: status {status}, {len(answered)} answered, {lines} lines"
            is_counted = len(answered) <= lines <= len(answered) + 1
            cases.equal(name, (found == [want] * 3, is_counted), (True, True))
            if not was_refused:
                break
    cases.equal("the whole session", (status, lines), (0, len(KINDS)))
    cases.equal("accepted", sum(it.startswith(b"ok") for it in answered), len(KINDS) - 1)
    print(f"{within or 'both'}: {at - 1} calls refused, one in each run")
    cases.equal("calls were refused", at > 30, True)


def test_marks(cases, shims):
    """A command whose line is cut off again leaves the marks above it, which a standby has seen."""
    cuts = 0
    for at in range(1, 100_000):
        with tempfile.TemporaryDirectory(dir=ROOM) as folder:
            db, journal = os.path.join(folder, "r.db"), os.path.join(folder, "journal")
            cases.equal("the first lines", opened(db, journal, LINES[:3])[2], 0)
            before = text_of(journal)
            how = (shims["refuse_disk"], EIO)
            (out, _, _), was_refused = refused_at(at, how, db, journal, LINES[3:])
            after = text_of(journal)
            cases.equal(f"{at}: what was there", after[: len(before)], before)
            if not was_refused:
                break
            replies = out.decode().split("\n")
            if "refused 17 Store" not in replies:
                continue
            entries, obeyed = after.count(b"# time="), 3 + replies.index("refused 17 Store")
            if entries == obeyed:
                # The line was cut off, and not what is above it.
                cuts += 1
                cases.equal(f"{at}: marks", after.count(b"\n\n"), entries)
    print(f"{at} calls, {cuts} lines cut off")
    cases.equal("lines were cut off", cuts >= 4, True)


def test_within_a_gap(cases, room):
    """A registry that stands within an old gap is refused, and nothing is changed: another segment
    there would leave out those after it."""
    db, journal, copy = (os.path.join(room, it) for it in ("r.db", "journal", "copy.db"))
    cases.equal("with the journal", opened(db, journal, LINES[:2])[2], 0)
    cases.equal("without", work(text_from(LINES[2:3]), "script", "--db", db)[2], 0)
    copied(db, copy)
    cases.equal("still without", work(text_from(LINES[3:5]), "script", "--db", db)[2], 0)
    told = opened(db, journal, LINES[5:6])
    cases.equal("a gap", told, (b"ok\n", b"journal: gap\n", 0))
    cases.equal("the segments", len(names_in(journal)), 2)
    copied(copy, db)
    rows, text = asked(copy, ".dump"), text_of(journal)
    told = opened(db, journal, LINES[7:8])
    cases.equal("refused", told, (b"", b"journal: Missing\n", 3))
    cases.equal("nothing is changed", (asked(db, ".dump"), text_of(journal)), (rows, text))
