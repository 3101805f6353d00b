"""A registry with `--journal`: the line of each command, a registry that is lost or restored from
an older copy, journals that do not fit, and a journal that cannot be written."""
import os
import re
import shutil
import time
import urllib.parse

import pytest

from disks import small_disk
from http_server import Server, free_port
from journal_room import lose, names_in, text_of
from program import HEADER, WHOLE
from registry import asked, script, work

pytestmark = pytest.mark.needs("sqlite3")

# Each kind of command, accepted, with its reply.
COMMANDS = [
    ("account root who=bob&rank=2", "ok"),
    ("import bob file=8086++Intel%0A%091237++440FX%0A&key=i1", "ok added=2 renamed=0 same=0"),
    ("submit bob path=PC/8086&name=%E2%82%AC+%26+%2B%25&note=a+note&key=s1", "ok 1"),
    ("submit bob path=PC/8086/1237&remove=yes", "ok 2"),
    ("comment root num=1&text=seen", "ok"),
    ("withdraw bob num=2", "ok"),
    ("confirm root num=1&was=Intel", "ok"),
    ("submit bob path=PD/01&name=Storage", "ok 3"),
    ("reject bob num=3&reason=no", "refused 10 OwnDecision"),
    ("reject root num=3&reason=no+such+class", "ok"),
    ("submit root path=PS/1af4/1100&name=Card", "ok 4"),
    ("approve bob num=4", "refused 11 ParentMissing"),
    ("confirm bob num=4&was=", "refused 11 ParentMissing"),
]
TEXT = "".join(line + "\n" for line, _ in COMMANDS).encode()
REPLIES = "".join(reply + "\n" for _, reply in COMMANDS).encode()
# Lines as the URL Standard writes forms (section 5.2), in which a slash is %2F: a command of each
# kind, one that is repeated under its key, and one that is refused.
FORMS = """\
account root who=bob&rank=1
import root file=8086++Intel%0A%091237++440FX%0A&key=one
import root file=8086++Intel%0A%091237++440FX%0A&key=one
submit bob path=PC%2F8086&name=Intel+Corp.&note=caf%C3%A9+%26+tea
submit bob path=PC%2F8086%2F1237&remove=yes&note=
comment bob num=1&text=a%25b
withdraw bob num=2
approve root num=1
submit bob path=PC%2F8086%2F7000&name=A+bridge&note=
confirm root num=3&was=
submit bob path=PC%2F8086%2F7000&name=Another&note=
confirm root num=4&was=A+bridge
submit bob path=PC%2F8086%2F7000&name=No&note=
reject root num=5&reason=no
approve root num=5
"""
COUNTS = r"revision=(\d+)&accounts=(\d+)&items=(\d+)&submissions=(\d+)"
NOTE = re.compile(r"# time=(\d+)&" + COUNTS)
ENDED = re.compile(r"# ended&" + COUNTS)


def journaled(text, db, journal, **how):
    return work(text, "script", "--db", db, "--journal", journal, **how)


def lines_of(journal):
    """The lines of commands."""
    lines = text_of(journal).decode().splitlines()
    return [line for line in lines if line and not line.startswith("#")]


def meant(line):
    """A line without the order of its fields and the way in which they are encoded."""
    word, account, fields = line.split(" ")
    given = dict(urllib.parse.parse_qsl(fields, keep_blank_values=True))
    if word == "submit":
        given.setdefault("note", "")
    return word, account, sorted(given.items())


def rows(path):
    return asked(path, ".dump")


def test_lines(cases, folder):
    """Each kind of command has its line, below a comment with the time and the counts before it,
    and above its mark with those after it."""
    db, journal = os.path.join(folder, "r.db"), os.path.join(folder, "journal")
    begun = int(time.time())
    cases.equal("the replies", journaled(TEXT, db, journal), (REPLIES, b"", 0))
    cases.equal("the segments", names_in(journal), ["0" * 20 + ".script"])
    want = [meant(line) for line, _ in COMMANDS]
    cases.equal("the lines", [meant(line) for line in lines_of(journal)], want)
    text = text_of(journal).decode()
    notes = [NOTE.fullmatch(it) for it in text.splitlines() if it.startswith("# time")]
    cases.equal("a comment for each", len(notes), len(COMMANDS))
    times = [int(it.group(1)) for it in notes]
    cases.equal("times", begun <= min(times) <= max(times) <= time.time(), True)
    cases.equal("the first counts", notes[0].groups()[1:], ("0", "1", "0", "0"))
    cases.equal("the last counts", notes[-1].groups()[1:4], ("10", "2", "2"))
    marks = [ENDED.fullmatch(it).groups() for it in text.splitlines() if it.startswith("# ended")]
    cases.equal("a mark for each", text.count("\n\n"), len(COMMANDS))
    cases.equal("the counts of marks", marks, [it.groups()[1:] for it in notes[1:]] + [marks[-1]])


def test_forms(cases, folder):
    """Each line has its fields in one order and one form, whichever they came in."""
    db, journal = os.path.join(folder, "r.db"), os.path.join(folder, "journal")
    text = FORMS.replace("%2F", "/").replace("&note=\n", "\n").encode()
    told, _, status = journaled(text, db, journal)
    cases.equal("the last one is refused", (told[-21:], status), (b"refused 8 NotPending\n", 0))
    cases.equal("the lines", lines_of(journal), FORMS.splitlines())


def test_as_a_script(cases, folder):
    """The text of a journal is a script that makes the same registry, row by row."""
    db, journal, copy = (os.path.join(folder, it) for it in ("r.db", "journal", "copy.db"))
    cases.equal("the replies", journaled(TEXT, db, journal), (REPLIES, b"", 0))
    cases.equal("as a script", work(text_of(journal), "script", "--db", copy), (REPLIES, b"", 0))
    cases.equal("the rows", rows(copy), rows(db))
    want = HEADER + "8086  € & +%\n\t1237  440FX\n".encode()
    told = work(b"export\n", "script", "--journal", journal)
    cases.equal("in memory", told, (want, b"", 0))


def test_no_lines(cases, folder):
    """Questions have no line, and neither has a command that breaks its form or a file that is not
    UTF-8; one that is refused for another reason has one."""
    db, journal, ids = (os.path.join(folder, it) for it in ("r.db", "journal", "ids"))
    text = b"export\nread path=PC/8086\naccount root who=bob&rank=9\nsubmit root path=PC/8086\n"
    told = HEADER + b"refused 25 NoItem\nrefused 3 BadText\nrefused 3 BadText\n"
    cases.equal("questions and bad forms", journaled(text, db, journal), (told, b"", 0))
    cases.equal("no line", lines_of(journal), [])
    with open(ids, "wb") as file:
        file.write(b"8086  \xff\n")
    words = ("import", "--db", db, "--account", "root", ids)
    without = work(b"", *words)
    refused = b"refused 14 FileFault line=1 kind=1 NotUtf8\n"
    cases.equal("without a journal", without, (refused, b"", 1))
    cases.equal("not UTF-8", work(b"", *words, "--journal", journal), without)
    cases.equal("still no line", lines_of(journal), [])
    told = journaled(b"approve root num=1\n", db, journal)
    cases.equal("no submission", told, (b"refused 7 NoSubmission\n", b"", 0))
    cases.equal("its line", lines_of(journal), ["approve root num=1"])
    with open(ids, "wb") as file:
        file.write(b"8086  Intel\n")
    told = work(b"", *words, "--journal", journal, "--key", "k1")
    cases.equal("an import", told, (b"ok added=1 renamed=0 same=0\n", b"", 0))
    want = ("import", "root", [("file", "8086  Intel\n"), ("key", "k1")])
    cases.equal("its line", meant(lines_of(journal)[-1]), want)


def copies_of(cases, db, journal):
    """Gives the commands one by one, and copies the registry before the first and after each."""
    copies = [None]
    for number, (line, reply) in enumerate(COMMANDS):
        told = journaled(line.encode() + b"\n", db, journal)
        cases.equal(f"line {number}", told, (reply.encode() + b"\n", b"", 0))
        copies.append(f"{db}.copy{number}")
        shutil.copy(db, copies[-1])
    return copies


def opened_on(copy, db, journal):
    """What a registry that is a copy, or gone, shows once it was opened with the journal."""
    lose(db)
    if copy:
        shutil.copy(copy, db)
    told = journaled(b"", db, journal)
    return rows(db) if told == (b"", b"", 0) else told


def test_restored(cases, folder):
    """A registry that is lost, or restored from any older copy, has every command again."""
    db, journal = os.path.join(folder, "r.db"), os.path.join(folder, "journal")
    copies = copies_of(cases, db, journal)
    want, text = rows(db), text_of(journal)
    for copy in copies:
        cases.equal(f"the rows from {copy}", opened_on(copy, db, journal), want)
    cases.equal("the journal", text_of(journal), text)
    mark = text[text.rindex(b"# ended") :]
    (path,) = (os.path.join(journal, it) for it in names_in(journal))
    for less in (2, 20, len(mark)):
        os.truncate(path, len(text) - less)
        cases.equal(f"a mark without {less} bytes", opened_on(copies[-1], db, journal), want)
        cases.equal("is written again", text_of(journal), text)


def segments(journal, *parts):
    """A journal of these parts of a text, each a list of entries, and its path."""
    os.mkdir(journal)
    for part in parts:
        begin = int(NOTE.match(part[0].decode()).group(2))
        with open(os.path.join(journal, f"{begin:020}.script"), "wb") as file:
            file.write(b"".join(part))
    return journal


def test_segments(cases, folder):
    """Segments are obeyed in turn, from the one in which the registry stands; those before it may
    be gone, and none between them."""
    db, whole = os.path.join(folder, "r.db"), os.path.join(folder, "journal")
    copies = copies_of(cases, db, whole)
    want, text = rows(db), text_of(whole)
    entries = [it + b"\n\n" for it in text.split(b"\n\n")[:-1]]
    for cut in range(1, len(entries)):
        there = segments(os.path.join(folder, f"at {cut}"), entries[:cut], entries[cut:])
        for copy in (copies[0], copies[1], copies[cut], copies[-1]):
            found = opened_on(copy, db, there), text_of(there)
            cases.equal(f"two segments, cut at {cut}, {copy}", found, (want, text))
        os.remove(os.path.join(there, names_in(there)[0]))
        cases.equal(f"the first of them gone, {cut}", opened_on(copies[cut], db, there), want)
    hole = segments(os.path.join(folder, "hole"), entries[:1], entries[4:])
    missing = (b"", b"journal: Missing\n", 3)
    cases.equal("a hole", opened_on(None, db, hole), missing)
    cases.equal("two segments still", len(names_in(hole)), 2)


def bring_in(db, journal, account, text):
    ids = db + ".ids"
    with open(ids, "wb") as file:
        file.write(text)
    return work(b"", "import", "--db", db, "--account", account, ids, "--journal", journal)


def test_new_segments(cases, folder):
    """A journal begins where its registry stands. A new segment begins after one that is longer
    than 1 MiB, unless no command was accepted in it."""
    db, journal, other = (os.path.join(folder, it) for it in ("r.db", "journal", "other"))
    names = [f"account root who=u{number}&rank=0" for number in range(6)]
    cases.equal("without a journal", script(db, *names[:3])[2], 0)
    cases.equal("a new one", journaled(b"", db, journal), (b"", b"", 0))
    cases.equal("begins there", names_in(journal), [f"{3:020}.script"])
    cases.equal("without it", script(db, *names[3:])[2], 0)
    cases.equal("a gap after none", journaled(b"", db, journal), (b"", b"journal: gap\n", 0))
    cases.equal("its segment", names_in(journal)[1:], [f"{6:020}.script"])
    long = b"#" * 400_000
    refused = (b"refused 4 NoAccount\n", b"", 1)
    cases.equal("refused", bring_in(db, other, "nobody", long), refused)
    cases.equal("longer than 1 MiB", len(text_of(other)) > 1_048_576, True)
    cases.equal("opened", journaled(b"", db, other), (b"", b"", 0))
    cases.equal("no new segment", names_in(other), [f"{6:020}.script"])
    added = (b"ok added=0 renamed=0 same=0\n", b"", 0)
    cases.equal("accepted", bring_in(db, other, "root", long), added)
    cases.equal("opened again", journaled(b"", db, other), (b"", b"", 0))
    cases.equal("a new segment", names_in(other)[1:], [f"{7:020}.script"])


def test_long_lines(cases, folder):
    """A line that is longer than one read of its segment is obeyed; what is longer than any line of
    a script is not cut off."""
    db, journal = os.path.join(folder, "r.db"), os.path.join(folder, "journal")
    lines = b"".join(b"account root who=u%d&rank=0\n" % number for number in range(1_000))
    cases.equal("short ones", journaled(lines, db, journal), (b"ok\n" * 1_000, b"", 0))
    text = b"".join(b"%04x  %s\n" % (number, b"a" * 900) for number in range(300))
    added = (b"ok added=300 renamed=0 same=0\n", b"", 0)
    cases.equal("a long one", bring_in(db, journal, "root", text), added)
    cases.equal("short again", journaled(b"submit u1 path=PC/ffff&name=A\n", db, journal)[2], 0)
    want, size = rows(db), len(text_of(journal))
    cases.equal("obeyed again", opened_on(None, db, journal), want)
    (path,) = (os.path.join(journal, it) for it in names_in(journal))
    os.truncate(path, size + 16_777_218)
    cases.equal("too long", journaled(b"", db, journal), (b"", b"journal: failed\n", 3))
    cases.equal("it stays", os.path.getsize(path), size + 16_777_218)
    os.truncate(path, size + 16_777_217)
    cases.equal("not too long", opened_on(None, db, journal), want)
    cases.equal("it is cut off", os.path.getsize(path), size)


def test_in_doubt(cases, folder):
    """A last line that is whole is obeyed once; one that is not is cut off."""
    db, journal = os.path.join(folder, "r.db"), os.path.join(folder, "journal")
    cases.equal("begun", journaled(b"account root who=bob&rank=1\n", db, journal)[2], 0)
    before = text_of(journal)
    note = b"# time=1&revision=1&accounts=2&items=0&submissions=0\n"
    mark = b"# ended&revision=1&accounts=2&items=0&submissions=0\n\n"
    line = b"submit bob path=PC/8086&name=Intel&note=\n"
    path = os.path.join(folder, "journal", names_in(journal)[0])
    for length in (1, len(note), len(note) + 5, len(note) + len(line) - 1):
        with open(path, "ab") as file:
            file.write((note + line)[:length])
        cases.equal(f"{length} bytes of it", journaled(b"", db, journal), (b"", b"", 0))
        cases.equal("nothing was obeyed", asked(db, "SELECT count(*) FROM submission"), "0\n")
        # A comment that is whole stays, with its mark.
        kept = before + (note + mark if length >= len(note) else b"")
        cases.equal("they are cut off", text_of(journal), kept)
        with open(path, "wb") as file:
            file.write(before)
    with open(path, "ab") as file:
        file.write(note + line)
    for _ in range(2):
        cases.equal("a whole line", journaled(b"", db, journal), (b"", b"", 0))
        cases.equal("is obeyed once", asked(db, "SELECT count(*) FROM submission"), "1\n")


def test_journals_that_do_not_fit(cases, folder):
    """Another registry's journal is refused and nothing is written; after commands without the
    journal it goes on after a gap; one without its beginning is refused."""
    db, journal, other = (os.path.join(folder, it) for it in ("r.db", "journal", "other.db"))
    cases.equal("begun", journaled(TEXT, db, journal), (REPLIES, b"", 0))
    lines = [f"account root who=u{number}&rank=0" for number in range(3)]
    cases.equal("another registry", script(other, *lines)[2], 0)
    text, found = text_of(journal), rows(other)
    words = ("export", *(f"account root who=v{number}&rank=0" for number in range(3)))
    told = journaled("".join(it + "\n" for it in words).encode(), other, journal)
    cases.equal("another registry's", told, (b"", b"journal: Another\n", 3))
    cases.equal("as they were", (text_of(journal), rows(other)), (text, found))
    last = os.path.join(folder, "last")
    words = b"account root who=bob&rank=1\nsubmit bob path=PC/8086&name=Intel\n"
    told = journaled(words, os.path.join(folder, "two.db"), last)
    cases.equal("two commands", told, (b"ok\nok 1\n", b"", 0))
    two, twin = ["account root who=bob&rank=1", "account root who=eve&rank=1"], f"{other}.twin"
    cases.equal("another registry of two", script(twin, *two)[2], 0)
    told = journaled(b"", twin, last)
    cases.equal("its last mark is another's", told, (b"", b"journal: Another\n", 3))
    words = [f"account root who={name}&rank=0" for name in ("eve", "frank")]
    cases.equal("without it", script(db, *words), (b"ok\nok\n", b"", 0))
    told = journaled(b"account root who=mallory&rank=0\n", db, journal)
    cases.equal("a gap", told, (b"ok\n", b"journal: gap\n", 0))
    names = names_in(journal)
    cases.equal("two segments", names, ["0" * 20 + ".script", f"{12:020}.script"])
    want = rows(db)
    cases.equal("after the gap", journaled(b"", db, journal), (b"", b"", 0))
    os.remove(os.path.join(journal, names[0]))
    lose(db)
    told = journaled(b"", db, journal)
    cases.equal("segments that are missing", told, (b"", b"journal: Missing\n", 3))
    cases.equal("a gap has rows", "mallory" in want, True)


def test_gap_of_one(cases, folder):
    """One command without the journal is a gap, also after a line that was refused."""
    db, journal = os.path.join(folder, "r.db"), os.path.join(folder, "journal")
    text = b"account root who=bob&rank=1\napprove root num=1\n"
    told = (b"ok\nrefused 7 NoSubmission\n", b"", 0)
    cases.equal("begun", journaled(text, db, journal), told)
    copy = os.path.join(folder, "copy.db")
    shutil.copy(db, copy)
    cases.equal("without it", script(db, "account root who=eve&rank=0"), (b"ok\n", b"", 0))
    before = text_of(journal)
    told = journaled(b"read path=PC/8086\n", db, journal)
    cases.equal("a gap", told, (b"refused 25 NoItem\n", b"journal: gap\n", 0))
    cases.equal("a segment", names_in(journal)[1:], [f"{2:020}.script"])
    cases.equal("the lines before it", text_of(journal), before)
    other, without = os.path.join(folder, "other"), os.path.join(folder, "without.db")
    cases.equal("another journal", journaled(text, without, other)[2], 0)
    cases.equal("refused without it", script(copy, "approve root num=2")[2], 0)
    cases.equal("is no gap", journaled(b"", copy, other), (b"", b"", 0))


def test_folders(cases, folder):
    """A folder that another program has, or that cannot be had, is reported by each job, before a
    fault of its other arguments; nothing is made then."""
    db, journal, other = (os.path.join(folder, it) for it in ("r.db", "journal", "other.db"))
    with Server(db, program=WHOLE, journal=journal):
        told = journaled(b"export\n", other, journal)
        cases.equal("in use", told, (b"", b"journal: failed\n", 3))
    cases.equal("free again", journaled(b"", db, journal), (b"", b"", 0))
    file = os.path.join(folder, "file")
    with open(file, "wb"):
        pass
    above = os.path.join(folder, "no", "j")
    for name, place in (("a file", file), ("no folder above", above), ("no name", "")):
        for job in (
            ("script",),
            ("import", "--account", "No Account", file),
            ("serve", "--port", str(free_port()), "--connections", "1"),
        ):
            told = work(b"export\n", *job, "--db", other, "--journal", place)
            cases.equal(f"{job[0]}: {name}", told, (b"", b"journal: failed\n", 3))
    cases.equal("no registry was made", os.path.exists(other), False)


def test_full(cases, folder):
    """A command whose line cannot be written is answered 17 and not obeyed."""
    db = os.path.join(folder, "r.db")
    with small_disk(folder, 64) as place:
        journal = os.path.join(place, "journal")
        cases.equal("begun", journaled(b"account root who=bob&rank=1\n", db, journal)[2], 0)
        note = "x" * 900
        lines = [f"submit bob path=PC/{number:04x}&name={note}" for number in range(100)]
        out, faults, status = journaled("".join(it + "\n" for it in lines).encode(), db, journal)
        replies = out.decode().splitlines()
        done = len(replies) - 1
        told = (replies[-1], faults, status)
        cases.equal("refused in the end", told, ("refused 17 Store", b"", 3))
        cases.equal("some were obeyed", 20 < done < 80, True)
        cases.equal("and no other", asked(db, "SELECT count(*) FROM submission"), f"{done}\n")
        cases.equal("nor has it a line", len(lines_of(journal)), done + 1)
        told = journaled(b"read path=PC/0000\n", db, journal)
        cases.equal("opened again", told, (b"refused 25 NoItem\n", b"", 0))
