"""deploy/lib/follow and deploy/lib/journal by themselves: segments that a test writes, and a
program of a few lines that stands for `pciids`. Whatever is cut, killed or written anew, the
standby obeys each command that has ended once, in order, and no other."""
import contextlib
import gzip
import os
import random
import signal
import subprocess
import time

import program
from journal_room import LIB, Main, journal, name_of, read

PATIENCE = 60

# Stands for the program: its registry is the list of the lines that it obeyed. Opened with a
# journal it obeys those that it lacks. Each line is a revision.
PROGRAM = """#!/usr/bin/python3
import os, re, sys
words = dict(zip(sys.argv[2::2], sys.argv[3::2]))
registry, folder = words["--db"], words.get("--journal")
def lines_of(path):
    try:
        with open(path, "rb") as file:
            return [it for it in file.read().split(b"\\n") if it and it[:1] != b"#"]
    except FileNotFoundError:
        return []
done = lines_of(registry)
with open(registry, "ab", buffering=0) as file:
    if folder:
        names = sorted(it for it in os.listdir(folder) if re.fullmatch(r"[0-9]{20}\\.script", it))
        text = [it for name in names for it in lines_of(os.path.join(folder, name))]
        if text[:len(done)] != done[:len(text)]:
            sys.exit("journal: Another")
        file.write(b"".join(it + b"\\n" for it in text[len(done):]))
        # As the program does after a long segment.
        open(os.path.join(folder, f"{len(text):020}.script"), "ab").close()
    for line in sys.stdin.buffer:
        file.write(line)
        print("ok", flush=True)
"""
# Stands for ssh: the host is a folder beside it. While the file `cut` is there nobody answers;
# `torn` cuts the connection in the midst of what is sent.
SHELL = """#!/bin/sh
cd "${0%/*}/$1" || exit 1
shift
[ ! -e ../cut ] || exit 255
[ ! -e ../torn ] || { rm ../torn; timeout -s KILL 0.03 "$@"; exit 255; }
exec "$@"
"""


class Standby:
    def __init__(self, folder, main):
        self.main, self.folder = main, folder
        self.journal, self.registry = (os.path.join(folder, it) for it in ("journal", "registry"))
        os.mkdir(self.journal)
        self.program, self.shell = (os.path.join(folder, it) for it in ("program", "shell"))
        for path, text in ((self.program, PROGRAM), (self.shell, SHELL)):
            with open(path, "w", encoding="utf-8") as file:
                file.write(text)
            os.chmod(path, 0o755)
        self.process = None
        program.AT_END.append(self.kill)

    def start(self):
        main = os.path.basename(self.main.folder)
        words = [os.path.join(LIB, "follow"), main, self.journal, self.registry]
        with open(os.path.join(self.folder, "said"), "ab") as said:
            self.process = subprocess.Popen(
                [*words, self.program], start_new_session=True, stdout=said, stderr=said,
                env=dict(os.environ, RSYNC_RSH=self.shell, PCIIDS_PAUSE="0.02"))

    def kill(self):
        """Ends it and all that it has started, as a unit does."""
        with contextlib.suppress(ProcessLookupError):
            os.killpg(self.process.pid, signal.SIGKILL)
        self.process.wait(timeout=PATIENCE)

    def obeyed(self):
        if not os.path.exists(self.registry):
            return []
        with open(self.registry, "rb") as file:
            return file.read().splitlines()

    def has_all(self):
        end = time.monotonic() + PATIENCE
        while self.obeyed() != self.main.ended and time.monotonic() < end:
            if self.process.poll() is not None:
                break
            time.sleep(0.02)
        return self.obeyed() == self.main.ended

    def said(self):
        with open(os.path.join(self.folder, "said"), encoding="utf-8") as file:
            return file.read()


def step(main, folder):
    """One of the things that happen to a journal and to a connection."""
    what = random.choice(("line",) * 8 + ("cut", "begin", "away", "torn", "doubt"))
    if what == "line":
        main.line()
    elif what == "cut":
        main.cut()
    elif what == "begin":
        main.begin()
    elif what == "away":
        path = os.path.join(folder, "cut")
        open(path, "w").close()
        time.sleep(0.05)
        os.remove(path)
    elif what == "torn":
        open(os.path.join(folder, "torn"), "w").close()
    else:
        # The main machine was killed in a command, and obeyed it at its next start.
        main.line(is_ended=False)
        main.ended.append(b"comment root num=%d&text=a" % (main.count - 1))
        if random.random() < 0.5:
            main.begin()
    time.sleep(random.uniform(0, 0.03))


def test_followed(cases, folder):
    """Each command that has ended once, in order, over kills of the standby and all of `step`."""
    program.need("rsync")
    seed = int(os.environ.get("PCIIDS_SAMPLE") or time.time())
    random.seed(seed)
    main = Main(os.path.join(folder, "main"))
    standby = Standby(folder, main)
    for number in range(6):
        standby.start()
        for _ in range(30):
            step(main, folder)
            if standby.process.poll() is not None:
                standby.kill()
                standby.start()
        if number % 3 == 0:
            main.line()
            main.line()
            cases.equal(f"following: all of it, {number} of {seed}", standby.has_all(), True)
        standby.kill()
        got = standby.obeyed()
        cases.equal(f"following: in order, {number} of {seed}", got, main.ended[:len(got)])
    standby.start()
    main.line()
    cases.equal(f"following: at the end, of {seed}", standby.has_all(), True)
    standby.kill()


def test_not_ended(cases, folder):
    """A line waits for its mark; an end of the folder's own, and an epoch that is another one."""
    program.need("rsync")
    main = Main(os.path.join(folder, "main"))
    open(os.path.join(main.folder, "epoch.1"), "w").close()
    standby = Standby(folder, main)
    standby.start()
    main.line()
    cases.equal("following: a line that has ended", standby.has_all(), True)
    main.line(is_ended=False)
    time.sleep(0.5)
    cases.equal("following: one that has not", len(standby.obeyed()), 1)
    main.write(b"\n")
    main.ended.append(b"comment root num=1&text=a")
    cases.equal("following: now it has", standby.has_all(), True)
    standby.kill()
    # One that is cut off on the main machine while the standby begins.
    before = os.path.getsize(main.path)
    main.line(is_ended=False)
    standby.start()
    started = lambda: standby.said().count("follows main") >= 2
    end = time.monotonic() + PATIENCE
    while not started() and time.monotonic() < end:
        time.sleep(0.02)
    cases.equal("following: one that has not, at the start", len(standby.obeyed()), 2)
    os.truncate(main.path, before)
    main.line()
    main.line()
    cases.equal("following: others in its place", standby.has_all(), True)
    time.sleep(0.3)
    cases.equal("following: each of them once", standby.obeyed(), main.ended)
    os.rename(os.path.join(main.folder, "epoch.1"), os.path.join(main.folder, "epoch.2"))
    status = standby.process.wait(timeout=PATIENCE)
    got = status, "the main registry was restored" in standby.said()
    cases.equal("following: another epoch", got, (2, True))
    with open(standby.registry, "wb") as file:
        file.write(b"another\n")
    os.remove(os.path.join(standby.journal, "epoch.1"))
    standby.start()
    status = standby.process.wait(timeout=PATIENCE)
    got = status, "journal: Another: the registry here" in standby.said()
    cases.equal("following: another registry's journal", got, (2, True))


def test_cut(cases, folder):
    """The lines up to a moment, of segments that are packed or not."""
    main = Main(os.path.join(folder, "main"))
    for _ in range(3):
        for _ in range(4):
            main.line()
        main.begin()
    whole = [read(main.folder, name_of(it)) for it in (0, 4, 8)]
    with gzip.open(os.path.join(main.folder, name_of(4, ".gz")), "wb") as file:
        file.write(whole[1])
    os.remove(os.path.join(main.folder, name_of(4)))
    open(os.path.join(main.folder, "epoch.1"), "w").close()

    def same(name, words, want):
        to = os.path.join(folder, name)
        cases.equal(f"cut: {name}", journal("cut", main.folder, to, *words), (0, "", ""))
        got = {it: read(to, it) for it in sorted(os.listdir(to))}
        cases.equal(f"cut: what is {name}", got, want)

    all_of_them = {name_of(at): text for at, text in zip((0, 4, 8), whole)}
    same("all", ["", "9999"], {**all_of_them, name_of(12): b""})
    same("without an end", [""], {**all_of_them, name_of(12): b""})
    end = whole[1].index(b"# time=1006")
    half = {name_of(0): whole[0], name_of(4): whole[1][:end]}
    same("within a packed one", ["", "1005"], half)
    same("from a later one on", [name_of(4), "1005"], half)
    packed = read(main.folder, name_of(4, ".gz"))
    later = {name_of(0): whole[0], name_of(4, ".gz"): packed, name_of(8): b""}
    same("before a later one", [name_of(8), "1007"], later)
    same("before all", ["", "999"], {name_of(0): b""})
    main.line(is_ended=False)
    same("a line that has not ended", [""], {**all_of_them, name_of(12): b""})
    main.write(b"# time=5&revision=9")
    same("a torn one", [""], {**all_of_them, name_of(12): b""})
    main.write(b"\n\n\n")
    got = journal("last", main.folder)[1].split()[:2]
    cases.equal("last: the line", got, ["1970-01-01T00:16:52Z", "revision=12"])


def test_end(cases, folder):
    """The last segment ends once a command was accepted in it and the last one has ended."""
    main = Main(os.path.join(folder, "main"))

    def same(name, *want):
        status = journal("end", main.folder)
        cases.equal(f"end: {name}", status, (0, "", ""))
        got = sorted(os.listdir(main.folder))
        cases.equal(f"end: what is there, {name}", got, [name_of(at) for at in want])

    same("nothing was accepted", 0)
    main.line()
    same("one command", 0, 1)
    same("again", 0, 1)
    main.begin()
    main.line()
    main.line(is_ended=False)
    same("one is in doubt", 0, 1)
    main.write(b"# ended&revision=3&accounts=1&items=0&submissions=0\n\n")
    same("two commands", 0, 1, 3)
    os.mkdir(os.path.join(folder, "empty"))
    cases.equal("end: no segment", journal("end", os.path.join(folder, "empty")), (0, "", ""))


def test_packed(cases, folder):
    """Segments are packed, and those go that are old and that no copy needs."""
    main, copies = Main(os.path.join(folder, "main")), os.path.join(folder, "copies")
    os.mkdir(copies)
    now = time.time()
    for at, days in ((0, 90), (4, 70), (8, 61), (12, 3), (16, 1), (20, 90)):
        for _ in range(4):
            main.line()
        os.utime(main.path, (now - days * 86_400,) * 2)
        if at < 20:
            main.begin()
    texts = [read(main.folder, name_of(it)) for it in range(0, 24, 4)]

    def same(name, want):
        status, _, told = journal("pack", main.folder, copies, "60")
        cases.equal(f"pack: {name}", (status, told, sorted(os.listdir(main.folder))), (0, "", want))

    packed = [name_of(at, ".gz") for at in (0, 4, 8, 12)]
    plain = [name_of(16), name_of(20)]
    same("no copy", packed + plain)
    cases.equal("pack: what is in it", gzip.decompress(read(main.folder, packed[1])), texts[1])
    for it in ("2026-01-01T000000Z", "2026-02-01T000000Z"):
        os.mkdir(os.path.join(copies, it))
    with open(os.path.join(copies, "2026-02-01T000000Z", "segment"), "w") as file:
        file.write(name_of(8) + "\n")
    same("a copy that does not say what it needs", packed + plain)
    with open(os.path.join(copies, "2026-01-01T000000Z", "segment"), "w") as file:
        file.write(name_of(4) + "\n")
    same("two that do", packed[1:] + plain)
    os.remove(os.path.join(copies, "2026-01-01T000000Z", "segment"))
    os.rmdir(os.path.join(copies, "2026-01-01T000000Z"))
    same("the older one is gone", packed[2:] + plain)
    with open(os.path.join(copies, "2026-02-01T000000Z", "segment"), "w") as file:
        file.write(name_of(20) + "\n")
    same("a late one", [packed[3], *plain])
