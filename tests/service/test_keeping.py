"""deploy/lib by itself: stops and starts of the server, backups, restores.
Whatever fails or is killed, the registry is whole and the server comes back."""
import contextlib
import gzip
import os
import re
import shutil
import socket
import subprocess
import tempfile
import time

from http_server import free_port
from journal_room import LIB, Main, name_of

# Stands for the program: a registry opens where its file and its log belong together. With a
# journal it becomes the number of its last line; where there is a file `other` it does not fit.
OPENS = """#!/bin/sh
case $1 in
    script) [ ! -e "${0%/*}/other" ] || { echo 'journal: Another' >&2; exit 3; }
        last=$(cat "$5"/*.script | sed -n 's/^comment root num=//p' | tail -1)
        printf 'registry %s' "${last%%&*}" > "$3"; printf %s "${last%%&*}" > "$3-wal"; exit 0 ;;
    check) grep -c . && exit 0 ;;
    export) [ ! -e "${0%/*}/large" ] || head -c 50000000 /dev/zero | tail -c 50000000 > /dev/null
        [ "$(cat "$3")" = "registry $(cat "$3-wal")" ] && cat "$3" && exit 0 ;;
esac
exit 1
"""

# Stands for systemctl: keeps in a file whether the server runs, and in another what was asked.
SYSTEMCTL = """#!/bin/sh
cd "${0%/*}"
echo "$*" >> asked
case $1 in
    show) cat state ;;
    stop) echo inactive > state ;;
    start)
        if [ -e broken ]; then rm broken; exit 1; fi
        [ -L "$PCIIDS_RUN/stopped" ] || echo active > state ;;
esac
"""

# Stands for a tool in turn: the call with this number kills the script that makes it.
KILLS = """#!/bin/sh
echo >> "{counter}"
if [ "$(wc -l < "{counter}")" -eq {number} ]; then kill -KILL $PPID; sleep 0.1; exit 1; fi
exec {tool} "$@"
"""


def write(path, text, mode=0o644):
    with open(path, "w", encoding="utf-8") as file:
        file.write(text)
    os.chmod(path, mode)


def read(path):
    with open(path, "rb") as file:
        return file.read()


def ran(*words, tools=None, **more):
    """The status of a script, and what it printed, with other tools in front of PATH."""
    environment = dict(os.environ, **more)
    if tools:
        environment["PATH"] = tools + os.pathsep + environment["PATH"]
    done = subprocess.run(
        words, env=environment, stdout=subprocess.PIPE, stderr=subprocess.STDOUT, timeout=60
    )
    return done.returncode, done.stdout.decode(errors="replace")


def with_journal_of(folder):
    """What the settings of the service say of a journal."""
    return {"JOURNAL": f"--journal {folder}" if folder else ""}


class Held:
    """`hold` in a folder, with a server that a file stands for."""

    def __init__(self, folder, state):
        self.folder, self.run = folder, os.path.join(folder, "run")
        write(os.path.join(folder, "systemctl"), SYSTEMCTL, 0o755)
        write(os.path.join(folder, "state"), state + "\n")

    def hold(self, *words):
        return ran(os.path.join(LIB, "hold"), *words, tools=self.folder, PCIIDS_RUN=self.run)[0]

    def state(self):
        """Whether the server runs, and the marks."""
        marks = sorted(os.listdir(self.run)) if os.path.isdir(self.run) else []
        return read(os.path.join(self.folder, "state")).decode().strip(), marks


@contextlib.contextmanager
def held(state):
    with tempfile.TemporaryDirectory() as folder:
        yield Held(folder, state)


def holds(cases):
    for state in ("active", "activating", "deactivating", "reloading"):
        with held(state) as it:
            cases.equal(f"hold: taken from one that is {state}", it.hold("take", "a"), 0)
            cases.equal(f"hold: {state}, stopped", it.state(), ("inactive", ["stopped"]))
            cases.equal(f"hold: {state}, released", it.hold("release", "a"), 0)
            cases.equal(f"hold: {state}, running", it.state(), ("active", []))
            got = (it.hold("release", "a"), it.state())
            cases.equal("hold: released once more", got, (0, ("active", [])))
    for state in ("inactive", "failed"):
        with held(state) as it:
            it.hold("take", "a")
            it.hold("release", "a")
            cases.equal(f"hold: a server that was {state} stays so", it.state(), ("inactive", []))
    with held("active") as it:
        it.hold("take", "a")
        cases.equal("hold: a second job", (it.hold("take", "b"), it.hold("release", "b")), (1, 0))
        cases.equal("hold: the first one's hold", it.state(), ("inactive", ["stopped"]))
    with held("active") as it:
        it.hold("take", "a")
        write(os.path.join(it.folder, "broken"), "")
        cases.equal("hold: a start that fails", it.hold("release", "a"), 1)
        got = (it.hold("release", "a"), it.state())
        cases.equal("hold: the next release starts it", got, (0, ("active", [])))
    # Whichever tool kills `take` or `release`, a `release` afterwards leaves a running server.
    for number in range(1, 12):
        with held("active") as it:
            killed = killing(it.folder, ("ln", "mv", "mkdir", "rm", "readlink"), number)
            it.hold("take", "a")
            it.hold("release", "a")
            is_over = not killed()
            it.hold("release", "a")
            # Killed at its very beginning, nothing was stopped.
            cases.equal(f"hold: killed at its call {number}", it.state(), ("active", []))
        if is_over:
            break
    cases.equal("hold: every call was tried", is_over, True)


def killing(folder, tools, number):
    """Puts tools into a folder, of which the call with this number kills its script. Returns a
    function: whether it did."""
    counter = os.path.join(folder, "counter")
    write(counter, "")
    for tool in tools:
        real = shutil.which(tool)
        script = KILLS.format(counter=counter, number=number, tool=real)
        write(os.path.join(folder, tool), script, 0o755)

    def has_killed():
        for tool in tools:
            os.remove(os.path.join(folder, tool))
        return len(read(counter)) >= number

    return has_killed


class Room:
    """A registry, its copies and the folder of its mirror; another program stands for pciids."""

    def __init__(self, folder):
        self.folder = folder
        names = ("registry", "copies", "mirror", "public", "tools")
        self.registry, self.copies, self.mirror, self.public, self.tools = (
            os.path.join(folder, name) for name in names
        )
        for name in names:
            os.mkdir(os.path.join(folder, name))
        write(os.path.join(self.public, "pci.ids"), "published")
        self.program = os.path.join(folder, "program")
        write(self.program, OPENS, 0o755)
        self.set("one")
        write(os.path.join(self.registry, "epoch"), "former")

    def has_epoch(self):
        return os.path.exists(os.path.join(self.registry, "epoch"))

    def set(self, text):
        write(os.path.join(self.registry, "registry.db"), f"registry {text}")
        write(os.path.join(self.registry, "registry.db-wal"), text)

    def now(self):
        """The registry's file and its log."""
        names = ("registry.db", "registry.db-wal")
        return tuple(read(os.path.join(self.registry, it)) for it in names)

    def copy(self, journal=None):
        words = os.path.join(LIB, "backup"), "copy", self.registry, self.copies
        return ran(*words, tools=self.tools, **with_journal_of(journal))

    def keep(self, number, most=""):
        words = ("keep", self.copies, str(number), most, self.program)
        return ran(os.path.join(LIB, "backup"), *words, tools=self.tools)

    def kept(self):
        return sorted(it for it in os.listdir(self.copies) if it.startswith("2"))

    def restore(self, *words, journal=None):
        words = os.path.join(LIB, "restore"), *words
        return ran(*words, tools=self.tools, **with_journal_of(journal))

    def swap(self, journal=None):
        return self.restore("swap", self.registry, self.mirror, self.public, journal=journal)

    def prepare(self, name, journal=None):
        path = os.path.join(self.copies, name)
        return self.restore("prepare", path, self.registry, self.program, journal=journal)


@contextlib.contextmanager
def room():
    with tempfile.TemporaryDirectory() as folder:
        yield Room(folder)


ONE, TWO = (b"registry one", b"one"), (b"registry two", b"two")


def backups(cases):
    with room() as it:
        cases.equal("backup: copied", it.copy()[0], 0)
        status, told = it.keep(2)
        cases.equal("backup: kept", (status, told.startswith("kept ")), (0, True))
        first = it.kept()[0]
        files = {name: gzip.decompress(read(os.path.join(it.copies, first, name)))
                 for name in os.listdir(os.path.join(it.copies, first))}
        want = {"registry.db.gz": ONE[0], "registry.db-wal.gz": ONE[1], "pci.ids.gz": ONE[0]}
        cases.equal("backup: what is kept", files, want)
        cases.equal("backup: the registry is as before", it.now(), ONE)
        for year in (1990, 1991):
            os.mkdir(os.path.join(it.copies, f"2{year}-01-01T000000Z"))
        os.mkdir(os.path.join(it.copies, "mine"))
        os.mkdir(os.path.join(it.copies, "new.left"))
        time.sleep(1.1)
        it.copy()
        it.keep(2)
        left = sorted(os.listdir(it.copies))
        cases.equal("backup: the newest two are kept, and what is not its own", left[-1], "mine")
        cases.equal("backup: so many", len(it.kept()), 2)
        write(os.path.join(it.registry, "registry.db-wal"), "torn")
        before = it.kept()
        it.copy()
        got = (it.keep(1)[0], it.kept())
        cases.equal("backup: one that does not open is not kept", got, (1, before))
        cases.equal("backup: nothing was copied", it.keep(1)[0], 1)
    history(cases)
    large(cases)
    odd_files(cases)
    broken_tools(cases)


def history(cases):
    """The history of the published folder is in a copy, if there is one."""
    with room() as it:
        public = os.path.join(it.folder, "public")
        words = (os.path.join(LIB, "backup"), "history", public, it.copies)
        cases.equal("backup: a history without a copy", ran(*words)[0], 1)
        it.copy()
        cases.equal("backup: no history", ran(*words), (0, ""))
        for name in ("history/2026-11.jsonl", "history/.names", "feeds/.id"):
            os.makedirs(os.path.join(public, os.path.dirname(name)), exist_ok=True)
            write(os.path.join(public, name), name)
        cases.equal("backup: a history", (ran(*words), it.keep(2)[0]), ((0, ""), 0))
        place = os.path.join(it.copies, it.kept()[0], "history.tar.gz")
        status, told = ran("tar", "-tzf", place)
        files = sorted(name for name in told.split() if not name.endswith("/"))
        cases.equal("backup: its files", (status, files), (
            0, ["feeds/.id", "history/.names", "history/2026-11.jsonl"]))


def large(cases):
    """A registry that takes much memory to open is kept, and the operator hears of it."""
    with room() as it:
        it.copy()
        cases.equal("backup: within its memory", it.keep(5, "30")[0], 0)
        write(os.path.join(it.folder, "large"), "")
        for most, want in (("400", 0), ("30", 1)):
            time.sleep(1.1)
            it.copy()
            status, told = it.keep(5, most)
            is_told = bool(re.search(r"took \d+ MB of memory, more than 30: ", told))
            cases.equal(f"backup: a large one, {most} MB", (status, is_told), (want, want == 1))
        cases.equal("backup: each is kept", len(it.kept()), 3)
        files = ["pci.ids.gz", "registry.db-wal.gz", "registry.db.gz"]
        cases.equal("backup: whole", sorted(os.listdir(f"{it.copies}/{it.kept()[-1]}")), files)


def odd_files(cases):
    """Root follows no link of the service, and waits for no pipe."""
    for name in ("registry.db", "registry.db-wal"):
        with room() as it:
            path = os.path.join(it.registry, name)
            os.remove(path)
            os.symlink("/etc/hostname", path)
            got = (it.copy()[0], it.keep(1)[0], it.kept())
            cases.equal(f"backup: {name} is a link", got, (1, 1, []))
            os.remove(path)
            os.mkfifo(path)
            got = (it.copy()[0], it.keep(1)[0], it.kept())
            cases.equal(f"backup: {name} is a pipe", got, (1, 1, []))
    with room() as it:
        os.remove(os.path.join(it.registry, "registry.db"))
        cases.equal("backup: no registry", it.copy()[0], 1)


def broken_tools(cases):
    """Each tool fails in turn: older copies stay, and no half one is among them."""
    for tool in ("cp", "mv", "gzip", "sync", "mktemp", "find", "stat", "date", "mkdir", "cat"):
        with room() as it:
            os.mkdir(os.path.join(it.copies, "2000-01-01T000000Z"))
            os.symlink("/bin/false", os.path.join(it.tools, tool))
            failed = it.copy()[0] != 0 or it.keep(1)[0] != 0
            got = failed, "2000-01-01T000000Z" in it.kept(), it.now()
            cases.equal(f"backup: without {tool}", got, (True, True, ONE))


def restores(cases):
    with room() as it:
        it.copy()
        it.keep(3)
        name = it.kept()[0]
        it.set("two")
        write(os.path.join(it.mirror, "revision"), "7\n")
        cases.equal("restore: prepared", (it.prepare(name)[0], it.now()), (0, TWO))
        cases.equal("restore: nothing is restored yet", it.has_epoch(), True)
        status, told = it.swap()
        cases.equal("restore: swapped", (status, it.now(), "restored" in told), (0, ONE, True))
        cases.equal("restore: the mirror begins anew", os.listdir(it.mirror), [])
        cases.equal("restore: the former epoch has ended", it.has_epoch(), False)
        old = [name for name in os.listdir(it.registry) if name.startswith("replaced.")]
        names = ("registry.db", "registry.db-wal")
        where = [os.path.join(it.registry, old[0], name) for name in names]
        cases.equal("restore: the former one is kept", tuple(map(read, where)), TWO)
        published = read(os.path.join(it.registry, old[0], "published.ids"))
        cases.equal("restore: so is what was published", published, b"published")
        status = it.swap()[0]
        cases.equal("restore: nothing is prepared any more", status, 1)
        second_restore(cases, it, name, old)
        bad = os.path.join(it.copies, "2000-01-01T000000Z")
        shutil.copytree(os.path.join(it.copies, name), bad)
        with gzip.open(os.path.join(bad, "registry.db-wal.gz"), "wb") as file:
            file.write(b"torn")
        got = (it.prepare("2000-01-01T000000Z")[0], it.now())
        cases.equal("restore: a copy that does not open", got, (1, ONE))
        for odd in ("none", "../registry", "a;b"):
            cases.equal(f"restore: {odd}", (it.prepare(odd)[0], it.now()), (1, ONE))
    swaps_stopped(cases)


def lone_logs(cases):
    """Where registry.db is gone or empty and its log has something in it, nothing begins anew over
    that. A new registry has a short log before its file has anything."""
    long = "x" * 5_000
    for text, log, want in ((None, long, 1), ("", long, 1), (None, "", 0), ("", "x" * 41, 0),
                            (None, None, 0), ("registry", long, 0)):
        with room() as it:
            names = "registry.db", "registry.db-wal"
            places = [os.path.join(it.registry, name) for name in names]
            for place, data in zip(places, (text, log)):
                os.remove(place)
                if data is not None:
                    write(place, data)
            before = texts_in(it.registry)
            status, told = it.restore("settle", it.registry)
            name = f"{'no' if text is None else len(text)} file, {log and len(log)} of a log"
            got = status, "put it back" in told, texts_in(it.registry) == before
            cases.equal(f"restore: {name}", got, (want, want == 1, True))
    with room() as it:
        it.copy()
        it.keep(1)
        os.remove(os.path.join(it.registry, "registry.db"))
        write(os.path.join(it.registry, "registry.db-wal"), long)
        got = it.prepare(it.kept()[0])[0], it.swap()[0], it.now()
        cases.equal("restore: in place of a lone log", got, (0, 0, ONE))
        old = next(name for name in os.listdir(it.registry) if name.startswith("replaced."))
        kept = read(os.path.join(it.registry, old, "registry.db-wal"))
        cases.equal("restore: which is kept", kept, long.encode())


def dropped(cases):
    """What a failed run has left goes, but not where a swap goes on from it."""
    with room() as it:
        write(os.path.join(it.registry, "registry.db-wal"), "torn")
        it.copy()
        cases.equal("backup: one that failed", (it.keep(1)[0], len(os.listdir(it.copies))), (1, 1))
        got = ran(os.path.join(LIB, "backup"), "drop", it.copies), os.listdir(it.copies)
        cases.equal("backup: nothing is left of it", got, ((0, ""), []))
    with room() as it:
        it.copy()
        it.keep(1)
        for name in ("restored.x", "restoring"):
            os.mkdir(os.path.join(it.registry, name))
        got = it.restore("drop", it.registry), len(os.listdir(it.registry))
        cases.equal("restore: nothing goes while a swap is not settled", got, ((0, ""), 5))
        os.rmdir(os.path.join(it.registry, "restoring"))
        got = it.restore("drop", it.registry), sorted(os.listdir(it.registry))
        want = ["epoch", "registry.db", "registry.db-wal"]
        cases.equal("restore: nothing is left of one that failed", got, ((0, ""), want))


def second_restore(cases, it, name, former):
    """A restore within a second of others: what each of them replaced is kept."""
    for ahead in (0, 1):
        second = time.strftime("%Y-%m-%dT%H%M%SZ", time.gmtime(time.time() + ahead))
        taken = os.path.join(it.registry, f"replaced.{second}")
        if not os.path.exists(taken):
            os.mkdir(taken)
            write(os.path.join(taken, "registry.db"), "kept")
            former = [*former, os.path.basename(taken)]
    it.set("two")
    it.prepare(name)
    status = it.swap()[0]
    cases.equal("restore: once more at once", (status, it.now()), (0, ONE))
    names = [name for name in os.listdir(it.registry) if name.startswith("replaced.")]
    new = [name for name in names if name not in former]
    cases.equal("restore: in a place of its own", len(new), 1)
    files = ("registry.db", "registry.db-wal")
    where = [os.path.join(it.registry, new[0], name) for name in files]
    cases.equal("restore: the former one is kept again", tuple(map(read, where)), TWO)
    kept = {read(os.path.join(it.registry, name, "registry.db")) for name in former}
    cases.equal("restore: and those before it", kept, {b"kept", TWO[0]})


def swaps_stopped(cases):
    """A swap is killed, or fails, at each of its calls: there is a registry.db at every moment, and
    once it is settled the registry is the old one or the new one, with its own log."""
    tools = ("mv", "cp", "ln", "rm", "sync", "mkdir", "find", "flock", "date")
    outcomes = set()
    fails = KILLS.replace("kill -KILL $PPID; sleep 0.1; ", "")
    for kind, body in (("killed", KILLS), ("failing", fails)):
        for number in range(1, 60):
            with room() as it:
                it.copy()
                it.keep(1)
                it.set("two")
                it.prepare(it.kept()[0])
                counter = os.path.join(it.folder, "counter")
                write(counter, "")
                for tool in tools:
                    text = body.format(counter=counter, number=number, tool=shutil.which(tool))
                    write(os.path.join(it.tools, tool), text, 0o755)
                it.swap()
                is_over = len(read(counter)) < number
                for tool in tools:
                    os.remove(os.path.join(it.tools, tool))
                is_there = os.path.exists(os.path.join(it.registry, "registry.db"))
                status = it.restore("settle", it.registry)[0]
                outcomes.add(it.now())
                got = is_there, status, it.now() == TWO or not it.has_epoch() and it.now() == ONE
                cases.equal(f"restore: {kind} at its call {number}", got, (True, 0, True))
            if is_over:
                break
        cases.equal(f"restore: {kind} at every call", is_over, True)
    cases.equal("restore: it was stopped before and after it stood", outcomes, {ONE, TWO})


def answers(cases):
    """A start waits until the server answers, for so long, or until its process has ended."""
    script, none = os.path.join(LIB, "answers"), f"http://127.0.0.1:{free_port()}"
    with subprocess.Popen(["sleep", "60"]) as process:
        start = time.monotonic()
        status, told = ran(script, str(process.pid), "2", PCIIDS_PORT=none)
        got = status, "still reads" in told, time.monotonic() - start >= 1
        cases.equal("answers: nothing answers in time", got, (0, True, True))
        listener = socket.create_server(("127.0.0.1", 0))
        place = f"http://127.0.0.1:{listener.getsockname()[1]}"
        words = [script, str(process.pid)]
        environment = dict(os.environ, PCIIDS_PORT=place)
        with subprocess.Popen(words, env=environment) as waiting:
            client, _ = listener.accept()
            cases.equal("answers: it waits for the answer", waiting.poll(), None)
            with client:
                client.recv(4096)
                client.sendall(b"HTTP/1.1 404 Not Found\r\nContent-Length: 0\r\n\r\n")
            cases.equal("answers: it has come", waiting.wait(60), 0)
        listener.close()
        process.kill()
    cases.equal("answers: the process has ended", ran(script, str(process.pid))[0], 1)


def journaled(room):
    """A journal of two segments on a disk of its own, and a copy from within the first. That one
    was made has ended the second."""
    os.mkdir(os.path.join(room.folder, "disk"))
    main = Main(os.path.join(room.folder, "disk", "segments"))
    for number in range(8):
        main.line()
        if number == 3:
            main.begin()
    room.copy(main.folder)
    room.keep(1)
    needed = os.path.join(room.copies, room.kept()[0], "segment")
    newest = read(needed).decode()
    write(needed, name_of(0) + "\n")
    room.set("two")
    return main, newest


def texts_in(folder):
    return {name: read(os.path.join(folder, name)) for name in os.listdir(folder)}


def with_journal(cases):
    """With a journal a copy obeys what it lacks, up to a moment: then the later lines leave the
    journal. Where there is none the journal stays."""
    for until, is_on, line, left in (
        ("", True, b"7", [0, 4, 8]), ("1005", True, b"5", [0, 4]), ("1002", True, b"2", [0]),
        ("copied", True, None, []), ("", False, None, [0, 4, 8]),
    ):
        with room() as it:
            main, newest = journaled(it)
            cases.equal("journal: what a copy needs", newest, name_of(8) + "\n")
            before, place = texts_in(main.folder), main.folder if is_on else None
            status = it.prepare(it.kept()[0] + (f"+{until}" if until else ""), place)[0]
            got = status, it.now(), texts_in(main.folder)
            cases.equal(f"journal: prepared, {until}", got, (0, TWO, before))
            status = it.swap(place)[0]
            want = (b"registry " + line, line) if line else ONE
            cases.equal(f"journal: up to {until}, {is_on}", (status, it.now()), (0, want))
            got = sorted(os.listdir(main.folder))
            cases.equal(f"journal: its segments, {until}", got, [name_of(at) for at in left])
            disk = os.path.dirname(main.folder)
            replaced = [it for it in os.listdir(disk) if it != "segments"]
            kept = [texts_in(os.path.join(disk, it)) for it in replaced]
            cases.equal(f"journal: as it was before {until}", kept, [before] if until else [])
    with room() as it:
        main, _ = journaled(it)
        before = texts_in(main.folder)
        write(os.path.join(it.folder, "other"), "")
        status, told = it.prepare(it.kept()[0], main.folder)
        got = status, "journal: Another\n" in told, "do not fit together" in told
        cases.equal("journal: one that does not fit", got, (1, True, True))
        got = it.now(), texts_in(main.folder), it.has_epoch()
        cases.equal("journal: nothing was done", got, (TWO, before, True))
    journal_swaps_stopped(cases)


def journal_swaps_stopped(cases):
    """A swap is killed at each of its calls: registry and journal are both the old or both the
    new ones once it is settled."""
    outcomes, number, is_over = set(), 0, False
    while not is_over:
        number += 1
        with room() as it:
            main, _ = journaled(it)
            it.prepare(f"{it.kept()[0]}+1002", main.folder)
            killed = killing(it.tools, ("mv", "cp", "ln", "rm", "sync", "mkdir"), number)
            it.swap(main.folder)
            is_over = not killed()
            status = it.restore("settle", it.registry, journal=main.folder)[0]
            outcomes.add((it.now()[1], len(os.listdir(main.folder))))
            cases.equal(f"journal: settled after call {number}", status, 0)
    cases.equal("journal: both or none", outcomes, {(b"two", 3), (b"2", 1)})


def epochs(cases):
    """The epoch stays over starts, and is another one where the registry was restored, is gone, or
    its own is none. Whatever fails, a start shows what is kept, or fails."""
    seen = set()

    def shown(it):
        """Whether a start shows 32 digits that are kept, and whether they are new."""
        status, told = ran(os.path.join(LIB, "epoch"), it.registry, it.mirror, tools=it.tools)
        kept, copy = (read(os.path.join(at, "epoch")) for at in (it.registry, it.mirror))
        is_new, mode = copy not in seen, os.stat(os.path.join(it.mirror, "epoch")).st_mode & 0o777
        seen.add(copy)
        is_one = re.fullmatch(rb"[0-9a-f]{32}\n", copy) is not None
        return status, told, kept == copy, is_one, mode, is_new

    new, same = (0, "", True, True, 0o644, True), (0, "", True, True, 0o644, False)
    with room() as it:
        path = os.path.join(it.registry, "epoch")
        cases.equal("epoch: what is none", shown(it), new)
        cases.equal("epoch: a second start", shown(it), same)
        os.remove(os.path.join(it.mirror, "epoch"))
        cases.equal("epoch: after the machine's", shown(it), same)
        os.remove(path)
        cases.equal("epoch: after a restore", shown(it), new)
        os.remove(os.path.join(it.registry, "registry.db"))
        cases.equal("epoch: without a registry", shown(it), new)
        for tool in ("grep", "od", "tr", "sync", "mv", "cp"):
            it.set("one")
            write(path, "none")
            broken = os.path.join(it.tools, tool)
            os.symlink("/bin/false", broken)
            status = ran(os.path.join(LIB, "epoch"), it.registry, it.mirror, tools=it.tools)[0]
            os.remove(broken)
            kept, copy = (read(os.path.join(at, "epoch")) for at in (it.registry, it.mirror))
            is_right = status != 0 or kept == copy and len(copy) == 33
            cases.equal(f"epoch: without {tool}", is_right, True)
            cases.equal(f"epoch: then without {tool}", shown(it)[:5], new[:5])


def test_keeping(cases):
    holds(cases)
    backups(cases)
    restores(cases)
    lone_logs(cases)
    dropped(cases)
    with_journal(cases)
    epochs(cases)
    answers(cases)
