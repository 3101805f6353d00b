"""How ./pciids builds a program, and the libraries side by side; the toolchain has a stand-in."""
import contextlib
import fcntl
import importlib
import os
import pty
import re
import shutil
import signal
import struct
import subprocess
import tempfile
import termios
import threading
import time
import types

import program

TOOLS = [os.path.join(program.TOP, "tools", name) for name in ("build.py", "progress.py")]
WRAPPER = os.path.join(program.TOP, "pciids")
# About how long each crate takes, in seconds. One is not in the table.
SECONDS = "low 1\nleft 5\nright 5\naside 2\ntop 5\npid_file 60\npid_cli 600\n"

# Two crates that need one another's end, two that can be built at the same time between them, and
# one for which no other crate waits.
CRATES = "low: std_thing\nleft: low\nright: low\naside: low\ntop: left right\nprogram: top aside\n"
NAMES = ("aside", "left", "low", "right", "top")
ALL = (*NAMES, "program")
# What the wrapper builds: the first program leaves all commands but one to the other.
PROGRAMS = "pid_file:\npid_cli_first: pid_file\npid_cli: pid_file\n"

RT = """#!/bin/sh
[ "$1" = doc ] && echo "$(dirname "$0")/../START-HERE.md"
"""

# Notes the crate, its jobs, whether it writes statements, and the libraries that it is given.
# Leaves a mark of that, and waits for the marks that WAITS names for this crate.
RATTLE = """#!/usr/bin/env python3
import os, sys, time
words = sys.argv[1:]
assert words.pop(0) == "build"
value = lambda flag: words[words.index(flag) + 1]
crate = value("--crate-name")
given = [words[at + 1].split("=") for at, it in enumerate(words) if it == "--extern"]
for name, place in given:
    assert place.endswith(f"{name}.rlib"), place
    assert "/kit/" in place or os.path.isdir(place), place
note = open(os.environ["NOTES"], "a")
print(os.getpid(), file=open(os.environ["NOTES"] + ".pids", "a"))
kind = ["statements"] if "--statements" in words else []
names = sorted(name for name, _ in given)
print("begin", crate, "jobs", value("--jobs"), *kind, "over", *names, file=note, flush=True)
marks, end = os.environ["NOTES"] + ".marks", time.monotonic() + 300
open(os.path.join(marks, crate), "w").close()
waits = dict(it.split(":") for it in os.environ.get("WAITS", "").split())
left = [os.path.join(marks, it) for it in waits.get(crate, "").split(",")]
while not all(map(os.path.exists, left)) and time.monotonic() < end:
    time.sleep(0.02)
if os.environ.get("BROKEN") == crate:
    print("noise::a_function: proved\\nstatements noise\\nby-macro: noise")
    sys.exit("src/lib.rt:1: error: not proved")
if kind:
    os.mkdir(value("-o"))
else:
    with open(value("-o"), "w") as file:
        file.write(f"#!/bin/sh\\n[ {crate} != pid_cli_first ] || [ $# = 0 ] || exit 4\\n")
        file.write(f"echo {crate} runs $*\\n")
    os.chmod(value("-o"), 0o755)
print("end", crate, file=note, flush=True)
"""

LINK = """#!/usr/bin/env python3
import os, shutil, sys
words = sys.argv[1:]
assert os.path.exists(words[words.index("-o") + 2])
shutil.copy(words[words.index("-o") + 2], words[words.index("-o") + 1])
"""

RTLIB = """
import os
class Crate:
    def __init__(self, folder, root, known):
        self.folder = folder
    def stamp(self):
        return open(os.path.join(self.folder, "src", "lib.rt")).read()
"""


NO_RT = "pciids: cannot build the program: the command rt is not in PATH"


def write(path, text):
    os.makedirs(os.path.dirname(path), exist_ok=True)
    with open(path, "w") as file:
        file.write(text)
    os.chmod(path, 0o755)


def make(folder, crates=CRATES):
    """A repository of crates without code, and the toolchain's stand-in."""
    write(os.path.join(folder, "crates.txt"), crates)
    for crate in (it.partition(":")[0] for it in crates.splitlines()):
        write(os.path.join(folder, "crates", crate, "src", "lib.rt"), "//! Nothing.\n")
        if crate in ("program", "pid_cli_first", "pid_cli"):
            write(os.path.join(folder, "crates", crate, "src", "main.rt"), "fn main() {}\n")
    os.makedirs(os.path.join(folder, "tools"))
    for path in TOOLS:
        shutil.copy(path, os.path.join(folder, "tools"))
    write(os.path.join(folder, "tools", "seconds.txt"), f"# Seconds.\n{SECONDS}")
    shutil.copy(WRAPPER, folder)
    os.mkdir(os.path.join(folder, "notes.marks"))
    for name, text in (("rt", RT), ("rattle", RATTLE), ("rattle-link", LINK), ("rtlib.py", RTLIB)):
        write(os.path.join(folder, "kit", "bin", name), text)


def environment(folder, **more):
    tools = os.path.join(folder, "kit", "bin") + os.pathsep + os.environ["PATH"]
    return {**os.environ, "NOTES": os.path.join(folder, "notes"), "PATH": tools, **more}


def start(folder, **more):
    # A shell lets what it starts in the background ignore Ctrl-C.
    command = ["env", "--default-signal=INT", "python3", "-B"]
    return subprocess.Popen(
        [*command, os.path.join(folder, "tools", "build.py"), "program", "4"],
        stdout=subprocess.PIPE,
        stderr=subprocess.PIPE,
        env=environment(folder, **more),
        text=True,
    )


def mark(folder, name):
    write(os.path.join(folder, "notes.marks", name), "")


def said_by(process, folder):
    """What a build writes to standard error, up to its end. Each crate that it names as proved
    leaves the mark `CRATE.told`."""
    said = ""
    for line in process.stderr:
        said += line
        if named := re.match(r"pciids: (\w+) is proved", line):
            mark(folder, f"{named[1]}.told")
    return said


def build(folder, **more):
    """What a whole run of the script says, line by line, and its status."""
    with start(folder, **more) as process:
        said = said_by(process, folder)
        assert process.stdout.read() == ""
    return said.splitlines(), process.returncode


def notes(folder):
    with open(os.path.join(folder, "notes")) as file:
        return file.read().splitlines()


def begun(folder):
    """The crates of which a proof was begun, in turn."""
    return [it.split()[1] for it in notes(folder) if it.startswith("begin")]


def test_builds(cases):
    """Each crate is built once, over the crates below it, two of them at the same time."""
    with tempfile.TemporaryDirectory() as folder:
        make(folder)
        # The three in the middle run until all of them have begun, and two of them until the end of
        # the third was reported.
        waits = "aside:left,right left:aside.told right:aside.told program:top.told"
        said, status = build(folder, WAITS=waits)
        cases.equal("the status", status, 0)
        first = "pciids: building the whole program: 6 crates, about 20 s"
        cases.equal("how long it takes", said[0], first)
        form = r"pciids: (\w+) is proved: (\d) of 6 crates, .*? left(?:, proving (.*))?"
        named, counts, now = zip(*(re.fullmatch(form, it).groups("") for it in said[1:-1]))
        cases.equal("each library is reported", sorted(named), sorted(NAMES))
        cases.equal("how many there are", "".join(counts), "12345")
        others = sorted(now[named.index("aside")].split(", "))
        cases.equal("what is being proved", others, ["left", "right"])
        cases.equal("the end", re.sub("[0-9]+", "N", said[-1]), "pciids: built in N s")
        noted = notes(folder)
        low = "begin low jobs 2 statements over std std_thing"
        cases.equal("the lowest crate is alone", noted[0], low)
        # The longest chain waits for two of them.
        jobs = {"aside": 1, "left": 2, "right": 2}
        wanted = [f"begin {it} jobs {jobs[it]} statements over low std" for it in jobs]
        cases.equal("three are built at the same time", sorted(noted[2:5]), wanted)
        top = [it for it in noted if it.startswith("begin top")]
        cases.equal("the last library", top, ["begin top jobs 2 statements over left right std"])
        last = "begin program jobs 2 over aside std top"
        cases.equal("the program comes last", noted[-2:], [last, "end program"])
        linked = os.path.join(folder, "crates", "program", "out", "program")
        cases.equal("the program is where it belongs", os.path.isfile(linked), True)


def test_small_program(cases):
    """The largest crate of a small program has all processors, also with another beside it."""
    with tempfile.TemporaryDirectory() as folder:
        make(folder, "low: std_thing\nprogram: low\n")
        build(folder)
        jobs = [it.split()[1:4] for it in notes(folder) if it.startswith("begin")]
        cases.equal("their jobs", jobs, [["low", "jobs", "4"], ["program", "jobs", "4"]])
    with tempfile.TemporaryDirectory() as folder:
        make(folder, "aside:\nlow: std_thing\nprogram: aside low\n")
        large = "//! Something.\n" * 9
        write(os.path.join(folder, "crates", "low", "src", "lib.rt"), large)
        build(folder)
        jobs = sorted(it.split()[1:4] for it in notes(folder) if it.startswith("begin"))
        wanted = [["aside", "jobs", "1"], ["low", "jobs", "4"], ["program", "jobs", "4"]]
        cases.equal("with one beside it", jobs, wanted)


def test_builds_again(cases):
    """A second run proves what has changed and what is above it, and the program."""
    with tempfile.TemporaryDirectory() as folder:
        make(folder)
        build(folder)
        os.remove(os.path.join(folder, "notes"))
        build(folder)
        cases.equal("nothing has changed", begun(folder), ["program"])
        os.remove(os.path.join(folder, "notes"))
        write(os.path.join(folder, "crates", "left", "src", "lib.rt"), "//! Something.\n")
        build(folder)
        cases.equal("a library has changed", begun(folder), ["left", "top", "program"])
        os.remove(os.path.join(folder, "notes"))
        os.remove(os.path.join(folder, "kit", "bin", "rtlib.py"))
        build(folder)
        cases.equal("nothing is known of the sums", sorted(begun(folder)), sorted(ALL))


def test_breaks(cases):
    """A crate that isn't proved: what the toolchain said is shown, and nothing above is begun."""
    with tempfile.TemporaryDirectory() as folder:
        make(folder)
        said, status = build(folder, BROKEN="right")
        cases.equal("the status", status, 1)
        last = ["src/lib.rt:1: error: not proved", "pciids: the crate right was not built"]
        shown = [it for it in said if not it.endswith(("left", "aside")) and " crates, " not in it]
        cases.equal("what is shown", shown, last)
        cases.equal("and nothing else of the toolchain", "noise" in "".join(said), False)
        cases.equal("the crate above", "top" in begun(folder), False)


def running(folder):
    """How many of the provers that were begun run."""
    count = 0
    with open(os.path.join(folder, "notes.pids")) as file:
        for it in file.read().split():
            # One that has ended stays listed until its parent asks for its status.
            with contextlib.suppress(OSError), open(f"/proc/{it}/stat") as stat:
                count += stat.read().rpartition(")")[2].split()[0] != "Z"
    return count


def wait_until(holds):
    end = time.monotonic() + 30
    while not holds() and time.monotonic() < end:
        time.sleep(0.05)


def leave_marks(folder, said):
    """The line that moves leaves the mark `M.N` when it is shown for the Nth time in build M."""
    for number, part in enumerate(said.split(b"pciids: building ")):
        for line in range(part.count(b"\rpciids: ")):
            mark(folder, f"{number}.{line + 1}")


def at_terminal(folder, *words, **more):
    """What ./pciids says at a terminal of 80 columns."""
    here, there = pty.openpty()
    fcntl.ioctl(there, termios.TIOCSWINSZ, struct.pack("HHHH", 24, 80, 0, 0))
    how = {"stdout": subprocess.DEVNULL, "stderr": there, "env": environment(folder, **more)}
    said = b""
    with subprocess.Popen([os.path.join(folder, "pciids"), *words], **how) as running:
        os.close(there)
        # At the end of a terminal Linux reports a fault.
        with contextlib.suppress(OSError):
            while piece := os.read(here, 4096):
                said += piece
                leave_marks(folder, said)
        running.wait(timeout=60)
    os.close(here)
    return said.decode().replace("\r\n", "\n")


def test_at_terminal(cases):
    """There one line moves, and its names are cut where it would be too long."""
    with tempfile.TemporaryDirectory() as folder:
        make(folder, "pid_cli_first:\npid_cli: low left_out right\n" + CRATES)
        text = at_terminal(folder, "script", WAITS="pid_cli_first:1.1 right:2.5")
        first, whole = text.split("pciids: building ")[1:]
        cases.equal("the first", [it.count("\n") for it in (first, whole)], [3, 3])
        lines = whole.split("\n")[1].split("\r")[1:]
        cases.equal("lines move", len(lines) > 3, True)
        cases.equal("each clears what was there", {it[-3:] for it in lines}, {"\033[K"})
        cases.equal("no line is too long", max(map(len, lines)) <= 79 + 3, True)
        # Between two crates nothing is being proved.
        form = r"pciids: \d of \d crates, (\d+ min )?\d+ s, about \d+ (s|min) left(, proving \w.*)?"
        shown = [it[:-3] for it in lines if not re.fullmatch(form, it[:-3])]
        cases.equal("other lines", shown, [])
        proving = sum(it.endswith(", proving right\033[K") for it in lines)
        cases.equal("lines that say what is being proved", proving > 3, True)
    with tempfile.TemporaryDirectory() as folder:
        make(folder, "pid_cli_first:\npid_cli:\n")
        waits = "pid_cli_first:1.1 pid_cli:2.1"
        broken = at_terminal(folder, "script", BROKEN="pid_cli", WAITS=waits)
        end = "\033[K\nsrc/lib.rt:1: error: not proved\npciids: the crate pid_cli was not built\n"
        cases.equal("a fault has lines of its own", end in broken, True)


def test_silence(cases, monkeypatch, capsys):
    """Without a terminal a line comes at least every two minutes."""
    monkeypatch.syspath_prepend(os.path.dirname(TOOLS[0]))
    progress = importlib.import_module("progress")
    cases.equal("two minutes", progress.SILENCE, 120)
    after, clock = 0, time.monotonic()
    monkeypatch.setattr(progress.time, "monotonic", lambda: clock + after)
    build = types.SimpleNamespace(
        changed=threading.Condition(), crates=["pid_file", "pid_cli"], built=set(),
        proved=[], running={"pid_file": clock}, processors=4, broken=None,
        estimate=progress.Estimate({"pid_file": 9, "pid_cli": 1}, {"pid_file": [], "pid_cli": []}),
    )
    shown = progress.Progress(build, "it", 0)
    for after in (1, 119, 121, 122, 240, 242):
        shown.look()
    said = [re.sub("about .*? left", "LEFT", it) for it in capsys.readouterr().err.splitlines()]
    line = "pciids: 0 of 2 crates, {} min 0{} s, LEFT, proving pid_file"
    cases.equal("the lines", said, [line.format(2, 1), line.format(4, 2)])


def test_stops(cases):
    """Stopped while it builds, it ends its provers, and the next run goes on from what is built."""
    with tempfile.TemporaryDirectory() as folder:
        make(folder)
        process = start(folder, WAITS="left:never right:never aside:never")
        wait_until(lambda: os.path.exists(f"{folder}/notes") and len(begun(folder)) == 4)
        cases.equal("provers run", running(folder), 3)
        process.send_signal(signal.SIGINT)
        _, said = process.communicate(timeout=60)
        cases.equal("the status", (process.returncode, "Traceback" in said), (130, False))
        wait_until(lambda: not running(folder))
        cases.equal("no prover goes on", running(folder), 0)
        os.remove(os.path.join(folder, "notes"))
        build(folder)
        cases.equal("what is built is kept", "low" in begun(folder), False)


def call(folder, *words, **more):
    """What ./pciids prints with these words, and its status."""
    command = [os.path.join(folder, "pciids"), *words]
    how = {"stdout": subprocess.PIPE, "stderr": subprocess.PIPE, "text": True}
    with subprocess.Popen(command, env=environment(folder, **more), **how) as process:
        said = said_by(process, folder)
        told = process.stdout.read()
    return told, said, process.returncode


def test_wrapper(cases):
    """It builds what the arguments need, once, and says what it does."""
    with tempfile.TemporaryDirectory() as folder:
        make(folder, PROGRAMS)
        told, said, status = call(folder, WAITS="pid_cli_first:pid_file.told")
        cases.equal("no arguments", (told, status), ("pid_cli_first runs\n", 0))
        what = "pciids: building the first program, for tidy, check and help: 2 crates, about "
        cases.equal("what it builds", said.startswith(what), True)
        cases.equal("how far it is", "pciids: pid_file is proved: 1 of 2 crates, " in said, True)
        cases.equal("no arguments, again", call(folder), ("pid_cli_first runs\n", "", 0))
        told, said, status = call(folder, "script", "-x")
        cases.equal("a command", (told, status), ("pid_cli runs script -x\n", 0))
        cases.equal("and what it builds", "building the whole program: 2 crates" in said, True)
        cases.equal("in all", begun(folder), ["pid_file", "pid_cli_first", "pid_cli"])
        cases.equal("no arguments, later", call(folder), ("pid_cli runs\n", "", 0))


def test_wrapper_paths(cases):
    """However it is called, it names its files by a short path."""
    with tempfile.TemporaryDirectory() as folder:
        make(folder, "pid_cli_first:\n")
        os.symlink("../pciids", os.path.join(folder, "crates", "link"))
        for word, top in (
            ("./pciids", "."),
            ("crates/../pciids", "./crates/.."),
            ("./crates/../pciids", "./crates/.."),
            (os.path.join(folder, "pciids"), folder),
            ("./crates/link", folder),
        ):
            ran = subprocess.run([word], cwd=folder, capture_output=True, timeout=60)
            want = f"pciids: {top}/crates.txt has no line for pid_cli\n".encode()
            cases.equal(word, (ran.stdout, ran.stderr, ran.returncode), (b"", want, 3))


def test_wrapper_fails(cases):
    """A build that fails has status 3, and says why."""
    with tempfile.TemporaryDirectory() as folder:
        make(folder, PROGRAMS)
        told, said, status = call(folder, BROKEN="pid_file")
        why = "src/lib.rt:1: error: not proved\npciids: the crate pid_file was not built\n"
        why += "pciids: could not build the program\n"
        cases.equal("not proved", (told, said.endswith(why), status), ("", True, 3))
        cases.equal("the program", os.listdir(f"{folder}/crates/pid_cli_first/out"), [])
        os.remove(os.path.join(folder, "kit", "bin", "rt"))
        found = ["bash", "readlink", "find"]
        for name in found:
            os.symlink(shutil.which(name), os.path.join(folder, "kit", "bin", name))
        told, said, status = call(folder, PATH=os.path.join(folder, "kit", "bin"))
        cases.equal("no toolchain", (told, said.splitlines()[0], status), ("", NO_RT, 3))
