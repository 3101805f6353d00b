"""The tests' own frame: whatever ends a test early is one failure, and the counts come last."""
import os
import re
import shutil
import subprocess
import sys
from concurrent.futures import ThreadPoolExecutor

import pytest

from gate import PROGRAMS, counted, gate
from program import TOP

HERE = os.path.join(TOP, "tests")
FRAME = ("all.py", "conftest.py", "pytest.ini")
SUPPORT = ("apt.py", "cases.py", "program.py", "shims.py")

# Files in place of some parts, and what each passes, fails and skips.
PARTS = {
    "words": ("def test_one(cases):\n    cases.equal('', 1, 1)\n", (1, 0, 0)),
    "limits": (
        (
            "def test_one(cases):\n    cases.equal('', 1, 1)\n    cases.equal('', 1, 1)\n"
            "    raise SystemExit(0)\n"
            "def test_two():\n    pass\n"
        ),
        (3, 1, 0),
    ),
    "jobs": ("import no_such_module\n", (0, 1, 0)),
    "disks": ("def test_one(cases)\n", (0, 1, 0)),
    "stops": (
        (
            "import subprocess\n"
            "def test_one(cases):\n    subprocess.run(['sleep', '20'], timeout=0.1)\n"
        ),
        (0, 1, 0),
    ),
    "registry": ("def test_one(cases):\n    open('/no/such/file')\n", (0, 1, 0)),
    "scripts": (
        (
            "import program, pytest\ndef test_one(cases):\n    cases.skipped('one', 'why')\n   "
            " program.need('no-such-command')\n@pytest.mark.needs('no-such-command')\ndef"
            " test_two(cases):\n    cases.equal('', 1, 2)\n"
        ),
        (0, 0, 3),
    ),
    "migrate": (
        (
            "import pytest\n"
            "@pytest.fixture\ndef broken():\n    raise OSError\n"
            "def test_one(cases, broken):\n    cases.equal('', 1, 1)\n"
            "def test_two(cases):\n    cases.equal('', 1, 1)\n"
        ),
        (1, 1, 0),
    ),
    "proxy": (
        "import program\ndef test_one(cases):\n    raise program.Skip('why')\n",
        (0, 0, 1),
    ),
    "mirror": (
        (
            "import threading, time\n"
            "def late():\n    time.sleep(1)\n    print('late')\n"
            "def test_one(cases):\n    threading.Thread(target=late).start()\n"
            "    cases.equal('', 1, 1)\n"
        ),
        (1, 0, 0),
    ),
    # A test that hangs is stopped.
    "tour": (
        "import time\ndef test_one(cases):\n    time.sleep(100)\n"
        "def test_two(cases):\n    cases.equal('', 1, 1)\n",
        (1, 1, 0),
    ),
    # A test that ends its process fails, and the others are tried.
    "lspci": (
        (
            "import os, time\ndef test_one(cases):\n    time.sleep(0.5)\n    os._exit(0)\n"
            "def test_two(cases):\n    cases.equal('', 1, 1)\n"
        ),
        (1, 1, 0),
    ),
    # These are tried at once.
    "front": ("def test_one(cases):\n    cases.equal('', 1, 1)\n", (1, 0, 0)),
    "caches": (
        "def test_one(cases):\n    cases.equal('', 1, 2)\n    cases.skipped('one', 'why')\n",
        (0, 1, 1),
    ),
    "machine": (
        "import os, time\ndef test_one(cases):\n    time.sleep(0.5)\n    os._exit(0)\n", (0, 1, 0)
    ),
}
SERVICE = ("proxy", "mirror", "front", "caches", "machine")

# The last lines of runs, and what the gate reads in them.
LAST_LINES = {
    "3 passed, 0 failed": (3, 0, 0),
    "3 passed, 1 failed": (3, 1, 0),
    "3 passed, 1 failed, 2 skipped": (3, 1, 2),
    "3 passed, 1 failed, 2 skipped, or so": (0, 1, 0),
    "words: 3 passed, 0 failed": (0, 1, 0),
    "Traceback (most recent call last):": (0, 1, 0),
    "": (0, 1, 0),
}

# What `rt must-fail` prints of an edit: one that a clause refuses, and one for a name alone.
REFUSED = "rt: must-fail pid_a/one.edit: refused, as it must be: src/lib.rt:9:5: error: goal `says`"
FOR_A_NAME = (
    "rt: must-fail pid_a/two.edit: refused, as it must be (only because a proof file names what the"
    " edit took away, so this says little of the contract: change a value and keep the names):"
    " proofs/one/Answers.antt:3:7: error: `c` is not in scope"
)
# What the gate says that it took, where no crate is proved.
TOOK = [
    "processor minutes proof tests edits all",
    "all N N N N",
    "wall minutes: N of rt ci, N of tests/run",
]


def line_of(passed, failed, skipped):
    return f"{passed} passed, {failed} failed" + (f", {skipped} skipped" if skipped else "")


def tried(folder, *words, **environment):
    """What a run prints, line by line, and its exit status."""
    outer = {
        name: value
        for name, value in os.environ.items()
        if name != "PCIIDS" and not name.startswith("PYTEST")
    }
    # A program that is tried as it is: nothing is built, and nothing installed.
    outer["PCIIDS"] = sys.executable
    words = [sys.executable, "-B", os.path.join(folder, "all.py"), "--no-install", *words]
    ran = subprocess.run(words, capture_output=True, env={**outer, **environment}, timeout=300)
    return ran.stdout.decode().splitlines(), ran.returncode


@pytest.fixture
def frame(folder):
    """A copy of the frame, with files in place of parts."""
    os.mkdir(os.path.join(folder, "support"))
    for name in FRAME:
        shutil.copyfile(os.path.join(HERE, name), os.path.join(folder, name))
    for name in SUPPORT:
        shutil.copyfile(os.path.join(HERE, "support", name), os.path.join(folder, "support", name))
    settings = os.path.join(folder, "pytest.ini")
    with open(settings, encoding="utf-8") as file:
        text = file.read()
    with open(settings, "w", encoding="utf-8") as file:
        file.write(text.replace("timeout = 1800", "timeout = 15"))
    os.mkdir(os.path.join(folder, "service"))
    for name, (text, _) in PARTS.items():
        place = "service" if name in SERVICE else ""
        with open(os.path.join(folder, place, f"test_{name}.py"), "w", encoding="utf-8") as file:
            file.write(text)
    return folder


@pytest.mark.parametrize("line", LAST_LINES)
def test_last_lines(cases, line):
    cases.equal(f"gate: the last line {line!r}", counted(line), LAST_LINES[line])


@pytest.fixture
def proved(folder, monkeypatch):
    """A folder for the gate, in which `rt ci` prints the file `said` and the tests pass."""
    scripts = {"rt": "cat said\n", "tests/run": "echo 2 passed, 0 failed\n"}
    scripts.update(dict.fromkeys(PROGRAMS, ""))
    for name, text in scripts.items():
        path = os.path.join(folder, name)
        os.makedirs(os.path.dirname(path), exist_ok=True)
        with open(path, "w", encoding="utf-8") as file:
            file.write("#!/bin/sh\n" + text)
        os.chmod(path, 0o755)
    monkeypatch.setenv("PATH", folder + os.pathsep + os.environ["PATH"])
    return folder


@pytest.mark.parametrize("names", range(3))
def test_edits_refused_for_a_name(cases, proved, capsys, names):
    """Each fails the gate, though `rt ci` counts it as passed."""
    said = [REFUSED, *[FOR_A_NAME] * names, f"{4 + names} passed, 0 failed"]
    with open(os.path.join(proved, "said"), "w", encoding="utf-8") as file:
        file.write("\n".join(said) + "\n")
    has_failed = gate(proved)
    lines = capsys.readouterr().out.splitlines()
    cases.equal("the last line", lines[-1], line_of(6, names, 0))
    took = [re.sub(r"\d+\.\d", "N", " ".join(it.split())) for it in lines[-4:-1]]
    cases.equal("what it took", took, TOOK)
    cases.equal("the gate has failed", has_failed, names > 0)
    cases.equal("edits shown", sum("must-fail" in it for it in lines), names)


def test_broken_parts(cases, frame):
    with ThreadPoolExecutor(4) as pool:
        ran = pool.map(lambda name: tried(frame, name), PARTS)
    for (name, (_, counts)), (lines, status) in zip(PARTS.items(), ran):
        wanted = line_of(*counts), int(counts[1] > 0)
        cases.equal(f"a part like {name}", (lines[-1], status), wanted)
    lines, status = tried(frame, *PARTS)
    whole = line_of(*map(sum, zip(*(counts for _, counts in PARTS.values()))))
    cases.equal("all of them", (lines[-1], status), (whole, 1))
    text = "\n".join(lines)
    for name in ("test_tour.py", "test_lspci.py", "service/test_machine.py"):
        cases.equal(f"{name} is named", f"FAILED {name}::test_one" in text, True)


def test_calls(cases, frame):
    lines, status = tried(frame, "words", "mirror")
    cases.equal("all is well", (lines[-1], status), ("2 passed, 0 failed", 0))
    lines, status = tried(frame, "service", "-k", "mirror or proxy")
    cases.equal("a folder", (lines[-1], status), ("1 passed, 0 failed, 1 skipped", 0))
    lines, status = tried(frame, "limits::test_two")
    cases.equal("one test", (lines[-1], status), ("1 passed, 0 failed", 0))
    lines, status = tried(frame, "words", "limits", "-k", "two")
    cases.equal("a part of a name", (lines[-1], status), ("1 passed, 0 failed", 0))
    lines, status = tried(frame, "limits", "-n", "0", "-x")
    cases.equal("up to the first failure", (lines[-1], status), ("2 passed, 1 failed", 1))


def test_faulty_calls(cases, frame):
    """What was asked for can't be tried: nothing is."""
    lines, status = tried(frame, "words", "no_such_part")
    cases.equal("an unknown part", (lines[-1], status), ("0 passed, 1 failed", 1))
    lines, status = tried(frame, "words::no_such_test")
    cases.equal("an unknown test", (lines[-1], status), ("0 passed, 1 failed", 1))
    lines, status = tried(frame, "words", "-k", "no_such_test")
    cases.equal("no test is chosen", (lines[-1], status), ("0 passed, 1 failed", 1))
    file = os.path.join(frame, "all.py")
    for name in ("", frame, file, os.path.join(frame, "none")):
        lines, status = tried(frame, "words", PCIIDS=name)
        got = (lines[0].startswith("PCIIDS "), lines[1:], status)
        cases.equal(f"PCIIDS={name!r}", got, (True, ["0 passed, 1 failed"], 1))
