"""Scripts on the built program: the example of docs/SCRIPT.md line for line, each request for
memory refused in turn, and the memory that a line of many fields takes."""
import fcntl
import os
import re
import struct
import subprocess
import tempfile
import termios
import time

import pytest

from examples import example_of
from form_rows import ROWS as FORMS
from program import HEADER, PROGRAM, TOP, WHOLE, run as run_program
from resident import KIB, told
from script_rows import A_MODERATOR, ROWS
from shims import run_refusing


def texts_of(rows):
    """A script of these lines, and its replies."""
    script = "".join(f"{line}\n" for line, _ in rows)
    replies = "".join(reply for _, reply in rows)
    return script.encode(), replies.encode(errors="surrogateescape")


SCRIPTS = {
    "a first name": texts_of(ROWS["a first name"]),
    "a parent first": texts_of(A_MODERATOR),
    "imports": texts_of(ROWS["imports"]),
    "refusals": texts_of(ROWS["refusals"]),
}

STOP = b"refused 16 Memory\n"


def test_example(cases):
    with open(os.path.join(TOP, "docs", "SCRIPT.md"), encoding="utf-8") as page:
        commands = example_of(page.read())
    cases.equal("docs/SCRIPT.md: the example has commands", len(commands) > 5, True)
    with tempfile.TemporaryDirectory() as folder, tempfile.TemporaryDirectory() as tools:
        os.symlink(PROGRAM, os.path.join(tools, "pciids"))
        environment = dict(os.environ, PATH=tools + os.pathsep + os.environ["PATH"])
        for command, printed in commands:
            how = {"capture_output": True, "text": True, "timeout": 60}
            ran = subprocess.run(["bash", "-c", command], cwd=folder, env=environment, **how)
            got = (ran.stdout, ran.stderr, ran.returncode)
            cases.equal(f"docs/SCRIPT.md: {command}", got, (printed, "", 0))


def is_cut_short(got, whole):
    """Whole lines of the output and then the refusal; or no registry was opened."""
    out, err, status = got
    if (out, status) == (b"", 3) and err in (b"no memory\n", b"open: Memory\n"):
        return True
    prefix = out[:-len(STOP)]
    has_whole_lines = prefix == b"" or prefix.endswith(b"\n")
    is_stopped = (err, status) == (b"", 3) and out == prefix + STOP
    return is_stopped and whole.startswith(prefix) and has_whole_lines


def refuse_in_turn(cases, shim, name, script, replies):
    whole = (replies, b"", 0)
    for at in range(1, 100_000):
        got, was_refused = run_refusing(shim, at, script, "script")
        if not was_refused:
            cases.equal(f"refused memory: script: {name}", got, whole)
            return at - 1
        if got != whole and not is_cut_short(got, replies):
            cases.equal(f"refused memory: script: {name}: request {at}", got, whole)
            return at


@pytest.mark.parametrize("name", sorted({*SCRIPTS, *ROWS}))
def test_script(cases, name):
    script, replies = SCRIPTS.get(name) or texts_of(ROWS[name])
    ran = run_program(script, "script")
    cases.equal(f"script: {name}", (ran.out, ran.err, ran.status), (replies, b"", 0))


def by_bytes(text):
    """What a script is answered that comes byte by byte, each once the one before was read."""
    pipes = {"stdin": subprocess.PIPE, "stdout": subprocess.PIPE, "bufsize": 0}
    with subprocess.Popen([WHOLE, "script"], **pipes) as running:
        for byte in text:
            running.stdin.write(bytes([byte]))
            while struct.unpack("i", fcntl.ioctl(running.stdin, termios.FIONREAD, bytes(4)))[0]:
                time.sleep(0.0002)
        running.stdin.close()
        return running.stdout.read(), running.wait(60)


def test_lines(cases):
    """Lines end in LF or CR LF, the last one perhaps in neither; each is UTF-8, comments too."""
    script = b"submit root path=PC/8086&name=I\r\n\xff\n#\xff\n\r\n#\r\n"
    script += b"read path=PC/8086\r\r\nread path=PC/8086"
    told = b"ok 1\nrefused 3 BadText\nrefused 3 BadText\nrefused 1 BadPath\nrefused 25 NoItem\n"
    ran = run_program(script, "script")
    cases.equal("script: ends of lines", (ran.out, ran.err, ran.status), (told, b"", 0))
    cases.equal("script: ends of lines, byte by byte", by_bytes(script), (told, 0))


def test_forms(cases):
    """The first fault of a form is answered before all else; a good form is refused for none."""
    script = "".join(f"{line}\n" for line, _ in FORMS).encode()
    replies = run_program(script, "script").out.splitlines()
    cases.equal("script: a reply to each form", len(replies), len(FORMS))
    for (line, want), reply in zip(FORMS, replies):
        found = re.match(rb"refused ([123]) ", reply)
        cases.equal(f"script: {line[:80]}", found[1].decode() if found else "good", want)


# A script of one line at a limit of its texts, and its reply.
LIMITS = (
    ("submit root path=PC/8086&name=" + "a" * 1_000, "ok 1\n"),
    ("submit root path=PC/8086&name=" + "a" * 1_001, "refused 2 BadName\n"),
    ("import root file=8086++" + "a" * 1_001, "refused 14 FileFault line=1 kind=6 BadName\n"),
    ("comment root num=1&text=" + "a" * 4_001, "refused 3 BadText\n"),
    ("withdraw root num=1&key=" + "a" * 65, "refused 3 BadText\n"),
)


def test_limits(cases):
    for row in LIMITS:
        script, replies = texts_of([row])
        ran = run_program(script, "script")
        cases.equal(f"script: {row[0][:40]}", (ran.out, ran.err, ran.status), (replies, b"", 0))


def test_a_thousand_vendors(cases):
    """Each is submitted, approved and read."""
    rows, text = [("account root who=bob&rank=0", "ok\n")], HEADER.decode()
    for number in range(1, 1_001):
        rows += [
            (f"submit bob path=PC/{number:04x}&name=a", f"ok {number}\n"),
            (f"approve root num={number}", "ok\n"),
            (f"read path=PC/{number:04x}", "name a\n"),
        ]
        text += f"{number:04x}  a\n"
    script, replies = texts_of(rows + [("export", text)])
    ran = run_program(script, "script")
    cases.equal("script: a thousand vendors", (ran.out, ran.err, ran.status), (replies, b"", 0))


@pytest.mark.needs("gcc", "libc6-dev")
def test_refused_memory(cases, shims):
    refusals = 0
    for name, texts in SCRIPTS.items():
        refusals += refuse_in_turn(cases, shims["refuse_malloc"], name, *texts)
    cases.equal("refused memory: script: requests were refused", refusals > 100, True)


class Lines:
    """A script that is given line after line, each once the one before has its reply."""

    def __init__(self):
        self.process = subprocess.Popen(
            [WHOLE, "script"], stdin=subprocess.PIPE, stdout=subprocess.PIPE
        )

    def __enter__(self):
        return self

    def __exit__(self, *fault):
        self.process.communicate()

    def reply(self, line):
        self.process.stdin.write(line + b"\n")
        self.process.stdin.flush()
        return self.process.stdout.readline()

    def held(self):
        return told(self.process.pid, "VmHWM")


def test_large_buffers(cases):
    """A look-up takes the memory of its text, however many bytes may be answered."""
    with Lines() as script:
        script.reply(b"import root file=8086++" + b"n" * 1_000)
        line = b"lookup flags=1&vendor=8086&size="
        want = b"text " + b"n" * 1_000 + b"\n"
        cases.equal("script: a buffer of 1,024 bytes", script.reply(line + b"1024"), want)
        before = script.held()
        cases.equal("script: a large buffer", script.reply(line + b"999999999"), want)
        took = script.held() - before
        cases.equal(f"script: a large buffer took {took} KiB", took <= KIB, True)


@pytest.mark.parametrize("start", (b"submit root ", b"read ", b"lookup "))
@pytest.mark.parametrize("length", (4_194_304, 16_777_216))
def test_many_fields(cases, start, length):
    """None of them is kept: the line takes at most twice its length."""
    line = start + b"a=b&" * ((length - len(start)) // 4)
    with Lines() as script:
        cases.equal("script: a short line", script.reply(start + b"a=b"), b"refused 3 BadText\n")
        before = script.held()
        cases.equal("script: many fields", script.reply(line), b"refused 3 BadText\n")
        took = script.held() - before
        cases.equal(f"script: many fields took {took} KiB", took <= 2 * length // KIB, True)
