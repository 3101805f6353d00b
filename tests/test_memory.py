"""Each request for memory of the built program is refused in turn: it prints the whole answer, or
nothing but `no memory`."""
import os

import pytest

from program import run as run_program
from shims import run_refusing
from worked_rows import PRINTED

# A file with each kind of path below a vendor, and a lookup that asks for four of its names.
QEMU = (
    b"8086  Intel Corporation\n\t1237  440FX\n\t\t1af4 1100  Qemu machine\n1af4  Red Hat, Inc.\n"
)
FIELDS = ("--vendor", "8086", "--device", "1237", "--subvendor", "1af4", "--subdevice", "1100")
ANSWER = (b"text Red Hat, Inc. Qemu machine\n", b"", 0)


@pytest.mark.needs("gcc", "libc6-dev")
def test_refused_memory(cases, shims):
    # A line that comes in two chunks too, of which the reader keeps the first.
    texts = {name: text for name, (text, _) in PRINTED.items()}
    texts["many vendors"] = b"".join(b"%04x  %s\n" % (v, b"n" * 40) for v in range(800))
    texts["a subsystem"] = QEMU
    shim, refusals = shims["refuse_malloc"], 0
    for name, text in texts.items():
        refusals += refuse_in_turn(cases, shim, name, text)
        refusals += refuse_in_turn(cases, shim, name, text, "check")
    cases.equal("refused memory: requests were refused", refusals > 100, True)


@pytest.mark.needs("gcc", "libc6-dev")
def test_arguments_alone(cases, shims):
    for words in (["--help"], ["check", "--help"], ["--version"], ["chekc"], ["check", "x.ids"]):
        refuse_in_turn(cases, shims["refuse_malloc"], "arguments alone", b"", *words)


@pytest.mark.needs("gcc", "libc6-dev")
def test_look_up(cases, shims, room):
    path = os.path.join(room, "ids")
    with open(path, "wb") as file:
        file.write(QEMU)
    words = ("lookup", "--ids", path, "--flags", "b", *FIELDS)
    ran = run_program(b"", *words)
    cases.equal("refused memory: lookup: the answer", (ran.out, ran.err, ran.status), ANSWER)
    refusals = refuse_in_turn(cases, shims["refuse_malloc"], "a subsystem", b"", *words)
    cases.equal("refused memory: lookup: requests were refused", refusals > 100, True)


def refuse_in_turn(cases, shim, name, text, *words):
    """Refuses each request of one run in turn. Returns how many there were."""
    name = " ".join(["refused memory", *words[:1]]) + f": {name}"
    ran = run_program(text, *words)
    whole = (ran.out, ran.err, ran.status)
    # Before the arguments are read, the fault goes to standard error.
    wanted = [whole, (b"", b"no memory\n", 3)]
    # A file that could not be opened is reported so, whatever the cause.
    if words[:1] == ("lookup",):
        wanted.append((b"", b"file: failed\n", 3))
    if words == ("check",):
        wanted.append((b"no memory\n", b"", 3))
    for at in range(1, 100_000):
        got, was_refused = run_refusing(shim, at, text, *words)
        if not was_refused:
            cases.equal(f"{name}: none refused", got, whole)
            return at - 1
        if got not in wanted:
            cases.equal(f"{name}: request {at}", got, whole)
            return at
