"""A server whose disk stops at each call in turn, and one whose requests for memory are refused in
turn: a client that does what docs/HTTP.md says of such replies gets every answer in the end, and
nothing that was acknowledged is lost."""
import bisect
import contextlib
import errno
import os
import resource
import socket
import tempfile
import time
from typing import NamedTuple

import pytest

import http_rows
from http_server import JSON, OK, TEXT, Server, posted, refusal, reply
from program import HEADER, WHOLE
from registry import work
from shims import ROOM, SAMPLE, first_of

FILE = b"8086  Intel Corporation\n\t1237  440FX\n"
SUBMISSION = (
    b'{"author":"bob","decider":"root","name":"Intel","note":"","num":1,"path":"PC/8086",'
    b'"reason":"","remarks":[{"author":"root","text":"seen"}],"state":"approved"}'
)

# Requests in turn, each command with its account and its body, and what is answered.
STEPS = [
    ("POST /account", "root", b"who=bob&rank=0", JSON, OK),
    ("POST /submit", "bob", b"path=PC/8086&name=Intel", JSON, b'{"num":1,"ok":true}'),
    ("GET /pending?format=text", None, b"", TEXT, b"1 bob name PC/8086 Intel\n"),
    ("POST /comment", "root", b"num=1&text=seen", JSON, OK),
    ("POST /approve", "root", b"num=1", JSON, OK),
    ("GET /lookup?flags=3&vendor=8086&device=1237", None, b"", "text/plain", b"Intel Device 1237"),
    ("POST /import", "root", FILE, JSON, b'{"added":1,"ok":true,"renamed":1,"same":0}'),
    ("GET /read/PC/8086", None, b"", JSON, b'{"name":"Intel Corporation","path":"PC/8086"}'),
    ("GET /children?of=PC/8086", None, b"", JSON, b'[{"name":"440FX","path":"PC/8086/1237"}]'),
    ("GET /submission/1", None, b"", JSON, SUBMISSION),
    ("GET /pci.ids", None, b"", TEXT, HEADER + FILE),
]

# A command, a question, an import and the text of all items.
FEW_STEPS = [
    ("POST /submit", "root", b"path=PC/8086&name=Intel", JSON, b'{"num":1,"ok":true}'),
    ("POST /import", "root", FILE, JSON, b'{"added":2,"ok":true,"renamed":0,"same":0}'),
    ("GET /read/PC/8086?format=text", None, b"", TEXT, b"Intel Corporation\n"),
    ("GET /pci.ids", None, b"", TEXT, HEADER + FILE),
]


class Turn(NamedTuple):
    """Calls that are refused one in each run: by which library, of which requests, from the first
    or after the opening on, each or at a stride; the refusals that this gives, and how many
    runs there are at least."""

    shim: str
    steps: list
    is_after_opening: bool
    stride: int
    numbers: tuple
    least: int


# Of 7,400 requests for memory 5,300 are those of the opening, and a run takes 20 ms: so of all
# requests together each 17th is refused, and each after the opening for a few of them.
# (test_refusing.py refuses memory to openings too.)
TURNS = [
    Turn("refuse_disk", STEPS, False, 1, (17, 18), 40),
    Turn("refuse_malloc", STEPS, False, 17, (16, 18), 300),
    Turn("refuse_malloc", FEW_STEPS, True, 1, (16, 18), 500),
]

# How many connections a server serves, and how it ends: where it could not begin, where its
# registry failed, and where all were served.
CONNECTIONS = 2
UNBEGUN = [(b"", b"no memory\n", 3), (b"", b"open: Memory\n", 3), (b"", b"open: Store\n", 3)]
FAILED = [(b"served %d\n" % count, b"", 3) for count in (1, CONNECTIONS)]
DONE = [(b"served %d\n" % CONNECTIONS, b"", 0)]
DONE_ONCE, EMPTY = (b"served 1\n", b"", 0), (HEADER, b"", 0)


def unless(got, wanted):
    """What is wrong, if it is."""
    return None if got in wanted else got


def request(number, line, account, body):
    """The bytes of a request, a command's under a key of its own."""
    fields = (
        [f"X-Account: {account}", f"X-Key: k{number}", f"Content-Length: {len(body)}"]
        if account
        else []
    )
    return "\r\n".join([f"{line} HTTP/1.1", *fields, "", ""]).encode() + body


def one_reply(client):
    """The bytes of the next reply, or of a prefix of it where the connection ends there."""
    taken = b""
    try:
        while (size := whole_size(taken)) is None or len(taken) < size:
            piece = client.recv(65536)
            if not piece:
                break
            taken += piece
    except ConnectionResetError:
        pass
    return taken


def whole_size(taken):
    """The length of the first reply, once its head is whole: it may come in chunks of any size."""
    head, end, _ = taken.partition(b"\r\n\r\n")
    if not end:
        return None
    return (
        len(head)
        + len(end)
        + next(
            int(field[15:]) for field in head.split(b"\r\n") if field.startswith(b"Content-Length:")
        )
    )


class PatientClient:
    """Asks again until it is answered: on the same connection, on a new one, or of a server that
    runs anew."""

    def __init__(self, database, numbers, **how):
        self.database, self.numbers, self.client, self.wrong, self.refused = (
            database,
            numbers,
            None,
            None,
            set(),
        )
        self.server = Server(database, CONNECTIONS, program=WHOLE, **how)
        if not self.server.first_line:
            self.wrong = unless(self.server.ended(), UNBEGUN)
            self.server = Server(database, CONNECTIONS, program=WHOLE)

    def hang_up(self):
        if self.client is not None:
            self.client.close()
        self.client = None

    def connected(self):
        """A connection, to a new server where the one before has ended."""
        if self.client is None:
            try:
                self.client = self.server.connect()
            except ConnectionRefusedError:
                self.wrong = unless(self.server.ended(), FAILED + DONE)
                self.server = Server(self.database, CONNECTIONS, program=WHOLE)
                self.client = self.server.connect()
        return self.client

    def answered(self, number, step):
        """Whether the request was answered as it is to be, within a few times."""
        line, account, body, kind, want = step
        whole = reply("200 OK", kind, want)
        for _ in range(6):
            told = self.asked(request(number, line, account, body))
            if told == whole:
                return True
            refused = [it for it in self.numbers if told == refused_as(line, it)]
            self.refused.update(refused)
            if not refused and told and not (line == "GET /pci.ids" and whole.startswith(told)):
                self.wrong = told
                return False
            # A registry that has failed is closed after this connection.
            if refused in ([], [18]):
                self.hang_up()
        self.wrong = self.wrong or "no answer"
        return False

    def asked(self, sent):
        try:
            client = self.connected()
            client.sendall(sent)
            return one_reply(client)
        except (BrokenPipeError, ConnectionResetError):
            return b""

    def finish(self):
        """The server is live in the end, and closes its file when it has served all its
        connections."""
        self.hang_up()
        for _ in range(CONNECTIONS):
            try:
                self.server.connect().close()
            except (ConnectionRefusedError, ConnectionResetError):
                break
        self.wrong = self.wrong or unless(self.server.ended(), DONE)


WORDS = {16: "Memory", 17: "Store", 18: "Failed"}


def refused_as(line, number):
    """The reply of a refusal to a request."""
    is_text = "format=text" in line
    body = (
        f"refused {number} {WORDS[number]}\n".encode()
        if is_text
        else refusal(number, WORDS[number])
    )
    return reply("503 Service Unavailable", TEXT if is_text else JSON, body)


def run_refusing(shim, at, database, turn):
    """What was wrong in a run with its call number `at` refused, whether there was one, and the
    refusals that were answered."""
    told, telling = os.pipe()
    environment = dict(os.environ, LD_PRELOAD=shim, REFUSE_AT=str(at), REFUSE_FD=str(telling))
    client = PatientClient(database, turn.numbers, env=environment, pass_fds=[telling])
    os.close(telling)
    try:
        for number, step in enumerate(turn.steps):
            if client.wrong or not client.answered(number, step):
                client.wrong = (step[0], client.wrong)
                break
        client.finish()
    finally:
        client.server.process.kill()
    with os.fdopen(told, "rb") as pipe:
        return client.wrong, pipe.read(1) == b"!", client.refused


def is_after_opening(shim, at):
    """Whether call number `at` comes after a server listens. One that is refused what it keeps in
    memory listens nevertheless."""
    told, telling = os.pipe()
    os.set_blocking(told, False)
    environment = dict(os.environ, LD_PRELOAD=shim, REFUSE_AT=str(at), REFUSE_FD=str(telling))
    with tempfile.TemporaryDirectory(dir=ROOM) as folder, os.fdopen(told, "rb", 0) as pipe:
        path = os.path.join(folder, "r.db")
        with Server(path, program=WHOLE, env=environment, pass_fds=[telling]) as server:
            os.close(telling)
            return server.first_line != b"" and pipe.read(1) != b"!"


def first_after_opening(shim):
    """The first call that may be refused to a server that listens."""
    return 1 + bisect.bisect_left(
        range(1, 100_000), True, key=lambda at: is_after_opening(shim, at)
    )


def refuse_in_turn(cases, shim, turn):
    """Refuses the calls of a run in turn, each in a new file, until none is refused, and answers
    how many, and the refusals that were answered."""
    refusals, refused = 0, set()
    first = first_after_opening(shim) if turn.is_after_opening else first_of(turn.stride)
    for at in range(first, 1_000_000, turn.stride):
        with tempfile.TemporaryDirectory(dir=ROOM) as folder:
            database = os.path.join(folder, "r.db")
            wrong, was_refused, told = run_refusing(shim, at, database, turn)
            refused |= told
            if wrong is None and at % 5 == 1:
                left = work(b"", "export", "--db", database)
                wrong = None if left == (HEADER + FILE, b"", 0) else left
            if wrong is not None:
                cases.equal(f"serve: {turn.shim} {at}", wrong, None)
            if wrong is not None or not was_refused:
                return refusals, refused
            refusals += 1
    return refusals, refused


@pytest.mark.needs("gcc", "libc6-dev")
@pytest.mark.parametrize("turn", TURNS, ids=lambda it: f"{it.shim}-{it.stride}-{len(it.steps)}")
def test_refused_in_turn(cases, shims, turn):
    start = time.monotonic()
    refusals, refused = refuse_in_turn(cases, shims[turn.shim], turn)
    which = ("each call" if turn.stride == 1 else f"each {turn.stride}th call") + (
        " after the opening" if turn.is_after_opening else ""
    )
    name = f"serve: {turn.shim}: {which} of {len(turn.steps)} requests"
    print(
        f"{name} refused, {refusals} runs in {time.monotonic() - start:.0f} s; told"
        f" {sorted(refused)}; sample {SAMPLE}"
    )
    cases.equal(f"{name}: refusals were told", refused, set(turn.numbers))
    cases.equal(f"{name}: calls were refused", refusals >= turn.least, True)


# Each of the first two may be refused instead; so may the third, whose body is then not looked at.
_, THREE, THREE_REPLIES = zip(*http_rows.pairs_of("\n".join(http_rows.THREE)))
REFUSALS = [
    reply("503 Service Unavailable", JSON, refusal(number, WORDS[number]), close=close)
    for number in (16, 18)
    for close in (False, True)
]


def are_replies(taken):
    """Each reply is there, or a refusal in its place, up to an end, which may be within the text of
    all items."""
    for number, whole in enumerate(THREE_REPLIES):
        front = next((it for it in (whole, *REFUSALS) if taken.startswith(it)), None)
        if front is None:
            return taken == b"" or number == 1 and whole.startswith(taken)
        taken = taken[len(front) :]
    return taken == b""


def taken_of(client):
    """What comes until the connection ends."""
    taken = b""
    try:
        while piece := client.recv(65536):
            taken += piece
    except ConnectionResetError:
        pass
    return taken


def streamed(shim, at, database):
    """What the stream of three requests gets of a server whose request for memory number `at` is
    refused, whether there was one, and how the server ended."""
    told, telling = os.pipe()
    environment = dict(os.environ, LD_PRELOAD=shim, REFUSE_AT=str(at), REFUSE_FD=str(telling))
    server = Server(database, 1, program=WHOLE, env=environment, pass_fds=[telling])
    os.close(telling)
    try:
        with server.connect() as client:
            client.sendall(b"".join(THREE))
            client.shutdown(socket.SHUT_WR)
            taken = taken_of(client)
        ended = server.ended()
    finally:
        server.process.kill()
    with os.fdopen(told, "rb") as pipe:
        return taken, pipe.read(1) == b"!", ended


@pytest.mark.needs("gcc", "libc6-dev")
def test_three_requests(cases, shims):
    """Each request for memory after the opening is refused in turn under one stream; afterwards the
    registry has no item."""
    shim = shims["refuse_malloc"]
    first = first_after_opening(shim)
    for at in range(first, 1_000_000):
        with tempfile.TemporaryDirectory(dir=ROOM) as folder:
            database = os.path.join(folder, "r.db")
            taken, was_refused, ended = streamed(shim, at, database)
            left = work(b"", "export", "--db", database)
        wrong = not are_replies(taken) or ended not in [FAILED[0], DONE_ONCE] or left != EMPTY
        if wrong or not was_refused:
            got = (taken, ended, left)
            cases.equal(f"three requests: {at}", got, (b"".join(THREE_REPLIES), DONE_ONCE, EMPTY))
            break
    print(f"three requests: {at - first} requests for memory refused after the opening")
    cases.equal("three requests: requests were refused", at - first > 100, True)


def test_last_connection(cases, folder):
    """The registry fails at a command of the third connection, where no file may grow any more:
    each route says so from then on, but for what is known without it. The server ends with that
    connection, and counts it as the last one."""
    question = b"GET /pending HTTP/1.1\r\n\r\n"
    command = posted("/account", "root", b"who=alice&rank=0")
    # A write past the limit fails then, and no signal ends the program (setrlimit(2)).
    how = {"program": WHOLE, "restore_signals": False}
    with Server(os.path.join(folder, "r.db"), 5, **how) as server:
        for _ in range(2):
            server.raw(question)
        resource.prlimit(server.process.pid, resource.RLIMIT_FSIZE, (0, 0))
        with server.connect() as client:
            client.sendall(command)
            cases.equal("serve: no file may grow", one_reply(client), refused_as("POST", 17))
            for line, request, answer in http_rows.pairs_of(http_rows.FAILED):
                client.sendall(request)
                cases.equal(f"serve: it has failed: {line}", one_reply(client), answer)
        cases.equal("serve: the last connection", server.ended(), (b"served 3\n", b"", 3))


def test_no_file_more(cases, folder):
    """The server may have no file more open, so that no connection can be accepted: it says so and
    ends. The connection that it waits for may have its number already."""
    question = b"GET /pending HTTP/1.1\r\n\r\n"
    with Server(os.path.join(folder, "r.db"), 5, program=WHOLE) as server:
        used = {int(it) for it in os.listdir(f"/proc/{server.process.pid}/fd")}
        free = next(it for it in range(len(used) + 1) if it not in used)
        cases.equal("serve: a file more", server.raw(question), reply("200 OK", JSON, b"[]"))
        resource.prlimit(server.process.pid, resource.RLIMIT_NOFILE, (free, free))
        with contextlib.suppress(OSError):
            server.raw(question)
        told, faults, status = server.ended()
        cases.equal("serve: no file more", (faults, status), (b"socket: failed\n", 3))
        cases.equal("serve: no file more: the end", told in (b"served 1\n", b"served 2\n"), True)


@pytest.mark.needs("gcc", "libc6-dev")
@pytest.mark.parametrize("error", [errno.EINTR, errno.ECONNABORTED], ids=errno.errorcode.get)
def test_accepted_later(cases, folder, shims, error):
    """A wait that a signal interrupts, and a client that closed before it was accepted, are no
    connection: the server waits for the next one."""
    environment = dict(
        os.environ, LD_PRELOAD=shims["refuse_accept"], ACCEPT_FAILS="3", ACCEPT_ERROR=str(error)
    )
    with Server(os.path.join(folder, "r.db"), 1, program=WHOLE, env=environment) as server:
        told = server.raw(b"GET /pending HTTP/1.1\r\n\r\n")
        cases.equal("serve: accepted later", told, reply("200 OK", JSON, b"[]"))
        cases.equal("serve: accepted later: the end", server.ended(), DONE_ONCE)
