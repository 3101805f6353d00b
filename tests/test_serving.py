"""The registry over HTTP on this machine: curl, raw sockets, clients that are slow or go away, and
a server that is killed."""
import contextlib
import json
import os
import resource
import signal
import socket
import subprocess
import threading
import time
import urllib.parse

import pytest

import http_rows
from http_examples import try_examples
from http_server import BYTES, JSON, OK, TEXT, Server, posted, read_reply, refusal, reply, to_end
from program import HEADER, PROGRAM, REAL_FILE, WHOLE, entries_of, tidy
from registry import asked, script, work

pytestmark = pytest.mark.needs("curl")

# On a registry with one vendor and one submission, approved: the question, and its status, type and
# body.
QUESTIONS = {
    "/read/PC/8086": (200, JSON, b'{"name":"Intel Corporation","path":"PC/8086"}'),
    "/read/PC/8086?format=text": (200, TEXT, b"Intel Corporation\n"),
    "/read/PC/8087": (404, JSON, refusal(25, "NoItem")),
    "/read/PC/8087?format=text": (404, TEXT, b"refused 25 NoItem\n"),
    "/read/PC/80A6": (400, JSON, refusal(1, "BadPath")),
    "/read/": (404, JSON, refusal(24, "NoRoute")),
    "/read/PC/8086?format=xml": (400, JSON, refusal(3, "BadText")),
    "/read/PC/8086?format=text&format=text": (400, JSON, refusal(3, "BadText")),
    "/read/PC/8086?name=x": (400, JSON, refusal(3, "BadText")),
    "/children": (200, JSON, b'[{"name":"Intel Corporation","path":"PC/8086"}]'),
    "/children?of=": (200, JSON, b'[{"name":"Intel Corporation","path":"PC/8086"}]'),
    "/children?format=text": (200, TEXT, b"PC/8086 Intel Corporation\n"),
    "/children?of=PC/8086": (200, JSON, b"[]"),
    "/children?of=PC/8086&format=text": (200, TEXT, b""),
    "/children?of=PC/8087": (404, JSON, refusal(25, "NoItem")),
    "/children?of=PC/80A6": (400, JSON, refusal(1, "BadPath")),
    "/lookup?flags=3&vendor=8086&device=ffff": (200, BYTES, b"Intel Corporation Device ffff"),
    "/lookup?flags=20001&vendor=1234": (404, JSON, refusal(27, "NoAnswer")),
    "/lookup?flags=80001": (400, JSON, refusal(26, "BadFlags")),
    "/lookup": (400, JSON, refusal(3, "BadText")),
    "/lookup?flags=1&vendor=86": (400, JSON, refusal(3, "BadText")),
    "/submission/1": (
        200,
        JSON,
        (
            b'{"author":"alice","decider":"root","name":"Intel'
            b' Corporation","note":"","num":1,"path":"PC/8086","reason":"",'
            b'"remarks":[],"state":"approved"}'
        ),
    ),
    "/submission/1?format=text": (
        200,
        TEXT,
        (
            b"num 1\nauthor alice\npath PC/8086\nname Intel Corporation\nnote \nstate"
            b" approved\ndecider root\nreason \n"
        ),
    ),
    "/submission/2": (404, JSON, refusal(7, "NoSubmission")),
    "/submission/01": (400, JSON, refusal(3, "BadText")),
    "/submission/01?format=text": (400, TEXT, b"refused 3 BadText\n"),
    "/pending": (200, JSON, b"[]"),
    "/pending?after=0&format=text": (200, TEXT, b""),
    "/pending?after=00": (400, JSON, refusal(3, "BadText")),
    "/pci.ids": (200, TEXT, HEADER + b"8086  Intel Corporation\n"),
    "/pci.ids?format=text": (400, JSON, refusal(3, "BadText")),
    "/read/PC/8086?" + "&" * 8_000 + "format=text": (200, TEXT, b"Intel Corporation\n"),
    "/lookup?"
    + "&" * 8_000
    + "flags=3&vendor=8086&device=ffff": (200, BYTES, b"Intel Corporation Device ffff"),
    "/children?of=" + "%41" * 4_000 + "&format=text": (400, TEXT, b"refused 1 BadPath\n"),
    "/pending?after=" + "0" * 8_000: (400, JSON, refusal(3, "BadText")),
    "/nope": (404, JSON, refusal(24, "NoRoute")),
    "/submit": (405, "", b""),
}

# Streams that are refused, or close to that: each with its reply.
HOSTILE = {
    "no end of the head": (
        b"GET / HTTP/1.1\r\n",
        reply("400 Bad Request", JSON, refusal(20, "BadHead"), close=True),
    ),
    "33 fields": (
        b"GET / HTTP/1.1\r\n" + b"a: b\r\n" * 33 + b"\r\n",
        reply("400 Bad Request", JSON, refusal(20, "BadHead"), close=True),
    ),
    "two lengths": (
        b"GET / HTTP/1.1\r\nContent-Length: 0\r\nContent-Length: 0\r\n\r\n",
        reply("400 Bad Request", JSON, refusal(20, "BadHead"), close=True),
    ),
    "a length of letters": (
        b"GET / HTTP/1.1\r\nContent-Length: x\r\n\r\n",
        reply("400 Bad Request", JSON, refusal(20, "BadHead"), close=True),
    ),
    "a long head": (
        b"GET / HTTP/1.1\r\na: " + b"b" * 16_366,
        reply("400 Bad Request", JSON, refusal(20, "BadHead"), close=True),
    ),
    "a long body": (
        b"POST /import HTTP/1.1\r\nContent-Length: 4194305\r\n\r\n",
        reply("413 Payload Too Large", JSON, refusal(21, "BodyTooLong"), close=True),
    ),
    "a length of 30 digits": (
        b"POST /import HTTP/1.1\r\nContent-Length: " + b"9" * 30 + b"\r\n\r\n",
        reply("413 Payload Too Large", JSON, refusal(21, "BodyTooLong"), close=True),
    ),
    "chunks": (
        b"POST /import HTTP/1.1\r\nTransfer-Encoding: chunked\r\n\r\n",
        reply("501 Not Implemented", JSON, refusal(22, "Encoding"), close=True),
    ),
    "two of Host": (
        b"GET /pending HTTP/1.1\r\nHost: a\r\nHost: b\r\n\r\n",
        reply("200 OK", JSON, b"[]"),
    ),
    "line ends alone": (b"\r\n", b""),
    "a short file": (
        b"POST /import HTTP/1.1\r\nX-Account: root\r\nContent-Length: 20\r\n\r\n8086  Int",
        reply("400 Bad Request", JSON, refusal(23, "BodyShort"), close=True),
    ),
    "another method": (
        b"HEAD /pci.ids HTTP/1.1\r\n\r\n",
        b"HTTP/1.1 405 Method Not Allowed\r\nContent-Length: 0\r\nAllow: GET, POST\r\n\r\n",
    ),
    "an absolute target": (
        b"GET http://a/ HTTP/1.1\r\n\r\n",
        reply("400 Bad Request", JSON, refusal(28, "BadTarget")),
    ),
    "HTTP/1.0": (
        b"GET /read/PC/8086 HTTP/1.0\r\n\r\n",
        reply("404 Not Found", JSON, refusal(25, "NoItem"), close=True),
    ),
}


# Those that are refused as soon as they have come, whether or not the client goes on.
AT_ONCE = (
    "33 fields",
    "two lengths",
    "a length of letters",
    "a long head",
    "a long body",
    "a length of 30 digits",
    "chunks",
)


def test_streams(cases, folder):
    """Requests one after the other, whole, byte by byte and in bad form."""
    _, requests, replies = zip(*http_rows.pairs_of("\n".join(http_rows.THREE)))
    stream, replies = b"".join(requests), b"".join(replies)
    for name, pieces, pause in (
        ("at once", [stream], 0),
        ("byte by byte", [stream[at : at + 1] for at in range(len(stream))], 0.0005),
    ):
        with Server(os.path.join(folder, f"stream {name}"), 1) as server:
            told = server.raw(*pieces, pause=pause)
            cases.equal(f"http: three requests {name}", told, replies)
            cases.equal(
                f"http: three requests {name}: the end", server.ended(), (b"served 1\n", b"", 0)
            )
    connections = len(HOSTILE) + len(AT_ONCE) + 1
    with Server(os.path.join(folder, "hostile"), connections) as server:
        for name, (sent, want) in HOSTILE.items():
            cases.equal(f"http: {name}", server.raw(sent), want)
        for name in AT_ONCE:
            with server.connect() as client:
                client.sendall(HOSTILE[name][0])
                cases.equal(
                    f"http: {name}, of a client that waits", to_end(client), HOSTILE[name][1]
                )
        cases.equal("http: nothing came of them", server.curl("/pci.ids"), (200, TEXT, HEADER))
        cases.equal("http: the end", server.ended(), (b"served %d\n" % connections, b"", 0))


def test_questions(cases, folder):
    with Server(os.path.join(folder, "questions")) as server:
        steps = (
            ("/account", "root", "who=alice&rank=0", OK),
            ("/submit", "alice", "path=PC/8086&name=Intel+Corporation", b'{"num":1,"ok":true}'),
        )
        for path, account, form, want in steps:
            cases.equal(f"http: {path}", server.post(path, account, form), (200, JSON, want))
        cases.equal(
            "http: a rank too low",
            server.post("/approve", "alice", "num=1"),
            (403, JSON, refusal(5, "RankTooLow")),
        )
        cases.equal(
            "http: approve",
            server.post("/approve?format=text", "root", "num=1", "-H", "X-Key: a1"),
            (200, TEXT, b"ok\n"),
        )
        cases.equal(
            "http: approve again under its key",
            server.post("/approve", "root", "num=1", "-H", "X-Key: a1"),
            (200, JSON, OK),
        )
        cases.equal(
            "http: approve again",
            server.post("/approve", "root", "num=1"),
            (409, JSON, refusal(8, "NotPending")),
        )
        cases.equal(
            "http: no account",
            server.curl("/approve", "-d", "num=1"),
            (400, JSON, refusal(3, "BadText")),
        )
        for path, want in QUESTIONS.items():
            cases.equal(f"http: GET {path[:60]}", server.curl(path), want)
        told = server.raw(b"GET /submit HTTP/1.1\r\n\r\nPOST /read/PC/8086 HTTP/1.1\r\n\r\n")
        cases.equal(
            "http: methods",
            told,
            (
                b"HTTP/1.1 405 Method Not Allowed\r\nContent-Length: 0\r\nAllow:"
                b" POST\r\n\r\nHTTP/1.1 405 Method Not Allowed\r\nContent-Length: 0\r\nAllow:"
                b" GET\r\n\r\n"
            ),
        )
        cases.equal("http: curl with HTTP/1.0", server.curl("/read/PC/8086", "--http1.0")[0], 200)
        kept = subprocess.run(
            [
                "curl",
                "-sS",
                "-w",
                "%{num_connects}\n",
                "-o",
                os.devnull,
                f"http://127.0.0.1:{server.port}/pending",
                "-o",
                os.devnull,
                f"http://127.0.0.1:{server.port}/pending",
            ],
            stdout=subprocess.PIPE,
        )
        cases.equal("http: one connection for two requests", kept.stdout, b"1\n0\n")
        discussed(cases, server)


# Commands of a registry, and those that a server gets after them: of each the line of a script, and
# the request.
BEFORE = (
    "account root who=alice&rank=0",
    "submit alice path=PC/8086&name=Intel+Corporation&key=a1",
    "approve root num=1&key=r1",
)
LATER = (
    (
        "submit alice path=PC/8087&name=Other&key=a2",
        posted("/submit", "alice", b"path=PC/8087&name=Other", "X-Key: a2"),
    ),
    ("comment root num=2&text=seen", posted("/comment", "root", b"num=2&text=seen")),
    ("approve root num=2", posted("/approve", "root", b"num=2")),
)


def rows_of(path):
    """Each row of each table of a registry's file, and its export."""
    return asked(path, ".dump"), work(b"", "export", "--db", path)


def counts_of(path):
    """The revision and the number of receipts."""
    return asked(
        path, "SELECT value FROM meta WHERE label = 'revision'; SELECT count(*) FROM receipt"
    )


@pytest.mark.needs("sqlite3")
def test_commands_of_its_own(cases, folder):
    """A server sends its registry the commands of its requests and none of its own: neither before
    a stream nor after it. What it does not have to send leaves each row as it was, receipts and the
    revision too, and what it has to send leaves what a script of the same commands leaves."""
    path, twin = os.path.join(folder, "served"), os.path.join(folder, "by a script")
    script(path, *BEFORE)
    before = rows_of(path)
    cases.equal("http: three commands: revision, receipts", counts_of(path), "3\n2\n")
    streams = {
        "no bytes": b"",
        "questions": b"".join(b"GET %s HTTP/1.1\r\n\r\n" % it.encode() for it in QUESTIONS),
        "a refused command": posted("/approve", "alice", b"num=1"),
        "a repeated command": posted("/approve", "root", b"num=1", "X-Key: r1"),
        **{name: sent for name, (sent, _) in HOSTILE.items()},
    }
    for name, stream in streams.items():
        with Server(path, 1, program=WHOLE) as server:
            server.raw(stream)
            cases.equal(f"http: {name}: the end", server.ended(), (b"served 1\n", b"", 0))
        cases.equal(f"http: {name}: the rows that it leaves", rows_of(path), before)
    with Server(path, len(LATER) + 1, program=WHOLE) as server:
        for _, request in LATER:
            server.raw(request)
        server.raw(streams["questions"])
        cases.equal("http: commands: the end", server.ended(), (b"served 4\n", b"", 0))
    cases.equal("http: three more commands: revision, receipts", counts_of(path), "6\n3\n")
    script(twin, *BEFORE, *(line for line, _ in LATER))
    cases.equal("http: commands: the rows that they leave", rows_of(path), rows_of(twin))


def test_pages(cases, folder):
    """A hundred pending submissions are a page, and the one after them the next."""
    database = os.path.join(folder, "pages")
    script(
        database, "account root who=alice&rank=0", *["submit alice path=PC/8086&name=Intel"] * 101
    )
    with Server(database) as server:
        for after, numbers in ((0, range(1, 101)), (100, [101]), (101, [])):
            lines = "".join(f"{number} alice name PC/8086 Intel\n" for number in numbers)
            cases.equal(
                f"http: pending after {after}",
                server.curl(f"/pending?after={after}&format=text"),
                (200, TEXT, lines.encode()),
            )
        lines = (
            "num 101\nauthor alice\npath PC/8086\nname Intel\nnote \nstate pending\ndecider"
            " \nreason \n"
        )
        cases.equal(
            "http: submission 101",
            server.curl("/submission/101?format=text"),
            (200, TEXT, lines.encode()),
        )
        cases.equal(
            "http: submission 102",
            server.curl("/submission/102"),
            (404, JSON, refusal(7, "NoSubmission")),
        )
        cases.equal(
            "http: withdraw submission 101",
            server.post("/withdraw", "alice", "num=101"),
            (200, JSON, OK),
        )


def discussed(cases, server):
    """A removal with remarks, rejected, as JSON that Python reads, and as text."""
    name = 'A "quoted"\tname \\ é'
    form = "path=PC/8087&name=A+%22quoted%22%09name+%5C+%C3%A9"
    cases.equal(
        "http: an odd name", server.post("/submit", "alice", form)[2], b'{"num":2,"ok":true}'
    )
    cases.equal(
        "http: pending as JSON",
        json.loads(server.curl("/pending")[2]),
        [{"author": "alice", "name": name, "num": 2, "path": "PC/8087"}],
    )
    cases.equal(
        "http: pending as text",
        server.curl("/pending?format=text")[2].decode(),
        f"2 alice name PC/8087 {name}\n",
    )
    cases.equal(
        "http: a removal",
        server.post("/submit", "alice", "path=PC/8086&remove=yes&note=gone")[2],
        b'{"num":3,"ok":true}',
    )
    cases.equal(
        "http: a remark", server.post("/comment", "root", "num=3&text=seen%09it"), (200, JSON, OK)
    )
    cases.equal(
        "http: another", server.post("/comment", "alice", "num=3&text=thanks"), (200, JSON, OK)
    )
    cases.equal(
        "http: reject", server.post("/reject", "root", "num=3&reason=still+sold"), (200, JSON, OK)
    )
    remarks = [{"author": "root", "text": "seen\tit"}, {"author": "alice", "text": "thanks"}]
    want = {
        "author": "alice",
        "decider": "root",
        "name": None,
        "note": "gone",
        "num": 3,
        "path": "PC/8086",
        "reason": "still sold",
        "remarks": remarks,
        "state": "rejected",
    }
    cases.equal("http: a discussion as JSON", json.loads(server.curl("/submission/3")[2]), want)
    lines = (
        "num 3\nauthor alice\npath PC/8086\nremove\nnote gone\nstate rejected\ndecider root\nreason"
        " still sold\nremark root seen\tit\nremark alice thanks\n"
    )
    cases.equal(
        "http: a discussion as text", server.curl("/submission/3?format=text")[2].decode(), lines
    )
    cases.equal("http: withdraw", server.post("/withdraw", "alice", "num=2"), (200, JSON, OK))


def test_files(cases, folder):
    """Debian's file in, with and without curl's question whether to go on, and out again."""
    if not os.path.exists(REAL_FILE):
        cases.skipped("http: the real file", "the package pci.ids is not installed")
        return
    with open(REAL_FILE, "rb") as file:
        canonical = tidy(file.read()).out
    count = entries_of(canonical)
    with Server(os.path.join(folder, "real")) as server:
        words = [
            "-H",
            "X-Account: root",
            "-H",
            "Expect: 100-continue",
            "--expect100-timeout",
            "0.1",
            "--data-binary",
            f"@{REAL_FILE}",
        ]
        cases.equal(
            "http: import of the real file",
            server.curl("/import", *words),
            (200, JSON, b'{"added":%d,"ok":true,"renamed":0,"same":0}' % count),
        )
        cases.equal("http: its text", server.curl("/pci.ids"), (200, TEXT, canonical))
        cases.equal(
            "http: children of a vendor",
            len(json.loads(server.curl("/children?of=PC/8086")[2])) > 1000,
            True,
        )
        text = server.curl("/children?of=PC/8086&format=text")[2].decode()
        pairs = [
            (it["path"], it["name"]) for it in json.loads(server.curl("/children?of=PC/8086")[2])
        ]
        cases.equal(
            "http: children as text and as JSON",
            text,
            "".join(f"{path} {name}\n" for path, name in pairs),
        )
        words = ["-H", "X-Account: root", "--data-binary", "8086  I\n8086  J\n"]
        cases.equal(
            "http: a faulty file",
            server.curl("/import", *words),
            (422, JSON, b'{"kind":7,"line":2,"ok":false,"refused":14,"word":"FileFault"}'),
        )
        cases.equal(
            "http: a faulty file, as text",
            server.curl("/import?format=text", *words),
            (422, TEXT, b"refused 14 FileFault line=2 kind=7 Duplicate\n"),
        )


def test_long_files(cases, folder):
    """A file of 2 MB, before which curl asks whether to go on, and one as long as may be."""
    names = [b"%04x  a name of twenty-five bytes\n" % vendor for vendor in range(65_536)]
    texts = {"2 MB": b"".join(names), "4,194,304 bytes": b"#" * 4_194_304}
    with Server(os.path.join(folder, "long")) as server:
        for name, text in texts.items():
            path = os.path.join(folder, "text")
            with open(path, "wb") as file:
                file.write(text)
            told = server.curl("/import", "-H", "X-Account: root", "--data-binary", f"@{path}")
            want = b'{"added":%d,"ok":true,"renamed":0,"same":0}' % text.count(b"\n")
            cases.equal(f"http: import of {name}", told, (200, JSON, want))
        cases.equal(
            "http: the text of 2 MB", server.curl("/pci.ids"), (200, TEXT, HEADER + texts["2 MB"])
        )


def test_clients(cases, folder):
    """Clients that are slow, go away, or send on after the last request."""
    with Server(os.path.join(folder, "clients")) as server:
        with server.connect() as client:
            client.sendall(b"POST /account HTTP/1.1\r\nX-Acc")
        cases.equal(
            "http: after a client that went away", server.curl("/pending"), (200, JSON, b"[]")
        )
        with server.connect() as client:
            client.sendall(b"GET /pci.ids HTTP/1.1\r\n\r\n" * 1000)
            client.setsockopt(socket.SOL_SOCKET, socket.SO_LINGER, b"\1\0\0\0\0\0\0\0")
        cases.equal(
            "http: after a client that does not read", server.curl("/pending"), (200, JSON, b"[]")
        )
        with server.connect() as client:
            # The reply to the closing request comes whole, though more is sent after it.
            client.sendall(b"GET /pending HTTP/1.1\r\nConnection: close\r\n\r\n" + b"x" * 200_000)
            time.sleep(0.3)
            cases.equal(
                "http: bytes behind the last request",
                to_end(client),
                reply("200 OK", JSON, b"[]", close=True),
            )
        with server.connect() as client:
            for _ in range(3):
                client.sendall(b"GET /pending HTTP/1.1\r\n\r\n")
                cases.equal(
                    "http: each reply is out before the next request",
                    client.recv(65536),
                    reply("200 OK", JSON, b"[]"),
                )
        with server.connect() as client, client.makefile("rb") as stream:
            told = set()
            for _ in range(5_000):
                client.sendall(b"GET /pending HTTP/1.1\r\n\r\n")
                told.add(read_reply(stream))
            cases.equal("http: 5,000 requests on one connection", told, {(200, b"[]")})


def test_pauses(cases, folder):
    """A client that stops for seconds within a head, and then within a body."""
    with Server(os.path.join(folder, "pauses")) as server, server.connect() as client:
        client.sendall(b"POST /submit?format=text HTTP/1.1\r\nX-Acc")
        time.sleep(2.5)
        client.sendall(b"ount: root\r\nContent-Length: 22\r\n\r\npath=PC/8086&")
        time.sleep(2.5)
        client.sendall(b"name=Test")
        cases.equal(
            "http: a client that pauses",
            client.recv(65536),
            reply("200 OK", TEXT, b"ok 1\n"),
        )


def replies_until_end(client, request):
    """What comes back while a request is sent again and again, until the server ends the
    connection, and whether it then closes it."""
    taken = []

    def send():
        with contextlib.suppress(OSError):
            while True:
                client.sendall(request)

    sender = threading.Thread(target=send)
    sender.start()
    with contextlib.suppress(ConnectionResetError):
        while piece := client.recv(65536):
            taken.append(piece)
    sender.join(timeout=20)
    return b"".join(taken), not sender.is_alive()


def test_most_reads(cases, folder):
    """A connection ends after 1,000,000 reads, each of 4,096 bytes at most, also that of a client
    that sends on; and the next one is served. Of bodies of 1,024 reads each 976 come whole."""
    request = b"POST /nothing HTTP/1.1\r\nContent-Length: 4194304\r\n\r\n" + bytes(4_194_304)
    with Server(os.path.join(folder, "reads"), 2) as server:
        with server.connect() as client:
            replies, is_closed = replies_until_end(client, request)
        came = replies.count(b"HTTP/1.1 404 Not Found\r\n")
        cases.equal(f"http: the most reads: {came} requests", 600 < came <= 976, True)
        cases.equal("http: a client that sends on", is_closed, True)
        told = server.raw(b"GET /pending HTTP/1.1\r\n\r\n")
        cases.equal("http: behind the most reads", told, reply("200 OK", JSON, b"[]"))


def test_client_that_stays(cases, folder):
    """A client that leaves its connection open after the last reply is waited for a second."""
    question = b"GET /pending HTTP/1.1\r\n"
    with Server(os.path.join(folder, "stays"), 2) as server, server.connect() as client:
        client.sendall(question + b"Connection: close\r\n\r\n")
        last = reply("200 OK", JSON, b"[]", close=True)
        cases.equal("http: the last reply to a client that stays", to_end(client), last)
        start = time.monotonic()
        told = server.raw(question + b"\r\n")
        waited = time.monotonic() - start
        cases.equal("http: behind a client that stays", told, reply("200 OK", JSON, b"[]"))
        cases.equal(f"http: it waited {waited:.1f} s", waited < 10, True)


def test_many_connections(cases, folder):
    """More connections than the server may have files open, of which deploy/systemd/pciids.service
    allows as many: each is closed once it was served."""
    files, connections = 64, 100
    with Server(os.path.join(folder, "many"), connections) as server:
        resource.prlimit(server.process.pid, resource.RLIMIT_NOFILE, (files, files))
        told = [server.raw(b"GET /pending HTTP/1.1\r\n\r\n") for _ in range(connections)]
        want = [reply("200 OK", JSON, b"[]")] * connections
        cases.equal("http: many connections", told, want)
        end = (b"served %d\n" % connections, b"", 0)
        cases.equal("http: many connections: the end", server.ended(), end)


def test_broken_off(cases, folder):
    """A client that gives its connection up while it is answered: what is in front of the broken
    reply stands, what is after it was not begun, and the next client is served."""
    text = b"".join(b"%04x  %s\n" % (vendor, b"n" * 56) for vendor in range(20_000))
    command = posted("/submit", "root", b"path=PC/8086&name=Intel")
    # More than the system takes for a client that does not read.
    stream = command + b"GET /pci.ids HTTP/1.1\r\n\r\n" * 16 + command
    with Server(os.path.join(folder, "broken off")) as server:
        cases.equal(
            "http: the text that is broken off",
            server.raw(posted("/import", "root", text)),
            reply("200 OK", JSON, b'{"added":20000,"ok":true,"renamed":0,"same":0}'),
        )
        for number, taken in enumerate((1, 100, 70_000, 3_000_000), 1):
            with socket.socket() as client:
                client.setsockopt(socket.SOL_SOCKET, socket.SO_RCVBUF, 65_536)
                client.settimeout(20)
                client.connect(("127.0.0.1", server.port))
                client.sendall(stream)
                while taken > 0:
                    taken -= len(client.recv(min(taken, 65_536)))
                client.setsockopt(socket.SOL_SOCKET, socket.SO_LINGER, b"\1\0\0\0\0\0\0\0")
            found = [server.curl(f"/submission/{it}")[0] for it in (number, number + 1)]
            cases.equal(f"http: the commands around a broken reply, {number}", found, [200, 404])
        cases.equal(
            "http: the text behind broken replies",
            server.curl("/pci.ids"),
            (200, TEXT, HEADER + text),
        )


def test_killed(cases, folder):
    """A server that is killed while commands come. When the file is opened anew, each submission
    that was acknowledged is there as it was sent, and after them none, or the one that was under
    way."""
    database = os.path.join(folder, "killed")
    there, rounds = [], 10
    for turn in range(rounds):
        with Server(database) as server:
            if turn == 0:
                server.post("/account", "root", "who=alice&rank=0")
            timer = threading.Timer(
                0.05 + 0.03 * turn, lambda: server.process.send_signal(signal.SIGKILL)
            )
            timer.start()
            acknowledged, under_way = submit_until_killed(server, len(there))
            timer.join()
        there += acknowledged
        with Server(database) as server:
            found = submissions(server)
        lost = [it for it, other in zip(there, found + [None] * len(there)) if it != other]
        cases.equal(f"http: round {turn}: acknowledged and not there", lost[:1], [])
        cases.equal(
            f"http: round {turn}: behind those acknowledged",
            found[len(there) :] in ([], [under_way]),
            True,
        )
        there = found
    cases.equal("http: commands were acknowledged", len(there) > 2 * rounds, True)


def submit_until_killed(server, last):
    """The submissions that were acknowledged after the one numbered `last`, and the one that was
    sent then, if any."""
    acknowledged, under_way = [], None
    try:
        with server.connect() as client, client.makefile("rb") as stream:
            while True:
                number = last + len(acknowledged) + 1
                form = {
                    "path": f"PC/{number:04x}",
                    "name": f"Name {number} of {server.port}",
                    "note": f"é{number}" * (number % 50),
                }
                under_way = {
                    "author": "alice",
                    "decider": "",
                    "num": number,
                    "reason": "",
                    "remarks": [],
                    "state": "pending",
                    **form,
                }
                client.sendall(posted("/submit", "alice", urllib.parse.urlencode(form).encode()))
                if read_reply(stream) != (200, b'{"num":%d,"ok":true}' % number):
                    return acknowledged, under_way
                acknowledged.append(under_way)
                under_way = None
    except OSError:
        return acknowledged, under_way


def submissions(server):
    """All submissions from the first on, asked for a hundred at once, until one is not there."""
    found = []
    with server.connect() as client, client.makefile("rb") as stream:
        while len(found) % 100 == 0:
            numbers = range(len(found) + 1, len(found) + 101)
            client.sendall(
                b"".join(b"GET /submission/%d HTTP/1.1\r\n\r\n" % number for number in numbers)
            )
            told = [read_reply(stream) for _ in numbers]
            shown = [json.loads(body) for status, body in told if status == 200]
            if not shown:
                break
            found += shown
    return found


def test_examples(cases, folder):
    """The examples of docs/HTTP.md, line for line."""
    with Server(os.path.join(folder, "examples")) as server:
        try_examples(cases, server)


def test_taken_port(cases, folder):
    with socket.socket() as listener:
        listener.bind(("127.0.0.1", 0))
        listener.listen()
        ran = subprocess.run(
            [
                PROGRAM,
                "serve",
                "--db",
                os.path.join(folder, "taken"),
                "--port",
                str(listener.getsockname()[1]),
            ],
            stdout=subprocess.PIPE,
            stderr=subprocess.PIPE,
            timeout=30,
        )
    cases.equal(
        "http: a port that is taken",
        (ran.stdout, ran.stderr, ran.returncode),
        (b"", b"socket: failed\n", 3),
    )
