"""Hostile requests by HTTP/2 at the nginx of deploy/nginx, frame by frame: what comes through. The
frames and the rules are those of RFC 9113, and the fields are written as RFC 7541 has them."""
import tempfile
import time

from test_front import SECOND, arrived, faults_of
from front_room import HOST, Front, Recorder, basic, needed

DATA, HEADERS, RESET, SETTINGS, PING, AWAY, CONTINUATION = 0, 1, 3, 4, 6, 7, 9
END_STREAM, END_HEADERS, ALONE, PADDED = 1, 4, 5, 8
PREFACE = b"PRI * HTTP/2.0\r\n\r\nSM\r\n\r\n"


def frame(kind, flags, stream, data=b""):
    return len(data).to_bytes(3, "big") + bytes([kind, flags]) + stream.to_bytes(4, "big") + data


def number(value):
    """An integer with a prefix of seven bits."""
    if value < 127:
        return bytes([value])
    value, found = value - 127, bytearray([127])
    while value > 127:
        found.append(value % 128 + 128)
        value //= 128
    return bytes(found + bytes([value]))


def block(fields):
    """A head: literal fields with new names, none of them indexed or packed."""
    texts = [it if isinstance(it, bytes) else it.encode() for pair in fields for it in pair]
    words = [number(len(it)) + it for it in texts]
    return b"".join(b"\0" + name + value for name, value in zip(words[::2], words[1::2]))


def head(fields, flags=END_HEADERS, stream=1):
    return frame(HEADERS, flags, stream, block(fields))


def body(data=b"a=b", flags=END_STREAM, stream=1):
    return frame(DATA, flags, stream, data)


def but(name, value=None):
    """The fields of the command with another value of one, or without it."""
    found = [(it, value if it == name else old) for it, old in COMMAND]
    return [it for it in found if it[1] is not None]


def command(*more, data=b"a=b", fields=None):
    return head([*(fields or COMMAND), *more]) + body(data)


LOGIN = ("authorization", basic("alice", "pw-alice"))
ASK = [(":method", "GET"), (":scheme", "https"), (":path", "/pending"), (":authority", HOST)]
COMMAND = [(":method", "POST"), (":scheme", "https"), (":path", "/submit"), (":authority", HOST),
           LOGIN]
CHUNKED = ("transfer-encoding", "chunked")
LINES = "a\r\nX-Account: root\r\nX-Foo: a"

# What is sent, and how many requests may come through of it, at least and at most. RFC 9113 calls
# most of these malformed (8.1.1, 8.2, 8.3). Where nginx repairs one all the same, one may come.
HOSTILE = {
    "a command": (command(), 1, 1),
    "a command with its length": (command(("content-length", "3")), 1, 1),
    "an account of the client": (command(("x-account", "root"), ("x_account", "root")), 1, 1),
    "an account of a question": (head([*ASK, ("x-account", "root")], ALONE), 1, 1),
    "two passwords": (command(("authorization", basic("root", "no"))), 0, 1),
    "another host": (command(("host", "evil.example")), 0, 1),
    # Fields that are of one connection. nginx may leave them out in place of a refusal.
    "connection": (command(("connection", "x-account")), 0, 1),
    "keep-alive": (command(("keep-alive", "1"), ("proxy-connection", "close")), 0, 1),
    "upgrade": (command(("upgrade", "h2c"), ("http2-settings", "AAAA")), 0, 1),
    "te": (command(("te", "gzip")), 0, 1),
    "transfer-encoding": (command(CHUNKED, data=b"0\r\n\r\n" + SECOND), 0, 1),
    "both lengths": (
        command(CHUNKED, ("content-length", "5"), data=b"0\r\n\r\n" + SECOND), 0, 0),
    # Lengths that are not those of the body.
    "a longer body": (command(("content-length", "3"), data=b"a=b" + SECOND), 0, 0),
    "a shorter body": (command(("content-length", "30")), 0, 0),
    "no body": (head([*COMMAND, ("content-length", "3")], ALONE), 0, 0),
    "two lengths": (command(("content-length", "3"), ("content-length", "30")), 0, 0),
    "a signed length": (command(("content-length", "+3")), 0, 0),
    "a huge length": (command(("content-length", "18446744073709551619")), 0, 0),
    # Pseudo-fields.
    "no method": (command(fields=but(":method")), 0, 0),
    "no path": (command(fields=but(":path")), 0, 0),
    "no scheme": (command(fields=but(":scheme")), 0, 0),
    "two methods": (command((":method", "GET")), 0, 0),
    "two paths": (command(fields=[(":path", "/approve"), *COMMAND]), 0, 0),
    "a path after a field": (command((":path", "/submit"), fields=but(":path")), 0, 1),
    "an empty path": (command(fields=but(":path", "")), 0, 0),
    "a path without its slash": (command(fields=but(":path", "submit")), 0, 0),
    "a path of lines": (command(fields=but(":path", f"/submit HTTP/1.1\r\nX-Foo: {LINES}")), 0, 0),
    "a path with a blank": (command(fields=but(":path", "/submit HTTP/1.1")), 0, 1),
    "a method of lines": (command(fields=but(":method", f"POST /submit\r\n{LINES}")), 0, 0),
    "a scheme of lines": (command(fields=but(":scheme", f"https\r\n{LINES}")), 0, 1),
    "a host of lines": (command(fields=but(":authority", LINES)), 0, 0),
    "an unknown pseudo-field": (command(fields=[(":account", "root"), *COMMAND]), 0, 0),
    "a response's pseudo-field": (command(fields=[(":status", "200"), *COMMAND]), 0, 0),
    # Names and values.
    "a name in capitals": (command(("X-Account", "root")), 0, 1),
    "a name of lines": (command((LINES, "a")), 0, 0),
    "a name with a colon": (command(("x-foo:x-account", "root")), 0, 1),
    "a name with a blank": (command(("x-account ", "root")), 0, 1),
    "a name with a NUL": (command(("x-account\0", "root")), 0, 0),
    "an empty name": (command(("", "root")), 0, 1),
    "a value of lines": (command(("x-foo", LINES)), 0, 0),
    "a value with a bare LF": (command(("x-foo", "a\nX-Account: root")), 0, 0),
    "a value with a bare CR": (command(("x-foo", "a\rX-Account: root")), 0, 0),
    "a value with a NUL": (command(("x-foo", "a\0b")), 0, 0),
    # Frames.
    "a head in two": (
        frame(HEADERS, 0, 1, block(COMMAND)[:40])
        + frame(CONTINUATION, END_HEADERS, 1, block(COMMAND)[40:]) + body(), 1, 1),
    "an account in trailers": (
        head(COMMAND) + body(flags=0)
        + head([("x-account", "root")], ALONE), 0, 1),
    "a second head": (command() + head(but(":path", "/approve")) + body(), 0, 1),
    "a body in another stream": (head(COMMAND) + body(stream=3), 0, 0),
    "a stream of the server": (head(COMMAND, stream=2) + body(stream=2), 0, 0),
    "stream 0": (head(COMMAND, stream=0) + body(stream=0), 0, 0),
    "half a head": (head(COMMAND)[:60], 0, 0),
    "a head without its end": (head(COMMAND, 0), 0, 0),
    "a body within a head": (head(COMMAND, 0) + body(), 0, 0),
    "half a body": (head([*COMMAND, ("content-length", "30")]) + body(flags=0), 0, 0),
    "a body without its end": (head(COMMAND) + body(flags=0), 0, 0),
    "a request taken back": (head(COMMAND) + frame(RESET, 0, 1, b"\0\0\0\x08"), 0, 0),
    "no such index": (frame(HEADERS, END_HEADERS, 1, b"\xff\xff\xff\x07" + block(COMMAND)), 0, 0),
    "a text past the frame": (frame(HEADERS, END_HEADERS, 1, block(COMMAND) + b"\0\x20x"), 0, 0),
    "padding past the frame": (frame(HEADERS, END_HEADERS | PADDED, 1, b"\xff" + block(ASK)), 0, 0),
    "a stranger beside her": (
        command() + head(but("authorization"), stream=3) + body(stream=3), 1, 1),
}


def answers(client, quiet):
    """What kinds of frames come back, until the first request is answered or nothing comes."""
    taken, kinds = b"", []
    client.settimeout(quiet)
    try:
        while piece := client.recv(65536):
            taken += piece
            while len(taken) >= 9 and len(taken) >= 9 + int.from_bytes(taken[:3], "big"):
                kind, flags, stream = taken[3], taken[4], int.from_bytes(taken[5:9], "big")
                taken = taken[9 + int.from_bytes(taken[:3], "big"):]
                kinds.append(kind)
                if kind == AWAY or stream == 1 and (kind == RESET or flags & END_STREAM):
                    return kinds
    except OSError:
        pass
    return kinds


def spoken(front, sent, quiet):
    """Speaks HTTP/2 to nginx. What kinds of frames come back."""
    with front.connect(protocol="h2") as client:
        client.sendall(PREFACE + frame(SETTINGS, 0, 0) + sent)
        return answers(client, quiet)


def hostile(cases, front, recorder):
    for name, (sent, fewest, most) in HOSTILE.items():
        seen = arrived(front, recorder, lambda quiet: spoken(front, sent, quiet), fewest)
        cases.equal(f"HTTP/2: {name}", list(faults_of(seen)), [])
        is_right = fewest <= len(seen) <= most
        cases.equal(f"HTTP/2: {name}, {len(seen)} came through", is_right, True)


NUMBERS = range(1, 2_000, 2)
# A field of 4,000 bytes that the other side is to remember (RFC 7541, 6.2.1), and naming it.
REMEMBERED, NAMED = b"\x40" + b"".join(number(it) + b"x" * it for it in (6, 3_900)), b"\xbe"
NO_WINDOW = frame(SETTINGS, 0, 0, b"\0\x04\0\0\0\0")
TEXT = [*ASK[:2], (":path", "/pci.ids"), ASK[3]]
# What holds nobody else up, although it is a lot.
FLOODS = {
    # CVE-2023-44487.
    "requests that are taken back": b"".join(
        head(ASK, ALONE, it) + frame(RESET, 0, it, b"\0\0\0\x08") for it in NUMBERS),
    # CVE-2024-27316.
    "a head that goes on and on": frame(HEADERS, END_STREAM, 1, block(ASK)) + b"".join(
        frame(CONTINUATION, 0, 1, block([(f"x-{it}", "a" * 90)])) for it in range(5_000)),
    # Each frame is of 4,000 bytes and stands for 16 megabytes.
    "a field that is named again and again": frame(
        HEADERS, ALONE, 1, block(ASK) + REMEMBERED + NAMED * 4_000) + frame(
        HEADERS, ALONE, 3, block(ASK) + NAMED * 4_000),
    "settings": frame(SETTINGS, 0, 0) * 20_000,
    "pings": frame(PING, 0, 0, b"12345678") * 20_000,
    "empty bodies": head(COMMAND) + frame(DATA, 0, 1) * 20_000,
    "texts that are not read": NO_WINDOW + b"".join(head(TEXT, ALONE, it) for it in NUMBERS[:100]),
}


def floods(cases, front, recorder):
    """Commands beside a flood take not many times as long as without, in one of three tries on a
    busy machine."""
    for at, (name, sent) in enumerate(FLOODS.items()):
        for turn in range(3):
            # No address may send more than 60 commands at once.
            address = f"127.0.6.{3 * at + turn + 1}"
            alone = timed(front, address)[1]
            with front.connect("127.0.0.5", "h2") as client:
                try:
                    client.sendall(PREFACE + frame(SETTINGS, 0, 0) + sent)
                except OSError:
                    # nginx has had enough of them.
                    pass
                recorder.seen.clear()
                told, took = timed(front, address)
            cases.equal(f"HTTP/2: commands beside {name}", told, [200] * 5)
            if took < 10 * alone:
                break
        times = f"in {took:.1f} s, alone in {alone:.1f} s"
        cases.equal(f"HTTP/2: beside {name} {times}", took < 10 * alone, True)
        strange = [it for it in recorder.seen if it.values(b"x-account") not in ([], [b"bob"])]
        cases.equal(f"HTTP/2: no command comes of {name}", len(strange), 0)


def timed(front, address):
    """The statuses of five commands from an address, and how many seconds they take."""
    start = time.monotonic()
    told = [front.post("bob", address) for _ in range(5)]
    return told, time.monotonic() - start


def test_front_http2(cases):
    needed()
    recorder = Recorder()
    with tempfile.TemporaryDirectory() as folder:
        front = Front(folder, recorder.port)
        try:
            kinds = spoken(front, command(), front.quiet())
            cases.equal("HTTP/2: it is spoken", HEADERS in kinds, True)
            hostile(cases, front, recorder)
            floods(cases, front, recorder)
        finally:
            front.close()
