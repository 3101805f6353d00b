"""`pciids serve` as the tests run it, and what is said over HTTP."""
import select
import socket
import subprocess
import time

from program import PROGRAM, WHOLE

JSON, TEXT, BYTES = "application/json", "text/plain; charset=utf-8", "text/plain"
OK = b'{"ok":true}'
# The longest that a server takes to say where it listens, in seconds.
FIRST_LINE = 120


def free_port():
    with socket.socket() as listener:
        listener.bind(("127.0.0.1", 0))
        return listener.getsockname()[1]


def clients_of(listener):
    """Whoever connects to a listener, until that is closed."""
    while True:
        try:
            client, _ = listener.accept()
        except OSError:
            return
        yield client


def to_end(client):
    taken = b""
    while piece := client.recv(65536):
        taken += piece
    return taken


def read_reply(stream):
    """The status and the body of the next reply of a stream; None where that ends before the reply
    is whole."""
    head = b""
    while not head.endswith(b"\r\n\r\n"):
        line = stream.readline()
        if not line:
            return None
        head += line
    length = next(
        int(line[16:]) for line in head.split(b"\r\n") if line.startswith(b"Content-Length: ")
    )
    body = stream.read(length)
    return (int(head.split(b" ")[1]), body) if len(body) == length else None


def posted(path, account, body, *fields):
    """The bytes of a command."""
    lines = [
        f"POST {path} HTTP/1.1",
        f"X-Account: {account}",
        *fields,
        f"Content-Length: {len(body)}",
        "",
        "",
    ]
    return "\r\n".join(lines).encode() + body


def refusal(number, word):
    return b'{"ok":false,"refused":%d,"word":"%s"}' % (number, word.encode())


def reply(status, kind, body, close=False):
    head = (
        f"HTTP/1.1 {status}\r\nContent-Type: {kind}\r\nContent-Length: {len(body)}\r\n"
        + ("Connection: close\r\n" if close else "")
        + "\r\n"
    )
    return head.encode() + body


def ask_curl(*words):
    """The status, the type and the body that curl gets."""
    told = "\n%{http_code} %{content_type}"
    ran = subprocess.run(
        ["curl", "-sS", "--max-time", "30", "-w", told, *words],
        stdout=subprocess.PIPE,
        stderr=subprocess.PIPE,
    )
    body, _, line = ran.stdout.rpartition(b"\n")
    status, _, kind = line.decode().partition(" ")
    return int(status or 0), kind, body


class Server:
    """`pciids serve` over a file, for so many connections."""

    def __init__(
        self, database, connections=1_000, program=PROGRAM, port=None, journal=None, **how
    ):
        self.port = port or free_port()
        words = [
            program,
            "serve",
            "--db",
            database,
            "--port",
            str(self.port),
            "--connections",
            str(connections),
        ]
        if journal is not None:
            words += ["--journal", journal]
        self.process = subprocess.Popen(
            words, stdout=subprocess.PIPE, stderr=subprocess.PIPE, **how
        )
        if not select.select([self.process.stdout], [], [], FIRST_LINE)[0]:
            self.kill()
            raise TimeoutError(f"the server has printed nothing for {FIRST_LINE} seconds")
        self.first_line = self.process.stdout.readline()

    def __enter__(self):
        return self

    def __exit__(self, *_):
        self.kill()

    def kill(self):
        self.process.kill()
        self.process.communicate()

    def connect(self):
        return socket.create_connection(("127.0.0.1", self.port), timeout=20)

    def raw(self, *pieces, pause=0):
        """What comes back for the bytes sent, one piece after the other, until the server
        closes."""
        with self.connect() as client:
            for piece in pieces:
                client.sendall(piece)
                if pause:
                    time.sleep(pause)
            client.shutdown(socket.SHUT_WR)
            return to_end(client)

    def curl(self, path, *words):
        return ask_curl(*words, f"http://127.0.0.1:{self.port}{path}")

    def post(self, path, account, form, *words):
        return self.curl(path, "-H", f"X-Account: {account}", "-d", form, *words)

    def ended(self):
        """What was printed after the first line, and the status."""
        out, err = self.process.communicate(timeout=30)
        return out, err, self.process.returncode


def answers(cases, name, database, targets):
    """A server over the file answers each of these with this text."""
    with Server(database, program=WHOLE) as server:
        for target, text in targets.items():
            cases.equal(f"{name}: {target}", server.curl(target)[2].decode(), text)
