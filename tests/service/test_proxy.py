"""nginx in front of the server, by deploy/nginx.conf as it is but for its ports and places: who is
taken to ask, and clients that are slow."""
import json
import os
import socket
import ssl
import subprocess
import tempfile
import threading
import time

import program
from http_server import BYTES, JSON, OK, TEXT, Server, ask_curl, free_port, refusal, to_end
from program import HEADER, REAL_FILE, TOP, entries_of, tidy

HOST = "pciids.example.org"
PASSWORDS = {"root": "secret of root", "alice": "secret:of:alice", "mona": "mona", "Bob": "bob"}

# The bound of nginx.conf on a client that sends nothing, and the one that nginx has by itself, in
# seconds.
PATIENCE, OWN = 10, 60


def config():
    with open(os.path.join(TOP, "deploy", "nginx.conf"), encoding="utf-8") as file:
        return file.read()


def in_place(text, folder, port, behind):
    """The configuration with its ports and places made those of a test; None if one of them is not
    in it."""
    for old, new in (
        ("/run/pciids-nginx.pid", f"{folder}/pid"),
        ("/var/log/nginx/", f"{folder}/"),
        ("/etc/pciids/", f"{folder}/"),
        ("listen 443 ssl", f"listen 127.0.0.1:{port} ssl"),
        ("server 127.0.0.1:8086", f"server 127.0.0.1:{behind}"),
    ):
        if old not in text:
            return None
        text = text.replace(old, new)
    return text


class Proxy:
    """nginx with the configuration, its certificate and its file of passwords in a folder, in front
    of a port."""

    def __init__(self, folder, behind):
        self.folder, self.port = folder, free_port()
        os.chmod(folder, 0o755)
        self.certificate = os.path.join(folder, "certificate.pem")
        words = ["openssl", "req", "-x509", "-newkey", "rsa:2048", "-nodes", "-days", "1"]
        words += ["-subj", f"/CN={HOST}", "-addext", f"subjectAltName=DNS:{HOST}"]
        words += ["-keyout", os.path.join(folder, "key.pem"), "-out", self.certificate]
        quiet = {"stderr": subprocess.DEVNULL, "check": True}
        subprocess.run(words, **quiet)
        passwords = os.path.join(folder, "passwords")
        open(passwords, "w").close()
        for name, password in PASSWORDS.items():
            subprocess.run(["htpasswd", "-bB", passwords, name, password], **quiet)
        path = os.path.join(folder, "nginx.conf")
        with open(path, "w", encoding="utf-8") as file:
            file.write(in_place(config(), folder, self.port, behind))
        words = ["nginx", "-c", path, "-p", folder, "-e", os.path.join(folder, "errors")]
        self.process = subprocess.Popen([*words, "-g", "daemon off;"], stderr=subprocess.PIPE)

    def __enter__(self):
        for _ in range(100):
            try:
                self.connect().close()
                break
            except ConnectionRefusedError:
                time.sleep(0.05)
        return self

    def __exit__(self, *_):
        self.process.terminate()
        self.process.communicate(timeout=30)

    def connect(self):
        return socket.create_connection(("127.0.0.1", self.port), timeout=OWN)

    def connect_safely(self):
        """A client to which TLS is spoken."""
        context = ssl.create_default_context(cafile=self.certificate)
        return context.wrap_socket(self.connect(), server_hostname=HOST)

    def curl(self, path, *words):
        place = f"{HOST}:{self.port}"
        words = ("--cacert", self.certificate, "--resolve", f"{place}:127.0.0.1", *words)
        return ask_curl(*words, f"https://{place}{path}")

    def post(self, path, account, form, *words):
        return self.curl(path, "-u", f"{account}:{PASSWORDS[account]}", "-d", form, *words)


FORGED = ("-H", "X-Account: root", "-H", "x-account: root", "-H", "X_Account: root")


def accounts(cases, proxy):
    """Who is taken to ask: the name whose password was right, whatever else is said."""
    for name, rank in (("alice", 0), ("mona", 2)):
        told = proxy.post("/account", "root", f"who={name}&rank={rank}")
        cases.equal(f"proxy: an account for {name}", told, (200, JSON, OK))
    told = proxy.post("/submit", "alice", "path=PC/8086&name=Intel", *FORGED)
    want = 200, JSON, b'{"num":1,"ok":true}'
    cases.equal("proxy: a submission with a forged account", told, want)
    told = json.loads(proxy.curl("/submission/1")[2])
    got = told["author"], told["state"]
    cases.equal("proxy: it is under the name of the password", got, ("alice", "pending"))
    told = proxy.post("/approve", "alice", "num=1", *FORGED)
    want = 403, JSON, refusal(5, "RankTooLow")
    cases.equal("proxy: a forged account decides nothing", told, want)
    for name, words in {
        "no password": (),
        "no password, a forged account": FORGED,
        "a wrong password": ("-u", "alice:wrong"),
        "a wrong password, a forged account": ("-u", "alice:wrong", *FORGED),
        "an empty password": ("-u", "alice:"),
        "an unknown name": ("-u", "carol:carol"),
        "another method": ("-X", "DELETE"),
    }.items():
        status, kind, _ = proxy.curl("/approve", "-d", "num=1", *words)
        cases.equal(f"proxy: {name}", (status, kind), (401, "text/html"))
    told = proxy.post("/approve", "Bob", "num=1")
    cases.equal("proxy: a name that is no account's", told, (400, JSON, refusal(3, "BadText")))
    told = proxy.curl("/pending?format=text")
    want = 200, TEXT, b"1 alice name PC/8086 Intel\n"
    cases.equal("proxy: nothing came of them", told, want)
    told = proxy.post("/approve?format=text", "mona", "num=1")
    cases.equal("proxy: a decision", told, (200, TEXT, b"ok\n"))
    keyed = ("path=PC/10ec&name=Realtek", "-H", "X-Key: 2024-05-01/7")
    for _ in range(2):
        told = proxy.post("/submit", "alice", *keyed)
        cases.equal("proxy: a key goes through", told, (200, JSON, b'{"num":2,"ok":true}'))


def questions(cases, proxy):
    """Questions need no password, and a forged account, or a wrong password, changes nothing about
    them."""
    for path, want in {
        "/read/PC/8086": (200, JSON, b'{"name":"Intel","path":"PC/8086"}'),
        "/read/PC/8086?format=text": (200, TEXT, b"Intel\n"),
        "/lookup?flags=1&vendor=8086": (200, BYTES, b"Intel"),
        "/read/PC%2F8086": (400, JSON, refusal(1, "BadPath")),
        "/nope": (404, JSON, refusal(24, "NoRoute")),
        "/submit": (405, "", b""),
        "/pci.ids": (200, TEXT, HEADER + b"8086  Intel\n"),
    }.items():
        for words in ((), FORGED, ("-u", "alice:wrong")):
            told = proxy.curl(path, *words)
            cases.equal(f"proxy: GET {path} {' '.join(words)}", told, want)
    cases.equal("proxy: HEAD", proxy.curl("/pci.ids", "-I")[0], 405)
    status = proxy.post("/pci.ids", "alice", "", "-X", "DELETE")[0]
    cases.equal("proxy: another method, with a password", status, 405)
    fields = [word for number in range(40) for word in ("-H", f"X-{number}: {number}")]
    told = proxy.curl("/pending", *fields)
    cases.equal("proxy: a head that the server refuses", told, (400, JSON, refusal(20, "BadHead")))


GET = b"GET /pending HTTP/1.1\r\n"
HOST_A, CLOSE = b"Host: a\r\n", b"Connection: close\r\n"
# A client that waits for a go-ahead before it sends its body, and then sends it at once.
WAITING = (
    b"POST /comment HTTP/1.1\r\n" + HOST_A + CLOSE + b"Authorization: Basic bW9uYTptb25h\r\n"
    b"Expect: 100-continue\r\nContent-Length: 16\r\n\r\nnum=9&text=seen."
)


def standards(cases, proxy):
    """What the server leaves out of HTTP and nginx does."""
    absolute = GET.replace(b"/pending", b"https://a/pending")
    for name, sent, want in (
        ("no Host", GET + CLOSE + b"\r\n", b"HTTP/1.1 400 "),
        ("two of Host", GET + HOST_A + HOST_A + CLOSE + b"\r\n", b"HTTP/1.1 400 "),
        ("a target in absolute form", absolute + HOST_A + CLOSE + b"\r\n", b"HTTP/1.1 200 "),
        ("a go-ahead", WAITING, b"HTTP/1.1 100 Continue\r\n\r\nHTTP/1.1 404 "),
    ):
        with proxy.connect_safely() as client:
            client.sendall(sent)
            told = to_end(client)
        cases.equal(f"proxy: {name}", (told[:len(want)], told.count(b"\r\nDate: ")), (want, 1))


def files(cases, proxy, server):
    """Long bodies and long replies: Debian's file in, with its length and in chunks, and out
    again."""
    path = os.path.join(proxy.folder, "body")
    longest = 4_194_304
    for name, size, status in (("the longest body", longest, 200), ("longer", longest + 1, 413)):
        with open(path, "wb") as file:
            file.write(b"#" * size)
        told = proxy.curl("/import", "-u", "mona:mona", "--data-binary", f"@{path}")
        cases.equal(f"proxy: {name}", told[0], status)
    with open(REAL_FILE, "rb") as file:
        canonical = tidy(file.read()).out
    count = entries_of(canonical)
    words = ("-u", "mona:mona", "--data-binary", f"@{REAL_FILE}")
    told = proxy.curl("/import", *words)
    body = b'{"added":%d,"ok":true,"renamed":1,"same":0}' % (count - 1)
    cases.equal("proxy: import of the real file", told, (200, JSON, body))
    told = proxy.curl("/import?format=text", *words, "-H", "Transfer-Encoding: chunked")
    body = b"ok added=0 renamed=0 same=%d\n" % count
    cases.equal("proxy: the same in chunks", told, (200, TEXT, body))
    cases.equal("proxy: its text", proxy.curl("/pci.ids"), (200, TEXT, canonical))
    cases.equal("proxy: its text behind the proxy", server.curl("/pci.ids"), (200, TEXT, canonical))


class Slow(threading.Thread):
    """A client that sends so much and then nothing: for how long nginx waits, and what it says."""

    def __init__(self, connect, sent):
        super().__init__(daemon=True)
        self.start_time = time.monotonic()
        self.client = connect()
        self.client.sendall(sent)
        self.told = b""
        self.start()

    def run(self):
        try:
            self.told = to_end(self.client)
        except (ConnectionResetError, ssl.SSLEOFError):
            pass
        self.seconds = time.monotonic() - self.start_time


HALF_HEAD = b"POST /submit HTTP/1.1\r\nHost: a\r\nAuth"
# With the name and the password of mona, so that the body is waited for.
HALF_BODY = HALF_HEAD + b"orization: Basic bW9uYTptb25h\r\nContent-Length: 24\r\n\r\npath=PC/1"


def slow_clients(proxy):
    return {
        "says nothing at all": Slow(proxy.connect, b""),
        "says nothing": Slow(proxy.connect_safely, b""),
        "says half a head": Slow(proxy.connect_safely, HALF_HEAD),
        "says half a body": Slow(proxy.connect_safely, HALF_BODY),
    }


def cut(cases, proxy, server, slow):
    """A client that does not read keeps nobody waiting, and those that say nothing are cut when
    nginx's time is over."""
    with proxy.connect_safely() as client:
        # More than the kernel keeps for a client.
        client.sendall(b"GET /pci.ids HTTP/1.1\r\nHost: a\r\n\r\n" * 12)
        time.sleep(1)
        told = server.curl("/pending?after=9")
        cases.equal("proxy: beside a client that does not read", told, (200, JSON, b"[]"))
    for name, client in slow.items():
        client.join(OWN)
        is_soon = PATIENCE - 1 < client.seconds < OWN - PATIENCE
        cases.equal(f"proxy: a client that {name} is cut", (client.told, is_soon), (b"", True))
    cases.equal("proxy: nothing came of them", proxy.curl("/pending?after=2"), (200, JSON, b"[]"))


def many_clients(cases, proxy):
    """Sixteen requests of one address may be open, and when they are gone as many again."""
    slow = [proxy.connect_safely() for _ in range(16)]
    for client in slow[1:]:
        client.sendall(HALF_BODY)
    cases.equal("proxy: a request beside fifteen open ones", proxy.curl("/pending")[0], 200)
    slow[0].sendall(HALF_BODY)
    # nginx takes them when it comes to it.
    end = time.monotonic() + PATIENCE / 2
    while (told := proxy.curl("/pending")[0]) == 200 and time.monotonic() < end:
        time.sleep(0.05)
    cases.equal("proxy: one beside sixteen", told, 503)
    for client in slow:
        client.close()
    end = time.monotonic() + OWN
    while (told := proxy.curl("/pending")[0]) == 503 and time.monotonic() < end:
        time.sleep(0.05)
    cases.equal("proxy: when they are gone", told, 200)


def head_of_one(listener, heads):
    """Takes a request as the server would, and keeps its head."""
    client, _ = listener.accept()
    with client:
        taken = b""
        while b"\r\n\r\n" not in taken:
            taken += client.recv(65536)
        heads.append(taken.partition(b"\r\n\r\n")[0].decode().split("\r\n"))
        client.sendall(b"HTTP/1.1 200 OK\r\nContent-Length: 0\r\nConnection: close\r\n\r\n")


# What curl says by itself.
BY_CURL = ("host", "user-agent", "accept", "content-type")


def passed_on(cases, proxy, port):
    """What comes to the port of the server, and nothing of a client's account or password."""
    cases.equal("proxy: where the server does not run", proxy.curl("/pending")[0], 502)
    alice = ("-u", "alice:secret:of:alice", *FORGED)
    fields = ["connection: close", "content-length: 5", "x-account: alice", "x-key: k"]
    for name, words, want in (
        ("a command", (*alice, "-d", "num=1", "-H", "X-Key: k"), ["POST / HTTP/1.1", *fields]),
        ("a question", alice, ["GET / HTTP/1.1", "connection: close"]),
    ):
        heads = []
        with socket.create_server(("127.0.0.1", port)) as listener:
            taker = threading.Thread(target=head_of_one, args=(listener, heads))
            taker.start()
            proxy.curl("/", *words)
            taker.join()
        first, *fields = heads[0]
        parts = sorted((it.partition(":")[0].lower(), it.partition(":")[2]) for it in fields)
        known = [f"{it}:{value}" for it, value in parts if it not in BY_CURL]
        cases.equal(f"proxy: {name} as it comes to the server", [first, *known], want)


def test_proxy(cases):
    is_known = in_place(config(), "/", 1, 2) is not None
    cases.equal("deploy/nginx.conf has the ports and places that are known", is_known, True)
    program.need("apache2-utils", "curl", "nginx-light", "openssl", "pci.ids")
    if os.geteuid() != 0:
        raise program.Skip("only root starts nginx")
    with tempfile.TemporaryDirectory() as folder:
        database = os.path.join(folder, "registry.db")
        with Server(database) as server, Proxy(folder, server.port) as proxy:
            slow = slow_clients(proxy)
            cases.equal("proxy: beside slow clients", proxy.curl("/pending"), (200, JSON, b"[]"))
            waiting = [client.is_alive() for client in slow.values()]
            cases.equal("proxy: nginx still waits for them", waiting, [True] * len(slow))
            accounts(cases, proxy)
            questions(cases, proxy)
            standards(cases, proxy)
            files(cases, proxy, server)
            cut(cases, proxy, server, slow)
            many_clients(cases, proxy)
            server.kill()
            passed_on(cases, proxy, server.port)
