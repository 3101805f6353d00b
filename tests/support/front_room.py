"""The nginx of deploy/nginx with the site, in front of a recorder that stands for the server. Its
traffic stays on loopback, whose addresses stand for visitors."""
import base64
import contextlib
import os
import re
import resource
import socket
import ssl
import subprocess
import threading
import time

import program
from http_server import ask_curl, clients_of, free_port, to_end
from program import SITE, TOP

HOST = "pciids.example.org"
PEOPLE = ("alice", "bob", "carol")

# Clients at once, beside what nginx and the test have open.
FILES = 4_096

# The longest that anything waits, in seconds; and how many times as long as for a response a test
# waits for one that may never come, and how long at least.
PATIENCE = 30
TIMES, LEAST = 10, 0.2


def placed(name, places):
    """A file of deploy/nginx with the places and ports of a test. Each has to be in it."""
    with open(os.path.join(TOP, "deploy", "nginx", name), encoding="utf-8") as file:
        text = file.read()
    for old, new in places:
        if old not in text:
            raise LookupError(f"{name} has no {old}")
        text = text.replace(old, new)
    # A machine may have no IPv6.
    return re.sub(r"\n *listen \[::\].*", "", text)


def basic(name, password):
    """The value of an Authorization field."""
    return "Basic " + base64.b64encode(f"{name}:{password}".encode()).decode()


def more_files():
    """nginx and the test may have so many connections open."""
    soft, hard = resource.getrlimit(resource.RLIMIT_NOFILE)
    if soft < FILES:
        resource.setrlimit(resource.RLIMIT_NOFILE, (min(FILES, hard), hard))


class Request:
    """What came to the recorder on one connection."""

    def __init__(self, data):
        self.data = data
        head, _, self.body = data.partition(b"\r\n\r\n")
        self.first, *self.fields = head.split(b"\r\n")

    def values(self, name):
        """The values of all fields of this name, as a reader that is lax about names finds them."""
        head = b"\n" + b"\n".join(self.fields).replace(b"\r", b"\n")
        return re.findall(rb"(?i)\n" + name + rb"[ \t]*:[ \t]*([^\n]*)", head)

    def is_whole(self):
        """The body is as long as the head says, and nothing follows it."""
        lengths = self.values(b"content-length") or [b"0"]
        return len(lengths) == 1 and len(self.body) == int(lengths[0])


class Recorder(threading.Thread):
    """Stands for the server: keeps each request, and answers `{"ok":true}`, or at a target of
    `answers` another status and body."""

    def __init__(self):
        super().__init__(daemon=True)
        self.listener = socket.create_server(("127.0.0.1", 0), backlog=256)
        self.port, self.seen = self.listener.getsockname()[1], []
        self.answers, self.seconds = {}, 0
        self.start()

    def run(self):
        for client in clients_of(self.listener):
            with client, contextlib.suppress(OSError):
                self.answer(client)

    def answer(self, client):
        data = self.request(client)
        if data:
            self.seen.append(Request(data))
            time.sleep(self.seconds)
            target = self.seen[-1].first.split(b" ")[1].decode()
            status, body = self.answers.get(target, (200, b'{"ok":true}'))
            head = f"HTTP/1.1 {status} -\r\nContent-Type: application/json\r\n"
            head += f"Content-Length: {len(body)}\r\nConnection: close\r\n\r\n"
            client.sendall(head.encode() + body)

    def request(self, client):
        """All that came: more than the request itself, if something was smuggled with it."""
        client.settimeout(PATIENCE)
        data = b""
        while True:
            head, end, body = data.partition(b"\r\n\r\n")
            length = re.search(rb"(?i)\r\ncontent-length: *(\d+)", head)
            if end and len(body) >= int(length[1] if length else 0):
                break
            piece = client.recv(65536)
            if not piece:
                return data
            data += piece
        client.settimeout(0.03)
        try:
            data += client.recv(65536)
        except TimeoutError:
            pass
        return data


class Front:
    """nginx in a folder, in front of a port. `more` are texts of its files and what stands there in
    a test: times and rates that a test can wait for. `host` is more of what differs by host, `join`
    the port of what joins people."""

    def __init__(self, folder, behind, host="", join=9, **more):
        self.folder, self.port = folder, free_port()
        os.makedirs(folder, exist_ok=True)
        os.chmod(folder, 0o755)
        os.makedirs(os.path.join(folder, "public", "item", "PC"))
        os.mkdir(os.path.join(folder, "nginx"))
        self.write("public/pci.ids.gz", "packed")
        for name, text in (("pci.ids", "# PCI ID registry\nC 01  Mass\n"), ("404.html", "none"),
                           ("vendors.html", "<h1>Vendors</h1>")):
            self.write(f"public/{name}", text)
        self.write("public/item/PC/8086.html", "<h1>Intel</h1>")
        for it in ("history/PC", "feeds"):
            os.makedirs(os.path.join(folder, "public", it))
        for it in ("history/2026-11.jsonl", "history/.names", "history/PC/8086.jsonl",
                   "feeds/changes.atom"):
            self.write(f"public/{it}", "{}")
        for it in ("accounts", "shown"):
            os.mkdir(os.path.join(folder, it))
        self.write("shown/epoch", f"{1:032x}\n")
        self.write("accounts/passwords", "".join(f"{it}:{hashed(f'pw-{it}')}\n" for it in PEOPLE))
        self.write("public/sitemap.xml", "<loc>https://site.invalid/sitemap-1.xml</loc>")
        self.write("host.conf", f"server_name {HOST};\n{host}\n")
        self.certificate = certificate(folder)
        self.contexts = {}
        self.configure(behind, join, more)
        subprocess.run(["chmod", "-R", "a+rX", folder], check=True)
        more_files()
        self.process = started(folder, "nginx.conf", self.port)

    def configure(self, behind, join, more):
        own = f"127.0.0.1:{self.port}"
        places = {
            "nginx": (
                ("/run/pciids-web", self.folder),
                ("/var/log/pciids-web", self.folder),
                ("/var/cache/pciids-web", self.folder),
            ),
            "pciids-limits": (
                ("unix:/run/pciids/http.sock", f"127.0.0.1:{behind}"),
                ("unix:/run/pciids/join.sock", f"127.0.0.1:{join}"),
                ("/run/pciids-lists", f"{self.folder}/lists"),
                ("/var/cache/pciids-long", f"{self.folder}/long"),
            ),
            "pciids-headers": (),
            "pciids-page": (),
            "pciids-published": (("/var/lib/pciids-public", f"{self.folder}/public"),),
            "pciids-question": (),
            "pciids-command": (),
            "pciids-join": (),
            "pciids-unit": (),
            "pciids-site": (
                ("/usr/share/pciids-registry/site", SITE),
                ("/run/pciids-join", f"{self.folder}/join"),
                ("/run/pciids-epoch", f"{self.folder}/shown"),
                ("listen 443", f"listen {own}"),
                ("listen 80;", f"listen 127.0.0.1:{free_port()};"),
            ),
        }
        for name, its in places.items():
            text = placed(f"{name}.conf", [*its, *more.get(name.replace("-", "_"), ())])
            self.write(f"nginx/{name}.conf", text.replace("/etc/pciids", self.folder))

    def write(self, name, text):
        with open(os.path.join(self.folder, name), "w", encoding="utf-8") as file:
            file.write(text)

    def close(self):
        stopped(self.process)

    def curl(self, path, *words, port=None):
        """The status, the type and the body that curl gets."""
        place = f"{HOST}:{port or self.port}"
        words = ("--cacert", self.certificate, "--resolve", f"{place}:127.0.0.1", *words)
        return ask_curl(*words, f"https://{place}{path}")

    def post(self, name, address, path="/submit", form="a=b", login=None):
        """The status of a command that somebody sends from an address of this machine."""
        login = login or basic(name, f"pw-{name}")
        words = ("--interface", address, "-H", f"Authorization: {login}", "-d", form)
        return self.curl(path, *words)[0]

    def connect(self, address="127.0.0.1", protocol=None):
        """A client to which TLS is spoken."""
        if protocol not in self.contexts:
            context = ssl.create_default_context(cafile=self.certificate)
            if protocol:
                context.set_alpn_protocols([protocol])
            self.contexts[protocol] = context
        place = ("127.0.0.1", self.port)
        client = socket.create_connection(place, timeout=PATIENCE, source_address=(address, 0))
        return self.contexts[protocol].wrap_socket(client, server_hostname=HOST)

    def quiet(self):
        """How long nothing has to come until nothing will, in seconds: by how long it takes nginx
        and the server to answer now."""
        start = time.monotonic()
        with self.connect() as client:
            client.sendall(b"GET /pending HTTP/1.1\r\nHost: a\r\nConnection: close\r\n\r\n")
            to_end(client)
        return LEAST + TIMES * (time.monotonic() - start)

    def raw(self, sent, quiet):
        """What comes back for the bytes of a client that speaks HTTP/1.1."""
        with self.connect() as client:
            client.sendall(sent)
            client.settimeout(quiet)
            try:
                return to_end(client)
            except (TimeoutError, OSError):
                return b""


def hashed(password):
    """A password as pciids-adduser writes one."""
    words = ["perl", "-e", "print crypt($ARGV[0], '$5$rounds=1000$salt$')", password]
    return subprocess.check_output(words, text=True)


def certificate(folder):
    path = os.path.join(folder, "certificate.pem")
    words = ["openssl", "req", "-x509", "-newkey", "ec", "-pkeyopt", "ec_paramgen_curve:P-256"]
    words += ["-nodes", "-days", "1", "-subj", f"/CN={HOST}"]
    words += ["-addext", f"subjectAltName=DNS:{HOST}", "-out", path]
    words += ["-keyout", os.path.join(folder, "key.pem")]
    subprocess.run(words, stderr=subprocess.DEVNULL, check=True)
    return path


def started(folder, name, port):
    """nginx with a configuration of the folder, once it listens."""
    with open(os.path.join(folder, "errors"), "ab") as errors:
        words = ["nginx", "-e", "stderr", "-c", os.path.join(folder, "nginx", name)]
        process = subprocess.Popen(words, stderr=errors)
    for _ in range(200):
        with socket.socket() as knock:
            if knock.connect_ex(("127.0.0.1", port)) == 0:
                return process
        time.sleep(0.05)
    process.kill()
    with open(os.path.join(folder, "errors"), encoding="utf-8") as file:
        raise RuntimeError(f"nginx does not start: {file.read()}")


def stopped(process):
    process.terminate()
    process.wait(timeout=30)


def needed():
    """What a test needs to start such an nginx. Otherwise it is skipped."""
    program.need("curl", "nginx-light", "openssl", "perl")
    if os.geteuid() != 0:
        raise program.Skip("only root can start it")
