"""The application of deploy/lib/join in a folder of a test, asked as nginx asks it."""
import base64
import contextlib
import hashlib
import importlib
import io
import json
import os
import shutil
import socket
import subprocess
import sys
import threading
import time
import urllib.parse

from fake_registry import Listener
from http_server import ask_curl, clients_of, free_port
from program import TOP

MODULES = ("names", "join")
PLACE = os.path.join(TOP, "deploy", "lib", "join")
SETTINGS = {"door": "open", "joins-a-day": 100, "joins-an-hour": 3}


def settings(**more):
    """The text of join.conf, with some of its settings as a test wants them."""
    its = SETTINGS | {name.replace("_", "-"): value for name, value in more.items()}
    return "[join]\n" + "".join(f"{name} = {value}\n" for name, value in its.items())


def password(number=0):
    """A password as the page makes one."""
    return hashlib.md5(f"password {number}".encode()).hexdigest()


def verifier(name, secret=None):
    """What a page sends of a password: RFC 2307's form of a salted SHA-1, which nginx reads."""
    salt = hashlib.sha256(f"pciids {name}".encode()).digest()[:8]
    sum_ = hashlib.sha1((secret or password()).encode() + salt).digest()
    return "{SSHA}" + base64.b64encode(sum_ + salt).decode()


class Unit:
    def __init__(self, folder):
        self.folder, self.registry = folder, os.path.join(folder, "http.sock")
        self.passwords = os.path.join(folder, "kept", "passwords")
        self.invites = os.path.join(folder, "kept", "invites")
        self.conf = os.path.join(folder, "join.conf")
        os.makedirs(self.invites)
        os.mkdir(os.path.join(folder, "sessions"))
        with open(self.passwords, "w", encoding="ascii"):
            pass
        self.load()

    def environment(self):
        return {
            "PCIIDS_PASSWORDS": self.passwords, "PCIIDS_JOIN_RUN": self.folder,
            "PCIIDS_JOIN_CONF": self.conf, "PCIIDS_SOCKET": self.registry,
        }

    def load(self):
        """Its modules, made anew with the places of this test."""
        old = {it: os.environ.get(it) for it in self.environment()}
        os.environ.update(self.environment())
        sys.path.insert(0, PLACE)
        for it in MODULES:
            sys.modules.pop(it, None)
        try:
            self.modules = [importlib.import_module(it) for it in MODULES]
        finally:
            sys.path.remove(PLACE)
            for it in MODULES:
                sys.modules.pop(it, None)
            for name, value in old.items():
                os.environ.pop(name) if value is None else os.environ.update({name: value})
        self.modules[-1].print = lambda *_, **__: None
        self.application = self.modules[-1].application

    def asked(self, method, path, form=None, **fields):
        """The status of a request, its fields and its JSON. `fields` are account, session and
        visitor, as nginx names them."""
        body = urllib.parse.urlencode(form or {}).encode() if method == "POST" else b""
        environ = {
            "REQUEST_METHOD": method, "PATH_INFO": path, "CONTENT_LENGTH": str(len(body)),
            "wsgi.input": io.BytesIO(body), "HTTP_X_VISITOR": fields.pop("visitor", "192.0.2.1"),
            **{f"HTTP_X_{name.upper()}": value for name, value in fields.items()},
        }
        told = []
        data = b"".join(self.application(environ, lambda *it: told.extend(it)))
        return int(told[0].split()[0]), dict(told[1]), json.loads(data)

    def status(self, *words, **fields):
        return self.asked(*words, **fields)[0]

    def join(self, name, secret=None, **more):
        """The status of a command to join."""
        form = {"name": name, "verifier": verifier(name, secret)}
        form |= {"invite": more.pop("invite")} if "invite" in more else {}
        return self.status("POST", "/join", form, **more)

    def settings(self, **more):
        with open(self.conf, "w", encoding="utf-8") as file:
            file.write(settings(**more))

    def lines(self):
        """The lines of the passwords, by their names."""
        with open(self.passwords, encoding="latin-1", newline="") as file:
            text = file.read()
        if text and not text.endswith("\n"):
            raise ValueError(f"the last line is not whole: {text[-80:]!r}")
        return {it.partition(":")[0]: it.partition(":")[2] for it in text.split("\n")[:-1]}

    def write(self, text):
        with open(self.passwords, "w", encoding="latin-1", newline="") as file:
            file.write(text)

    def sessions(self):
        return sorted(os.listdir(os.path.join(self.folder, "sessions")))


class Way(Listener):
    """The way from a socket to a port, as pciids-http.service is one."""

    def __init__(self, path, port):
        self.port = port
        super().__init__(path)

    def run(self):
        for client in clients_of(self.listener):
            try:
                server = socket.create_connection(("127.0.0.1", self.port), timeout=30)
            except OSError:
                client.close()
                continue
            for ends in ((client, server), (server, client)):
                threading.Thread(target=self.pump, args=ends, daemon=True).start()

    @staticmethod
    def pump(source, sink):
        with contextlib.suppress(OSError):
            while piece := source.recv(65536):
                sink.sendall(piece)
        for it in (source, sink):
            with contextlib.suppress(OSError):
                it.shutdown(socket.SHUT_RDWR)


# The server of Python itself, where there is no gunicorn.
OTHERWISE = """
import sys
from socketserver import ThreadingMixIn
from wsgiref.simple_server import WSGIRequestHandler, WSGIServer
import join

class Server(ThreadingMixIn, WSGIServer):
    pass

class Handler(WSGIRequestHandler):
    def log_message(self, *_):
        pass

server = Server(("127.0.0.1", int(sys.argv[1])), Handler)
server.set_app(join.application)
server.serve_forever()
"""


VISITOR = ("-H", "X-Visitor: 192.0.2.1")


class Served:
    """The application, served by gunicorn as in pciids-join.service, on a port."""

    def __init__(self, environment):
        self.port = free_port()
        words = [sys.executable, "-B", "-c", OTHERWISE, str(self.port)]
        if shutil.which("gunicorn"):
            words = ["gunicorn", "--bind", f"127.0.0.1:{self.port}", "--threads", "8",
                     "--log-level", "error", "join:application"]
        self.process = subprocess.Popen(
            words, cwd=PLACE, env={**os.environ, **environment, "PYTHONDONTWRITEBYTECODE": "1"},
            stdout=subprocess.DEVNULL, stderr=subprocess.DEVNULL)
        for _ in range(600):
            if ask_curl(f"http://127.0.0.1:{self.port}/accounts", *VISITOR)[0] == 404:
                return
            time.sleep(0.05)
        self.close()
        raise TimeoutError("the application doesn't answer")

    def close(self):
        self.process.terminate()
        self.process.wait(timeout=30)
