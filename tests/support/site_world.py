"""What the tests of the site stand on: a registry with a part of Debian's file, the program that
serves it, a proxy that spoils responses on demand, and the real nginx with the site's own
configuration in front."""
import glob
import json
import os
import re
import shutil
import signal
import socket
import sqlite3
import subprocess
import tempfile
import threading
import time
import urllib.error
import urllib.parse
import urllib.request

import program
from http_server import Server, ask_curl, clients_of, free_port, to_end
from joining_unit import Served, Way, settings
from shims import ROOM

SITE = os.path.join(program.TOP, "site")
# Where nginx's files for the site are.
CONFIG = os.environ.get("SITE_NGINX", os.path.join(program.TOP, "deploy", "nginx"))
PEOPLE = {"root": 3, "sam": 2, "mona": 1, "alice": 0, "dora": 0}

# The vendors and classes of Debian's file that the registry of a test has, and how many lines of
# each. The published file is Debian's whole one: what the site has at hand are all its names.
TAKEN = {
    "8086": 60, "10de": 25, "1af4": 25, "1002": 20, "10ec": 20, "0014": 8, "1234": 3, "1022": 15,
    "C 01": 12, "C 02": 6, "C 03": 5, "C 06": 8,
}
ALWAYS = ("PC/8086/1237", "PC/8086/1237/1af41100")
# The longest that anything of a test waits for another program, in seconds.
PATIENCE = 50


def items_of_file():
    """The items of Debian's file as (path, name), in its order."""
    top = first = ""
    with open(program.REAL_FILE, encoding="utf-8") as file:
        for line in file:
            text = line.rstrip("\n")
            rest = text.lstrip("\t")
            if not rest.strip() or rest.startswith("#"):
                continue
            depth = len(text) - len(rest)
            front = "C " if rest.startswith("C ") else ""
            numbers, name = re.match(r"((?:[0-9a-f]{2,4} ?)+?)  (.*)", rest[len(front):]).groups()
            digits = numbers.replace(" ", "")
            if depth == 0:
                top = first = ("PD/" if front else "PC/") + digits
            elif depth == 1:
                first = f"{top}/{digits}"
            yield (first if depth < 2 else f"{first}/{digits}"), name


def items_taken():
    left = {("PD/" + it[2:] if it[:2] == "C " else "PC/" + it): n for it, n in TAKEN.items()}
    for path, name in items_of_file():
        top = path[:7] if path.startswith("PC") else path[:5]
        if left.get(top, 0) > 0 or path in ALWAYS:
            left[top] = left.get(top, 0) - 1
            yield path, name


def fill(database, items):
    """A registry with these items and the accounts of PEOPLE, as an import would have made it."""
    lines = [f"account root who={who}&rank={rank}\n" for who, rank in PEOPLE.items()
             if who != "root"]
    words = [program.PROGRAM, "script", "--db", database]
    quiet = {"stdout": subprocess.DEVNULL, "timeout": PATIENCE, "check": True}
    subprocess.run(words, input="".join(lines).encode(), **quiet)
    with sqlite3.connect(database) as registry:
        registry.executemany("INSERT INTO item VALUES (?, ?)", items)
        registry.executemany("INSERT INTO item_since VALUES (?, 5)", [(path,) for path, _ in items])
        registry.execute("UPDATE meta SET value = ? WHERE label = 'items'", (len(items),))
        registry.execute("UPDATE meta SET value = 5 WHERE label = 'revision'")
    registry.close()


class Spoiler:
    """Stands between nginx and the server. `mode` is `pass`, `lose` (the responses to the next
    `left` commands are thrown away), `hold` (each response comes `seconds` late), `keep` (responses
    to commands wait for another mode), `blind` (questions get none) or `gone`."""

    def __init__(self, behind):
        self.behind, self.port = behind, free_port()
        self.changed = threading.Condition()
        self.mode, self.left, self.seconds = "pass", 0, 0
        # The first lines of the requests that came.
        self.seen = []
        self.listener = socket.create_server(("127.0.0.1", self.port), backlog=100)
        threading.Thread(target=self.listen, daemon=True).start()

    def set(self, mode, left=0, seconds=0):
        with self.changed:
            self.mode, self.left, self.seconds = mode, left, seconds
            self.changed.notify_all()

    def listen(self):
        for client in clients_of(self.listener):
            threading.Thread(target=self.serve, args=(client,), daemon=True).start()

    def serve(self, client):
        client.settimeout(PATIENCE)
        with client:
            if self.mode == "gone":
                client.setsockopt(socket.SOL_SOCKET, socket.SO_LINGER, b"\1\0\0\0\0\0\0\0")
                return
            try:
                self.pass_on(client)
            except OSError:
                pass

    def pass_on(self, client):
        request = whole_request(client)
        if request is None:
            return
        self.seen.append(request.partition(b"\r\n")[0])
        is_command = request.startswith(b"POST") and b"\nx-key:" in request.lower()
        if self.mode == "blind" and not is_command:
            return
        is_lost = is_command and self.is_lost()
        place = ("127.0.0.1", self.behind)
        with socket.create_connection(place, timeout=PATIENCE) as server:
            server.sendall(request)
            response = to_end(server)
        if self.mode == "hold":
            time.sleep(self.seconds)
        with self.changed:
            self.changed.wait_for(lambda: self.mode != "keep" or not is_command, PATIENCE)
        if not is_lost:
            client.sendall(response)

    def is_lost(self):
        with self.changed:
            if self.mode != "lose" or self.left == 0:
                return False
            self.left -= 1
            return True


def whole_request(client):
    """A request of nginx, or None where it does not come whole: nginx drops one whose page was left
    meanwhile. Nothing of such a one may go on, since the server serves one connection at a time and
    would wait for the rest."""
    taken = b""
    while (size := size_of(taken)) is None or len(taken) < size:
        piece = client.recv(65536)
        if not piece:
            return None
        taken += piece
    return taken


def size_of(taken):
    """How long a request is, once its head is there."""
    head, end, _ = taken.partition(b"\r\n\r\n")
    length = re.search(rb"\ncontent-length: *([0-9]+)", head, re.I)
    return len(head + end) + (int(length[1]) if length else 0) if end else None


NGINX = """user root;
worker_processes 1;
pid {folder}/pid;
error_log {folder}/errors.log;
events {{ worker_connections 512; }}
http {{
    include /etc/nginx/mime.types;
    default_type application/octet-stream;
    access_log {folder}/access.log;
    client_body_temp_path {folder}/body; proxy_temp_path {folder}/proxy;
    fastcgi_temp_path {folder}/f; uwsgi_temp_path {folder}/u; scgi_temp_path {folder}/s;
    include {folder}/pciids-limits.conf;
    include {folder}/pciids-site.conf;
}}
"""


class Nginx:
    """nginx with the site's configuration, its ports and places changed. The tests' people share
    one address, so its rates are ten times as high."""

    def __init__(self, folder, behind, join):
        self.folder, self.port, self.join = folder, free_port(), join
        certificate = ["openssl", "req", "-x509", "-newkey", "rsa:2048", "-nodes", "-days", "1",
                       "-subj", "/CN=localhost", "-out", f"{folder}/certificate.pem", "-keyout",
                       f"{folder}/key.pem"]
        quiet = {"stderr": subprocess.DEVNULL, "timeout": PATIENCE, "check": True}
        subprocess.run(certificate, **quiet)
        passwords = f"{folder}/accounts/passwords"
        os.makedirs(f"{folder}/accounts/invites")
        open(passwords, "w").close()
        for name in PEOPLE:
            words = ["htpasswd", "-bB", "-C", "4", passwords, name, f"pw-{name}"]
            subprocess.run(words, **quiet)
        for name in ("headers", "limits", "page", "published", "question", "command", "join",
                     "unit", "site"):
            with open(f"{CONFIG}/pciids-{name}.conf", encoding="utf-8") as file:
                text = self.in_place(file.read(), behind)
            with open(f"{folder}/pciids-{name}.conf", "w", encoding="utf-8") as file:
                file.write(text)
        with open(f"{folder}/host.conf", "w", encoding="utf-8") as file:
            file.write("server_name localhost;\n")
        with open(f"{folder}/nginx.conf", "w", encoding="utf-8") as file:
            file.write(NGINX.format(folder=folder))
        words = ["nginx", "-c", f"{folder}/nginx.conf", "-p", folder, "-e", f"{folder}/errors.log",
                 "-g", "daemon off;"]
        self.process = subprocess.Popen(words, stderr=subprocess.PIPE)

    def in_place(self, text, behind):
        for old, new in (
            (r"listen 443 ssl( http2)?;", f"listen 127.0.0.1:{self.port} ssl\\1;"),
            (r"listen 80;", f"listen 127.0.0.1:{free_port()};"),
            (r" *listen \[::\].*\n", ""),
            (r"/etc/pciids/(nginx/)?", f"{self.folder}/"),
            (r"/usr/share/pciids-registry/site", SITE),
            (r"/var/lib/pciids-public", f"{self.folder}/public"),
            (r"unix:/run/pciids/http.sock", f"127.0.0.1:{behind}"),
            (r"unix:/run/pciids/join.sock", f"127.0.0.1:{self.join}"),
            (r"/run/pciids-join", f"{self.folder}/join"),
            (r"/run/pciids-epoch", f"{self.folder}/shown"),
            (r"/run/(pciids-lists)|/var/cache/(pciids-long)", f"{self.folder}/\\1\\2"),
            (r"rate=([0-9]+)r/", r"rate=\g<1>0r/"),
        ):
            text = re.sub(old, new, text)
        return text

    def stop(self):
        self.process.terminate()
        self.process.communicate(timeout=30)


def missing():
    """Why the site can't be tried here, or None."""
    program.need("apache2-utils", "chromium", "chromium-driver", "curl", "nginx-light", "openssl",
                 "pci.ids", "python3-selenium")
    if not os.path.exists(f"{CONFIG}/pciids-site.conf"):
        return f"{CONFIG} has no configuration of the site"
    return None if os.geteuid() == 0 else "nginx of Debian is started by root"


# A script that is killed at one of its calls that write.
KILLED = """
import os, runpy, signal, sys
stop, calls = int(sys.argv[1]), 0
def counted(real):
    def call(*words, **more):
        global calls
        calls += 1
        if calls == stop:
            os.kill(os.getpid(), signal.SIGKILL)
        return real(*words, **more)
    return call
for it in ("fsync", "replace", "remove"):
    setattr(os, it, counted(getattr(os, it)))
sys.argv[:2] = []
sys.path.insert(0, os.path.dirname(sys.argv[0]))
sys.dont_write_bytecode = True
runpy.run_path(sys.argv[0], run_name="__main__")
"""


class World:
    """All of it, in a folder of its own."""

    def __init__(self):
        why = missing()
        if why:
            raise program.Skip(why)
        # In memory, if there can be such a folder: the reader's tests write thousands of times.
        self.stack = tempfile.TemporaryDirectory(dir=ROOM)
        self.folder = self.stack.name
        os.mkdir(f"{self.folder}/public")
        shutil.copyfile(program.REAL_FILE, f"{self.folder}/public/pci.ids")
        # Publishing makes a page for each vendor, in which the application is, too.
        os.makedirs(f"{self.folder}/public/item/PC")
        shutil.copyfile(f"{SITE}/index.html", f"{self.folder}/public/item/PC/8086.html")
        self.database = f"{self.folder}/registry.db"
        fill(self.database, list(items_taken()))
        self.server = Server(self.database, connections=100_000)
        self.spoiler = Spoiler(self.server.port)
        os.makedirs(f"{self.folder}/join/sessions")
        os.mkdir(f"{self.folder}/shown")
        self.show_epoch(1)
        with open(f"{self.folder}/join.conf", "w", encoding="utf-8") as file:
            file.write(settings(joins_an_hour=100, contact="Ask registry@example.org."))
        way = Way(f"{self.folder}/http.sock", self.server.port)
        self.unit = Served({
            "PCIIDS_PASSWORDS": f"{self.folder}/accounts/passwords",
            "PCIIDS_JOIN_RUN": f"{self.folder}/join", "PCIIDS_SOCKET": way.path,
            "PCIIDS_JOIN_CONF": f"{self.folder}/join.conf",
        })
        self.joiner = Spoiler(self.unit.port)
        self.nginx = Nginx(self.folder, self.spoiler.port, self.joiner.port)
        self.base = f"https://localhost:{self.nginx.port}"
        self.wait()

    def wait(self):
        end = time.monotonic() + PATIENCE
        while ask_curl("-k", f"{self.base}/read/PC/8086")[0] != 200:
            if time.monotonic() > end:
                raise TimeoutError("the site doesn't answer")
            time.sleep(0.05)

    def __enter__(self):
        return self

    def __exit__(self, *_):
        self.nginx.stop()
        self.joiner.listener.close()
        self.unit.close()
        self.spoiler.listener.close()
        self.server.kill()
        self.stack.cleanup()

    def stop_server(self):
        self.server.kill()

    def start_server(self):
        self.server = Server(self.database, connections=100_000, port=self.server.port)

    def ask(self, path, fields=None, account="root"):
        """A question or a command to the server itself, past nginx: the JSON of the response. The
        file of an import takes the place of fields."""
        is_form = isinstance(fields, dict)
        data = urllib.parse.urlencode(fields).encode() if is_form else fields
        request = urllib.request.Request(f"http://127.0.0.1:{self.server.port}{path}", data)
        request.add_header("X-Account", account)
        request.add_header("Connection", "close")
        try:
            with urllib.request.urlopen(request, timeout=PATIENCE) as response:
                return json.load(response)
        except urllib.error.HTTPError as fault:
            return json.load(fault)

    def show_epoch(self, number):
        with open(f"{self.folder}/shown/epoch", "w", encoding="utf-8") as file:
            file.write(f"{number:032x}\n")

    def keep(self):
        """A copy of the registry, as a backup has it."""
        kept = tempfile.mkdtemp(dir=self.folder)
        self.stop_server()
        for path in glob.glob(f"{self.database}*"):
            shutil.copy(path, kept)
        self.start_server()
        return kept

    def restore(self, kept):
        """Puts a copy back, and has the mirror of publishing begin anew, as the packages do."""
        self.stop_server()
        for path in [*glob.glob(f"{self.database}*"), *glob.glob(f"{self.folder}/copy/*")]:
            os.remove(path)
        for path in glob.glob(f"{kept}/*"):
            shutil.copy(path, self.folder)
        self.start_server()

    def publish(self, seconds=None, stop=0):
        """What the packages' timer does each minute, at a time: the history and its feeds. The
        published file of these tests stays as it is. Returns whether it was killed, which it is at
        the call with the number `stop` of those that write."""
        lib, copy, there = (f"{self.folder}/{it}" for it in ("lib", "copy", "published"))
        if not os.path.exists(lib):
            shutil.copytree(os.path.join(program.TOP, "deploy", "lib"), lib)
            shutil.copy(os.path.join(program.TOP, "deploy", "mirror.sh"), f"{lib}/mirror")
            for it in (copy, there):
                os.mkdir(it)
            for it in ("history", "feeds", "names", "leaf.html", "words", "search.html"):
                os.symlink(f"{there}/{it}", f"{self.folder}/public/{it}")
        words = [f"{lib}/publish", f"http://127.0.0.1:{self.server.port}", copy, there, SITE]
        clock = {} if seconds is None else {"PCIIDS_NOW": str(int(seconds))}
        ran = subprocess.run(["python3", "-c", KILLED, str(stop), *words], timeout=PATIENCE,
                             env={**os.environ, **clock}, stdout=subprocess.DEVNULL)
        if ran.returncode not in (0, -signal.SIGKILL):
            raise subprocess.CalledProcessError(ran.returncode, words)
        subprocess.run(["chmod", "-R", "a+rX", there], check=True)
        return ran.returncode != 0

    def submit(self, account, path, name, note=""):
        """The number of a new proposal."""
        return self.ask("/submit", {"path": path, "name": name, "note": note}, account)["num"]

    def pending(self, path=None):
        all_of_them, page = [], None
        while page is None or page:
            page = self.ask(f"/pending?after={all_of_them[-1]['num'] if all_of_them else 0}")
            all_of_them += page
        return [it for it in all_of_them if path in (None, it["path"])]

    def state(self, number):
        return self.ask(f"/submission/{number}")["state"]
