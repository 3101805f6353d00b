"""deploy/mirror.sh, which keeps a copy of a registry's file: at the server, through a cache of
these tests, and behind nginx."""
import fcntl
import os
import re
import shutil
import socket
import subprocess
import tempfile
import threading
import time
from http.client import HTTPConnection
from http.server import BaseHTTPRequestHandler, ThreadingHTTPServer

import program
from front_room import HOST, Front, needed
from http_server import Server, ask_curl, free_port
from program import HEADER, TOP
from registry import script

MIRROR = os.path.join(TOP, "deploy", "mirror.sh")

# nginx keeps the file, and nothing else, at each of its ports.
NGINX = """worker_processes 1; daemon off; user root; pid {folder}/pid; error_log {folder}/errors;
events {{ worker_connections 64; }}
http {{
    access_log off;
    {caches}
}}
"""
CACHE = """
    proxy_cache_path {folder}/{name} keys_zone={name}:1m;
    server {{
        listen 127.0.0.1:{port};
        location / {{ proxy_pass http://127.0.0.1:{server}; }}
        location = /pci.ids {{
            proxy_pass http://127.0.0.1:{server};
            proxy_cache {name};
            proxy_cache_valid 200 1h;
            {rule}
        }}
    }}
"""
# A good one goes by what a request says of that.
RULES = {"good": "proxy_cache_bypass $http_cache_control;", "deaf": ""}

# So many items are 21 pages of changes; of the nginx of this test an address may ask for five at
# once.
PACED = 2_050

LATE = b"mirror: the file is older than the changes\n"


class Cache:
    """Keeps the file for good, and asks for it anew if a request says so, unless it is deaf; on the
    way commands may come."""

    def __init__(self, server):
        self.server, self.is_deaf, self.kept, self.asked = server, False, {}, []
        # What happens before the first request for a target goes on, and what comes in place of a
        # reply.
        self.before, self.instead = {}, {}
        cache = self

        class Handler(BaseHTTPRequestHandler):
            def do_GET(self):
                self.close_connection = True
                is_fresh = self.headers.get("Cache-Control") == "no-cache"
                self.wfile.write(cache.reply(self.path, is_fresh))

            def log_message(self, *_):
                pass

        self.listener = ThreadingHTTPServer(("127.0.0.1", 0), Handler)
        self.port = self.listener.server_address[1]
        threading.Thread(target=self.listener.serve_forever, args=[0.05], daemon=True).start()

    def __enter__(self):
        return self

    def __exit__(self, *_):
        self.listener.shutdown()
        self.listener.server_close()

    def reply(self, target, is_fresh):
        self.asked.append(target)
        if target in self.instead:
            return self.instead[target]
        if target in self.kept and (self.is_deaf or not is_fresh):
            return self.kept[target]
        self.before.pop(target, lambda: None)()
        asked = HTTPConnection("127.0.0.1", self.server.port, timeout=30)
        asked.request("GET", target)
        told = asked.getresponse()
        body = told.read()
        asked.close()
        head = b"HTTP/1.1 %d %s\r\nContent-Length: %d\r\n\r\n"
        whole = head % (told.status, told.reason.encode(), len(body)) + body
        if target == "/pci.ids":
            self.kept[target] = whole
        return whole

    def ask(self, target):
        return ask_curl(f"http://127.0.0.1:{self.port}{target}")[2]


def kept_in(folder):
    """The copy and the number in a folder, and what else is there."""
    kept = []
    for name in ("pci.ids", "revision"):
        path = os.path.join(folder, name)
        with open(path, "rb") if os.path.exists(path) else open(os.devnull, "rb") as file:
            kept.append(file.read())
    return *kept, sorted(set(os.listdir(folder)) - {"pci.ids", "revision"})


def mirrored(port, folder, site=None, **how):
    """What a run of the mirror prints and says, its status, and the copy and the number that it has
    then. The registry is at a port of this machine, or at another address."""
    words = [MIRROR, site or f"http://127.0.0.1:{port}", folder]
    piped = {"stdout": subprocess.PIPE, "stderr": subprocess.PIPE, "timeout": 300}
    ran = subprocess.run(words, **piped, **how)
    copy, number, more = kept_in(folder)
    return ran.stdout, ran.stderr, ran.returncode, copy, number, *more


def imported(server, text):
    return server.curl("/import", "-H", "X-Account: root", "--data-binary", text)


def removed(server, path):
    """The item is proposed for removal, which is approved: two commands."""
    told = server.post("/submit?format=text", "root", f"path={path}&remove=yes")[2]
    return server.post("/approve", "bob", f"num={told.split()[1].decode()}")


def revision_of(server):
    return server.curl("/changes?format=text&since=9000000000000000000")[2].split()[1] + b"\n"


def text_of(server):
    return server.curl("/pci.ids")[2]


FIRST_NAMES = """8086  Intel
\t1237  440FX
\t\t1af4 1100  Qemu
1af4  Red Hat
S 1af4
\t1100  Qemu
C 01  Mass
\t02  IDE
\t\t80  ISA
"""
FIRST_CHANGES = b"""1 PC/1af4 Red Hat
1 PC/8086 Intel
1 PC/8086/1237 440FX
1 PC/8086/1237/1af41100 Qemu
1 PD/01 Mass
1 PD/01/02 IDE
1 PD/01/02/80 ISA
1 PS/1af4/1100 Qemu
"""


def at_the_server(cases, server, folder):
    def same(name, told, text, number):
        """The next run prints this, and then has this text of this revision."""
        cases.equal(f"mirror: {name}", mirrored(server.port, folder), (told, b"", 0, text, number))

    same("an empty registry", b"", HEADER, b"0\n")
    imported(server, FIRST_NAMES)
    text = text_of(server)
    same("the first names", FIRST_CHANGES, text, b"1\n")
    same("nothing new", b"", text, b"1\n")
    imported(server, "C 01  Mass  storage \n")
    same("one name", b"2 PD/01 Mass  storage \n", text_of(server), b"2\n")
    server.post("/account", "root", "who=bob&rank=2")
    removed(server, "PD/01/02/80")
    same("a removal is in the file alone", b"", text_of(server), b"5\n")
    imported(server, "".join(f"{number:04x}  Vendor {number}\n" for number in range(1, 251)))
    told = b"".join(b"6 PC/%04x Vendor %d\n" % (number, number) for number in range(1, 251))
    same("three pages", told, text_of(server), b"6\n")


REPLY = b"HTTP/1.1 200 OK\r\nContent-Length: %d\r\n\r\n%s"
ELSEWHERE = b"HTTP/1.1 302 Found\r\nLocation: /\r\nContent-Length: 0\r\n\r\n"
BUSY = b"HTTP/1.1 503 Service Unavailable\r\nContent-Length: 0\r\n\r\n"
NO_FILE = b"mirror: what came for /pci.ids is no file of a registry\n"
NO_CHANGES = b"mirror: what came for /changes is no page of changes\n"


def other_answers(cases, server, folder, copy, number):
    """What comes in place of a reply of the server is not kept."""
    page = b"<html>Sign in</html>"
    since = f"/changes?format=text&since={number.decode().strip()}&after="
    with Cache(server) as between:
        for name, target, told, status, said in (
            ("a page of somebody else", "/pci.ids", REPLY % (len(page), page), 1, NO_FILE),
            ("changes of somebody else", since, REPLY % (len(page), page), 1, NO_CHANGES),
            ("somewhere else", "/pci.ids", ELSEWHERE, 1, NO_FILE),
            ("a text that is cut", "/pci.ids", REPLY % (1_000, HEADER), 18, None),
            ("a refusal", "/pci.ids", BUSY, 22, None),
        ):
            between.instead = {target: told}
            ran = mirrored(between.port, folder)
            got = ran[0], ran[1] if said else None, *ran[2:]
            cases.equal(f"mirror: {name}", got, (b"", said, status, copy, number))


def with_tools(tools):
    """The environment in which the tools of a folder are found before all others."""
    return dict(os.environ, PATH=tools + os.pathsep + os.environ["PATH"])


def not_to_be_had(cases, server, folder):
    """Where a run fails nothing is saved, and the next one does what was left."""
    _, _, _, copy, number = mirrored(server.port, folder)
    imported(server, "fffe  New\n")
    place = os.open(folder, os.O_RDONLY)
    fcntl.flock(place, fcntl.LOCK_EX)
    busy = b"mirror: another run is at work in this folder\n"
    cases.equal("mirror: two at once", mirrored(server.port, folder), (b"", busy, 1, copy, number))
    os.close(place)
    words = [MIRROR, f"http://127.0.0.1:{server.port}", folder]
    with subprocess.Popen(words, stdout=subprocess.PIPE, stderr=subprocess.DEVNULL) as ran:
        ran.stdout.close()
    got = ran.returncode != 0, *kept_in(folder)
    cases.equal("mirror: nobody reads what is printed", got, (True, copy, number, []))
    other_answers(cases, server, folder, copy, number)
    told = b"7 PC/fffe New\n"
    with tempfile.TemporaryDirectory() as tools:
        path = os.path.join(tools, "mv")
        with open(path, "w", encoding="utf-8") as file:
            file.write(f"#!/bin/sh\n[ ! -e {tools}/one ] || exit 5\n")
            file.write(f": > {tools}/one\nexec /bin/mv \"$@\"\n")
        os.chmod(path, 0o755)
        ran = mirrored(server.port, folder, env=with_tools(tools))
    want = told, b"", 5, text_of(server), number
    cases.equal("mirror: a stop between the copy and its number", ran, want)
    want = told, b"", 0, text_of(server), b"7\n"
    cases.equal("mirror: then", mirrored(server.port, folder), want)
    told = mirrored(free_port(), folder)
    cases.equal("mirror: no server", (told[0], *told[2:]), (b"", 7, text_of(server), b"7\n"))
    for name, number, told in (
        ("an earlier registry", b"99\n", b"mirror: the registry went back from revision 99 to 7\n"),
        ("no number", b"7 or so\n", b"mirror: the file revision holds no number\n"),
    ):
        with open(os.path.join(folder, "revision"), "wb") as file:
            file.write(number)
        want = b"", told, 1, text_of(server), number
        cases.equal(f"mirror: {name}", mirrored(server.port, folder), want)


def behind_a_cache(cases, server, folder):
    def same(name, told, number, text=None):
        """The next run prints this, and then has the text of the server."""
        got = mirrored(cache.port, folder)
        cases.equal(f"cache: {name}", got, (told, b"", 0, text or text_of(server), number))

    with Cache(server) as cache:
        got = mirrored(cache.port, folder)[1:]
        cases.equal("cache: the first copy", got, (b"", 0, text_of(server), b"7\n"))
        removed(server, "PC/0001")
        old, text = cache.ask("/pci.ids"), text_of(server)
        cases.equal("cache: it has an older text", old != text, True)
        same("a removal", b"", b"9\n")
        imported(server, "0002  Renamed\n")
        cache.kept.clear()
        old = cache.ask("/pci.ids")
        removed(server, "PC/0003")
        got = b"0002  Renamed\n" in old, cache.ask("/pci.ids") != text_of(server)
        cases.equal("cache: it has the change and not the removal", got, (True, True))
        same("a change, then a removal", b"10 PC/0002 Renamed\n", b"12\n")
        meanwhile(server, cache, same)
        deaf(cases, server, cache, folder)
        cache.asked.clear()
        same("nothing new", b"", b"24\n")
        asked = ["/epoch", "/changes?format=text&since=24&after="]
        cases.equal("cache: nothing new, and the file is not asked for", cache.asked, asked)
        tools_failing(cases, server, cache, folder)


def meanwhile(server, cache, same):
    """Commands between the changes and the file: the copy is newer than its number, and the next
    run prints what is left. And commands between two pages: a name of the first page, one of the
    second, and one of each that goes."""
    imported(server, "0002  Again\n0004  Again\n0005  Again\n")
    cache.before["/pci.ids"] = lambda: (
        imported(server, "0002  Once more\n"), removed(server, "PC/0004"))
    same("another name and a removal meanwhile", b"13 PC/0005 Again\n", b"13\n")
    same("then the other name", b"14 PC/0002 Once more\n", b"16\n")
    numbers = range(0x10, 0x10 + 150)
    imported(server, "".join(f"{number:04x}  Page {number}\n" for number in numbers))
    between = "0011  Other\n0080  Other\n"
    cache.before["/changes?format=text&since=16&after=PC/0073"] = lambda: (
        imported(server, between), removed(server, "PC/0012"), removed(server, "PC/0081"))
    told = [b"17 PC/%04x Page %d\n" % (number, number)
            for number in numbers if number not in (0x11, 0x12, 0x80, 0x81)]
    told.insert(110, b"18 PC/0080 Other\n")
    same("names and removals between pages", b"".join(told), b"17\n")
    same("then the other names", b"18 PC/0011 Other\n18 PC/0080 Other\n", b"22\n")


def deaf(cases, server, cache, folder):
    """A cache that does not go by what a request says: the change has to be at its own path."""
    cache.is_deaf = True
    imported(server, "0020  A\n\t1000  Bridge\n0021  B\n")
    cache.kept.clear()
    got = mirrored(cache.port, folder)[2:]
    cases.equal("deaf cache: it has it", got, (0, text_of(server), b"23\n"))
    copy = text_of(server)
    imported(server, "0021  B\n\t1000  Bridge\n")
    got = mirrored(cache.port, folder)
    cases.equal("deaf cache: the text is an older one", got, (b"", LATE, 1, copy, b"23\n"))
    cache.kept.clear()
    want = b"24 PC/0021/1000 Bridge\n", b"", 0, text_of(server), b"24\n"
    cases.equal("deaf cache: the next run has it", mirrored(cache.port, folder), want)
    cache.is_deaf = False


def tools_failing(cases, server, cache, folder):
    """Over two pages of changes, one of which is undone meanwhile, each tool that the script runs
    fails in turn: nothing is saved."""
    copy, number, _ = kept_in(folder)
    vendors = range(0x10, 0x10 + 150)
    imported(server, "".join(f"{vendor:04x}  Vendor\n" for vendor in vendors))
    for tool in "awk cat comm curl flock mktemp mv sed sort sync wc".split():
        cache.before["/pci.ids"] = lambda: imported(server, f"0010  Without {tool}\n")
        with tempfile.TemporaryDirectory() as tools:
            os.symlink("/bin/false", os.path.join(tools, tool))
            told = mirrored(cache.port, folder, env=with_tools(tools))
        got = told[2] != 0, *told[3:]
        cases.equal(f"mirror: without {tool}", got, (True, copy, number))
    cache.before.clear()
    told = mirrored(cache.port, folder)
    got = told[0].count(b"\n"), *told[1:]
    want = 150, b"", 0, text_of(server), revision_of(server)
    cases.equal("mirror: with all tools", got, want)


def restored(cases, server, older, folder):
    """A registry that was restored shows another epoch, and its copy begins anew. Where it shows
    the same one, a number that goes back is refused."""
    def same(name, epoch, *want):
        cache.instead["/epoch"] = REPLY % (len(epoch), epoch)
        cases.equal(f"epoch: {name}", mirrored(cache.port, folder), (*want, "epoch"))

    one, two, three = (b"%032x\n" % number for number in (1, 2, 3))
    back = b"mirror: the registry went back from revision 2 to 1\n"
    anew = b"mirror: the registry was restored, and the copy begins anew\n"
    none = b"mirror: what came for /epoch is none\n"
    for it in (server, older):
        imported(it, "8086  Intel\n")
    imported(server, "8086  Other\n")
    was, text, told = text_of(server), text_of(older), b"1 PC/8086 Intel\n"
    with Cache(server) as cache:
        same("the first", one, b"2 PC/8086 Other\n", b"", 0, was, b"2\n")
        cache.server = older
        same("the same, and the number goes back", one, b"", back, 1, was, b"2\n")
        same("what is none", b"<html>", b"", none, 1, was, b"2\n")
        same("another", two, told, anew, 0, text, b"1\n")
        same("still that one", two, b"", b"", 0, text, b"1\n")
        cache.instead["/pci.ids"] = BUSY
        ran = mirrored(cache.port, folder)[:3]
        cases.equal("epoch: nothing new", ran, (b"", b"", 0))
        cache.instead["/epoch"] = REPLY % (len(three), three)
        ran = mirrored(cache.port, folder)[2:]
        cases.equal("epoch: no text to be had", ran, (22, text, b"", "epoch"))
        del cache.instead["/pci.ids"]
        same("then it is", three, told, b"", 0, text, b"1\n")


def emptied(folder):
    """What an nginx keeps there is gone, as if its time were over."""
    for top, _, names in os.walk(folder):
        for name in names:
            os.remove(os.path.join(top, name))


def is_listening(port):
    with socket.socket() as knock:
        return knock.connect_ex(("127.0.0.1", port)) == 0


def behind_nginx(cases, server, folder):
    places = [os.path.join(folder, name) for name in ("one", "two")]
    config = os.path.join(folder, "nginx.conf")
    good, deaf_port = ports = free_port(), free_port()
    for place in places:
        os.mkdir(place)
    caches = "".join(
        CACHE.format(folder=folder, name=name, port=port, server=server.port, rule=rule)
        for (name, rule), port in zip(RULES.items(), ports))
    with open(config, "w", encoding="utf-8") as file:
        file.write(NGINX.format(folder=folder, caches=caches))
    words = ["nginx", "-c", config, "-p", folder, "-e", os.path.join(folder, "errors")]
    nginx = subprocess.Popen(words, stderr=subprocess.DEVNULL)
    try:
        for _ in range(200):
            if is_listening(good) and is_listening(deaf_port):
                break
            time.sleep(0.05)
        first, number = text_of(server), revision_of(server)
        want = 0, first, number
        cases.equal("nginx: the first copy", mirrored(good, places[0])[2:], want)
        cases.equal("deaf nginx: the first copy", mirrored(deaf_port, places[1])[2:], want)
        removed(server, "PC/0030")
        kept = ask_curl(f"http://127.0.0.1:{good}/pci.ids")[2]
        cases.equal("nginx: it has an older text", kept, first)
        want = b"", b"", 0, text_of(server), revision_of(server)
        cases.equal("nginx: a removal", mirrored(good, places[0]), want)
        imported(server, "ffff  New\n")
        told = revision_of(server)[:-1] + b" PC/ffff New\n"
        want = told, b"", 0, text_of(server), revision_of(server)
        cases.equal("nginx: a change", mirrored(good, places[0]), want)
        late = b"", LATE, 1, first, number
        cases.equal("deaf nginx: the text is an older one", mirrored(deaf_port, places[1]), late)
        emptied(os.path.join(folder, "deaf"))
        cases.equal("deaf nginx: a later run has it", mirrored(deaf_port, places[1]), want)
    finally:
        nginx.terminate()
        nginx.wait()


def at_its_pace(cases, folder):
    """A new mirror of a large registry asks for more pages at once than the site's nginx lets an
    address ask: it goes on as fast as it may, and has them all."""
    needed()
    database, copy = os.path.join(folder, "registry.db"), os.path.join(folder, "copy")
    os.mkdir(copy)
    script(database)
    # Of the whole text one address may ask for six, of lists here for five, however slow it is; the
    # next one comes after a second or two.
    soon = {
        "pciids_limits": (("zone=pciids_texts:1m rate=6r/m", "zone=pciids_texts:1m rate=30r/m"),
                          ("zone=pciids_walks:1m rate=5r/s", "zone=pciids_walks:1m rate=1r/s"),
                          ('"429 /pci.ids" 10;', '"429 /pci.ids" 2;')),
        "pciids_site": (("zone=pciids_walks burst=60", "zone=pciids_walks burst=4"),),
    }
    with Server(database) as server:
        imported(server, "".join(f"{vendor:04x}  V{vendor}\n" for vendor in range(PACED)))
        front = Front(os.path.join(folder, "front"), server.port, **soon)
        try:
            for _ in range(8):
                front.curl("/pci.ids", "-H", "Cache-Control: no-cache")
            with open(os.path.join(folder, ".curlrc"), "w", encoding="utf-8") as file:
                place = f"{HOST}:{front.port}"
                file.write(f'cacert = "{front.certificate}"\nresolve = "{place}:127.0.0.1"\n')
            home = dict(os.environ, HOME=folder)
            told = mirrored(None, copy, f"https://{place}", env=home)
            counts = told[0].count(b"\n"), *told[1:3], told[3] == text_of(server), told[4]
            cases.equal("mirror: a large registry", counts, (PACED, b"", 0, True, b"1\n"))
            with open(os.path.join(folder, "front", "access.log"), encoding="utf-8") as file:
                log = file.read()
        finally:
            front.close()
    for path in ("/changes", "/pci.ids"):
        refused = len(re.findall(rf'"GET {path}[^"]*" 429 ', log))
        cases.equal(f"mirror: {path} was refused {refused} times", refused > 0, True)


def test_mirror(cases):
    program.need("curl")
    with tempfile.TemporaryDirectory() as folder:
        database = os.path.join(folder, "registry.db")
        copies = [os.path.join(folder, name) for name in ("copy", "cached")]
        for copy in copies:
            os.mkdir(copy)
        script(database)
        with Server(database) as server:
            at_the_server(cases, server, copies[0])
            not_to_be_had(cases, server, copies[0])
            behind_a_cache(cases, server, copies[1])
            if shutil.which("nginx") is None or os.geteuid() != 0:
                why = "nginx is not installed, or not root's to start"
                cases.skipped("mirror behind nginx", why)
                return
            with tempfile.TemporaryDirectory() as room:
                os.chmod(room, 0o755)
                behind_nginx(cases, server, room)
    with tempfile.TemporaryDirectory() as folder:
        os.chmod(folder, 0o755)
        at_its_pace(cases, folder)


def test_restored(cases, folder):
    program.need("curl")
    names = [os.path.join(folder, it) for it in ("registry.db", "older.db", "copy")]
    os.mkdir(names[2])
    for it in names[:2]:
        script(it)
    with Server(names[0]) as server, Server(names[1]) as older:
        restored(cases, server, older, names[2])
