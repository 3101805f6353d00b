"""A cache in front: the nginx of deploy/nginx/cache.conf before that of the site, which has a
recorder after it. What is kept, what is asked anew, and what is always passed on."""
import os
import re
import tempfile
import time

from test_front import faults_of
from front_room import HOST, Front, Recorder, needed, placed, started, stopped
from http_server import free_port

# How long the published file may be kept, in seconds: for longer than a test takes, and for so
# short that it waits for the end. And for how long a line of the log is waited for.
LONG, SHORT, PATIENCE = 600, 2, 30

# An nginx that serves nothing but the cache.
CONFIGURATION = """daemon off;
pid {folder}/cache.pid;
error_log stderr;
events {{ worker_connections 512; }}
http {{
    access_log {folder}/cache.log;
    client_body_temp_path {folder}/cache-body;
    proxy_temp_path {folder}/cache-proxy;
    fastcgi_temp_path {folder}/cache-fastcgi;
    uwsgi_temp_path {folder}/cache-uwsgi;
    scgi_temp_path {folder}/cache-scgi;
    include {folder}/nginx/cache.conf;
}}
"""
LIVE = ("-H", "Cache-Control: no-cache")
FILE = "/pci.ids"
# The published file of a front.
TEXT = b"# PCI ID registry\nC 01  Mass\n"


class Cache:
    """A cache before a front, which trusts what it says of visitors. It may keep the file for so
    many seconds."""

    def __init__(self, folder, recorder, seconds):
        more = {
            "host": "set_real_ip_from 127.0.0.1; real_ip_header X-Forwarded-For;",
            "pciids_site": (("max-age=60", f"max-age={seconds}"),),
            "pciids_limits": (
                # Six at once, and none more while the test is at it.
                ("zone=pciids_texts:1m rate=6r/m", "zone=pciids_texts:1m rate=1r/m"),
            ),
        }
        self.folder, self.recorder = folder, recorder
        self.front = Front(folder, recorder.port, **more)
        self.port = free_port()
        places = (
            ("listen 443", f"listen 127.0.0.1:{self.port}"),
            ("192.0.2.10", f"127.0.0.1:{self.front.port}"),
            ("/etc/ssl/certs/ca-certificates.crt", self.front.certificate),
            ("/var/cache/pciids-cache", f"{folder}/kept"),
            ("/etc/pciids", folder),
        )
        self.front.write("nginx/cache.conf", placed("cache.conf", places))
        self.front.write("nginx/cached.conf", CONFIGURATION.format(folder=folder))
        self.process = started(folder, "cached.conf", self.port)
        self.log = open(os.path.join(folder, "access.log"), encoding="utf-8")

    def __enter__(self):
        return self

    def __exit__(self, *_):
        self.log.close()
        stopped(self.process)
        self.front.close()

    def curl(self, path, *words):
        return self.front.curl(path, *words, port=self.port)

    def came(self, count=0):
        """The requests that came through the cache to the site since the last time, with their
        statuses. So many are waited for: nginx notes one when it is over."""
        found, end = [], time.monotonic() + PATIENCE
        while True:
            time.sleep(0.1)
            found += re.findall(r'"(\w+ \S+) [^"]*" (\d+)', self.log.read())
            if len(found) >= count or time.monotonic() > end:
                return found

    def publish(self, text):
        """Puts another file in place, as `publish` does, with a time of its own."""
        self.front.write("public/new", text)
        path = os.path.join(self.folder, "public", "new")
        os.chmod(path, 0o644)
        os.rename(path, os.path.join(self.folder, "public", "pci.ids"))


def kept(cases, cache):
    """The published file is asked for once."""
    told = [cache.curl(FILE) for _ in range(5)]
    cases.equal("cache: the file", {it[2] for it in told}, {TEXT})
    cases.equal("cache: it was asked for once", cache.came(1), [(f"GET {FILE}", "200")])


def renewed(cases, cache):
    """Once its time is over it is asked whether the published file changed."""
    cases.equal("cache: the file, for a while", cache.curl(FILE)[2], TEXT)
    cases.equal("cache: it is asked for", cache.came(1), [(f"GET {FILE}", "200")])
    time.sleep(SHORT + 1)
    cases.equal("cache: later", cache.curl(FILE)[2], TEXT)
    cases.equal("cache: it was not sent again", cache.came(1), [(f"GET {FILE}", "304")])
    cache.publish("# PCI ID registry\nC 02  Net\n")
    time.sleep(SHORT + 1)
    new = b"# PCI ID registry\nC 02  Net\n"
    cases.equal("cache: the new file, in time", cache.curl(FILE)[2], new)
    cases.equal("cache: it was sent", cache.came(1), [(f"GET {FILE}", "200")])


def passed(cases, cache):
    """Whatever is not the published file comes to the site each time."""
    cases.equal("cache: the file is kept", cache.curl(FILE)[2], TEXT)
    cases.equal("cache: it was asked for before", cache.came(), [])
    told = {cache.curl(FILE, *LIVE)[2] for _ in range(2)}
    cases.equal("cache: who says no-cache asks the registry", told, {b'{"ok":true}'})
    cases.equal("cache: each time", len(cache.came(2)), 2)
    cases.equal("cache: others get the file after that", cache.curl(FILE)[2], TEXT)
    cases.equal("cache: as it was kept", cache.came(), [])
    page = ("-H", "Accept: text/html")
    alice = ("-u", "alice:pw-alice")
    for name, path, words in (
        ("an item", "/read/PC/8086", ()),
        ("a list", "/children?of=PC/8086", ()),
        ("the changes", "/changes?since=0", LIVE),
        ("the queue as a page", "/queue", page),
        ("the queue as a list", "/queue", ()),
        ("the first page", "/", page),
        ("a file of the site", "/site/main.js", ()),
        ("an item's page", "/item/PC/8086", page),
        ("a page that is none", "/none", page),
        ("a packed file that is none", "/pci.ids.bz2", ()),
        ("who somebody is", "/whoami", alice),
        ("who nobody is", "/whoami", ()),
        ("the file, with a password", FILE, alice),
    ):
        told = [cache.curl(path, *words)[0] for _ in range(2)]
        cases.equal(f"cache: {name}, {told}, is asked for twice", len(cache.came(2)), 2)


def commands(cases, cache):
    """Commands come through once each, as those of the password's account."""
    cache.recorder.seen.clear()
    words = ("-u", "alice:pw-alice", "-d", "a=b", "-H", "X-Key: one", "-H", "X-Account: root")
    told = [cache.curl("/submit", *words)[0] for _ in range(3)]
    cases.equal("cache: three commands", told, [200] * 3)
    seen = cache.recorder.seen
    keys = [it.values(b"x-key") for it in seen]
    cases.equal("cache: each came to the registry", keys, [[b"one"]] * 3)
    cases.equal("cache: under the account of the password", list(faults_of(seen)), [])
    own = ("-H", f"Origin: https://{HOST}:{cache.port}")
    told = cache.curl("/submit", *words, *own)[0], cache.curl("/submit", "-d", "a=b")[0]
    cases.equal("cache: of its own origin, and without a password", told, (200, 401))
    foreign = ("-H", "Origin: https://evil.example")
    cases.equal("cache: of a foreign one", cache.curl("/submit", *words, *foreign)[0], 403)


def visitors(cases, cache):
    """The limits of the site count visitors, whom the cache names, and not what they say."""

    def told(address, *words):
        return cache.curl(FILE, *LIVE, "--interface", address, *words)[0]

    # He says that he is another one each time.
    forged = [("-H", f"X-Forwarded-For: 127.0.0.{number}") for number in range(30, 37)]
    got = [told("127.0.0.21", *it) for it in forged]
    cases.equal("cache: a visitor's limit", got, [200] * 6 + [429])
    cases.equal("cache: a refusal is not kept", told("127.0.0.22"), 200)
    cases.equal("cache: nor for those who want the file", cache.curl(FILE)[0], 200)


def down(cases, cache):
    """While the site is down the file is there, and nothing else is."""
    was = cache.curl(FILE)
    stopped(cache.front.process)
    time.sleep(SHORT + 1)
    cases.equal("cache: the file while the site is down", cache.curl(FILE), was)
    told = cache.curl("/read/PC/8086")[0], cache.curl(FILE, *LIVE)[0]
    cases.equal("cache: the registry then", told, (502, 502))


def test_caches(cases):
    needed()
    recorder = Recorder()
    with tempfile.TemporaryDirectory() as folder:
        os.chmod(folder, 0o755)
        with Cache(os.path.join(folder, "long"), recorder, LONG) as cache:
            kept(cases, cache)
            passed(cases, cache)
            commands(cases, cache)
            visitors(cases, cache)
        with Cache(os.path.join(folder, "short"), recorder, SHORT) as cache:
            renewed(cases, cache)
            down(cases, cache)
