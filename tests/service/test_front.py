"""The nginx of deploy/nginx with the site: what comes through of hostile requests, who is refused,
what one visitor and one account may take, and that slow clients hold nobody up."""
import base64
import os
import socket
import ssl
import tempfile
import time

from front_room import HOST, PATIENCE, Front, Recorder, basic, needed

SLOW = 1_000

# Shares that a test uses up before more of them comes, however slow the machine is; and times that
# it waits for. Whoever is at PROXY names visitors.
PROXY = "127.0.0.4"
# Owns no file of the test.
NOBODY = 65_534
SHARES = {
    "host": f"set_real_ip_from {PROXY}; real_ip_header X-Forwarded-For;",
    "pciids_limits": (
        ("zone=pciids_accounts:4m rate=20r/m", "zone=pciids_accounts:4m rate=1r/m"),
        ("zone=pciids_texts:1m rate=6r/m", "zone=pciids_texts:1m rate=1r/m"),
    ),
    "pciids_command": (("zone=pciids_accounts burst=1000", "zone=pciids_accounts burst=40"),),
}
IN_SHORT = {
    "pciids_site": (
        ("client_body_timeout 10s", "client_body_timeout 5s"),
    ),
}

LOGIN = b"Authorization: %s\r\n" % basic("alice", "pw-alice").encode()
POST = b"POST /submit HTTP/1.1\r\nHost: a\r\nConnection: close\r\n" + LOGIN
ASK = b"GET /pending HTTP/1.1\r\nHost: a\r\n"
BODY = b"Content-Length: 3\r\n\r\na=b"
SECOND = b"POST /approve HTTP/1.1\r\nHost: a\r\nX-Account: root\r\nContent-Length: 5\r\n\r\nnum=1"
CHUNKED = b"Transfer-Encoding: chunked\r\n"

HALF_BODY = POST + b"Content-Length: 30\r\n\r\na=b"

# What is sent, and how many requests may come through of it, at least and at most. RFC 9112 has a
# server refuse a blank before a colon and lengths that differ or are none; it leaves it to a server
# whether it refuses or repairs others.
HOSTILE = {
    "a command": (POST + BODY, 1, 1),
    "an account of the client": (POST + b"X-Account: root\r\nX_Account: root\r\n" + BODY, 1, 1),
    "an account by obs-fold": (POST + b"X-Foo: a\r\n X-Account: root\r\n" + BODY, 0, 1),
    "an account after a bare LF": (POST + b"X-Foo: a\nX-Account: root\r\n" + BODY, 0, 1),
    "an account after a bare CR": (POST + b"X-Foo: a\rX-Account: root\r\n" + BODY, 0, 1),
    "a head of bare LF": (POST.replace(b"\r", b"") + b"X-Account: root\n" + BODY, 0, 1),
    "a space before the colon": (POST + b"X-Account : root\r\n" + BODY, 0, 0),
    "a NUL in a name": (POST + b"X-Account\0: root\r\n" + BODY, 0, 0),
    "a NUL in a value": (POST + b"X-Foo: a\0b\r\n" + BODY, 0, 0),
    "both lengths": (POST + b"Content-Length: 6\r\n" + CHUNKED + b"\r\n0\r\n\r\n" + SECOND, 0, 1),
    "two codings": (POST + CHUNKED + CHUNKED + b"\r\n0\r\n\r\n" + SECOND, 0, 1),
    "an unknown coding": (POST + b"Transfer-Encoding: xchunked\r\n\r\n0\r\n\r\n" + SECOND, 0, 0),
    "two lengths": (POST + b"Content-Length: 30\r\n" + BODY, 0, 0),
    "a list of lengths": (POST + b"Content-Length: 3, 3\r\n\r\na=b", 0, 0),
    "a signed length": (POST + b"Content-Length: +3\r\n\r\na=b", 0, 0),
    "a huge length": (POST + b"Content-Length: 18446744073709551619\r\n\r\na=b", 0, 0),
    "a length that is not sent": (POST + b"Content-Length: 9\r\n\r\na=b", 0, 0),
    "trailers": (POST + CHUNKED + b"\r\n3\r\na=b\r\n0\r\nX-Account: root\r\n\r\n", 0, 1),
    "a chunk with a bare LF": (POST + CHUNKED + b"\r\n3\na=b\n0\n\n" + SECOND, 0, 1),
    "a chunk of a signed length": (POST + CHUNKED + b"\r\n+3\r\na=b\r\n0\r\n\r\n" + SECOND, 0, 0),
    "a longer body": (POST + BODY + SECOND, 1, 1),
    "a request in the body of a question": (
        ASK + b"Connection: close\r\nContent-Length: %d\r\n\r\n" % len(SECOND) + SECOND, 0, 1),
    "an account of a question": (ASK + b"X-Account: root\r\nConnection: close\r\n\r\n", 1, 1),
    "pipelined without a password": (ASK + b"\r\n" + SECOND, 1, 1),
    "an odd method": (b"GETX /submit HTTP/1.1\r\nHost: a\r\nX-Account: root\r\n" + BODY, 0, 0),
    "two of Host": (POST + b"Host: b\r\n" + BODY, 0, 0),
    "half a head": (POST + b"X-Fo", 0, 0),
    "half a line of a head": (b"POST /sub", 0, 0),
    "a head without its end": (POST + b"Content-Length: 3\r\n", 0, 0),
    "half a body": (HALF_BODY, 0, 0),
}


def faults_of(requests):
    """What of a request must never come to the server: another account than that of the password,
    none for a command, a password, a coding, or bytes beside a body."""
    for it in requests:
        is_command = not it.first.startswith(b"GET ")
        if it.values(rb"x[-_]account") != [b"alice"] * is_command:
            yield "account"
        if not it.is_whole():
            yield "body"
        if it.values(b"transfer-encoding") or it.values(b"authorization"):
            yield "field"


def arrived(front, recorder, send, fewest):
    """What came to the recorder of what a function sends, which gets the time that it may wait."""
    quiet = front.quiet()
    recorder.seen.clear()
    send(quiet)
    end = time.monotonic() + PATIENCE
    while len(recorder.seen) < fewest and time.monotonic() < end:
        time.sleep(0.02)
    time.sleep(0.05)
    return list(recorder.seen)


def hostile(cases, front, recorder):
    """Whatever is sent, the registry sees one request at a time, of alice or of nobody."""
    for name, (sent, fewest, most) in HOSTILE.items():
        seen = arrived(front, recorder, lambda quiet: front.raw(sent, quiet), fewest)
        cases.equal(f"front: {name}", list(faults_of(seen)), [])
        is_right = fewest <= len(seen) <= most
        cases.equal(f"front: {name}, {len(seen)} came through", is_right, True)


def refusals(cases, front):
    """Pages of other sites, and passwords; HTTP/2 is spoken, and TLS before 1.2 is not."""
    alice = ("-u", "alice:pw-alice", "-d", "num=1")
    own = f"https://{HOST}:{front.port}"
    for name, words, want in (
        ("no origin", (), 200),
        ("its own origin", ("-H", f"Origin: {own}", "-H", "Sec-Fetch-Site: same-origin"), 200),
        ("a foreign origin", ("-H", "Origin: https://evil.example"), 403),
        ("an origin that begins alike", ("-H", f"Origin: {own}.evil.example"), 403),
        ("no origin by name", ("-H", "Origin: null"), 403),
        ("another site", ("-H", "Sec-Fetch-Site: cross-site"), 403),
        ("a sister site", ("-H", "Sec-Fetch-Site: same-site"), 403),
    ):
        cases.equal(f"front: {name}", front.curl("/approve", *alice, *words)[0], want)
    cases.equal("front: no password", front.curl("/approve", "-d", "num=1")[0], 401)
    for path, most in (("/import", 4_194_304), ("/submit", 65_536)):
        for size, want in ((most, 200), (most + 1, 413)):
            front.write("file", "#" * size)
            body = ("--data-binary", f"@{front.folder}/file", "-H", "Expect:")
            for coding in ((), ("-H", "Transfer-Encoding: chunked", "--http1.1")):
                told = front.curl(path, "-u", "alice:pw-alice", *body, *coding)[0]
                cases.equal(f"front: {path}, {size} bytes, {len(coding)}", told, want)
    told = front.curl("/whoami", "-u", "alice:pw-alice")
    cases.equal("front: whoami", told, (200, "application/json", b'{"account":"alice"}'))
    cases.equal("front: whoami, a wrong password", front.curl("/whoami", "-u", "alice:no")[0], 401)
    cases.equal("front: TLS 1.1", front.curl("/", "--tls-max", "1.1")[0], 0)
    cases.equal("front: TLS 1.2", front.curl("/", "--tls-max", "1.2")[0], 200)


def pages(cases, front):
    head = front.curl("/pci.ids", "-i")[2]
    cases.equal("front: HTTP/2", head[:11], b"HTTP/2 200 ")
    packed = front.curl("/pci.ids", "-i", "-H", "Accept-Encoding: gzip")[2].lower()
    for field in (b"etag: ", b"last-modified: ", b"cache-control: max-age=60", b"vary: "):
        cases.equal(f"front: {field.decode()}", field in packed, True)
    absent = front.curl("/pci.ids.bz2", "-i")[2].lower()
    got = (absent[:10], b"cache-control: max-age" in absent)
    cases.equal("front: a refusal may not be kept", got, (b"http/2 404", False))
    page = ("-H", "Accept: text/html")
    for path, want in (
        ("/", 200),
        ("/item/PC/8086", 200),
        ("/item/PC/ffff", 404),
        ("/none", 404),
        ("/queue", 200),
        ("/site/main.js", 200),
        ("/site/../passwords", 404),
        ("/site/%2e%2e/%2e%2e/passwords", 400),
        ("/pci.ids", 200),
        ("/vendors/", 301),
        ("/vendors", 200),
        ("/classes", 200),
    ):
        cases.equal(f"front: {path}", front.curl(path, *page, "--path-as-is")[0], want)
    for path in ("/none", "/item/PC/zzzz"):
        told = front.curl(path, *page)[2]
        cases.equal(f"front: {path} has the site's page", told, b"none")
    told = front.curl("/favicon.ico")[:2]
    cases.equal("front: the icon that browsers ask for", told, (200, "image/svg+xml"))
    for path, status, kind in (
        ("/history/2026-11.jsonl", 200, "text/plain; charset=utf-8"),
        ("/history/PC/8086.jsonl", 200, "text/plain; charset=utf-8"),
        ("/feeds/changes.atom", 200, "application/atom+xml; charset=utf-8"),
        ("/opensearch.xml", 200, "application/opensearchdescription+xml"),
        ("/names/8086", 404, "text/html"),
        ("/history/.names", 404, "text/html"),
        ("/history/PC/..%2f.names", 404, "text/html"),
    ):
        cases.equal(f"front: {path}", front.curl(path, *page)[:2], (status, kind))
    told = front.curl("/sitemap.xml")[1:]
    want = b"<loc>https://pciids.example.org/sitemap-1.xml</loc>"
    cases.equal("front: the map of the site", told, ("text/xml", want))
    told = front.curl("/robots.txt")[2].splitlines()[-1]
    cases.equal("front: where it is", told, b"Sitemap: https://pciids.example.org/sitemap.xml")
    told = front.curl("/opensearch.xml")[2]
    told = b'template="https://pciids.example.org/search?q={searchTerms}"' in told
    cases.equal("front: the search", told, True)
    told = front.curl("/vendors", *page)[2]
    cases.equal("front: the published list of vendors", b"<h1>Vendors</h1>" in told, True)
    there = front.curl("/vendors/", "-i", "-H", "Host: evil.example")[2].lower()
    found = [it for it in there.split(b"\r\n") if it.startswith(b"location: ")]
    cases.equal("front: a redirect leads to no other host", found, [b"location: /vendors"])
    there = front.curl("/search/?q=a%20b", "-i", *page)[2].lower()
    cases.equal("front: it keeps the query", b"\r\nlocation: /search?q=a%20b\r\n" in there, True)
    for sent in (b"\r", b"\n", b"\r\n", b"\0", b"\xff", b"<"):
        path = b"/item/%%%s:x/" % sent.hex("%").encode()
        asked = b"GET %s HTTP/1.1\r\nHost: a\r\nConnection: close\r\n" % path
        head = front.raw(asked + b"Accept: text/html\r\n\r\n", front.quiet())
        told = head.partition(b"\r\n")[0].split()[1:2], b"\nlocation:" in head.lower()
        is_refused = told in (([b"404"], False), ([b"400"], False))
        cases.equal(f"front: {path.decode()} is no redirect: {told}", is_refused, True)


def links(cases, front):
    """Whoever writes what is published, or the epoch, can't have nginx show by a link what others
    own, such as the key of the certificate."""
    key = os.path.join(front.folder, "key.pem")
    os.mkdir(os.path.join(front.folder, "others"))
    front.write("others/8086.jsonl", "PRIVATE")
    for path, place, target, want in (
        ("/history/2026-10.jsonl", "public/history/2026-10.jsonl", key, 403),
        ("/history/PD/8086.jsonl", "public/history/PD", f"{front.folder}/others", 403),
        ("/pci.ids.asc", "public/pci.ids.asc", key, 403),
        ("/item/PC/1022", "public/item/PC/1022.html", key, 404),
        ("/epoch", "shown/epoch", key, 403),
    ):
        link = os.path.join(front.folder, place)
        os.symlink(target, f"{link}.new")
        os.lchown(f"{link}.new", NOBODY, NOBODY)
        os.replace(f"{link}.new", link)
        status, _, body = front.curl(path)
        cases.equal(f"front: a link at {path}", (status, b"PRIVATE" in body), (want, False))


def limits(cases, front):
    """The text itself is asked for six times at once at most; the published file goes on."""
    live = ("-H", "Cache-Control: no-cache", "--interface", "127.0.0.2")
    told = [front.curl("/pci.ids", *live)[0] for _ in range(8)]
    cases.equal("front: the text, eight times", told, [200] * 6 + [429] * 2)
    head = front.curl("/pci.ids", *live, "-i")[2].lower()
    cases.equal("front: when to ask again", b"\r\nretry-after: 10\r\n" in head, True)
    cases.equal("front: the published file then", front.curl("/pci.ids")[0], 200)
    here, there = "127.0.3.1", "127.0.3.2"
    clients = [front.connect(here) for _ in range(16)]
    for it in clients:
        it.sendall(HALF_BODY)
    # nginx takes them when it comes to it.
    end = time.monotonic() + PATIENCE / 4
    while front.curl("/pending", "--interface", here)[0] == 200 and time.monotonic() < end:
        time.sleep(0.05)
    told = front.post("bob", here), front.post("bob", there)
    cases.equal("front: a request beside sixteen open ones", told, (429, 200))
    told = front.curl("/site/main.js", "--interface", here)[0]
    cases.equal("front: a file of the site beside them", told, 200)
    for it in clients:
        it.close()


def networks(cases, front):
    """A visitor of IPv6 is the /64 that his address is in; an address of IPv4 is one visitor,
    however a proxy writes it."""
    def told(address):
        named = ("--interface", PROXY, "-H", f"X-Forwarded-For: {address}")
        return front.curl("/pci.ids", "-H", "Cache-Control: no-cache", *named)[0]

    got = [told(f"2001:db8::{number}") for number in range(1, 9)]
    cases.equal("front: the text, from eight addresses of a /64", got, [200] * 6 + [429] * 2)
    got = [told(it) for it in ("2001:db8:0:1::1", "198.51.100.1")]
    cases.equal("front: from another one, and from an address of IPv4", got, [200, 200])
    got = [told(f"::ffff:203.0.113.{number}") for number in range(1, 9)]
    cases.equal("front: from eight of IPv4, written as of IPv6", got, [200] * 8)
    got = [told(it) for it in ("203.0.113.9", "::ffff:203.0.113.9") * 4]
    cases.equal("front: from one, written in two ways", got, [200] * 6 + [429] * 2)


def shares(cases, front):
    """Commands of an account are counted wherever they come from, and a wrong password, or another
    spelling of the right one, takes nobody's share."""
    guesses = [basic("carol", f"pw-{number}") for number in range(45)]
    told = {front.post("carol", "127.0.1.1", login=it) for it in guesses}
    cases.equal("front: carol with wrong passwords", told, {401})
    start = time.monotonic()
    told = [front.post("carol", f"127.0.1.{number % 9 + 2}") for number in range(43)]
    # One more comes each minute.
    more = min(2, int((time.monotonic() - start) / 60))
    want = [[200] * (41 + it) + [429] * (2 - it) for it in range(more + 1)]
    cases.equal("front: carol's share, from nine addresses", told in want, True)
    cases.equal("front: others have theirs", front.post("bob", "127.0.1.2"), 200)
    words = ("--interface", "127.0.1.3", "-u", "carol:pw-carol")
    cases.equal("front: her questions go on", front.curl("/pending", *words)[0], 200)
    right = basic("carol", "pw-carol").removeprefix("Basic ")
    cut = base64.b64encode(b"carol:pw-carol\0more").decode()
    for name, login, want in (
        ("another case of the scheme", f"bAsIc   {right}", 429),
        ("no padding", f"Basic {right.rstrip('=')}", 400),
        ("text after the padding", f"Basic {right}x", 400),
        ("bits beyond the last byte", f"Basic {right[:-2]}t=", 400),
        ("a NUL after the password", f"Basic {cut}", 400),
        ("another scheme", f"Bearer {right}", 401),
    ):
        got = front.post("carol", "127.0.1.20", login=login)
        cases.equal(f"front: a spent share, {name}", got, want)


class Slow:
    """A client that sends so much, and then nothing."""

    # Half of them never speak TLS at all.
    KINDS = (None, b"", None, ASK + b"X-F", None, HALF_BODY)

    def __init__(self, front, number):
        # No address may have more than 16 requests open at the registry.
        self.kind, address = number % 6, f"127.0.2.{number % 120 + 1}"
        self.sent = self.KINDS[self.kind]
        if self.sent is None:
            place = ("127.0.0.1", front.port)
            self.client = socket.create_connection(place, PATIENCE, source_address=(address, 0))
        else:
            self.client = front.connect(address)
            self.client.sendall(self.sent)

    def is_open(self):
        """Neither end has closed the connection."""
        self.client.setblocking(False)
        try:
            # TLS that was spoken to its end leaves nothing to be read.
            return self.client.recv(1) != b""
        except (BlockingIOError, ssl.SSLWantReadError):
            return True
        except OSError:
            return False

    def is_cut(self):
        """The server closes the connection, within its time."""
        self.client.settimeout(PATIENCE)
        try:
            while self.client.recv(65536):
                pass
        except TimeoutError:
            return False
        except OSError:
            return True
        return True


def slow(cases, front, recorder):
    """Connections that say nothing or half of what they should, and commands meanwhile: they are
    answered while those who are slow are still waited for."""
    clients = []
    recorder.seen.clear()
    try:
        for number in range(SLOW):
            clients.append(Slow(front, number))
        told = [front.post("bob", "127.0.0.9")]
        # Of those who came last. Those who came first may have been cut by then.
        still = sum(it.is_open() for it in clients[-SLOW // 10:])
        told += [front.post("bob", "127.0.0.9") for _ in range(9)]
        cases.equal(f"front: commands beside {SLOW} slow clients", told, [200] * 10)
        cases.equal(f"front: {still} are waited for meanwhile", still > 0, True)
        cases.equal("front: nothing came of the slow ones", len(recorder.seen), 10)
        for kind in (1, 3, 5):
            cut = [it.is_cut() for it in clients if it.kind == kind]
            name = ("a silent client", "half a head", "half a body")[kind // 2]
            cases.equal(f"front: {name} is cut", cut.count(True), len(cut))
    finally:
        for it in clients:
            it.client.close()


def test_front(cases):
    needed()
    recorder = Recorder()
    with tempfile.TemporaryDirectory() as folder:
        os.chmod(folder, 0o755)
        front = Front(os.path.join(folder, "shares"), recorder.port, **SHARES)
        try:
            refusals(cases, front)
            pages(cases, front)
            hostile(cases, front, recorder)
            limits(cases, front)
            networks(cases, front)
            shares(cases, front)
            links(cases, front)
        finally:
            front.close()
        front = Front(os.path.join(folder, "short"), recorder.port, **IN_SHORT)
        try:
            slow(cases, front, recorder)
        finally:
            front.close()
