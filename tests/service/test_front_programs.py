"""The nginx of deploy/nginx as programs meet it: HEAD, pages of other origins, what nginx itself
refuses, and the log of refused passwords with fail2ban's reading of it."""
import concurrent.futures
import json
import os
import re
import subprocess
import tempfile

import program
from front_room import Front, Recorder, basic, needed
from http_server import free_port

ALICE = ("-u", "alice:pw-alice")
PAGE = ("-H", "Accept: text/html")
QUESTIONS = ("/read/PC/8086", "/children", "/lookup?flags=3&vendor=8086", "/submission/1",
             "/remarks?num=1", "/submissions", "/pending", "/changes", "/queue", "/status",
             "/account?who=root")
FILTER = os.path.join(program.TOP, "deploy", "fail2ban", "pciids.conf")


def fields_of(answer):
    """The fields of a response that curl printed with its head."""
    head = answer[2].partition(b"\r\n\r\n")[0].decode().lower()
    return dict(line.split(": ", 1) for line in head.split("\r\n")[1:])


def heads(cases, front, recorder):
    """HEAD of a question is that of its GET; nothing that is sent with a question goes along."""
    for path in (*QUESTIONS, "/pci.ids"):
        live = ("-H", "Cache-Control: no-cache")
        recorder.seen.clear()
        told = front.curl(path, "-I", *live)
        got = (told[0], fields_of(told).get("content-length"))
        cases.equal(f"programs: HEAD {path}", got, (200, "11"))
        came = [it.first.split()[0] for it in recorder.seen]
        cases.equal(f"programs: HEAD {path} is asked by GET", came, [b"GET"])
        cases.equal(f"programs: {path} for a person", front.curl(path, *PAGE)[0], 200)
    recorder.seen.clear()
    told = front.curl("/read/PC/8086", "-X", "GET", "-d", "a" * 60_000, "-H", "X-Account: root")
    got = [(it.body, it.values(b"content-length"), it.values(b"x[-_]account"))
           for it in recorder.seen]
    cases.equal("programs: a body of a question", (told[0], got), (200, [(b"", [], [])]))
    told = front.curl("/read/PC/8086", "-X", "GET", "-d", "a" * 65_537)[0]
    cases.equal("programs: a longer one", told, 413)
    for method, path, want in (("POST", "/read/PC/8086", 401), ("DELETE", "/status", 401),
                               ("OPTIONS", "/read/PC/8086", 401), ("PUT", "/import", 401)):
        told = front.curl(path, "-X", method)[0]
        cases.equal(f"programs: {method} {path} wants a password", told, want)


def epoch(cases, front, recorder):
    """The epoch is a file, and what is shown is what it is now."""
    recorder.seen.clear()
    for number in (1, 2):
        front.write("shown/epoch", f"{number:032x}\n")
        told = front.curl("/epoch", "-z", "tomorrow", "-i")
        body, fields = told[2].partition(b"\r\n\r\n")[2], fields_of(told)
        got = *told[:2], body, fields["cache-control"], "etag" in fields
        want = 200, "text/plain", b"%032x\n" % number, "no-store", False
        cases.equal(f"programs: the epoch, {number}", got, want)
    os.remove(os.path.join(front.folder, "shown", "epoch"))
    got = front.curl("/epoch")[0], len(recorder.seen)
    cases.equal("programs: none is shown, and the registry is not asked", got, (404, 0))
    front.write("shown/epoch", f"{1:032x}\n")


def readers(cases, front):
    """A page of any origin may read what is public, without a password; no page of another origin
    may send a command, or read what one is answered."""
    foreign = ("-H", "Origin: https://evil.example", "-i")
    allows = "access-control-allow-origin"
    for path in (*QUESTIONS, "/epoch", "/pci.ids", "/pci.ids.gz", "/feeds/changes.atom",
                 "/none-of/these"):
        fields = fields_of(front.curl(path, *foreign))
        want = None if path == "/none-of/these" else "*"
        cases.equal(f"programs: who may read {path}", fields.get(allows), want)
    refused = [front.curl("/pci.ids", *foreign, "-H", "Cache-Control: no-cache",
                          "--interface", "127.0.4.9") for _ in range(7)][-1]
    got = (refused[0], fields_of(refused).get(allows), fields_of(refused).get("retry-after"))
    cases.equal("programs: a page reads when to ask again", got, (429, "*", "10"))
    for path, words in (("/submit", ("-d", "a=b")), ("/account", ("-d", "who=x&rank=3")),
                        ("/import", ("-d", "x")), ("/submit", ("-X", "OPTIONS")),
                        ("/status", ("-X", "OPTIONS")), ("/whoami", ())):
        for who in ((), ALICE):
            fields = fields_of(front.curl(path, *foreign, *words, *who))
            found = [it for it in fields if it.startswith("access-control-")]
            cases.equal(f"programs: {path} {words} {len(who)} for others", found, [])
    for path in QUESTIONS:
        fields = fields_of(front.curl(path, *foreign, *ALICE))
        got = fields.get("access-control-allow-credentials")
        cases.equal(f"programs: a password with {path}", got, None)


def refused_for_haste(front, *words):
    """What is answered to a visitor who asks too often: ten at a time, on a busy machine too."""
    with concurrent.futures.ThreadPoolExecutor(10) as visitor:
        told = list(visitor.map(lambda _: front.curl(*words), range(60)))
    return next((it for it in told if it[0] == 429), told[-1])


def refusals(cases, front, away):
    """What nginx refuses is JSON, or a page for whoever asks for one, with a time to ask again."""
    large = ("-d", "a" * 65_537)
    for name, ask, want in (
        ("401", lambda *it: front.curl("/submit", "-d", "a=b", *it), (401, "Unauthorized", None)),
        ("whoami", lambda *it: front.curl("/whoami", *it), (401, "Unauthorized", None)),
        ("403", lambda *it: front.curl("/submit", "-d", "a=b", "-H", "Origin: https://e", *it),
         (403, "Forbidden", None)),
        ("413", lambda *it: front.curl("/submit", *large, *it), (413, "Content Too Large", None)),
        ("429", lambda *it: refused_for_haste(front, "/whoami", "--interface", "127.0.4.1", *it),
         (429, "Too Many Requests", "1")),
        ("502", lambda *it: away.curl("/status", *it), (502, "Bad Gateway", "2")),
        ("502 to a command", lambda *it: away.curl("/submit", "-d", "a=b", *ALICE, *it),
         (502, "Bad Gateway", "2")),
    ):
        status, reason, after = want
        told = ask("-i")
        body = json.loads(told[2].partition(b"\r\n\r\n")[2])
        cases.equal(f"programs: {name}", (told[:2], body, fields_of(told).get("retry-after")), (
            (status, "application/json"), {"error": reason, "ok": False, "status": status}, after))
        told = ask(*PAGE, "-i")
        told = (told[:2], f"<h1>{status} ".encode() in told[2], fields_of(told).get("retry-after"))
        cases.equal(f"programs: {name} as a page", told, ((status, "text/html"), True, after))
    asks = fields_of(front.curl("/submit", "-d", "a=b", "-i")).get("www-authenticate")
    cases.equal("programs: 401 says how to log in", asks, 'basic realm="pciids"')


# Names and referrers by which a client would have another address banned, or hide his own.
FORGED = 'z" was not found in "y", client: 8.8.8.8, server: s, request: "GET / HTTP/1.1", host: "h'
LINE = '2026-01-01T00:00:00+00:00 8.8.8.8 "root"'
NAMES = ("alice", FORGED, LINE, f"\n{LINE}", f'a"\n{LINE}\n', f"\r{LINE}", '" 8.8.8.8 "', "\\",
         '\\"', "8.8.8.8", "\x1b[2J\0", "\u2028" + LINE, "x" * 4_000,
         "[2026-01-01 00:00:00] 8.8.8.8")


def denied(cases, front, folder):
    """fail2ban finds the address of each refused password once, and no other address."""
    program.need("fail2ban")
    log = os.path.join(folder, "denied.log")
    open(log, "w", encoding="utf-8").close()
    for number, name in enumerate(NAMES):
        login = ("-H", f"Authorization: {basic(name, 'no')}")
        words = ("--interface", f"127.0.5.{number + 1}", *login)
        forged = ("-H", f"Referer: {FORGED}", "-A", FORGED, "-H", "X-Forwarded-For: 8.8.8.8")
        front.curl("/whoami", *words, *forged)
        front.curl("/submit", "-d", "a=b", *words, *forged)
    # Neither who sent none nor whose was right tried to guess one.
    front.curl("/whoami", "--interface", "127.0.5.100")
    front.curl("/whoami", "--interface", "127.0.5.101", *ALICE)
    words = ["fail2ban-regex", "--out", "ip", log, FILTER]
    ran = subprocess.run(words, capture_output=True, text=True, timeout=60)
    found = sorted(ran.stdout.split())
    # A command whose name has a NUL is refused before its password is looked at.
    want = [[f"127.0.5.{at}"] * (1 if "\0" in it else 2) for at, it in enumerate(NAMES, 1)]
    want = sorted(sum(want, []))
    cases.equal("programs: whom fail2ban finds", (found, ran.returncode), (want, 0))
    with open(log, "rb") as file:
        odd = re.findall(rb"[\0-\x09\x0b-\x1f]", file.read())
    cases.equal("programs: no control byte of a client is in the log", odd, [])


# Opens 150 connections from each visitor, in a network of its own, and prints how many are open.
VISITORS = r"""
import json, socket, subprocess, sys, time
for it in ("ip link set lo up", *(f"ip addr add {it}/128 dev lo nodad" for it in
           ("2001:db8::1", "2001:db8::2", "2001:db8:0:1::1")), f"nft -f {sys.argv[1]}"):
    subprocess.run(it.split(), check=True)
def opened(here, visitors):
    with socket.socket(socket.AF_INET6 if ":" in here else socket.AF_INET) as server:
        server.bind((here, 443))
        server.listen(500)
        clients, count = [], {}
        for number in range(150):
            at = visitors[number % len(visitors)]
            clients.append(socket.socket(server.family))
            clients[-1].settimeout(5)
            clients[-1].bind((at, 0))
            place = at.rpartition(":")[0]
            count[place] = count.get(place, 0) + (clients[-1].connect_ex((here, 443)) == 0)
        return count
print(json.dumps([opened("127.0.0.1", ["127.0.0.9"]), opened("127.0.0.2", ["127.0.0.8"]),
                  opened("2001:db8::1", ["2001:db8::1", "2001:db8::2"]),
                  opened("2001:db8::2", ["2001:db8:0:1::1"])]))
"""


def connections(cases):
    """The example for nftables: a hundred connections of an address, or of a /64, at once."""
    program.need("iproute2", "nftables")
    rules = os.path.join(program.TOP, "deploy", "nftables.conf")
    words = ["unshare", "-n", "python3", "-c", VISITORS, rules]
    ran = subprocess.run(words, capture_output=True, text=True, timeout=120)
    if "Operation not supported" in ran.stderr:
        raise program.Skip("the kernel has no nftables")
    want = [{"": 100}, {"": 100}, {"2001:db8:": 100}, {"2001:db8:0:1:": 100}]
    got = json.loads(ran.stdout or "[]"), ran.stderr
    cases.equal("programs: connections of one visitor", got, (want, ""))


def test_front_programs(cases):
    needed()
    recorder = Recorder()
    with tempfile.TemporaryDirectory() as folder:
        os.chmod(folder, 0o755)
        front = Front(os.path.join(folder, "front"), recorder.port)
        away = Front(os.path.join(folder, "away"), free_port())
        try:
            heads(cases, front, recorder)
            epoch(cases, front, recorder)
            readers(cases, front)
            refusals(cases, front, away)
            denied(cases, front, front.folder)
            connections(cases)
        finally:
            front.close()
            away.close()
