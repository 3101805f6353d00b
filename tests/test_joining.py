"""The program that joins people to a registry and keeps sessions: who gets a name, what is refused,
that nobody gets another's account, and what a stop at any moment leaves. It is asked as nginx asks
it, and a server of the test stands for the registry."""
import fcntl
import io
import os
import resource
import signal
import socket
import subprocess
import sys
import threading
import time
import tokenize

import pytest

from fake_registry import FakeRegistry
from http_server import Server
from joining_unit import MODULES, PLACE, Unit, password, settings, verifier
from program import TOP

OTHERS = "anna:$5$rounds=1000$salt$x\nsam:$2y$04$abc\n# a comment: of the operator\nold:{SSHA}=\n"
ANYBODY = {"joins_a_day": 100_000, "joins_an_hour": 100_000}


@pytest.fixture
def unit(folder):
    found = Unit(folder)
    found.settings(**ANYBODY)
    found.write(OTHERS)
    found.fake = FakeRegistry(found.registry)
    found.fake.accounts |= {"anna": 3, "sam": 2, "old": 0, "mona": 1}
    yield found
    found.fake.close()


def others_stand(unit):
    """No line that was there is lost or changed, and no rank is."""
    with open(unit.passwords, encoding="latin-1") as file:
        text = file.read()
    ranks = {it: unit.fake.accounts[it] for it in ("root", "anna", "sam", "old", "mona")}
    is_same = ranks == {"root": 3, "anna": 3, "sam": 2, "old": 0, "mona": 1}
    return is_same and all(line in text.split("\n") for line in OTHERS.splitlines())


def test_joins(cases, unit):
    cases.equal("a stranger joins", unit.join("carl"), 200)
    cases.equal("as a contributor", unit.fake.commands, [("carl", None, 0)])
    kept, since = unit.lines()["carl"].rsplit(":", 1)
    cases.equal("nginx has the verifier", kept, verifier("carl"))
    cases.equal("and since when", since, time.strftime("%Y-%m-%d", time.gmtime()))
    cases.equal("the same again", unit.join("carl"), 200)
    cases.equal("acts once", unit.fake.commands, [("carl", None, 0)])
    cases.equal("another password", unit.join("carl", password(1)), 409)
    cases.equal("others stand", others_stand(unit), True)
    unit.fake.accounts["carl"] = 2
    cases.equal("once promoted, the same again", unit.join("carl"), 200)
    cases.equal("lowers no rank", unit.fake.accounts["carl"], 2)
    del unit.fake.accounts["carl"]
    unit.fake.receipts.clear()
    cases.equal("after a restore that has lost the account", unit.join("carl"), 200)
    cases.equal("it is there again, with the lowest rank", unit.fake.accounts["carl"], 0)
    unit.write(OTHERS)
    cases.equal("after a restore that has lost the line", unit.join("carl"), 200)
    unit.write(OTHERS)
    unit.fake.accounts["carl"] = 1
    cases.equal("with a rank it isn't joined", unit.join("carl"), 409)
    cases.equal("and has no line", "carl" in unit.lines(), False)


def test_accounts_that_are_there(cases, unit):
    """Whether an account has a password here or not: nobody joins as it, and its rank stays."""
    for name in ("anna", "sam", "old", "mona", "root"):
        cases.equal(f"{name} is not joined", unit.join(name) in (400, 409), True)
    cases.equal("nothing was done", (unit.fake.commands, others_stand(unit)), ([], True))
    cases.equal("one without a password gets none", "mona" in unit.lines(), False)


NAMES = {
    "": 400, "A": 400, "a b": 400, "a:b": 400, "a\nroot": 400, "a\r": 400, "a\0": 400, "ä": 400,
    "а": 400, "a" * 33: 400, "-a": 400, "a-": 400, "a--b": 400, "1a": 400, "root": 400,
    "r00t": 400, "ro-ot": 400, "adm1n": 400, "administrator": 400, "moderat0r": 400, "a.b": 400,
    "../x": 400, "a/b": 400, "x&rank=3": 400, "a%0a": 400, "sarn": 400, "s-am": 400, "0ld": 400,
    "o1d": 400, "anna-": 400, "an-na": 400, "a" * 32: 200, "x": 200, "x-y": 200, "bill": 200,
    "bi1l": 400, "b1ll": 400, "pail": 200, "pall": 200, "pa1l": 400, "j0e": 200, "joe": 400,
}


def test_names(cases, unit):
    for name, want in NAMES.items():
        status, _, told = unit.asked("POST", "/join", {"name": name, "verifier": verifier(name)})
        cases.equal(f"{name!r}", status, want)
        cases.equal(f"{name!r}: with a reason", bool(told.get("why")), want != 200)
    cases.equal("others stand", others_stand(unit), True)
    joined = [it for it, want in NAMES.items() if want == 200]
    cases.equal("only those are there", [it[0] for it in unit.fake.commands], joined)


def test_verifiers(cases, unit):
    right = verifier("carl")
    for name, sent in {
        "none": "", "a password": password(),
        "another scheme": right.replace("SSHA", "PLAIN"), "a colon": right[:-1] + ":",
        "a line feed": right + "\n", "a line": right + "\nroot:{PLAIN}x", "too long": right + "A",
        "too short": right[:-4], "a blank": right.replace("}", "} "), "bits beyond the last byte":
        right[:-3] + chr(ord(right[-3]) + 1) + "==", "no padding": right.rstrip("="),
        "{PLAIN}": "{PLAIN}", "a crypt": "$5$rounds=1000$a$b", "NUL": right[:9] + "\0" + right[10:],
    }.items():
        got = unit.status("POST", "/join", {"name": "carl", "verifier": sent})
        cases.equal(f"a verifier: {name}", got, 400)
    for sent in (b"name=carl&verifier=%ff%fe", b"name=%ff", b"\xff\xfe", b"=", b"name", b"&&"):
        got = raw(unit, sent)
        cases.equal(f"a body {sent!r}", got, 400)
    cases.equal("nothing was done", (unit.fake.commands, others_stand(unit)), ([], True))


def raw(unit, sent):
    environ = {"REQUEST_METHOD": "POST", "PATH_INFO": "/join", "CONTENT_LENGTH": str(len(sent)),
               "wsgi.input": io.BytesIO(sent), "HTTP_X_VISITOR": "192.0.2.1"}
    told = []
    unit.application(environ, lambda *it: told.extend(it))
    return int(told[0].split()[0])


def at_once(calls):
    """What calls give that begin at the same moment."""
    gate, got = threading.Barrier(len(calls)), [None] * len(calls)

    def one(at, call):
        gate.wait()
        got[at] = call()

    threads = [threading.Thread(target=one, args=it) for it in enumerate(calls)]
    for it in threads:
        it.start()
    for it in threads:
        it.join()
    return got


def test_at_the_same_moment(cases, unit):
    for turn in range(5):
        name = f"carl{'abcde'[turn]}"
        secrets = [password(it) for it in range(8)]
        got = at_once([lambda it=it: unit.join(name, it) for it in secrets])
        cases.equal(f"{name}: one of eight gets it", sorted(got), [200] + [409] * 7)
        winner = secrets[got.index(200)]
        cases.equal(f"{name}: whose password it is", unit.lines()[name].startswith(
            verifier(name, winner)), True)
    got = at_once([lambda: unit.join("carl")] * 8)
    cases.equal("the same command eight times", got, [200] * 8)
    got = at_once([lambda it=it: unit.join(f"guest{it}x") for it in "abcdefgh"])
    cases.equal("eight names", got, [200] * 8)
    lines = [it for it in unit.lines() if it.startswith(("carl", "guest"))]
    cases.equal("a line for each", len(lines), 5 + 1 + 8)
    cases.equal("others stand", others_stand(unit), True)


def beside(unit, method):
    """Has an administrator make an account of rank 2 as soon as the unit has asked for it."""
    def made():
        with socket.socket(socket.AF_UNIX) as client:
            client.connect(unit.registry)
            body = b"who=carl&rank=2"
            client.sendall(b"POST /account HTTP/1.1\r\nX-Account: anna\r\nX-Key: k\r\n"
                           b"Content-Length: %d\r\n\r\n%s" % (len(body), body))
            client.shutdown(socket.SHUT_WR)
            while client.recv(4096):
                pass
    answer, threads = unit.fake.answer, []

    def answered(head, body):
        told = answer(head, body)
        if head.startswith(method) and not threads:
            threads.append(threading.Thread(target=made))
            threads[0].start()
            time.sleep(0.05)
        return told

    unit.fake.answer = answered
    got = unit.join("carl")
    unit.fake.answer = answer
    threads[0].join()
    return got


def test_an_administrator_beside(cases, unit):
    """An administrator's command comes before the question or after the joining, never between."""
    cases.equal("carl joins", beside(unit, "GET"), 200)
    want = [("carl", None, 0), ("carl", 0, 2)]
    cases.equal("and then gets a rank", unit.fake.commands, want)


def test_a_connection_is_served_alone(cases, folder):
    """On which this stands: while one connection is open, the registry serves no other."""
    server = Server(os.path.join(folder, "registry.db"))
    try:
        ask = b"GET /account?who=carl HTTP/1.1\r\n\r\n"
        make = (b"POST /account HTTP/1.1\r\nX-Account: root\r\nContent-Length: 15\r\n\r\n"
                b"who=carl&rank=%d")
        with socket.create_connection(("127.0.0.1", server.port), timeout=30) as first:
            first.sendall(ask)
            cases.equal("no such account", b" 404 " in first.recv(4096), True)
            with socket.create_connection(("127.0.0.1", server.port), timeout=30) as second:
                second.sendall(make % 2)
                second.settimeout(0.5)
                with pytest.raises(TimeoutError):
                    second.recv(4096)
                first.sendall(make % 0)
                cases.equal("the first makes it", b'{"ok":true}' in first.recv(4096), True)
                first.close()
                second.settimeout(30)
                cases.equal("then the second acts", b'{"ok":true}' in second.recv(4096), True)
    finally:
        server.kill()


def test_lost_replies(cases, unit):
    """The connection to the registry ends after each byte of its responses."""
    broken = 0
    for number in (0, 1):
        for size in range(0, 130):
            name = fresh("ab"[number], size)
            unit.fake.cut = (unit.fake.answered + number, size)
            first = unit.join(name)
            unit.fake.cut = None
            broken += first == 503
            # What follows the question goes over its connection or not at all.
            cases.equal(f"{name}, cut at {size}", first == 503 or number == 1, True)
            cases.equal(f"{name}, cut at {size}: again", (first in (200, 503), unit.join(name)),
                        (True, 200))
            cases.equal(f"{name}: acts once", [it for it in unit.fake.commands if it[0] == name],
                        [(name, None, 0)])
    cases.equal(f"{broken} were cut", broken > 160, True)
    cases.equal("others stand", others_stand(unit), True)


# The functions that do anything; the others only look.
DOING = ("join", "alone", "put", "admit", "take_invitation", "told", "end_sessions", "set_own",
         "set_lock", "log_in", "log_out")


def fresh(front, number):
    """A name for a number that reads like no other."""
    return front + "".join("bcdefghjkm"[int(it)] for it in f"{number:03}") + "t"


def stopped_at(unit, line, call):
    """Calls in a process of its own, which ends at once before so many lines of the unit have run.
    Whether it came to its end."""
    child = os.fork()
    if child:
        return os.waitstatus_to_exitcode(os.waitpid(child, 0)[1]) == 0
    left = [line]

    def trace(frame, event, _):
        if frame.f_code.co_name not in DOING or "join" not in frame.f_code.co_filename:
            return None
        if event == "line":
            left[0] -= 1
            if left[0] < 0:
                os.kill(os.getpid(), signal.SIGKILL)
        return trace

    sys.settrace(trace)
    call()
    os._exit(0)


def test_stops(cases, unit):
    """Killed before each line of it, and asked again: it joins once, as whoever asked first."""
    at = 0
    while not stopped_at(unit, at, lambda name=fresh("k", at): unit.join(name)):
        name = fresh("k", at)
        made = [it for it in unit.fake.commands if it[0] == name]
        other = unit.join(name, password(1)) if made else 409
        cases.equal(f"killed at {at}: nobody else gets it", other, 409)
        cases.equal(f"killed at {at}: the same again", unit.join(name), 200)
        cases.equal(f"killed at {at}: acts once",
                    [it for it in unit.fake.commands if it[0] == name], [(name, None, 0)])
        at += 1
        cases.equal(f"killed at {at}: others stand", others_stand(unit), True)
        unit.write(OTHERS)
    cases.equal(f"there were {at} stops", at > 50, True)
    new = verifier("carl", password(1))
    unit.join("carl")
    line = unit.lines()["carl"]
    before, since = line.split(":")
    for path, more, who, after in (
        ("/lock", {"who": "carl"}, "sam", f"!{before}"), ("/session", {}, "carl", before),
        ("/password", {"verifier": new}, "carl", new), ("/leave", {}, "carl", "-"),
    ):
        unit.write(f"{OTHERS}carl:{line}\n")
        at = 0
        while not stopped_at(unit, at, lambda: unit.asked("POST", path, more, account=who)):
            is_whole = unit.lines()["carl"] in (line, f"{after}:{since}")
            cases.equal(f"{path}, killed at {at}: before or after", is_whole, True)
            if after != before and unit.lines()["carl"] != line:
                cases.equal(f"{path}, killed at {at}: no session is left", unit.sessions(), [])
            unit.write(f"{OTHERS}carl:{line}\n")
            cases.equal(f"{path}, killed at {at}: a log-in",
                        unit.status("POST", "/session", account="carl"), 200)
            at += 1
        got = unit.lines()["carl"], at > 5
        cases.equal(f"{path}: after {at} stops", got, (f"{after}:{since}", True))
        cases.equal(f"{path}: others stand", others_stand(unit), True)


def test_full_disk(cases, unit):
    """No file may grow past so many bytes: what can't be written whole is not written at all."""
    size, refused = len(OTHERS) + 90, 0
    signal.signal(signal.SIGXFSZ, signal.SIG_IGN)
    for room in range(0, size, 7):
        name = fresh("f", room)
        unit.write(OTHERS)
        unit.fake.accounts.pop(name, None)
        soft, hard = resource.getrlimit(resource.RLIMIT_FSIZE)
        resource.setrlimit(resource.RLIMIT_FSIZE, (room, hard))
        try:
            got = unit.join(name)
        finally:
            resource.setrlimit(resource.RLIMIT_FSIZE, (soft, hard))
        refused += got == 503
        cases.equal(f"room for {room}: no half line", others_stand(unit), True)
        cases.equal(f"room for {room}: {got}, and once there is more", unit.join(name), 200)
    cases.equal(f"{refused} had no room", refused > 20, True)
    line = unit.lines()[name]
    for path, more, who in (("/lock", {"who": name}, "sam"), ("/leave", {}, name), (
            "/password", {"verifier": verifier(name, password(1))}, name)):
        resource.setrlimit(resource.RLIMIT_FSIZE, (9, hard))
        try:
            got = unit.status("POST", path, more, account=who)
        finally:
            resource.setrlimit(resource.RLIMIT_FSIZE, (soft, hard))
        got = got, unit.lines()[name], others_stand(unit)
        cases.equal(f"{path} without room", got, (503, line, True))


def test_lock_of_the_file(cases, unit):
    """While pciids-adduser holds the lock nothing is written, and a command is refused for now."""
    place = os.open(os.path.dirname(unit.passwords), os.O_RDONLY)
    fcntl.flock(place, fcntl.LOCK_EX)
    start = time.monotonic()
    cases.equal("the passwords are locked", unit.join("carl"), 503)
    cases.equal("it waits some seconds", 3 < time.monotonic() - start < 30, True)
    cases.equal("nothing was done", unit.fake.commands, [])
    threading.Timer(0.5, os.close, (place,)).start()
    cases.equal("and goes on when it can", unit.join("carl"), 200)


ADDUSER = os.path.join(TOP, "deploy", "bin", "pciids-adduser")


def adduser(unit, *words, settings=(), **more):
    """The status of pciids-adduser and what it prints."""
    environment = {**os.environ, **unit.environment(), **dict(settings)}
    ran = subprocess.run([ADDUSER, *words], env=environment, text=True, stdout=subprocess.PIPE,
                         stderr=subprocess.STDOUT, timeout=120, **more)
    return ran.returncode, ran.stdout


def test_adduser(cases, unit):
    """What the operator's command and joining do to each other's accounts: nothing."""
    names = [f"guest{it}x" for it in "abcd"]
    calls = [lambda it=it: unit.join(it) for it in names]
    calls += [lambda it=it: adduser(unit, f"host{it}", "moderator")[0] for it in "abcd"]
    got = at_once(calls)
    cases.equal("at once", got, [200] * 4 + [0] * 4)
    cases.equal("a line for each", sorted(it for it in unit.lines() if it[:4] in ("gues", "host")),
                sorted([*names, "hosta", "hostb", "hostc", "hostd"]))
    cases.equal("others stand", others_stand(unit), True)
    cases.equal("the operator's", unit.join("hosta"), 409)
    status, told = adduser(unit, "guestax", "moderator")
    got = status, "has joined by himself" in told, unit.fake.accounts["guestax"]
    cases.equal("no rank for whoever came first", got, (1, True, 0))
    status, told = adduser(unit, "--joined", "guestax", "moderator")
    got = status, unit.fake.accounts["guestax"], unit.lines()["guestax"].startswith("{SSHA}")
    cases.equal("but for whom one knows", got, (0, 1, True))
    unit.asked("POST", "/session", account="guestbx")
    unit.fake.accounts["guestbx"] = 1
    status, told = adduser(unit, "--new-password", "guestbx")
    got = status, unit.lines()["guestbx"].startswith("$5$"), unit.sessions()
    cases.equal("a password that was lost", got, (0, True, []))
    cases.equal("and no rank", unit.fake.accounts["guestbx"], 1)
    cases.equal("of nobody", adduser(unit, "--new-password", "ghost")[0], 2)
    unit.asked("POST", "/session", account="guestbx")
    cases.equal("a lock", adduser(unit, "--lock", "guestbx"), (0, "guestbx: is locked now\n"))
    got = unit.sessions(), unit.status("POST", "/session", account="guestbx")
    cases.equal("ends sessions, and none begins", got, ([], 403))
    cases.equal("twice", adduser(unit, "--lock", "guestbx"), (0, "guestbx: was locked before\n"))
    told = adduser(unit, "--list")[1].splitlines()
    today = time.strftime("%Y-%m-%d", time.gmtime())
    want = [f"guestax 1 open joined {today}", f"guestbx 1 locked joined {today}", "hosta 1 open"]
    cases.equal("the list", [it for it in want if it not in told], [])
    status, told = adduser(unit, "--list", settings={"PCIIDS_SOCKET": "/nowhere"})
    said = "pciids-adduser: the registry does not answer"
    cases.equal("without a registry", (status, told.splitlines()[-1]), (1, said))
    cases.equal("open again", adduser(unit, "--unlock", "guestbx")[0], 0)
    unit.asked("POST", "/password", {"verifier": verifier("hosta")}, account="hosta")
    got = [adduser(unit, it, "hosta") for it in ("--lock", "--unlock")]
    want = [(0, "hosta: is locked now\n"), (0, "hosta: is open now\n")]
    cases.equal("who has set a password, and not joined", got, want)
    unit.asked("POST", "/leave", account="guestcx")
    cases.equal("who left has no lock", adduser(unit, "--lock", "guestcx")[0], 1)
    cases.equal("and is let in by name", adduser(unit, "--joined", "guestcx", "0")[0], 0)
    cases.equal("others stand still", others_stand(unit), True)


def test_adduser_killed(cases, unit):
    """What one that was killed has left of the other file goes at the next start."""
    tools = os.path.join(unit.folder, "tools")
    os.mkdir(tools)
    with open(os.path.join(tools, "sync"), "w", encoding="ascii") as file:
        file.write("#!/bin/sh\nkill -KILL $PPID\n")
    os.chmod(file.name, 0o755)
    unit.write(f"{OTHERS}carl:{verifier('carl')}:\n")
    words = {**os.environ, **unit.environment(), "PATH": f"{tools}:{os.environ['PATH']}"}
    ran = subprocess.run([ADDUSER, "--lock", "carl"], env=words, timeout=60,
                         stdout=subprocess.DEVNULL)
    kept = os.path.dirname(unit.passwords)
    cases.equal("killed, with a file left", (ran.returncode, len(os.listdir(kept))), (-9, 3))
    cases.equal("nothing was done", others_stand(unit) and "!" not in unit.lines()["carl"], True)
    got = adduser(unit, "--unlock", "carl")[1], sorted(os.listdir(kept))
    cases.equal("the next one", got, ("carl: was open before\n", ["invites", "passwords"]))


def test_adduser_on_a_full_disk(cases, unit):
    """As in test_full_disk: a file of passwords is replaced by a whole one, or stays as it is."""
    text = f"{OTHERS}carl:{verifier('carl')}:\ndora:!{verifier('dora')}:\n"
    unit.write(text)
    signal.signal(signal.SIGXFSZ, signal.SIG_IGN)
    soft, hard = resource.getrlimit(resource.RLIMIT_FSIZE)
    for words in (("--lock", "carl"), ("--unlock", "dora"), ("--new-password", "carl")):
        for room in (0, 20, len(OTHERS), len(text) - 20):
            resource.setrlimit(resource.RLIMIT_FSIZE, (room, hard))
            try:
                status = adduser(unit, *words, restore_signals=False)[0]
            finally:
                resource.setrlimit(resource.RLIMIT_FSIZE, (soft, hard))
            with open(unit.passwords, encoding="ascii") as file:
                got = status, file.read(), sorted(os.listdir(os.path.dirname(unit.passwords)))
            cases.equal(f"{words}, room for {room}", got, (1, text, ["invites", "passwords"]))
            unit.write(text)
    cases.equal("once there is room", adduser(unit, "--lock", "carl")[0], 0)
    cases.equal("all others stand", others_stand(unit), True)


def test_registry_away(cases, unit):
    unit.fake.close()
    os.unlink(unit.registry)
    cases.equal("without the registry", unit.join("carl"), 503)
    cases.equal("nobody is there", "carl" in unit.lines(), False)
    unit.fake = FakeRegistry(unit.registry)
    cases.equal("once it is back", unit.join("carl"), 200)


def test_bounds(cases, unit):
    unit.settings(joins_a_day=16)
    got = [unit.join(f"p{it}q") for it in "abcd"]
    cases.equal("four of one address", got, [200, 200, 200, 429])
    cases.equal("what is there goes on", unit.join("paq"), 200)
    network = [f"2001:db8::{it}" for it in range(1, 5)]
    got = [unit.join(f"r{it[-1]}s".replace("1", "b"), visitor=it) for it in network]
    cases.equal("four of one network", got, [200, 200, 200, 429])
    mapped = ["203.0.113.1", "::ffff:203.0.113.1", "::ffff:cb00:7101", "::ffff:203.0.113.1",
              "::ffff:203.0.113.2"]
    got = [unit.join(f"m{'bcdef'[at]}u", visitor=it) for at, it in enumerate(mapped)]
    cases.equal("addresses of IPv4, however written", got, [200, 200, 200, 429, 200])
    got = [unit.join(f"t{'bcdefghjkm'[it]}u", visitor=f"198.51.100.{it}") for it in range(10)]
    cases.equal("ten addresses", got, [200] * 6 + [429] * 4)
    unit.settings(joins_a_day=0)
    cases.equal("a closed door", unit.join("zed", visitor="198.51.100.99"), 429)
    for name, its in {
        "a number in words": settings(joins_a_day="many"), "no section": "joins-a-day = 100\n",
        "a line without a sign": settings() + "joins-a-day 0\n", "not UTF-8": "[join]\n\udcff",
        "a setting that isn't there": "[join]\ndoor = open\njoins-a-day = 100\n", "nothing": "",
    }.items():
        with open(unit.conf, "w", encoding="utf-8", errors="surrogateescape") as file:
            file.write(its)
        got = unit.join("zed", visitor="198.51.100.99"), "zed" in unit.lines()
        cases.equal(f"a fault in the settings: {name}", got, (503, False))
    os.unlink(unit.conf)
    cases.equal("no settings", unit.join("zed", visitor="198.51.100.99"), 503)
    unit.settings(joins_a_day=100, contact="Ask <b>us</b>: 100%", rules="Be kind.\n  No spam.")
    cases.equal("the words of the operator", unit.join("zed", visitor="198.51.100.99"), 200)
    with open(os.path.join(TOP, "deploy/systemd/pciids-join.service"), encoding="utf-8") as file:
        cases.equal("an hour is counted in one place", "gunicorn --workers 1 " in file.read(), True)


def join_at_last(unit, name, **how):
    """The status of a join that is sent again while a busy machine keeps it waiting too long."""
    return next((it for it in (unit.join(name, **how) for _ in range(20)) if it != 503), 503)


def test_many(cases, unit):
    """A thousand, eight at a time, from one address and from a hundred."""
    unit.settings(joins_a_day=50)
    letters = "bcdefghjkmnpqrstuvwxyz"
    names = [f"{a}{b}{c}" for a in "hjkmn" for b in letters for c in letters][:2000]
    one, hundred = names[:1000], list(enumerate(names[1000:]))
    start, got = time.monotonic(), []
    for eight in zip(*[iter(one)] * 8):
        got += at_once([lambda it=it: join_at_last(unit, it) for it in eight])
    cases.equal("of one address", (got.count(200), got.count(429)), (3, 997))
    for eight in zip(*[iter(hundred)] * 8):
        got += at_once([
            lambda at=at, it=it: join_at_last(unit, it, visitor=f"198.51.100.{at % 100}")
            for at, it in eight
        ])
    seconds = time.monotonic() - start
    cases.equal(f"on a busy machine too: {seconds:.0f} s", seconds < 600, True)
    cases.equal("of a hundred", (got[1000:].count(200), got[1000:].count(429)), (47, 953))
    joined = [it for it, status in zip(names, got) if status == 200]
    cases.equal("accounts", sorted(it[0] for it in unit.fake.commands), sorted(joined))
    there = sorted(it for it in unit.lines() if it in names)
    cases.equal("a line for each", there, sorted(joined))
    cases.equal("others stand", others_stand(unit), True)


def invite(unit, number):
    token = f"{number:032x}"
    with open(os.path.join(unit.invites, token), "w", encoding="ascii"):
        pass
    return token


def test_invitations(cases, unit):
    unit.settings(door="invitation", joins_a_day=1000)
    cases.equal("without one", unit.join("carl"), 403)
    for name, token in (("none", "0" * 32), ("a path", "../passwords"), ("empty", ""), ("*", "*")):
        cases.equal(f"one that is {name}", unit.join("carl", invite=token), 403)
    token = invite(unit, 1)
    cases.equal("with one", unit.join("carl", invite=token), 200)
    cases.equal("the same again", unit.join("carl", invite=token), 200)
    cases.equal("used", unit.join("dora", invite=token), 403)
    token = invite(unit, 2)
    cases.equal("a name that is taken", unit.join("mona", invite=token), 409)
    cases.equal("leaves it good", unit.join("dora", invite=token), 200)
    at = 0
    while True:
        unit.write(OTHERS)
        token, name = invite(unit, 100 + at), fresh("j", at)
        if stopped_at(unit, at, lambda: unit.join(name, invite=token)):
            break
        both = unit.join(name, invite=token), unit.join(f"{name}zz", invite=token)
        cases.equal(f"killed at {at}: once good", both, (200, 403))
        at += 1


def test_sessions(cases, unit):
    unit.join("carl")
    status, fields, told = unit.asked("POST", "/session", account="carl")
    cases.equal("a log-in", (status, told), (200, {"ok": True}))
    cookie = fields["Set-Cookie"]
    name, rules = cookie.split("; ")[0], set(cookie.split("; ")[1:])
    token = name.removeprefix("__Host-pciids=")
    cases.equal("its cookie", rules, {"Path=/", "Secure", "HttpOnly", "SameSite=Strict"})
    cases.equal("its file", unit.sessions(), [token])
    cases.equal("its form", (token[:5], len(token)), ("carl.", 37))
    staying = unit.asked("POST", "/session", {"stays": "yes"}, account="carl", session=token)[1]
    cases.equal("one that stays", "; Max-Age=2592000; " in staying["Set-Cookie"], True)
    cases.equal("takes the place of the former one", token in unit.sessions(), False)
    for _ in range(30):
        unit.asked("POST", "/session", account="carl")
    cases.equal("an account has 20 at most", len(unit.sessions()), 20)
    one = unit.sessions()[0]
    cases.equal("a log-out", unit.status("POST", "/session/end", session=one), 200)
    cases.equal("ends it alone", (one in unit.sessions(), len(unit.sessions())), (False, 19))
    for it in ("../kept/passwords", "..", "/etc/passwd", "", "none"):
        unit.asked("POST", "/session/end", session=it)
    cases.equal("nothing else goes", (others_stand(unit), len(unit.sessions())), (True, 19))
    cases.equal("without an account", unit.status("POST", "/session"), 404)


def test_own_passwords(cases, unit):
    unit.join("carl")
    since = unit.lines()["carl"].rpartition(":")[2]
    unit.asked("POST", "/session", account="carl")
    new = {"verifier": verifier("carl", password(1))}
    cases.equal("another one", unit.status("POST", "/password", new, account="carl"), 200)
    cases.equal("is there", unit.lines()["carl"], f"{new['verifier']}:{since}")
    cases.equal("sessions ended", unit.sessions(), [])
    cases.equal("without an account", unit.status("POST", "/password", new), 404)
    cases.equal("who leaves", unit.status("POST", "/leave", account="carl"), 200)
    cases.equal("has no password", unit.lines()["carl"], f"-:{since}")
    for secret in (password(), password(1)):
        cases.equal("and nobody gets the name", unit.join("carl", secret), 409)
    cases.equal("nor one like it", unit.join("car1"), 400)
    cases.equal("nor a session", unit.status("POST", "/session", account="carl"), 403)
    cases.equal("others stand", others_stand(unit), True)


def test_locks(cases, unit):
    unit.join("carl")
    unit.write(OTHERS + f"mona:{verifier('mona')}:\ncarl:{unit.lines()['carl']}\n")
    for account, who, want in (
        ("carl", "mona", 403), ("mona", "carl", 403), ("sam", "anna", 403), ("sam", "sam", 403),
        ("sam", "nobody", 404), ("sam", "a\nb", 404), ("sam", "", 404), ("", "carl", 404),
        ("ghost", "carl", 403),
    ):
        got = unit.status("POST", "/lock", {"who": who}, account=account)
        cases.equal(f"{account} locks {who!r}", got, want)
    unit.asked("POST", "/session", account="carl")
    cases.equal("sam locks carl", unit.status("POST", "/lock", {"who": "carl"}, account="sam"), 200)
    cases.equal("a locked line", unit.lines()["carl"][0], "!")
    cases.equal("no session is left", unit.sessions(), [])
    cases.equal("none begins", unit.status("POST", "/session", account="carl"), 403)
    new = {"verifier": verifier("carl", password(1))}
    cases.equal("no other password", unit.status("POST", "/password", new, account="carl"), 403)
    cases.equal("joining doesn't unlock", unit.join("carl"), 409)
    cases.equal("twice is once", unit.status("POST", "/lock", {"who": "carl"}, account="anna"), 200)
    told = unit.asked("GET", "/accounts", account="anna")[2]["accounts"]
    rows = {it["account"]: it["state"] for it in told}
    cases.equal("the list", rows, {"anna": "open", "carl": "locked", "mona": "open",
                                   "old": "open", "sam": "open"})
    cases.equal("is for seniors", unit.status("GET", "/accounts", account="mona"), 403)
    got = unit.status("POST", "/unlock", {"who": "carl"}, account="anna")
    is_open = unit.lines()["carl"].startswith(verifier("carl"))
    cases.equal("and unlocks", (got, is_open), (200, True))
    cases.equal("anna locks sam", unit.status("POST", "/lock", {"who": "sam"}, account="anna"), 200)
    for method, path in (("POST", "/lock"), ("POST", "/unlock"), ("GET", "/accounts")):
        got = unit.status(method, path, {"who": "carl"}, account="sam")
        cases.equal(f"who is locked: {path}", got, 403)
    unit.asked("POST", "/unlock", {"who": "sam"}, account="anna")
    sam = next(it for it in OTHERS.splitlines() if it.startswith("sam:"))
    unit.write(OTHERS.replace(sam, f"sam:{unit.lines()['sam'].removesuffix(':')}"))
    cases.equal("others stand", others_stand(unit), True)


def test_it_is_short(cases):
    """What may act as any account has at most 200 lines, besides what says what it does."""
    lines, blank = set(), {tokenize.COMMENT, tokenize.NL, tokenize.NEWLINE, tokenize.INDENT,
                           tokenize.DEDENT, tokenize.ENCODING, tokenize.ENDMARKER}
    for name in sorted(os.listdir(PLACE)):
        if not name.endswith(".py"):
            continue
        cases.equal(f"{name} is one of them", name[:-3] in MODULES, True)
        with open(os.path.join(PLACE, name), "rb") as file:
            for it in tokenize.tokenize(file.readline):
                is_said = it.type == tokenize.STRING and it.line.strip().startswith('"""')
                rows = () if it.type in blank or is_said else range(it.start[0], it.end[0] + 1)
                lines |= {(name, row) for row in rows}
    cases.equal(f"it has {len(lines)} lines", 100 < len(lines) <= 200, True)
