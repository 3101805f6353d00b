"""The nginx of deploy/nginx with what joins people: a stranger joins, logs in and sends commands by
a session; whose command a session's is; and what pages of other sites, other tabs and guessers
get."""
import os
import re
import socket
import tempfile
import threading
import time

from fake_registry import FakeRegistry
from front_room import HOST, PEOPLE, Front, Recorder, Request, basic, needed
from http_server import clients_of, to_end
from joining_unit import Served, password, settings, verifier

# Shares that a test doesn't use up.
AMPLE = {
    "pciids_limits": (
        ("zone=pciids_joins:1m rate=20r/m", "zone=pciids_joins:1m rate=50r/s"),
        ("zone=pciids_logins:1m rate=1r/s", "zone=pciids_logins:1m rate=50r/s"),
    ),
}
# Shares that a test uses up before more of them comes, however slow the machine is.
SCARCE = {
    "pciids_limits": (
        ("zone=pciids_joins:1m rate=20r/m", "zone=pciids_joins:1m rate=1r/m"),
        ("zone=pciids_logins:1m rate=1r/s", "zone=pciids_logins:1m rate=1r/m"),
    ),
}
# A request has to come within three seconds.
AMPLE_AND_SHORT = {"pciids_limits": (
    *AMPLE["pciids_limits"], ('"~^[0-9]\\."', '"~^[0-2]\\."'),
    ('"~^command [0-5]?[0-9]?[0-9]\\."', '"~^command [0-2]\\."'),
)}
SETTINGS = settings(joins_a_day=8, joins_an_hour=100, contact="Ask us.")


class Room:
    """nginx, the application and a registry of accounts in a folder. Commands go to a recorder."""

    def __init__(self, folder, joins=SETTINGS, is_cut=False, **more):
        self.folder, self.recorder = folder, Recorder()
        own = f"{folder}/front"
        # nginx may look into it, as the group of pciids-web.
        os.makedirs(f"{own}/join/sessions")
        self.registry = FakeRegistry(f"{folder}/http.sock")
        self.registry.accounts |= {"alice": 0, "bob": 2, "carol": 3}
        with open(f"{own}/join.conf", "w", encoding="utf-8") as file:
            file.write(joins)
        self.unit = Served({
            "PCIIDS_PASSWORDS": f"{own}/accounts/passwords", "PCIIDS_JOIN_CONF": f"{own}/join.conf",
            "PCIIDS_JOIN_RUN": f"{own}/join", "PCIIDS_SOCKET": f"{folder}/http.sock",
        })
        self.cutter = Cutter(self.unit.port) if is_cut else None
        port = (self.cutter or self.unit).port
        self.front = Front(own, self.recorder.port, join=port, **more)
        self.here = ("-H", f"Origin: https://{HOST}:{self.front.port}",
                     "-H", "Sec-Fetch-Site: same-origin")

    def close(self):
        self.front.close()
        self.unit.close()
        self.registry.close()

    def post(self, path, form="", *words):
        return self.front.curl(path, *self.here, "-d", form, *words)[0]

    def join(self, name, number=0, *words):
        sent = ("--data-urlencode", f"verifier={verifier(name, password(number))}")
        return self.front.curl("/join", *self.here, "-d", f"name={name}", *sent, *words)[0]

    def log_in(self, name, secret, *words):
        """The session of a log-in, or None."""
        told = self.front.curl("/session", *self.here, "-i", "-u", f"{name}:{secret}", "-d", "",
                               *words)[2].decode()
        found = re.search(r"(?i)set-cookie: __Host-pciids=([a-z0-9.-]+);", told)
        return found and found[1]

    def by(self, session, account=None):
        """The arguments of curl for a command of a page."""
        account = account or session.partition(".")[0]
        return (*self.here, "-H", f"Cookie: a=b; __Host-pciids={session}; c=d",
                "-H", f"X-As: {account}")

    def sent_as(self, *words):
        """The status of a command, and as which accounts it came to the registry."""
        self.recorder.seen.clear()
        status = self.front.curl("/submit", "-d", "a=b", *words)[0]
        return status, [it.values(rb"x[-_]account") for it in self.recorder.seen]


def stranger(cases, room):
    """From nothing to a command, and out again."""
    told = room.front.curl("/joining")
    want = 200, "text/plain; charset=utf-8", SETTINGS.encode()
    cases.equal("joining: what is asked first", told, want)
    page = room.front.curl("/join", "-H", "Accept: text/html")
    cases.equal("joining: the page", (page[0], b"<main" in page[2]), (200, True))
    cases.equal("joining: carl joins", room.join("carl"), 200)
    cases.equal("joining: again", room.join("carl"), 200)
    cases.equal("joining: another carl", room.join("carl", 1), 409)
    cases.equal("joining: by a password", room.sent_as("-u", f"carl:{password()}"),
                (200, [[b"carl"]]))
    session = room.log_in("carl", password())
    cases.equal("joining: by a session", room.sent_as(*room.by(session)), (200, [[b"carl"]]))
    for it in room.recorder.seen:
        kept = it.values(b"cookie") + it.values(b"x-as") + it.values(b"authorization")
        cases.equal("joining: the registry gets no secret", b"".join(kept) in (b"", b"carl"), True)
    who = room.front.curl("/whoami", *room.by(session))
    cases.equal("joining: whose session it is", who[2], b'{"account":"carl"}')
    room.post("/session/end", "", *room.by(session))
    cases.equal("joining: it ended", room.sent_as(*room.by(session)), (401, []))
    who = room.front.curl("/whoami", *room.by(session), "-i")
    asks = b"www-authenticate" in who[2].lower()
    cases.equal("joining: no window asks for a password", (who[0], asks), (401, False))


class Cutter(threading.Thread):
    """Stands between nginx and the application: passes on so many bytes of a response, or all."""

    def __init__(self, behind):
        super().__init__(daemon=True)
        self.behind, self.left, self.passed = behind, None, 0
        self.listener = socket.create_server(("127.0.0.1", 0), backlog=64)
        self.port = self.listener.getsockname()[1]
        self.start()

    def run(self):
        for client in clients_of(self.listener):
            with client, socket.create_connection(("127.0.0.1", self.behind)) as server:
                sent = b""
                while not Request(sent).is_whole() or b"\r\n\r\n" not in sent:
                    sent += client.recv(65536)
                server.sendall(sent)
                data = to_end(server)
                self.passed = len(data)
                client.sendall(data[: self.left])


def lost(cases, folder):
    """The reply is lost at each byte: whoever asks again has one account, with one line."""
    room = Room(folder, joins=settings(joins_a_day=1000, joins_an_hour=1000), is_cut=True, **AMPLE)
    try:
        cases.equal("joining: nothing is lost", room.join("carl"), 200)
        size, names = room.cutter.passed, []
        for at in range(size):
            names.append("l" + "".join("bcdefghjkm"[int(it)] for it in f"{at:03}") + "t")
            room.cutter.left = at
            room.join(names[-1])
            room.cutter.left = None
            cases.equal(f"joining: cut at {at} of {size} bytes, again", room.join(names[-1]), 200)
        made = [it[0] for it in room.registry.commands]
        cases.equal("joining: an account for each", made, ["carl", *names])
        with open(f"{room.folder}/front/accounts/passwords", encoding="ascii") as file:
            lines = [it.split(":")[0] for it in file]
        cases.equal("joining: a line for each", lines, [*PEOPLE, "carl", *names])
    finally:
        room.close()


def games(cases, room):
    """Whatever is sent, a command is that of the session or of the password."""
    carl, alice = room.log_in("carl", password()), room.log_in("alice", "pw-alice")
    hexes = carl.partition(".")[2]
    foreign = ("-H", f"Cookie: __Host-pciids={carl}", "-H", "X-As: carl")
    cookie = ("-H", f"Cookie: __Host-pciids={carl}")
    for name, words, want in (
        ("an account of the client", (*room.by(carl), "-H", "X-Account: bob"), [b"carl"]),
        ("another case of its name", (*room.by(carl), "-H", "x_account: bob"), [b"carl"]),
        ("no account named", (*room.here, *cookie), None),
        ("another tab's account", room.by(carl, "alice"), None),
        ("another's name", room.by(f"bob.{hexes}"), None),
        ("a cut session", room.by(carl[:-1]), None),
        ("a longer one", room.by(carl + "0"), None),
        ("capitals", room.by(carl.upper(), "carl"), None),
        ("a path", room.by(f"../sessions/{carl}", "carl"), None),
        ("a prefix", room.by(f"x{carl}", "carl"), None),
        ("nothing", room.by("", "carl"), None),
        ("none", room.by("none", "none"), None),
        ("a dot", room.by(".", "carl"), None),
        ("two sessions", (*room.here, "-H", f"Cookie: __Host-pciids={carl}; __Host-pciids={alice}",
                          "-H", "X-As: alice"), None),
        ("a name in the account named", (*room.here, "-H", "Cookie: __Host-pciids=none", "-H",
                                         f"X-As: carl {carl}"), None),
        ("a cookie of another name", (*room.here, "-H", f"Cookie: pciids={carl}",
                                      "-H", "X-As: carl"), None),
        ("a wrong password beside it", (*room.by(carl), "-u", "alice:no"), None),
        ("a password beside it", (*room.by(carl), "-u", "alice:pw-alice"), [b"alice"]),
        ("another scheme beside it", (*room.by(carl), "-H", "Authorization: Bearer x"), None),
        ("another site", (*foreign, "-H", "Origin: https://evil.example"), None),
        ("a sister site", (*foreign, "-H", "Sec-Fetch-Site: same-site"), None),
    ):
        status, came = room.sent_as(*words)
        got = status < 300, came
        cases.equal(f"joining: {name}", got, (want is not None, [want] if want else []))
    room.post("/session/end", "", *room.by(alice))
    cases.equal("joining: one log-out ends one session", room.sent_as(*room.by(carl))[0], 200)
    room.log_in("alice", "pw-alice", "-H", f"Cookie: __Host-pciids={carl}")
    cases.equal("joining: a log-in ends the browser's former one", room.sent_as(*room.by(carl))[0],
                401)
    fixed = room.log_in("alice", "pw-alice", "-H", f"Cookie: __Host-pciids=alice.{'0' * 32}")
    cases.equal("joining: nobody chooses a session for another", "0" * 32 in fixed, False)


def doors(cases, room):
    """Which addresses want what."""
    cross = ("-H", "Origin: https://evil.example")
    for path in ("/join", "/session", "/session/end", "/password", "/leave", "/lock", "/unlock"):
        told = room.front.curl(path, *cross, "-u", "alice:pw-alice", "-d", "who=carl")[0]
        cases.equal(f"joining: {path} of another site", told, 403)
    for path in ("/session", "/password", "/leave", "/lock", "/unlock"):
        words = ("-d", "who=carl", "-H", "X-Account: bob", "-H", "X-As: bob", "-H",
                 "X-Session: bob.x")
        told = room.front.curl(path, *room.here, *words)[0]
        cases.equal(f"joining: {path} without a password", told, 401)
        told = room.front.curl(path, *room.here, "-u", "alice:no", "-d", "who=carl")[0]
        cases.equal(f"joining: {path} with a wrong one", told, 401)
    cases.equal("joining: the list", room.front.curl("/accounts")[0], 401)
    told = room.front.curl("/accounts", "-u", "alice:pw-alice")[0]
    cases.equal("joining: the list for a contributor", told, 403)
    carl = room.log_in("carl", password())
    for path in ("/password", "/leave", "/session"):
        told = room.post(path, "", *room.by(carl))
        cases.equal(f"joining: {path} by a session alone", told, 401)
    told = room.post("/join", "a" * 5000)
    cases.equal("joining: a long body", told, 413)
    long = room.front.curl("/session", *room.here, "-u", f"alice:{'a' * 5000}", "-d", "")[0]
    cases.equal("joining: a long password", long, 401)


def locked(cases, room):
    """A locked account's commands are refused, by whichever way."""
    session = room.log_in("carl", password())
    cases.equal("joining: bob locks carl", room.post("/lock", "who=carl", "-u", "bob:pw-bob"), 200)
    got = [room.sent_as(*room.by(session)), room.sent_as("-u", f"carl:{password()}")]
    cases.equal("joining: carl's commands", got, [(401, []), (401, [])])
    cases.equal("joining: carl's log-in", room.log_in("carl", password()), None)
    cases.equal("joining: carl joins", room.join("carl"), 409)
    bob = room.log_in("bob", "pw-bob")
    cases.equal("joining: bob lets carl in", room.post("/unlock", "who=carl", *room.by(bob)), 200)
    cases.equal("joining: carl is back", room.sent_as("-u", f"carl:{password()}")[0], 200)
    told = room.post("/lock", "who=carol", *room.by(bob))
    cases.equal("joining: carol is above bob", told, 403)
    new = ("--data-urlencode", f"verifier={verifier('carl', password(2))}")
    told = room.front.curl("/password", *room.here, "-u", f"carl:{password()}", *new)[0]
    cases.equal("joining: another password", told, 200)
    got = [room.sent_as("-u", f"carl:{password(it)}")[0] for it in (0, 2)]
    cases.equal("joining: which counts from then on", got, [401, 200])
    told = room.post("/leave", "", "-u", f"carl:{password(2)}")
    cases.equal("joining: carl leaves", told, 200)
    got = room.sent_as("-u", f"carl:{password(2)}")
    cases.equal("joining: and is gone", (got, room.join("carl", 2)), ((401, []), 409))


def held_back(cases, folder):
    """A body that is held back until the password is another one, or the account is locked: nothing
    is done by what nginx looked at before."""
    room = Room(folder, **AMPLE_AND_SHORT)
    try:
        cases.equal("joining: dora joins", room.join("dora"), 200)
        paths = {"/session": b"stays=yes", "/password": f"verifier={verifier('dora', password(7))}"
                 .replace("+", "%2B").encode(), "/leave": b"a=b", "/submit": b"a=b"}
        quick = ended(*held(room, "/session", paths["/session"]))
        cases.equal("joining: not so long", b" 200 OK" in quick, True)
        late = [held(room, path, body) for path, body in paths.items()]
        time.sleep(4)
        new = ("--data-urlencode", f"verifier={verifier('dora', password(2))}")
        told = room.front.curl("/password", *room.here, "-u", f"dora:{password()}", *new)[0]
        cases.equal("joining: another password meanwhile", told, 200)
        room.recorder.seen.clear()
        got = [ended(*it).split(b" ")[1] for it in late[:3]]
        cases.equal("joining: too late", got, [b"404"] * 3)
        cases.equal("joining: the password counts", bool(room.log_in("dora", password(2))), True)
        ended(*late[3])
        came = [it.values(rb"x-account") for it in room.recorder.seen]
        cases.equal("joining: a late command is nobody's", came, [[]])
    finally:
        room.close()


def held(room, path, body):
    """A request of dora's whose body has not come yet, and the body."""
    client = room.front.connect()
    head = (f"POST {path} HTTP/1.1\r\nHost: {HOST}:{room.front.port}\r\n"
            f"Authorization: {basic('dora', password())}\r\nContent-Length: {len(body)}\r\n"
            "Content-Type: application/x-www-form-urlencoded\r\nConnection: close\r\n\r\n")
    client.sendall(head.encode())
    return client, body


def ended(client, body):
    """The response, once the body is sent."""
    with client:
        client.sendall(body)
        return to_end(client)


def away(cases, room):
    """Without the application the site and its sessions go on."""
    session = room.log_in("alice", "pw-alice")
    room.unit.close()
    cases.equal("joining: nobody joins", room.join("dora"), 502)
    cases.equal("joining: sessions go on", room.sent_as(*room.by(session))[0], 200)


def shares(cases, folder):
    """How much one visitor may ask, and guess."""
    room = Room(folder, **SCARCE)
    try:
        got = [room.join(f"h{it}n") for it in "bcdefghjkmpqrstuvwxyz"]
        cases.equal("joining: as many as join in a day", got, [200] * 8 + [429] * 13)
        told = room.front.curl("/join", *room.here, "-d", "name=hin")
        refused = told[0], b"Too Many Requests" in told[2]
        cases.equal("joining: and then nginx refuses", refused, (429, True))
        got = {room.front.curl("/session", *room.here, "-u", "bob:no", "-d", "",
                               "--interface", "127.0.5.2")[0] for _ in range(16)}
        cases.equal("joining: guesses of one address", got, {401, 429})
        got = {room.front.curl("/accounts", "-u", "bob:no", "--interface", "127.0.5.5")[0]
               for _ in range(16)}
        cases.equal("joining: where a session does, too", got, {401, 429})
        told = room.log_in("bob", "pw-bob", "--interface", "127.0.5.3")
        cases.equal("joining: who has guessed nothing", bool(told), True)
        words = ("--interface", "127.0.5.4")
        got = {room.sent_as(*room.by(told), *words)[0] for _ in range(12)}
        cases.equal("joining: a session is no log-in", got, {200})
    finally:
        room.close()


def test_front_joining(cases):
    needed()
    with tempfile.TemporaryDirectory() as folder:
        os.chmod(folder, 0o755)
        os.mkdir(f"{folder}/ample")
        os.mkdir(f"{folder}/bare")
        os.mkdir(f"{folder}/cut")
        os.mkdir(f"{folder}/late")
        room = Room(f"{folder}/ample", **AMPLE)
        try:
            for it in (stranger, games, doors, locked, away):
                it(cases, room)
        finally:
            room.close()
        shares(cases, f"{folder}/bare")
        lost(cases, f"{folder}/cut")
        held_back(cases, f"{folder}/late")
