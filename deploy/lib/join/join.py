"""Who joins a registry, and whose session a browser has: a WSGI application behind nginx.

nginx checks passwords and sessions: X-Account is the account that it found, X-Session the session
that a browser showed, X-Visitor the address that asks. No password comes here: pages send its
verifier, the form in which nginx keeps it. The registry is asked as root, over its socket.

What changes is a file that is replaced whole, under the lock that pciids-adduser takes too: a stop
at any moment leaves what was before or what is after. Joining changes no account: it sends the rank
that there is, or 0 where there is none, on the connection on which it asked for it. The registry
serves one connection after the other, so nothing comes between. The command's key is made of the
name and the verifier: whoever sends both again gets the same answer, and nobody else does.
"""
import configparser
import contextlib
import hashlib
import http.client
import ipaddress
import json
import os
import pathlib
import re
import socket
import subprocess
import time
import urllib.parse

import names

PASSWORDS = pathlib.Path(os.environ.get("PCIIDS_PASSWORDS", "/etc/pciids/accounts/passwords"))
SESSIONS = pathlib.Path(os.environ.get("PCIIDS_JOIN_RUN", "/run/pciids-join"), "sessions")
SETTINGS = os.environ.get("PCIIDS_JOIN_CONF", "/etc/pciids/join.conf")
SOCKET = os.environ.get("PCIIDS_SOCKET", "/run/pciids/http.sock")
HOUR, MONTH, MOST_SESSIONS, SENIOR = 3600, 30 * 86400, 20, 2
LOCKED, LEFT, NO_SUCH_ACCOUNT, NOTHING_TO_DO = "!", "-", 29, 13
STATES = {LOCKED: "locked", LEFT: "left"}
FAULTS = (OSError, ValueError, LookupError, http.client.HTTPException, configparser.Error,
          subprocess.SubprocessError)
lately = []  # Who joined in the last hour: when, under which key, from where.


class Refused(Exception):
    """A status, and the reason in words."""


class Registry(http.client.HTTPConnection):
    """One connection to the registry, which is never opened a second time."""

    auto_open = 0

    def __init__(self):
        super().__init__("localhost")
        self.sock = socket.socket(socket.AF_UNIX)
        self.sock.settimeout(20)
        self.sock.connect(SOCKET)

    def told(self, method, target, form=None, key=""):
        self.request(method, target, form, {"X-Account": "root", "X-Key": key} if key else {})
        return json.loads(self.getresponse().read())

    def rank(self, who):
        """The rank of an account; None if there is none."""
        told = self.told("GET", f"/account?who={who}")
        return None if told.get("refused") == NO_SUCH_ACCOUNT else told["rank"]


class Asks:
    """A request."""

    def __init__(self, environ):
        sent = environ["wsgi.input"].read(int(environ.get("CONTENT_LENGTH") or 0))
        self.form = dict(urllib.parse.parse_qsl(sent.decode("ascii", "replace"), True))
        self.route = f"{environ['REQUEST_METHOD']} {environ['PATH_INFO']}"
        self.account = environ.get("HTTP_X_ACCOUNT", "")
        self.session = os.path.basename(environ.get("HTTP_X_SESSION", "")) or "none"
        # An address of IPv4, also written as ::ffff:192.0.2.1; or the network of one of IPv6.
        its = ipaddress.ip_address(environ["HTTP_X_VISITOR"])
        self.visitor = (getattr(its, "ipv4_mapped", None) or its).packed[:8]
        self.fields = [("Content-Type", "application/json")]

    def give_cookie(self, value):
        rules = "Path=/; Secure; HttpOnly; SameSite=Strict"
        self.fields.append(("Set-Cookie", f"__Host-pciids={value}; {rules}"))


@contextlib.contextmanager
def alone():
    """Nothing else changes passwords or sessions meanwhile; then the disk has what was changed."""
    folder = os.open(PASSWORDS.parent, os.O_RDONLY)
    try:
        subprocess.run(["flock", "-w", "5", str(folder)], pass_fds=[folder], check=True)
        yield
        os.fsync(folder)
    finally:
        os.close(folder)


def people():
    """What is kept of each name: its verifier, and since when if it has joined."""
    text = PASSWORDS.read_bytes().decode("latin-1")
    lines = re.findall("^([a-z0-9-]{1,32}):([^:\n]*):?([^:\n]*)", text, re.M)
    # nginx goes by the first line of a name.
    return {name: (verifier, since) for name, verifier, since in reversed(lines)}


def put(name, verifier, since):
    """Replaces the file by one with another line of a name. All others stay, byte by byte."""
    lines = PASSWORDS.read_bytes().decode("latin-1").split("\n")
    others = [it for it in lines if it and not it.startswith(f"{name}:")]
    with open(f"{PASSWORDS}.new", "w", encoding="latin-1", newline="") as file:
        file.write("\n".join([*others, f"{name}:{verifier}:{since}", ""]))
        file.flush()
        os.fsync(file.fileno())
    os.replace(file.name, PASSWORDS)
    print(f"join: the line of {name} is written", flush=True)


def end_sessions(name, but=0):
    """Ends the sessions of an account, except so many of the latest."""
    for it in sorted(SESSIONS.glob(f"{name}.*"), key=os.path.getmtime, reverse=True)[but:]:
        it.unlink(missing_ok=True)


def take_invitation(token, key):
    """Binds an invitation to the key of a command, for good."""
    path = PASSWORDS.parent / "invites" / (token if re.fullmatch("[0-9a-f]{32}", token) else "none")
    with contextlib.suppress(FileNotFoundError):
        path.rename(f"{path}.{key}")
    if not os.path.exists(f"{path}.{key}"):
        raise Refused(403, "This invitation isn't good, or was used.")


def admit(asks, key, joined_today):
    """Lets a new account in, if there is room for it. With a fault in the settings there is none.
    Sent again, a command counts once."""
    its = configparser.ConfigParser(interpolation=None)
    its.read(SETTINGS, "utf-8")
    its, now = its["join"], time.monotonic()
    lately[:] = [it for it in lately if now - it[0] < HOUR and it[1] != key]
    # No line counts the new accounts while the disk is full.
    if max(joined_today, len(lately)) >= int(its["joins-a-day"]):
        raise Refused(429, "Nobody else can join today.")
    if "invite" in asks.form:
        take_invitation(asks.form["invite"], key)
    elif its["door"] != "open":
        raise Refused(403, "Joining takes an invitation here.")
    elif [visitor for _, _, visitor in lately].count(asks.visitor) >= int(its["joins-an-hour"]):
        raise Refused(429, "Too many have joined from your address. Try again in an hour.")
    else:
        lately.append((now, key, asks.visitor))


def verifier_in(form):
    """What nginx is to keep of a password: RFC 2307's salted SHA-1, with 8 bytes of salt."""
    if not re.fullmatch("{SSHA}[A-Za-z0-9+/]{37}[AQgw]==", form.get("verifier", "")):
        raise Refused(400, "This is no verifier of a password.")
    return form["verifier"]


def join(asks):
    name, verifier = asks.form.get("name", ""), verifier_in(asks.form)
    key = f"join-{hashlib.sha256(f'{name}:{verifier}'.encode()).hexdigest()[:32]}"
    today = time.strftime("%Y-%m-%d", time.gmtime())
    taken = Refused(409, f"{name} is taken. If it is yours, log in.")
    with alone():
        known = people()
        there = known.get(name)
        if there and there[0] != verifier:
            raise taken
        if fault := not there and names.fault_of(name, known):
            raise Refused(400, fault)
        with contextlib.closing(Registry()) as registry:
            rank = registry.rank(name)
            if rank is None and not there:
                admit(asks, key, [since for _, since in known.values()].count(today))
            told = registry.told("POST", "/account", f"who={name}&rank={rank or 0}", key)
        # Any other refusal is a fault.
        is_made = {None: True, NOTHING_TO_DO: False}[told.get("refused")]
        # A receipt tells of the first time: an account may have got a rank, and lost its line.
        if not there and (rank or not is_made):
            raise taken
        if not there:
            put(name, verifier, today)


def own_line(asks):
    """The line of who asks, if it is one that may be used."""
    verifier, since = people().get(asks.account, (LEFT, ""))
    if verifier.startswith((LOCKED, LEFT)):
        raise Refused(403, "This account is locked.")
    return verifier, since


def log_out(asks):
    with alone():
        (SESSIONS / asks.session).unlink(missing_ok=True)
    asks.give_cookie("none; Max-Age=0")


def log_in(asks):
    """A session, in place of the one that this browser had."""
    with alone():
        own_line(asks)
        (SESSIONS / asks.session).unlink(missing_ok=True)
        end_sessions(asks.account, but=MOST_SESSIONS - 1)
        token = f"{asks.account}.{os.urandom(16).hex()}"
        (SESSIONS / token).touch(0o640, exist_ok=False)
    asks.give_cookie(token + (f"; Max-Age={MONTH}" if asks.form.get("stays") == "yes" else ""))


def set_own(asks):
    """Another password; or none any more, of who leaves."""
    verifier = LEFT if asks.route == "POST /leave" else verifier_in(asks.form)
    with alone():
        since = own_line(asks)[1]
        end_sessions(asks.account)
        put(asks.account, verifier, since)


def senior_rank(registry, asks):
    own_line(asks)
    if (rank := registry.rank(asks.account) or 0) < SENIOR:
        raise Refused(403, "This is for senior moderators and administrators.")
    return rank


def set_lock(asks):
    who, is_locked = asks.form.get("who", ""), asks.route == "POST /lock"
    with alone(), contextlib.closing(Registry()) as registry:
        own = senior_rank(registry, asks)
        verifier, since = people().get(who, (LEFT, ""))
        if verifier == LEFT:
            raise Refused(404, "That account has no password here.")
        if who == asks.account or (registry.rank(who) or 0) > own:
            raise Refused(403, "Nobody locks themselves, or an account of a higher rank.")
        end_sessions(who)
        put(who, LOCKED * is_locked + verifier.removeprefix(LOCKED), since)


def accounts(asks):
    with contextlib.closing(Registry()) as registry:
        senior_rank(registry, asks)
    return {"accounts": [{"account": name, "since": since, "state": STATES.get(its[:1], "open")}
                         for name, (its, since) in sorted(people().items())]}


FOR_ALL = {"POST /join": join, "POST /session/end": log_out}
FOR_ACCOUNTS = {"POST /session": log_in, "POST /password": set_own, "POST /leave": set_own,
                "POST /lock": set_lock, "POST /unlock": set_lock, "GET /accounts": accounts}


def application(environ, start):
    asks = Asks(environ)
    try:
        call = (FOR_ALL | FOR_ACCOUNTS if asks.account else FOR_ALL).get(asks.route)
        if not call:
            raise Refused(404, "There is nothing at this address, or it took too long.")
        status, told = 200, {"ok": True, **(call(asks) or {})}
    except Refused as refused:
        status, told = refused.args[0], {"ok": False, "why": refused.args[1]}
    except FAULTS as fault:
        print(f"join: {asks.route}: {fault!r}", flush=True)
        status, told = 503, {"ok": False, "why": "The server failed just now. Try again."}
    start(f"{status} {http.client.responses[status]}", asks.fields)
    return [json.dumps(told).encode()]
