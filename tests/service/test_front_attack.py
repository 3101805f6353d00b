"""Twelve visitors who ask for one list as often as they may, four at once, through the nginx of
deploy/nginx, with the lists that it keeps and without; and for how long another question waits."""
import os
import re
import signal
import statistics
import subprocess
import tempfile
import time

import pytest

from front_room import Front, needed
from http_server import Server, read_reply
from program import REAL_FILE, WHOLE
from registry import script, work

# So many visitors, each of whom asks so often: far more often than nginx lets him.
VISITORS, AT_ONCE, EACH = 12, 4, 1_000
# How many remarks of 4,000 bytes there are on one proposal: two pages and some more.
REMARKS = 250
# How many questions somebody else asks beside them at most, and how long he pauses after each, in
# seconds: a visitor may ask so often, and the attack has to be at its height for most of them.
QUESTIONS, PAUSE = 150, 0.02
# After how many seconds those who were refused would be answered again.
REFILLED = 4
# For how much of the registry's time a question may wait at the median, in seconds.
LONGEST = 0.01
# Where nginx keeps no list, all wait for their turn, as they do in spellings that it does not know.
WITHOUT = {"pciids_limits": (
    ('map "$request_method $request_uri" $pciids_often', "map $request_method $pciids_often"),)}
# Lists that are short enough for everybody because they are kept, and all.
LONG = ("/children", "/children?of=PC/8086", "/status", "/submission/1")
LISTS = (*LONG, "/changes", "/changes?since=2", "/pending", "/queue", "/remarks?num=1",
         "/submissions", "/submissions?author=bob", "/submissions?path=PC/8086/0001")
QUESTION = b"GET /read/PC/8086 HTTP/1.1\r\nHost: a\r\n\r\n"


def filled(folder):
    """A registry with the names of Debian's file, and with proposals of which half are decided, the
    first of them with long remarks."""
    db = os.path.join(folder, "registry.db")
    lines = ["account root who=bob&rank=1"]
    for number in range(1, 1_001):
        lines.append(f"submit bob path=PC/8086/{number:04x}&name=Name+{number}")
        lines += [f"approve root num={number}"] * (number % 2)
    lines += [f"comment bob num=1&text={'x' * 4_000}"] * REMARKS
    work(b"", "import", "--db", db, "--account", "root", REAL_FILE)
    script(db, *lines)
    return db


def asked_again_and_again(front, path, address):
    """A visitor who does that."""
    words = ["ab", "-q", "-k", "-n", str(EACH), "-c", str(AT_ONCE), "-B", address,
             f"https://127.0.0.1:{front.port}{path}"]
    how = {"stdout": subprocess.PIPE, "stderr": subprocess.DEVNULL, "text": True}
    return subprocess.Popen(words, **how)


def used_by(process):
    """The processor time of a process up to now, in seconds (clock_getcpuclockid(3))."""
    return time.clock_gettime(~process.pid << 3 | 2)


def waits_beside(front, server, visitors, address):
    """What each question waits for while visitors ask: the registry's time, and that of the
    clock."""
    waits = []
    with front.connect(address) as client, client.makefile("rb") as stream:
        while len(waits) < QUESTIONS and any(it.poll() is None for it in visitors):
            used, start = used_by(server.process), time.monotonic()
            client.sendall(QUESTION)
            status = read_reply(stream)[0]
            took = time.monotonic() - start
            waits.append((status, used_by(server.process) - used, took))
            time.sleep(PAUSE)
    return waits


def answered(visitor):
    """How many of a visitor's questions were answered so far, and how many refused."""
    visitor.send_signal(signal.SIGINT)
    told = visitor.communicate()[0]
    counts = dict(re.findall(r"^(Complete requests|Non-2xx responses): +(\d+)$", told, re.M))
    refused = int(counts.get("Non-2xx responses", 0))
    return int(counts["Complete requests"]) - refused, refused


def attacked(cases, front, server, at, path):
    """What a question waits for at the median beside those who ask for a list, in words and in
    seconds."""
    places = [f"127.0.12.{at * VISITORS + it + 1}" for it in range(VISITORS)]
    visitors = [asked_again_and_again(front, path, it) for it in places]
    waits = waits_beside(front, server, visitors, f"127.0.11.{at + 1}")
    counts = map(answered, visitors)
    statuses, own, wall = zip(*waits)
    own, wall = statistics.median(own), statistics.median(wall)
    told = f"{1_000 * own:.1f} ms of the registry, {1_000 * wall:.1f} ms by the clock"
    good, bad = map(sum, zip(*counts))
    print(f"front_attack: {path}: {told} ({len(waits)} times); {good} answered, {bad} refused")
    cases.equal(f"attack: answers beside {path}", {*statuses}, {200})
    if bad:
        time.sleep(REFILLED)
    return told, own


@pytest.mark.parametrize("more, lists", [({}, LONG), (WITHOUT, LISTS)], ids=["kept", "not kept"])
@pytest.mark.needs("apache2-utils", "pci.ids")
def test_front_attack(cases, more, lists):
    needed()
    with tempfile.TemporaryDirectory() as folder:
        os.chmod(folder, 0o755)
        with Server(filled(folder), 1_000_000, program=WHOLE) as server:
            front = Front(os.path.join(folder, "front"), server.port, **more)
            try:
                for at, path in enumerate(lists):
                    told, waited = attacked(cases, front, server, at, path)
                    cases.equal(f"attack: {path}: {told}", waited < LONGEST, True)
            finally:
                front.close()
