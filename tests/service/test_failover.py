"""Two machines, each in a network namespace of its own: the main one is killed under load while a
standby follows its journal over ssh. The standby, opened as the main one, has every acknowledged
command whose line had come; the others are what the main one's disk has more."""
import contextlib
import json
import os
import re
import shutil
import signal
import subprocess
import time

import program
from journal_room import LIB, names_in
from program import TOP, WHOLE

MAIN, STANDBY, PORT = "192.0.2.1", "192.0.2.2", "8086"
PATIENCE = 60
# Submits names under keys, and now and then imports a long file; prints what was acknowledged.
LOAD = r"""
import http.client, sys, time
def post(path, body, key):
    asked = http.client.HTTPConnection("127.0.0.1", 8086, timeout=20)
    asked.request("POST", path + "?format=text", body, {"X-Account": "root", "X-Key": key})
    told = asked.getresponse().read().decode()
    asked.close()
    return told.split()
number = int(sys.argv[1])
while True:
    number += 1
    try:
        if number % 150 == 100:
            post("/import", "".join(f"{it:04x}  {number} {'x' * 120}\n" for it in range(9_000)),
                 f"i{number}")
        told = post("/submit", f"path=PC/8086&name=Name+{number}", f"k{number}")
        if told[0] == "ok":
            print(f"k{number} {told[1]}", flush=True)
    except OSError:
        time.sleep(0.05)
"""
ASK = r"""
import json, sys, urllib.request
def ask(path):
    with urllib.request.urlopen("http://127.0.0.1:8086" + path, timeout=60) as told:
        return json.load(told)
print(json.dumps([ask("/status"), {it: ask("/submission/" + it)["name"] for it in sys.argv[1:]}]))
"""
SSHD = """Port 22
ListenAddress {main}
HostKey {folder}/host
AuthorizedKeysFile {folder}/authorized
PidFile none
StrictModes no
UsePAM no
PermitRootLogin forced-commands-only
"""


def ip(*words):
    subprocess.run(["ip", *words], check=True, timeout=PATIENCE)


class Space:
    """A network namespace, and what runs in it."""

    def __init__(self, name):
        self.name = f"pciids-{name}-{os.getpid()}"
        ip("netns", "add", self.name)
        ip("-n", self.name, "link", "set", "lo", "up")
        self.processes = []

    def start(self, *words, **how):
        words = ["ip", "netns", "exec", self.name, *words]
        self.processes.append(subprocess.Popen(words, start_new_session=True, **how))
        return self.processes[-1]

    def ask(self, numbers=()):
        """The status of the registry, and the names that some submissions propose."""
        words = ["ip", "netns", "exec", self.name, "python3", "-c", ASK, *numbers]
        end = time.monotonic() + PATIENCE
        while True:
            ran = subprocess.run(words, capture_output=True, timeout=PATIENCE)
            if ran.returncode == 0:
                return json.loads(ran.stdout)
            if time.monotonic() > end:
                raise TimeoutError(ran.stderr.decode())
            time.sleep(0.1)

    def kill(self, *processes):
        for it in processes or self.processes:
            with contextlib.suppress(ProcessLookupError):
                os.killpg(it.pid, signal.SIGKILL)
            it.wait(timeout=PATIENCE)

    def close(self):
        self.kill()
        ip("netns", "del", self.name)


@contextlib.contextmanager
def two_machines():
    with contextlib.ExitStack() as stack:
        spaces = [Space(it) for it in ("main", "standby")]
        for it in spaces:
            stack.callback(it.close)
        ends = [f"v{number}-{os.getpid()}" for number in (1, 2)]
        ip("link", "add", ends[0], "type", "veth", "peer", "name", ends[1])
        for space, end, address in zip(spaces, ends, (MAIN, STANDBY)):
            ip("link", "set", end, "netns", space.name)
            ip("-n", space.name, "addr", "add", f"{address}/24", "dev", end)
            ip("-n", space.name, "link", "set", end, "up")
        yield *spaces, ends


def ssh_words(folder):
    """How the unit of the packages reaches the main machine, with the places of a test."""
    with open(os.path.join(TOP, "deploy", "systemd", "pciids-standby.service")) as file:
        words = re.search(r'"RSYNC_RSH=(.*?)"', file.read(), re.S)[1].replace("\\\n", " ")
    for old, new in (("-l pciids-follow", "-l root"), ("/run/pciids-standby", folder),
                     ("%d", folder), ("%%", "%")):
        if old not in words:
            raise LookupError(old)
        words = words.replace(old, new)
    return words


class Pair:
    """The two machines, with what is in each one's folder."""

    def __init__(self, folder, main, standby):
        self.folder, self.main, self.standby = folder, main, standby
        self.places = [os.path.join(folder, it) for it in ("main", "standby")]
        for it in self.places:
            os.makedirs(os.path.join(it, "segments"))
        self.journals = [os.path.join(it, "segments") for it in self.places]
        self.acknowledged = os.path.join(folder, "acknowledged")
        for it in ("host", "key"):
            words = ["ssh-keygen", "-q", "-t", "ed25519", "-N", "", "-f", f"{folder}/{it}"]
            subprocess.run(words, check=True, timeout=PATIENCE)
        with open(f"{folder}/sshd", "w") as file:
            file.write(SSHD.format(main=MAIN, folder=folder))
        with open(f"{folder}/key.pub") as file, open(f"{folder}/authorized", "w") as keys:
            rrsync = f'/usr/bin/rrsync -ro {self.journals[0]}'
            keys.write(f'restrict,command="{rrsync}" {file.read()}')
        with open(f"{folder}/host.pub") as file, open(f"{folder}/hosts", "w") as hosts:
            hosts.write(f"{MAIN} {file.read()}")

    def serve(self, at):
        """Starts the registry of a machine with its journal."""
        words = ["serve", "--db", f"{self.places[at]}/registry.db", "--port", PORT]
        words += ["--journal", self.journals[at]]
        space = (self.main, self.standby)[at]
        return space.start(WHOLE, *words, stdout=subprocess.DEVNULL)

    def start_sshd(self):
        os.makedirs("/run/sshd", exist_ok=True)
        return self.main.start(shutil.which("sshd"), "-D", "-f", f"{self.folder}/sshd",
                               stderr=subprocess.DEVNULL)

    def follow(self):
        words = [os.path.join(LIB, "follow"), MAIN, self.journals[1]]
        words += [f"{self.places[1]}/registry.db", WHOLE]
        how = dict(os.environ, RSYNC_RSH=ssh_words(self.folder), PCIIDS_PAUSE="0.2")
        with open(f"{self.folder}/said", "ab") as said:
            return self.standby.start(*words, env=how, stdout=said, stderr=said)

    def load(self, number):
        with open(self.acknowledged, "ab") as file:
            return self.main.start("python3", "-c", LOAD, str(number), stdout=file)

    def answers(self):
        """What was acknowledged: the number of each key."""
        with open(self.acknowledged) as file:
            return dict(it.split() for it in file.read().split("\n")[:-1])

    def keys_in(self, at):
        """The keys of the whole lines in a machine's journal."""
        text = b"".join(read(self.journals[at], it) for it in names_in(self.journals[at]))
        lines = text.split(b"\n")[:-1]
        found = [re.search(rb"^submit root .*key=(k[0-9]+)$", it) for it in lines]
        return [it[1].decode() for it in found if it]

    def missing(self):
        """The text that pciids-promote says to read from the main one's disk."""
        told = subprocess.check_output([os.path.join(LIB, "journal"), "last", self.journals[1]])
        name, size = re.search(r"segment=(\S+) bytes=([0-9]+)", told.decode()).groups()
        later = [it for it in names_in(self.journals[0]) if it > name]
        text = read(self.journals[0], name)[int(size):]
        return text + b"".join(read(self.journals[0], it) for it in later)


def read(*names):
    with open(os.path.join(*names), "rb") as file:
        return file.read()


def until(is_so):
    end = time.monotonic() + PATIENCE
    while not is_so() and time.monotonic() < end:
        time.sleep(0.05)
    return is_so()


def disturbed(cases, pair, ends):
    """The connection is down for a while, the standby is killed, and the main server starts
    again; what is acknowledged goes on coming."""
    server, sshd, following = pair.serve(0), pair.start_sshd(), pair.follow()
    load = pair.load(0)
    comes = lambda count: until(lambda: len(pair.keys_in(1)) >= count)
    cases.equal("failover: it follows", comes(20), True)
    ip("-n", pair.main.name, "link", "set", ends[0], "down")
    time.sleep(2)
    ip("-n", pair.main.name, "link", "set", ends[0], "up")
    cases.equal("failover: over a cut", comes(len(pair.keys_in(0))), True)
    pair.standby.kill(following)
    pair.main.kill(sshd)
    time.sleep(1)
    sshd, following = pair.start_sshd(), pair.follow()
    cases.equal("failover: over a kill", comes(len(pair.keys_in(0))), True)
    cases.equal("failover: to an import", comes(110), True)
    pair.main.kill(server)
    server = pair.serve(0)
    cases.equal("failover: over a start", comes(len(pair.keys_in(0)) + 20), True)
    # A segment ends where its last command has its mark, as it has while nothing is asked.
    pair.main.kill(load)
    time.sleep(1)
    pair.main.kill(server)
    server, load = pair.serve(0), pair.load(1_000_000)
    cases.equal("failover: in another segment", comes(len(pair.keys_in(0)) + 20), True)
    cases.equal("failover: another segment began", len(names_in(pair.journals[1])) > 1, True)
    pair.main.kill(server, sshd, load)
    pair.standby.kill(following)


def promoted(cases, pair):
    came, answers = pair.keys_in(1), pair.answers()
    sent, missing = pair.keys_in(0), pair.missing()
    cases.equal("failover: many were acknowledged", len(answers) > 100, True)
    cases.equal("failover: what came is the first part", came, sent[:len(came)])
    server = pair.serve(1)
    status, names = pair.standby.ask([answers[it] for it in came if it in answers])
    cases.equal("failover: as many proposals as came", status["submissions"], len(came))
    want = {answers[it]: f"Name {it[1:]}" for it in came if it in answers}
    cases.equal("failover: each that was acknowledged and had come", names, want)
    pair.standby.kill(server)
    lost = [it for it in answers if it not in came]
    words = [WHOLE, "script", "--db", f"{pair.places[1]}/registry.db", "--journal",
             pair.journals[1]]
    ran = subprocess.run(words, input=missing, capture_output=True, timeout=PATIENCE)
    cases.equal("failover: the others", (ran.returncode, b"refused" in ran.stdout), (0, False))
    server = pair.serve(1)
    status, names = pair.standby.ask([answers[it] for it in lost])
    want = {answers[it]: f"Name {it[1:]}" for it in lost}
    cases.equal(f"failover: the {len(lost)} of the main one's disk", names, want)
    cases.equal("failover: all of them", status["submissions"], len(sent))
    pair.standby.kill(server)


def test_failover(cases, folder):
    program.need("iproute2", "openssh-client", "openssh-server", "rsync")
    if os.geteuid() != 0:
        raise program.Skip("only root can make network namespaces")
    told = subprocess.run([WHOLE, "serve", "--help"], capture_output=True, timeout=PATIENCE).stdout
    if b"--journal" not in told:
        raise program.Skip("the program has no --journal")
    with two_machines() as (main, standby, ends):
        pair = Pair(folder, main, standby)
        disturbed(cases, pair, ends)
        promoted(cases, pair)
