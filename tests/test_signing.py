"""What becomes of what was published: signatures, mirrors that verify them and carry the history,
and the operator's program that hears of each run. nginx is that of the site; the registry is a
small one of these tests."""
import json
import os
import shutil
import subprocess

import pytest

from front_room import HOST, Front, needed
from program import TOP
from test_history import BEGIN, Press, lib  # noqa: F401 (a fixture)

LIB = os.path.join(TOP, "deploy", "lib")
FRONTS = ("", "decisions-", "calendar-")


def ran(*words, **more):
    """The status of a program, and what it printed."""
    environment = {**os.environ, "PYTHONDONTWRITEBYTECODE": "1", **more}
    done = subprocess.run(words, env=environment, capture_output=True, timeout=120)
    return done.returncode, (done.stdout + done.stderr).decode()


def new_key(folder, name):
    """A secret key in a file, as OPERATE.md has it made."""
    home, place = os.path.join(folder, f"home-{name}"), os.path.join(folder, name)
    os.mkdir(home, 0o700)
    gpg = ["gpg", "--homedir", home, "--batch", "--quiet"]
    make = ["--passphrase", "", "--quick-generate-key", name, "ed25519", "sign", "never"]
    subprocess.run([*gpg, *make], check=True, capture_output=True)
    with open(place, "wb") as file:
        subprocess.run([*gpg, "--export-secret-keys"], check=True, stdout=file)
    shutil.rmtree(home, ignore_errors=True)
    return place


def verified(public, name):
    """What gpg itself says of a file and its signature, by the key beside them."""
    home = os.path.join(public, "..", "verifies")
    os.makedirs(home, 0o700, exist_ok=True)
    gpg = ("gpg", "--homedir", home, "--batch", "--quiet")
    path = os.path.join(public, name)
    return (ran(*gpg, "--import", os.path.join(public, "key.gpg"))[0]
            + ran(*gpg, "--verify", f"{path}.asc", path)[0])


def signed_files(public):
    """The signatures that are there, by the names of what they are of."""
    found = [os.path.relpath(os.path.join(at, it), public)
             for at, _, names in os.walk(public) for it in names if it.endswith(".asc")]
    return sorted(it.removesuffix(".asc") for it in found)


def write(path, text):
    with open(path, "w", encoding="utf-8") as file:
        file.write(text)


@pytest.mark.needs("gnupg", "gpgv")
def test_signatures(cases, lib, folder):  # noqa: F811
    press, key = Press(lib, folder), new_key(folder, "one")
    sign = os.path.join(LIB, "sign"), key, press.public
    press.registry.import_names({"PC/8086": "Intel"})
    press.run(BEGIN)
    press.registry.settle(press.registry.submit("alice", "PC/8086/0001", "One"), "approved", "mona")
    press.run(BEGIN + 60)
    want = ["history/2024-01-01.jsonl", "history/2024-01.jsonl", "history/calendar-2024-01.jsonl",
            "history/decisions-2024-01.jsonl", "pci.ids", "pci.ids.bz2", "pci.ids.gz"]
    cases.equal("sign: so many", ran(*sign), (0, f"signed: {len(want)} files\n"))
    cases.equal("sign: what is signed", signed_files(press.public), want)
    bad = [it for it in want if verified(press.public, it) != 0]
    cases.equal("sign: gpg --verify", bad, [])
    public = os.path.join(press.public, "key.gpg")
    it = os.path.join(press.public, "pci.ids")
    cases.equal("sign: gpgv", ran("gpgv", "-q", "--keyring", public, f"{it}.asc", it)[0], 0)
    cases.equal("sign: no secret key is published", b"PRIVATE" in read(public), False)
    cases.equal("sign: nothing new", ran(*sign), (0, ""))
    press.registry.settle(press.registry.submit("alice", "PC/8086/0001", "Uno"), "rejected", "mona")
    press.run(BEGIN + 120)
    cases.equal("sign: a decision alone", ran(*sign), (0, "signed: 2 files\n"))
    bad = [it for it in want if verified(press.public, it) != 0]
    cases.equal("sign: gpg --verify again", bad, [])
    write(it, "# PCI ID registry\n8086  Forged\n")
    cases.equal("sign: a text of somebody else", verified(press.public, "pci.ids") != 0, True)
    other = new_key(folder, "two")
    got = ran(sign[0], other, press.public)
    cases.equal("sign: another key", got, (0, f"signed: {len(want)} files\n"))
    cases.equal("sign: by the other key", verified(press.public, "pci.ids.gz"), 0)
    cases.equal("sign: no key", ran(sign[0], f"{key}.not", press.public)[0], 1)
    write(key, "no key")
    cases.equal("sign: what is no key", ran(*sign)[0], 1)
    press.server.close()


def read(*place):
    with open(os.path.join(*place), "rb") as file:
        return file.read()


class Mirrored:
    """A published folder that the site's nginx serves, and a mirror of it."""

    def __init__(self, press, folder, key):
        self.press, self.key, self.folder = press, key, folder
        port = int(press.server.address.rpartition(":")[2])
        self.front = Front(os.path.join(folder, "front"), port)
        there = os.path.join(self.front.folder, "public")
        shutil.rmtree(there)
        os.rename(press.public, there)
        press.public = there
        self.copy = os.path.join(folder, "mirrored")
        os.mkdir(self.copy)
        place = f"{HOST}:{self.front.port}"
        write(os.path.join(folder, ".curlrc"),
              f'cacert = "{self.front.certificate}"\nresolve = "{place}:127.0.0.1"\n')
        self.site = f"https://{place}"
        self.public_key = os.path.join(folder, "key.gpg")

    def publish(self, seconds, is_signed=True):
        self.press.run(BEGIN + seconds)
        if is_signed:
            ran(os.path.join(LIB, "sign"), self.key, self.press.public)
        subprocess.run(["chmod", "-R", "a+rX", self.front.folder], check=True)

    def run(self, *options, key=None):
        """The status of a run of the mirror, and the line that it ends with."""
        words = [os.path.join(TOP, "deploy", "mirror.sh"), "--key", key or self.public_key]
        status, told = ran(*words, *options, self.site, self.copy, HOME=self.folder,
                           MIRROR_PAUSE="0.05")
        return status, told.strip().rpartition("\n")[2]

    def same(self, name):
        return read(self.copy, name) == read(self.press.public, name)


REFUSED = (1, "mirror: pci.ids is not signed by the key")


def changed_by(mirror, seconds, name, is_signed=True):
    """Another name is approved and published."""
    registry = mirror.press.registry
    registry.settle(registry.submit("alice", "PC/8086/0001", name), "approved", "mona")
    mirror.publish(seconds, is_signed)


@pytest.mark.needs("gnupg", "gpgv")
def test_mirrors(cases, lib, folder):  # noqa: F811
    needed()
    os.chmod(folder, 0o755)
    press, key = Press(lib, folder), new_key(folder, "one")
    press.registry.import_names({"PC/8086": "Intel"})
    press.run(BEGIN)
    mirror = Mirrored(press, folder, key)
    try:
        changed_by(mirror, 60, "One")
        told = mirror.front.curl("/key.gpg")
        cases.equal("mirror: the key is published", told[:2], (200, "application/pgp-keys"))
        with open(mirror.public_key, "wb") as file:
            file.write(told[2])
        texts(cases, mirror)
        tampered(cases, mirror, folder)
        histories(cases, mirror)
    finally:
        mirror.front.close()
        press.server.close()


def texts(cases, mirror):
    cases.equal("mirror: a signed text", mirror.run(), (0, "3 PC/8086/0001 One"))
    same = [mirror.same(it) for it in ("pci.ids", "pci.ids.asc")]
    cases.equal("mirror: it and its signature", same, [True, True])
    cases.equal("mirror: nothing new", mirror.run(), (0, ""))
    changed_by(mirror, 120, "Two")
    cases.equal("mirror: a change", mirror.run(), (0, "5 PC/8086/0001 Two"))
    mirror.press.registry.import_names({"PC/8086/0002": "Not published yet"})
    late = 1, "mirror: the file is older than the changes"
    cases.equal("mirror: what is not published yet", mirror.run(), late)
    mirror.publish(180)
    cases.equal("mirror: then it is", mirror.run(), (0, "6 PC/8086/0002 Not published yet"))


def tampered(cases, mirror, folder):
    """What the key has not signed is refused, and the copy stays."""
    kept = read(mirror.copy, "pci.ids"), read(mirror.copy, "pci.ids.asc")
    old = [read(mirror.press.public, it) for it in ("pci.ids", "pci.ids.asc")]

    def refused(name, want=REFUSED, **how):
        got = mirror.run(**how)
        cases.equal(f"mirror: {name}", got, want)
        now = read(mirror.copy, "pci.ids"), read(mirror.copy, "pci.ids.asc")
        cases.equal(f"mirror: {name}, and the copy stays", now == kept, True)

    def put(name, data):
        os.remove(os.path.join(mirror.press.public, name))
        with open(os.path.join(mirror.press.public, name), "wb") as file:
            file.write(data)

    changed_by(mirror, 240, "Three", is_signed=False)
    refused("a text that is not signed yet")
    ran(os.path.join(LIB, "sign"), mirror.key, mirror.press.public)
    good = [read(mirror.press.public, it) for it in ("pci.ids", "pci.ids.asc", "pci.ids.gz")]
    os.remove(os.path.join(mirror.press.public, "pci.ids.gz"))
    put("pci.ids", good[0].replace(b"Three", b"Forged"))
    refused("a forged text")
    put("pci.ids", good[0])
    put("pci.ids.asc", b"-----BEGIN PGP SIGNATURE-----\n")
    refused("a forged signature")
    other = new_key(folder, "two")
    ran(os.path.join(LIB, "sign"), other, mirror.press.public)
    refused("the key of somebody else")
    for name, data in zip(("pci.ids", "pci.ids.asc"), good):
        put(name, data)
    refused("not the key that it was given", key=os.path.join(mirror.press.public, "key.gpg"))
    for name, data in zip(("pci.ids", "pci.ids.asc"), old):
        put(name, data)
    late = 1, "mirror: the file is older than the changes"
    refused("a text that was signed before", late)
    for name, data in zip(("pci.ids", "pci.ids.asc", "pci.ids.gz"), good):
        write(os.path.join(mirror.press.public, name), "")
        put(name, data)
    os.remove(os.path.join(mirror.press.public, ".signed-by"))
    mirror.publish(241)
    cases.equal("mirror: the right one again", mirror.run(), (0, "8 PC/8086/0001 Three"))
    kept = read(mirror.copy, "pci.ids"), read(mirror.copy, "pci.ids.asc")
    os.remove(os.path.join(mirror.press.public, "pci.ids.gz"))
    for name, data in zip(("pci.ids", "pci.ids.asc"), old):
        put(name, data)
    mirror.press.registry.comment(1)
    refused("an older text", (1, "mirror: the file is older than the copy"))
    for name, data in zip(("pci.ids", "pci.ids.asc"), good):
        put(name, data)


def histories(cases, mirror):
    """The logs of the history, as they grow."""
    logs = [f"history/{it}2024-01.jsonl" for it in FRONTS]
    mirror.publish(300)
    cases.equal("mirror: the history", mirror.run("--history")[0], 0)
    cases.equal("mirror: its logs", [mirror.same(it) for it in logs], [True] * 3)
    found = sorted(os.listdir(os.path.join(mirror.copy, "history")))
    names = [f"{front}2024-01.jsonl{end}" for front in FRONTS for end in ("", ".asc")]
    cases.equal("mirror: and their signatures", found, sorted(names))
    changed_by(mirror, 31 * 86_400, "February")
    cases.equal("mirror: another month", mirror.run("--history")[0], 0)
    logs += [it.replace("-01.", "-02.") for it in logs]
    cases.equal("mirror: its logs, too", [mirror.same(it) for it in logs], [True] * 6)
    kept = read(mirror.copy, logs[3])
    there = os.path.join(mirror.press.public, logs[3])
    changed_by(mirror, 32 * 86_400, "Forged", is_signed=False)
    status, told = mirror.run("--history")
    want = 1, REFUSED[1]
    cases.equal("mirror: a text without its signature comes first", (status, told), want)
    ran(os.path.join(LIB, "sign"), mirror.key, mirror.press.public)
    whole = read(there)
    with open(there, "wb") as file:
        file.write(whole.replace(b"Forged", b"forged"))
    subprocess.run(["chmod", "-R", "a+rX", mirror.front.folder], check=True)
    want = 1, f"mirror: {logs[3]} is not signed by the key"
    cases.equal("mirror: a forged log", mirror.run("--history"), want)
    cases.equal("mirror: the kept one stays", read(mirror.copy, logs[3]) == kept, True)
    with open(there, "wb") as file:
        file.write(whole.replace(b"February", b"february"))
    ran(os.path.join(LIB, "sign"), mirror.key, mirror.press.public)
    subprocess.run(["chmod", "-R", "a+rX", mirror.front.folder], check=True)
    want = 1, f"mirror: {logs[3]} was written anew"
    cases.equal("mirror: a log that is signed and another one", mirror.run("--history"), want)
    cases.equal("mirror: the kept one stays again", read(mirror.copy, logs[3]) == kept, True)


HOOK = """#!/bin/sh
[ ! -e {folder}/broken ] || exit 3
cat > {folder}/run.$(ls {folder} | grep -c run)
"""


def test_announcements(cases, lib, folder):  # noqa: F811
    """The operator's program gets the lines of each run once."""
    press, state = Press(lib, folder), os.path.join(folder, "state")
    os.mkdir(state)
    hook, words = os.path.join(folder, "hook"), os.path.join(LIB, "announce")
    write(hook, HOOK.format(folder=state))
    os.chmod(hook, 0o755)

    def announced():
        """The status, and what the program got each time."""
        status = ran(words, press.public, hook, STATE_DIRECTORY=state)[0]
        runs = sorted(it for it in os.listdir(state) if it.startswith("run."))
        got = [[json.loads(row)["now"] for row in read(state, it).splitlines()] for it in runs]
        return status, got

    cases.equal("announce: nothing is published", announced(), (0, []))
    press.registry.import_names({"PC/8086": "Old"})
    press.run(BEGIN)
    press.registry.import_names({"PC/8086": "Intel"})
    press.run(BEGIN + 10)
    cases.equal("announce: what was there before", announced(), (0, []))
    names = {"PC/8086/0001": "One", "PC/8086/0002": "Two\u2028"}
    press.registry.import_names(names)
    press.run(BEGIN + 60)
    cases.equal("announce: a run", announced(), (0, [[*names.values()]]))
    cases.equal("announce: nothing new", announced(), (0, [[*names.values()]]))
    press.registry.import_names({"PC/8086/0001": "Uno"})
    press.run(BEGIN + 120)
    press.registry.import_names({"PC/8086/0001": "Eins"})
    press.run(BEGIN + 32 * 86_400)
    write(os.path.join(state, "broken"), "")
    cases.equal("announce: it fails", announced(), (1, [[*names.values()]]))
    os.remove(os.path.join(state, "broken"))
    want = [[*names.values()], ["Uno"], ["Eins"]]
    cases.equal("announce: each run by itself, across months", announced(), (0, want))
    log = read(press.public, "history", "2024-02.jsonl")
    cases.equal("announce: the lines of the log", read(state, "run.2"), log)
    press.server.close()
