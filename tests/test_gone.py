"""A registry whose file or log was removed, replaced, moved or emptied while a script or a server
has it open: the next command is refused as 17 and ends it, since what it wrote would be lost."""
import itertools
import os
import shutil
import subprocess

import pytest

from http_server import OK, Server, refusal
from program import HEADER, WHOLE
from registry import script, work

pytestmark = pytest.mark.needs("curl")

IMPORT = "import root file=8086++Intel"
REFUSED = b"refused 17 Store\n"


def replaced(path):
    shutil.copy(path, path + ".copy")
    os.rename(path + ".copy", path)


def emptied(path):
    os.truncate(path, 0)


def away(path):
    os.rename(path, path + ".away")


def linked(path):
    """The name leads to the file by a link, whose log would have another name."""
    away(path)
    os.symlink(path + ".away", path)


DEEDS = (os.remove, replaced, emptied, away, linked)


def opened(path):
    """A script that has the file open, after its first reply."""
    words = [WHOLE, "script", "--db", path]
    running = subprocess.Popen(
        words, stdin=subprocess.PIPE, stdout=subprocess.PIPE, stderr=subprocess.PIPE
    )
    return running, sent(running, "account root who=alice&rank=0")


def sent(running, line):
    running.stdin.write(line.encode() + b"\n")
    running.stdin.flush()
    return running.stdout.readline()


def test_script(cases, folder):
    """Of a registry that was there, and of one that the script itself has made."""
    for deed, end, lines in itertools.product(DEEDS, ("", "-wal"), ((IMPORT,), ())):
        name = f"{deed.__name__} {end or 'the file'}, {'old' if lines else 'new'}"
        path = os.path.join(folder, f"{deed.__name__}{end}{len(lines)}.db")
        for line in lines:
            cases.equal(f"script: {name}: a registry", script(path, line)[2], 0)
        running, first = opened(path)
        deed(path + end)
        told = sent(running, "account root who=bob&rank=0")
        rest = running.communicate(b"export\n", timeout=60)
        got = (first, told, *rest, running.returncode)
        cases.equal(f"script: {name}", got, (b"ok\n", REFUSED, b"", b"", 3))


def test_link(cases, folder):
    """A registry that is opened by a link: what counts is the file that the link led to."""
    path, link = os.path.join(folder, "r.db"), os.path.join(folder, "link.db")
    cases.equal("a link: a registry", script(path, IMPORT)[2], 0)
    os.symlink(path, link)
    running, first = opened(link)
    kept = sent(running, "account root who=bob&rank=0")
    replaced(path)
    told = sent(running, "account root who=carol&rank=0")
    running.communicate(timeout=60)
    got = (first, kept, told, running.returncode)
    cases.equal("a link: its file is replaced", got, (b"ok\n", b"ok\n", REFUSED, 3))


def test_folder(cases, folder):
    """The folder of the file is moved, and moved back: nothing that was acknowledged is lost."""
    place = os.path.join(folder, "place")
    os.mkdir(place)
    path = os.path.join(place, "r.db")
    running, first = opened(path)
    kept = sent(running, IMPORT)
    os.rename(place, place + ".away")
    told = sent(running, "account root who=bob&rank=0")
    running.communicate(timeout=60)
    os.rename(place + ".away", place)
    got = (first, kept, told, running.returncode, work(b"", "export", "--db", path)[0])
    replies = (b"ok\n", b"ok added=1 renamed=0 same=0\n", REFUSED, 3)
    cases.equal("the folder is moved", got, (*replies, HEADER + b"8086  Intel\n"))


def test_server(cases, folder):
    """A server answers questions from memory until the next command."""
    path = os.path.join(folder, "r.db")
    cases.equal("a server: a registry", script(path, IMPORT)[2], 0)
    with Server(path, program=WHOLE) as server:
        first = server.post("/account", "root", "who=alice&rank=0")
        replaced(path)
        asked = server.curl("/read/PC/8086?format=text")
        told = server.post("/account", "root", "who=bob&rank=0")
        ended = server.ended()
    got = (first[2], asked[0], told[2], ended[1:])
    cases.equal("a server", got, (OK, 200, refusal(17, "Store"), (b"", 3)))


def test_second_name(cases, folder):
    """A second name that is made meanwhile loses nothing, and refuses the next opening alone."""
    path = os.path.join(folder, "r.db")
    running, first = opened(path)
    os.link(path, path + ".other")
    told = sent(running, "account root who=bob&rank=0")
    rest = running.communicate(timeout=60)
    got = (first, told, *rest, running.returncode)
    cases.equal("a second name", got, (b"ok\n", b"ok\n", b"", b"", 0))
    os.remove(path + ".other")
    cases.equal("a second name: it is gone", script(path, IMPORT)[2], 0)
