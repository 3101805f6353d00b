"""Registry files that cannot be had, on real file systems: each command reports it as the manual
page says, and leaves every file as it was; and disks that are full, where nothing that was
acknowledged is lost and there is room again later."""
import os
import shutil
import subprocess
import tempfile

import pytest

from disks import mounted_anew, small_disk
from http_server import free_port
from program import HEADER, WHOLE
from registry import asked, bring_in, copied, script, work

pytestmark = pytest.mark.needs("sqlite3")

STORE = (b"", b"open: Store\n", 3)
LINES = ["account root who=alice&rank=0", "import root file=8086++Intel"]
MANY = b"".join(
    b"%04x  A vendor with a name of some length, of the number %d\n" % (number, number)
    for number in range(20_000)
)


def words_over(path):
    """Each word over a registry's file."""
    return {
        "script": ("script", "--db", path),
        "import": ("import", "--db", path, "--account", "root", "/dev/null"),
        "export": ("export", "--db", path),
        "serve": ("serve", "--db", path, "--port", str(free_port()), "--connections", "1"),
        "migrate": ("migrate", "--db", path),
    }


def contents(folder):
    """The bytes of all files below a folder."""
    found = {}
    for place, _, names in os.walk(folder):
        for name in names:
            with open(os.path.join(place, name), "rb") as file:
                found[os.path.join(place, name)] = file.read()
    return found


def unopened(cases, name, folder, path, program=WHOLE, **how):
    """Each command reports that no registry can be opened, and no file is changed or lost; an
    empty log may be new."""
    before = contents(folder)
    for word, words in words_over(path).items():
        ran = subprocess.run(
            [program, *words],
            input=b"export\n",
            stdout=subprocess.PIPE,
            stderr=subprocess.PIPE,
            timeout=60,
            **how,
        )
        cases.equal(f"{name}: {word}", (ran.stdout, ran.stderr, ran.returncode), STORE)
    after = contents(folder)
    new = {place: after.pop(place) for place in after.keys() - before.keys()}
    cases.equal(
        f"{name}: all files are as they were",
        (after == before, [it for it in new.items() if it != (path + "-wal", b"")]),
        (True, []),
    )


def test_no_registry(cases, folder):
    """What is in the place of the file is no registry, or there is no such place."""
    broken, short, real = (
        os.path.join(folder, name) for name in ("broken.db", "short.db", "real.db")
    )
    with open(broken, "wb") as file:
        file.write(b"no database, whatever its name says\n" * 1_000)
    cases.equal("a registry", script(real, *LINES)[2], 0)
    with open(real, "rb") as whole, open(short, "wb") as file:
        file.write(whole.read()[:50])
    unopened(cases, "a folder", folder, folder)
    unopened(cases, "a file that is no database", folder, broken)
    unopened(cases, "the first bytes of a database", folder, short)
    unopened(cases, "no such folder", folder, os.path.join(folder, "none", "r.db"))
    unopened(cases, "a file below a file", folder, os.path.join(real, "r.db"))


def test_not_allowed(cases, folder):
    """A file, or its folder, that belongs to somebody else."""
    kept = os.path.join(folder, "kept")
    os.mkdir(kept)
    path = os.path.join(kept, "r.db")
    cases.equal("a registry of one's own", script(path, *LINES)[2], 0)
    # root may read and write everything, so that nobody is asked, who has to reach the program.
    how = {"user": "nobody", "group": "nogroup", "extra_groups": []} if os.geteuid() == 0 else {}
    program = shutil.copy(WHOLE, os.path.join(folder, "pciids"))
    os.chmod(folder, 0o755)
    os.chmod(kept, 0o755)
    for name, of_file, of_folder in (
        ("nobody may read the file", 0o000, 0o777),
        ("the file may only be read", 0o444, 0o777),
        ("the folder may not be entered", 0o666, 0o000),
    ):
        os.chmod(path, of_file)
        os.chmod(kept, of_folder)
        if how:
            unopened(cases, name, kept, path, program, **how)
        else:
            for word, words in words_over(path).items():
                cases.equal(f"{name}: {word}", work(b"", *words), STORE)
    os.chmod(kept, 0o755)
    os.chmod(path, 0o644)
    cases.equal(
        "allowed again", work(b"", "export", "--db", path), (HEADER + b"8086  Intel\n", b"", 0)
    )


def test_read_only(cases, folder):
    with small_disk(folder, 1_024) as place:
        read_only(cases, place)


def read_only(cases, place):
    path = os.path.join(place, "r.db")
    cases.equal("a registry on a disk", script(path, *LINES)[2], 0)
    mounted_anew(place, "ro")
    unopened(cases, "a disk that may only be read", place, path)
    unopened(
        cases, "a new file on a disk that may only be read", place, os.path.join(place, "new.db")
    )
    mounted_anew(place, "rw")
    cases.equal(
        "a disk that may be written again",
        work(b"", "export", "--db", path),
        (HEADER + b"8086  Intel\n", b"", 0),
    )


def test_full(cases, folder):
    """An import for which there is no room, submissions until there is none, and then there is
    some."""
    with small_disk(folder, 512) as place:
        full(cases, place)


def full(cases, place):
    path = os.path.join(place, "r.db")
    cases.equal("a registry on a small disk", script(path, *LINES)[2], 0)
    cases.equal(
        "an import that finds no room", bring_in(path, MANY), (b"refused 17 Store\n", b"", 3)
    )
    with tempfile.TemporaryDirectory() as roomy:
        # sqlite3 needs room beside the file.
        copy = os.path.join(roomy, "r.db")
        copied(path, copy)
        found = asked(copy, "PRAGMA integrity_check; SELECT path, name FROM item")
    cases.equal("no room: sqlite3 finds what was there", found, "ok\nPC/8086|Intel\n")
    out, err, status = script(path, *["submit alice path=PC/10ec&name=Realtek"] * 20_000)
    told = out.splitlines(True)
    numbers = [b"ok %d\n" % (number + 1) for number in range(len(told) - 1)]
    cases.equal(
        "submissions until there is no room",
        (told[:-1] == numbers, told[-1:], err, status),
        (True, [b"refused 17 Store\n"], b"", 3),
    )
    cases.equal("submissions until there is no room: there were some", len(numbers) > 10, True)
    mounted_anew(place, "size=64m")
    kept = int(script(path, "submit alice path=PC/10ec&name=Realtek")[0].split()[1]) - 1
    cases.equal("room again: what was acknowledged is there", kept - len(numbers) in (0, 1), True)
    cases.equal(
        "room again: the import",
        bring_in(path, MANY),
        (b"ok added=20000 renamed=0 same=0\n", b"", 0),
    )
    cases.equal(
        "room again: sound", asked(path, "PRAGMA integrity_check; PRAGMA foreign_key_check"), "ok\n"
    )


def test_full_from_the_start(cases, folder):
    with small_disk(folder, 8) as place:
        full_from_the_start(cases, place)


def full_from_the_start(cases, place):
    path = os.path.join(place, "r.db")
    for word in ("script", "export", "migrate"):
        cases.equal(
            f"no room for a new registry: {word}", work(b"", *words_over(path)[word]), STORE
        )
    mounted_anew(place, "size=8m")
    cases.equal("room for it", script(path, *LINES), (b"ok\nok added=1 renamed=0 same=0\n", b"", 0))
