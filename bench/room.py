"""What rows need, made when the first of them asks: programs, texts, registries."""
import os
import shutil
import subprocess
import sys
import tempfile
import time
from functools import cached_property, lru_cache

import texts
from processes import seconds
from rows import Skip

HERE = os.path.dirname(os.path.abspath(__file__))
TOP = os.path.dirname(HERE)
DEBIANS_FILE = "/usr/share/misc/pci.ids"
IN_MEMORY = "/dev/shm"
# Debian has nginx in a folder that only root's PATH names.
os.environ["PATH"] = os.environ.get("PATH", os.defpath) + ":/usr/sbin:/sbin"

# Items, submissions, and how many of these are pending.
SMALL, MIDDLE, LARGE = (1_000, 1_000, 10), (10_000, 10_000, 10), (100_000, 1_000_000, 10)
# Of a run on small input: what a large count becomes.
FEW = 300


def said(what):
    """Says on standard error what takes long."""
    print(f"{time.strftime('%H:%M:%S')} {what}", file=sys.stderr, flush=True)


def ran(words, **others):
    return subprocess.run(words, stdout=subprocess.PIPE, check=True, **others).stdout


def selected(database, query):
    return ran(["sqlite3", database, query], text=True).strip()


def removed(database):
    for end in ("", "-wal", "-shm"):
        if os.path.exists(database + end):
            os.remove(database + end)
    return database


def closed(database):
    """Moves what is in the log of a file into the file."""
    selected(database, "PRAGMA wal_checkpoint(TRUNCATE)")
    return database


class Room:
    """A folder, and all that is made in it."""

    def __init__(self, folder, is_small=False):
        self.folder, self.is_small = folder, is_small

    def sized(self, count):
        """So many; or a few, in a run that only shows whether each row can be measured."""
        return min(count, FEW) if self.is_small else count

    def rounds(self, count):
        """How often something is measured, of which the least counts."""
        return 1 if self.is_small else count

    def path(self, name):
        return os.path.join(self.folder, name)

    @cached_property
    def in_memory(self):
        """Another folder, in memory if there can be one."""
        place = IN_MEMORY if os.access(IN_MEMORY, os.W_OK) else self.folder
        return tempfile.TemporaryDirectory(dir=place)

    # -- programs

    @cached_property
    def program(self):
        """The one that PCIIDS names, else that of this source tree, which is built."""
        if os.environ.get("PCIIDS"):
            return os.path.abspath(os.environ["PCIIDS"])
        said("building the whole program, where it is not built")
        ran([os.path.join(TOP, "pciids"), "script"], stdin=subprocess.DEVNULL)
        return os.path.join(TOP, "crates", "pid_cli", "out", "pid_cli")

    def built(self, words, name, needs):
        path = self.path(name)
        if not shutil.which(words[0]) or subprocess.run([*words, "-o", path]).returncode != 0:
            raise Skip(f"{needs} is missing")
        return path

    @cached_property
    def reference(self):
        words = ["rustc", "-O", os.path.join(HERE, "reference.rs")]
        return self.built(words, "reference", "rustc")

    def of_c(self, source, name, library, needs):
        words = ["gcc", "-O2", os.path.join(TOP, *source), f"-l{library}"]
        return self.built(words, name, f"gcc or {needs}")

    @cached_property
    def libpci_load(self):
        return self.of_c(("bench", "libpci_load.c"), "libpci_load", "pci", "libpci-dev")

    @cached_property
    def libpci_lookups(self):
        source = ("tests", "support", "libpci_lookups.c")
        return self.of_c(source, "libpci_lookups", "pci", "libpci-dev")

    @cached_property
    def sqlite(self):
        """C SQLite with the statements of a registry."""
        if not shutil.which("sqlite3"):
            raise Skip("sqlite3 is missing")
        return self.of_c(("bench", "registry.c"), "registry", "sqlite3", "libsqlite3-dev")

    @cached_property
    def idle(self):
        """The time of C SQLite for no job at all."""
        return min(seconds([self.sqlite, self.registry(SMALL), "nothing", "0"]) for _ in range(9))

    # -- texts

    @lru_cache(maxsize=None)
    def text(self, name):
        """The path of a file of names."""
        if name.startswith("Debian's file") and not os.path.exists(DEBIANS_FILE):
            raise Skip("the package pci.ids is missing")
        if name == "Debian's file":
            return DEBIANS_FILE
        made = {
            "Debian's file, shuffled": lambda: texts.shuffled(whole(DEBIANS_FILE)),
            "50,000 vendors with a device, shuffled":
                lambda: texts.shuffled(texts.vendors_with_a_device(50_000)),
            "50,000 subsystems of one device": lambda: texts.subsystems(50_000),
            "100,000 subsystems of one device": lambda: texts.subsystems(100_000),
            "1,000 items": lambda: texts.entries(self.sized(1_000)),
            "10,000 items": lambda: texts.entries(self.sized(10_000)),
            "100,000 items": lambda: texts.entries(self.sized(100_000)),
        }[name]()
        return self.written(name.replace(" ", "-"), made)

    def written(self, name, text):
        with open(self.path(name), "w", encoding="utf-8") as file:
            file.write(text)
        return self.path(name)

    def lines(self, name, lines):
        return self.written(name, "".join(f"{line}\n" for line in lines))

    # -- registries

    def script(self, database):
        return [self.program, "script", "--db", database]

    def import_words(self, database, path):
        return [self.program, "import", "--db", database, "--account", "root", path]

    def made(self, name, *job):
        """A file that C SQLite makes; the program judges it when it opens it."""
        path = self.path(name)
        if not os.path.exists(path):
            said(f"making {name}")
            ran([self.sqlite, path, *map(str, job)])
            closed(path)
        return path

    def registry(self, size):
        counts = map(self.sized, size)
        return self.made(f"registry-{size[1]}-{size[2]}", "filled", *counts)

    def many(self, kind, *counts):
        """A file that has many rows of one kind."""
        return self.made("-".join(map(str, (kind, *counts))), kind, *map(self.sized, counts))

    @lru_cache(maxsize=None)
    def imported(self, name):
        """The text imported into two new files, by the program and by C SQLite with the same paths
        and names; and the least time of each."""
        said(f"importing {name}")
        text = self.text(name)
        ours, theirs = self.path(f"{name}.ours"), self.path(f"{name}.theirs")
        words, times = self.import_words(ours, text), [[], []]
        seconds(words)
        listed = "SELECT path || char(9) || name FROM item ORDER BY rowid"
        lines = self.lines("lines", selected(ours, listed).splitlines())
        for _ in range(self.rounds(5)):
            times[0].append(seconds(self.import_words(removed(ours), text)))
            times[1].append(seconds([self.sqlite, removed(theirs), "make"], lines))
        return closed(ours), closed(theirs), min(times[0]), min(times[1])

    def copy(self, database, name="copy"):
        """A copy of a file that no one has open, for rows that write."""
        shutil.copyfile(database, removed(self.path(name)))
        return self.path(name)

    def newer(self, database):
        """A copy whose schema is a later one: the kit's sqlite reads it, and it is refused before
        its rows are judged."""
        path = self.copy(database, "newer")
        selected(path, "UPDATE meta SET value = 99 WHERE label = 'schema'")
        return closed(path)


def whole(path):
    with open(path, encoding="utf-8") as file:
        return file.read()
