"""The history of deploy/lib: what a run of `publish` notes, whatever stops it; the text of a day
out of that of the next; dates, causes, and what is made of them."""
import calendar
import contextlib
import io
import json
import os
import random
import shutil
import subprocess
import sys
import time
import xml.etree.ElementTree as ElementTree
from importlib.machinery import SourceFileLoader
from importlib.util import module_from_spec, spec_from_loader

import pytest

from program import SITE, TOP
from small_registry import SmallRegistry, SmallServer, text_of

LIB = os.path.join(TOP, "deploy", "lib")
BEGIN = calendar.timegm((2024, 1, 1, 12, 0, 0))
DAY = 86_400
DAYS = 1_000
VENDORS = ("PC/8086", "PC/10de", "PC/1af4", "PD/01")


@pytest.fixture(scope="module")
def lib():
    """The modules of publish, and publish itself."""
    sys.path.insert(0, LIB)
    try:
        import history
        import views
        loader = SourceFileLoader("publish", os.path.join(LIB, "publish"))
        press = module_from_spec(spec_from_loader("publish", loader))
        loader.exec_module(press)
        press.history, press.views = history, views
        yield press
    finally:
        sys.path.remove(LIB)


def stamp(seconds):
    return time.strftime("%Y-%m-%dT%H:%M:%SZ", time.gmtime(seconds))


def at(seconds):
    os.environ["PCIIDS_NOW"] = str(seconds)


def rows_in(*place):
    path = os.path.join(*place)
    if not os.path.exists(path):
        return []
    with open(path, encoding="utf-8") as file:
        return [json.loads(line) for line in file.read().split("\n") if line]


def all_rows(folder, front=""):
    names = [it for it in os.listdir(folder) if it.endswith(".jsonl")
             and it.startswith(front) and len(it) == len(front) + len("2026-11.jsonl")]
    return [row for name in sorted(names) for row in rows_in(folder, name)]


def noted(lib, folder, registry, seconds):
    """A run without pages: notes what the registry has."""
    at(seconds)
    it = lib.history.History(folder)
    counts, names = registry.counts(), dict(registry.names)
    changes, feeds, followed = lib.views.work_up(it, registry, counts, names, names)
    it.close(names, followed, counts)
    return changes, feeds


def undone(names, rows):
    """The names before the rows of a day, by the rows alone."""
    names = dict(names)
    for row in reversed(rows):
        assert names.get(row["path"]) == row["now"]
        names.pop(row["path"], None)
        if row["was"] is not None:
            names[row["path"]] = row["was"]
    return names


def live_through(registry, chance):
    """Some commands, as a day brings them."""
    for _ in range(chance.randrange(4)):
        top = chance.choice(VENDORS)
        below = f"{top}/{chance.randrange(20):0{4 if top[1] == 'C' else 2}x}"
        path = below if top in registry.names else top
        free = [it for it in registry.names if it.count("/") > 1]
        kind = chance.random()
        if kind < 0.2 and free:
            num = registry.submit("alice", chance.choice(free), None)
            registry.settle(num, "approved", "mona")
        elif kind < 0.3:
            registry.import_names({top: top, below: f"import {chance.random()}"})
        elif kind < 0.4:
            registry.settle(registry.submit("bob", path, "no"), "rejected", "mona", "no")
        else:
            num = registry.submit("bob", path, f"name {chance.random()}")
            registry.settle(num, "approved", "mona")


def test_days(cases, lib, room):
    """The text of each day out of that of the next and its rows."""
    registry, chance, texts = SmallRegistry(), random.Random(1), []
    folder = os.path.join(room, "history")
    noted(lib, folder, registry, BEGIN - DAY)
    for day in range(DAYS):
        live_through(registry, chance)
        noted(lib, folder, registry, BEGIN + day * DAY)
        texts.append(text_of(registry.names))
    names, wrong, changed = dict(registry.names), [], 0
    for day in reversed(range(DAYS)):
        if text_of(names) != texts[day]:
            wrong.append(day)
        rows = rows_in(folder, f"{stamp(BEGIN + day * DAY)[:10]}.jsonl")
        changed += bool(rows)
        names = undone(names, rows)
    cases.equal(f"days of {DAYS} whose text is another one", wrong, [])
    cases.equal("most days changed something", changed > DAYS / 2, True)
    cases.equal("the text before the first day", text_of(names), text_of({}))
    whole = all_rows(folder)
    cases.equal("times rise", [it["time"] for it in whole], sorted(it["time"] for it in whole))


STORY = (
    # minutes after the begin, and what happened in front of the run
    (0, lambda it: it.import_names({"PC/8086": "Intel", "PC/8086/0001": "One"})),
    (1, lambda it: it.submit("alice", "PC/8086/0002", "Two")),
    (2, lambda it: it.submit("alice", "PC/8086/0001", "Uno")),
    (3, lambda it: it.settle(1, "approved", "mona")),
    (4, lambda it: it.settle(2, "rejected", "mona", "One stays")),
    (5, lambda it: it.import_names({"PC/8086/0001": "Eins", "PD/01": "Mass"})),
    (6, lambda it: it.settle(it.submit("bob", "PC/8086/0002", None), "approved", "mona")),
)


def test_causes(cases, lib, room):
    registry = SmallRegistry()
    registry.import_names({"PC/8086": "Old Intel"})
    noted(lib, room, registry, BEGIN - 60)
    for minute, happens in STORY:
        happens(registry)
        noted(lib, room, registry, BEGIN + 60 * minute)
    got = [(it["time"][11:16], it["path"][3:], it["was"], it["now"], it["how"], it["num"],
            it["author"], it["decider"]) for it in all_rows(room)]
    other = (None, None, None)
    cases.equal("changes and their causes", got, [
        ("12:00", "8086", "Old Intel", "Intel", "import", *other),
        ("12:00", "8086/0001", None, "One", "import", *other),
        ("12:03", "8086/0002", None, "Two", "proposal", 1, "alice", "mona"),
        ("12:05", "8086/0001", "One", "Eins", "import", *other),
        ("12:05", "01", None, "Mass", "import", *other),
        ("12:06", "8086/0002", "Two", None, "proposal", 3, "bob", "mona"),
    ])
    got = [(it["time"][11:16], it["num"], it["state"], it["reason"])
           for it in all_rows(room, "decisions-")]
    cases.equal("decisions", got, [("12:03", 1, "approved", ""),
                                   ("12:04", 2, "rejected", "One stays"),
                                   ("12:06", 3, "approved", "")])
    got = [(it["time"][11:16], it["revision"], it["submissions"])
           for it in all_rows(room, "calendar-")]
    cases.equal("the calendar", got, [
        ("11:59", 1, 0), ("12:00", 2, 0), ("12:01", 3, 1), ("12:02", 4, 2), ("12:03", 5, 2),
        ("12:04", 6, 2), ("12:05", 7, 2), ("12:06", 9, 3)])
    with open(os.path.join(room, "proposals", "0.json"), encoding="utf-8") as file:
        dates = {it: when[11:16] for it, when in json.load(file).items()}
    cases.equal("dates of proposals", dates, {
        "proposed 1": "12:01", "proposed 2": "12:02", "proposed 3": "12:06",
        "decided 1": "12:03", "decided 2": "12:04", "decided 3": "12:06"})
    got = [it["now"] for it in rows_in(room, "PC", "8086.jsonl")]
    cases.equal("a vendor", got, ["Intel", "One", "Two", "Eins", None])
    cases.equal("an account", [it["num"] for it in rows_in(room, "by", "alice.jsonl")], [1, 2])
    before = sorted(os.listdir(room))
    asked = len(registry.asked)
    cases.equal("nothing new", noted(lib, room, registry, BEGIN + 900)[0], [])
    cases.equal("nothing is written", (sorted(os.listdir(room)), len(registry.asked)),
                (before, asked))


def test_late(cases, lib, room):
    """An approval after the text was read is the cause of what the next text has."""
    registry = SmallRegistry()
    noted(lib, room, registry, BEGIN)
    num = registry.submit("alice", "PC/8086", "Intel")
    noted(lib, room, registry, BEGIN + 60)
    names, registry.names = registry.names, {}
    registry.settle(num, "approved", "mona")
    late, registry.names = registry.names, names
    noted(lib, room, registry, BEGIN + 120)
    registry.names = late
    registry.revision += 1
    noted(lib, room, registry, BEGIN + 180)
    got = [(it["time"][11:16], it["num"], it["how"]) for it in all_rows(room)]
    cases.equal("the cause of a late text", got, [("12:03", 1, "proposal")])


def test_restore(cases, lib, room):
    """What was published since the copy stays, and the way back is noted as such."""
    registry = SmallRegistry()
    registry.import_names({"PC/8086": "Intel"})
    registry.submit("alice", "PC/8086", "Intel Corp.")
    noted(lib, room, registry, BEGIN)
    kept = registry.kept()
    registry.settle(1, "approved", "mona")
    registry.submit("bob", "PC/10de", "Lost")
    noted(lib, room, registry, BEGIN + 60)
    registry.restore(kept)
    noted(lib, room, registry, BEGIN + 120)
    registry.settle(registry.submit("carl", "PC/10de", "NVIDIA"), "approved", "mona")
    noted(lib, room, registry, BEGIN + 180)
    got = [(it["path"], it["was"], it["now"], it["how"], it["num"]) for it in all_rows(room)]
    cases.equal("changes", got, [
        ("PC/8086", "Intel", "Intel Corp.", "proposal", 1),
        ("PC/8086", "Intel Corp.", "Intel", "restore", None),
        ("PC/10de", None, "NVIDIA", "proposal", 2)])
    got = [(it["revision"], it["submissions"], it.get("restored")) for it in
           all_rows(room, "calendar-")]
    cases.equal("the calendar", got, [(2, 1, None), (4, 2, None), (2, 1, True), (4, 2, None)])
    with open(os.path.join(room, "proposals", "0.json"), encoding="utf-8") as file:
        dates = json.load(file)
    cases.equal("the date of a number that was given again", dates["proposed 2"][11:16], "12:03")


ODD = "A & <b> \"x\" \ufffe\u202e\u0085 \u0416"
ATOM = os.path.join(TOP, "tests", "support", "atom.rnc")
NAMESPACE = {"atom": "http://www.w3.org/2005/Atom"}


def entries_of(*place):
    """The title, the text and the time of each entry of a feed."""
    found = ElementTree.parse(os.path.join(*place)).findall("atom:entry", NAMESPACE)
    return [tuple(it.find(f"atom:{name}", NAMESPACE).text for name in ("title", "content"))
            for it in found]


@pytest.mark.needs("jing")
def test_feeds(cases, lib, folder):
    """Feeds by the grammar of RFC 4287, with what people read in them."""
    press = Press(lib, folder)
    registry = press.registry
    registry.import_names({"PD/02": "Network"})
    press.run(BEGIN)
    registry.import_names({"PC/8086": "Intel", **{f"PC/8086/{it:04x}": ODD for it in range(25)}})
    press.run(BEGIN + 60)
    for path, name, state in (("PC/8086/7d8a", "Imaginary", "approved"),
                              ("PC/8086/7d8a", "Imaginary Controller", "approved"),
                              ("PC/8086/0001", None, "approved"), ("PD/01", ODD, "rejected")):
        num = registry.submit("alice", path, name)
        press.run(BEGIN + 120 + 10 * num)
        registry.settle(num, state, "mona", ODD if state == "rejected" else "")
        press.run(BEGIN + 125 + 10 * num)
    feeds = os.path.join(press.public, "feeds")
    found = sorted(os.path.relpath(os.path.join(at, it), feeds)
                   for at, _, names in os.walk(feeds) for it in names if it.endswith(".atom"))
    cases.equal("the feeds", found, ["PC/8086.atom", "by/alice.atom", "changes.atom"])
    ran = subprocess.run(["jing", "-c", ATOM, *found], cwd=feeds, capture_output=True, text=True)
    cases.equal("their grammar", (ran.stdout, ran.returncode), ("", 0))
    shown = "A & <b> \"x\" [U+FFFE][U+202E][U+0085] \u0416[U+0416]"
    want = [
        (f'8086:0001  removed, was "{shown}"', "; proposed by alice (#3), approved by mona"),
        ('8086:7d8a  "Imaginary Controller", was "Imaginary"',
         "; proposed by alice (#2), approved by mona"),
        ('8086:7d8a  "Imaginary", new', "; proposed by alice (#1), approved by mona"),
        ("Names: 26 added; by an import", ""),
    ]
    want = [(title, title + more) for title, more in want]
    for it in ("changes", "PC/8086"):
        cases.equal(f"the feed {it}", entries_of(feeds, f"{it}.atom"), want)
    got = entries_of(feeds, "by/alice.atom")
    cases.equal("what came of a proposal", got[0], (
        f'#4 rejected: 01  "{shown}"', f'#4 rejected: 01  "{shown}"; rejected by mona: {shown}'))
    whole = ElementTree.parse(os.path.join(feeds, "changes.atom"))
    ids = [it.text for it in whole.iter("{http://www.w3.org/2005/Atom}id")]
    cases.equal("ids are unlike", len(set(ids)), len(want) + 1)
    for it, want in (("PC/8086", True), ("PD/02", False)):
        with open(os.path.join(press.public, "item", f"{it}.html"), encoding="utf-8") as file:
            got = f'<link rel="alternate" type="application/atom+xml" title="What changed here" ' \
                f'href="/feeds/{it}.atom">' in file.read()
        cases.equal(f"the page of {it} names its feed", got, want)
    before = os.stat(os.path.join(feeds, "changes.atom")).st_mtime_ns
    registry.settle(registry.submit("bob", "PD/01", "Mass"), "withdrawn", "bob")
    press.run(BEGIN + 600)
    got = os.stat(os.path.join(feeds, "changes.atom")).st_mtime_ns
    cases.equal("what did not change is not written", got, before)
    press.server.close()


class Stop(BaseException):
    """The machine stops here."""


@contextlib.contextmanager
def stopped(number, chance):
    """The machine stops at a call that writes or moves: what is not synced is lost in part."""
    real = {it: getattr(os, it) for it in ("fsync", "replace", "remove")}
    calls = [0]

    def standing_for(name):
        def call(*words):
            calls[0] += 1
            if calls[0] == number:
                if name == "fsync" and os.path.isfile(f"/proc/self/fd/{words[0]}"):
                    size = os.fstat(words[0]).st_size
                    os.ftruncate(words[0], size - chance.randrange(min(size, 150) + 1))
                raise Stop
            return real[name](*words)
        return call

    try:
        for it in real:
            setattr(os, it, standing_for(it))
        yield calls
    except Stop:
        pass
    finally:
        for it in real:
            setattr(os, it, real[it])


class Press:
    """publish, run in this process over a small registry, with the real mirror."""

    def __init__(self, lib, folder):
        self.lib, self.folder, self.registry = lib, folder, SmallRegistry()
        self.server = SmallServer(self.registry)
        self.copy, self.public = (os.path.join(folder, it) for it in ("copy", "public"))
        os.mkdir(self.copy)
        os.mkdir(self.public)
        self.place = os.path.join(folder, "lib")
        os.mkdir(self.place)
        shutil.copyfile(os.path.join(TOP, "deploy", "mirror.sh"), f"{self.place}/mirror")
        os.chmod(f"{self.place}/mirror", 0o755)
        lib.HERE = self.place

    def run(self, seconds):
        at(seconds)
        with contextlib.redirect_stdout(io.TextIOWrapper(io.BytesIO())):
            self.lib.publish(self.server.address, self.copy, self.public, SITE)

    def rows(self):
        """All rows but their times, which a stop may put off."""
        folder = os.path.join(self.public, "history")
        return [{key: it for key, it in row.items() if key != "time"}
                for front in ("", "decisions-") for row in all_rows(folder, front)]

    def derived(self):
        """The files of the history whose rows follow from the logs."""
        folder = os.path.join(self.public, "history")
        names = ("PC/8086.jsonl", "PC/10de.jsonl", "by/alice.jsonl")
        return [[{key: it for key, it in row.items() if key != "time"} for row in
                 rows_in(folder, it)] for it in names]


def prepared(press):
    press.registry.import_names({"PC/8086": "Intel", "PC/8086/0001": "One"})
    for name in ("Two", "Zwei", "Deux"):
        press.registry.submit("alice", "PC/8086/0002", name)
    press.run(BEGIN)
    press.registry.settle(1, "approved", "mona")
    press.registry.settle(2, "rejected", "mona", "no")
    # Made and decided between two runs.
    new = press.registry.submit("alice", "PC/8086/0003", "Three")
    press.registry.settle(new, "approved", "mona")
    press.registry.import_names({"PC/8086/0001": "Uno", "PC/10de": "NVIDIA"})


def test_stops(cases, lib, folder):
    """A stop at each write of a run, and a run after it: each row is there once."""
    chance, number, wanted = random.Random(2), 0, None
    while True:
        room = os.path.join(folder, str(number))
        os.mkdir(room)
        press = Press(lib, room)
        prepared(press)
        with stopped(number, chance) as calls:
            press.run(BEGIN + 60)
        press.run(BEGIN + 120)
        got = press.rows(), press.derived()
        wanted = wanted or got
        cases.equal(f"stopped at call {number}", got, wanted)
        press.run(BEGIN + 180)
        if press.rows() != wanted[0]:
            cases.equal(f"a run after that, {number}", press.rows(), wanted[0])
        press.server.close()
        shutil.rmtree(room)
        if number > calls[0]:
            break
        number += 1
    cases.equal("rows of the run", len(wanted[0]), 7)
    cases.equal("many calls were tried", number > 20, True)
