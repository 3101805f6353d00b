"""A month of a registry: proposals, approvals, an import, removals, a restore, with publishing
killed at each of its writes. Every page, feed and file says the right dates and names, as gpg,
lspci and a validator of feeds take them."""
import calendar
import os
import re
import shutil
import subprocess
import time

import lspci
import program
from http_server import ask_curl
from site_browser import Browser
from site_world import World
from test_history import ATOM, LIB, all_rows, entries_of, rows_in, undone
from test_signing import new_key, ran, signed_files, verified

DAY = 86_400
# So many days ago at noon that there are two months, and no test meets the end of a day.
BEGIN = calendar.timegm((*time.gmtime(time.time() - 40 * DAY)[:3], 12, 0, 0))
CHIP, SHORT = "PC/8086/7d8a", "PC/8086/7d8c"
FILE = "0001  A vendor of a file\n" + "".join(
    f"\t{at:04x}  Its device {at}\n" for at in range(9))


def day(number):
    return time.strftime("%Y-%m-%d", time.gmtime(BEGIN + number * DAY))


class Month:
    """The registry day by day, and what its text was at the end of each."""

    def __init__(self, world):
        self.world, self.texts, self.runs = world, {}, 0

    def end(self, number):
        """Publishing at the end of a day, killed at each of its writes in turn."""
        stop, first = 1, not self.texts
        while self.world.publish(BEGIN + number * DAY, stop):
            stop = 2 * stop if first else stop + 1
            self.runs += 1
        status, _, text = ask_curl(f"http://127.0.0.1:{self.world.server.port}/pci.ids")
        self.texts[number] = names_in(text.decode()) if status == 200 else None

    def propose(self, author, path, name):
        wish = {"remove": "yes"} if name is None else {"name": name}
        return self.world.ask("/submit", {"path": path, **wish}, author)["num"]

    def approve(self, number, decider="mona"):
        self.world.ask("/approve", {"num": number}, decider)

    def live(self):
        self.end(0)
        assert self.propose("alice", CHIP, "Imaginary") == 1
        self.end(2)
        self.approve(1)
        self.end(3)
        assert self.propose("alice", CHIP, "Imaginary Controller") == 2
        assert self.propose("dora", "PC/8086/1237", "Wrong") == 3
        self.end(6)
        self.approve(2)
        self.world.ask("/reject", {"num": 3, "reason": "no source"}, "mona")
        self.end(7)
        self.world.ask("/import", FILE.encode())
        self.end(10)
        kept = self.world.keep()
        self.approve(self.propose("dora", CHIP, None), "sam")
        self.end(12)
        self.world.restore(kept)
        self.end(14)
        assert self.propose("alice", CHIP, "Imaginary Controller X") == 4
        self.end(15)
        self.approve(4, "sam")
        self.end(16)
        self.approve(self.propose("alice", SHORT, "Short-lived"))
        self.end(17)
        self.approve(self.propose("dora", SHORT, None), "sam")
        self.end(18)


def names_in(text):
    """The names of a text by their paths."""
    lines = [it for it in text.split("\n") if not it.startswith("#")]
    found, above = {}, ["", "", ""]
    for line in filter(None, lines):
        number, _, name = line.strip("\t").partition("  ")
        depth = len(line) - len(line.lstrip("\t"))
        if number.startswith("S "):
            above[0] = "PS/" + number[2:]
            continue
        own = number.removeprefix("C ").replace(" ", "")
        front = ("PD" if number.startswith("C ") else "PC") if depth == 0 else above[depth - 1]
        above[depth] = f"{front}/{own}"
        found[above[depth]] = name
    return found


NONE = (None, None, None)
CHANGES = [
    (3, CHIP, None, "Imaginary", "proposal", 1, "alice", "mona"),
    (7, CHIP, "Imaginary", "Imaginary Controller", "proposal", 2, "alice", "mona"),
    (10, "PC/0001", None, "A vendor of a file", "import", *NONE),
    *((10, f"PC/0001/{at:04x}", None, f"Its device {at}", "import", *NONE) for at in range(9)),
    (12, CHIP, "Imaginary Controller", None, "proposal", 4, "dora", "sam"),
    (14, CHIP, None, "Imaginary Controller", "restore", *NONE),
    (16, CHIP, "Imaginary Controller", "Imaginary Controller X", "proposal", 4, "alice", "sam"),
    (17, SHORT, None, "Short-lived", "proposal", 5, "alice", "mona"),
    (18, SHORT, "Short-lived", None, "proposal", 6, "dora", "sam"),
]
DECISIONS = [
    (3, 1, "approved", "alice", "mona", ""), (7, 2, "approved", "alice", "mona", ""),
    (7, 3, "rejected", "dora", "mona", "no source"), (12, 4, "approved", "dora", "sam", ""),
    (16, 4, "approved", "alice", "sam", ""), (17, 5, "approved", "alice", "mona", ""),
    (18, 6, "approved", "dora", "sam", ""),
]


def files(cases, month, there):
    """The logs, and the text of each day out of that of the next."""
    history = os.path.join(there, "history")
    keys = ("path", "was", "now", "how", "num", "author", "decider")
    got = [(it["time"][:10], *(it[key] for key in keys)) for it in all_rows(history)]
    cases.equal("month: changes", got, [(day(at), *rest) for at, *rest in CHANGES])
    keys = ("num", "state", "author", "decider", "reason")
    got = [(it["time"][:10], *(it[key] for key in keys)) for it in all_rows(history, "decisions-")]
    cases.equal("month: decisions", got, [(day(at), *rest) for at, *rest in DECISIONS])
    names, wrong = month.texts[18], []
    for at in sorted(month.texts, reverse=True):
        if names != month.texts[at]:
            wrong.append(at)
        names = undone(names, rows_in(history, f"{day(at)}.jsonl"))
    cases.equal("month: days whose text is another one", wrong, [])
    cases.equal("month: the first text", names, month.texts[0])
    restored = [it["time"][:10] for it in all_rows(history, "calendar-") if it.get("restored")]
    cases.equal("month: the restore", restored, [day(14)])
    cases.equal("month: many runs were killed", month.runs > 60, True)


def feeds(cases, there):
    """Feeds by the grammar of RFC 4287, and what they say."""
    folder = os.path.join(there, "feeds")
    found = sorted(os.path.relpath(os.path.join(at, it), folder)
                   for at, _, names in os.walk(folder) for it in names if it.endswith(".atom"))
    cases.equal("month: the feeds", found, [
        "PC/0001.atom", "PC/8086.atom", "by/alice.atom", "by/dora.atom", "changes.atom"])
    told = subprocess.run(["jing", "-c", ATOM, *found], cwd=folder, capture_output=True, text=True)
    cases.equal("month: their grammar", (told.stdout, told.returncode), ("", 0))
    got = [text for _, text in entries_of(folder, "PC/8086.atom")]
    cases.equal("month: the feed of a vendor", got, [
        '8086:7d8c  removed, was "Short-lived"; proposed by dora (#6), approved by sam',
        '8086:7d8c  "Short-lived", new; proposed by alice (#5), approved by mona',
        '8086:7d8a  "Imaginary Controller X", was "Imaginary Controller";'
        " proposed by alice (#4), approved by sam",
        '8086:7d8a  "Imaginary Controller", new; by a restore of the registry',
        '8086:7d8a  removed, was "Imaginary Controller"; proposed by dora (#4), approved by sam',
        '8086:7d8a  "Imaginary Controller", was "Imaginary"; proposed by alice (#2),'
        " approved by mona",
        '8086:7d8a  "Imaginary", new; proposed by alice (#1), approved by mona'])
    got = [text for _, text in entries_of(folder, "by/dora.atom")]
    cases.equal("month: the answers to somebody", got[-1],
                '#3 rejected: 8086:1237  "Wrong"; rejected by mona: no source')


def programs(cases, world, there):
    """gpg and lspci on what was published."""
    key = new_key(world.folder, "signer")
    cases.equal("month: signing", ran(os.path.join(LIB, "sign"), key, there)[0], 0)
    names = signed_files(there)
    bad = [it for it in names if verified(there, it) != 0]
    cases.equal("month: gpg --verify", (len(names) > 15, bad), (True, []))
    dump = os.path.join(world.folder, "dump")
    with open(dump, "w", encoding="ascii") as file:
        file.write(lspci.dump([(0x8086, 0x7D8A, 0, 0), (0x8086, 0x7D8C, 0, 0), (1, 8, 0, 0)]))
    words = ["lspci", "-A", "dump", "-O", f"dump.name={dump}", "-i", f"{there}/pci.ids"]
    lines = subprocess.run(words, capture_output=True, text=True).stdout.splitlines()
    got = [it.partition(": ")[2] for it in lines]
    cases.equal("month: lspci", got, [
        "Intel Corporation Imaginary Controller X", "Intel Corporation Device 7d8c",
        "A vendor of a file Its device 8"])


def texts(browser, selector):
    return [" ".join(it.text.split()) for it in browser.all(selector)]


def days(cases, browser):
    """The pages of the days, and the numbers of the months."""
    for number, words, rows in (
        (3, "1 added.", ["8086:7d8a Imaginary #1 by alice, approved by mona"]),
        (7, "1 renamed.", ["8086:7d8a Imaginary Controller was Imaginary #2 by alice,"
                           " approved by mona"]),
        (12, "1 removed.", ["8086:7d8a Imaginary Controller removed #4 by dora, approved by sam"]),
        (14, "1 added.", ["8086:7d8a Imaginary Controller by a restore of the registry"]),
        (15, "Nothing.", []),
    ):
        browser.go(f"/recent/{day(number)}")
        browser.has(words)
        got = [it.rpartition(", ")[0] for it in texts(browser, ".changes li")]
        cases.equal(f"month: the page of day {number}", got, rows)
    sums = {}
    for month in sorted({day(at)[:7] for at, *_ in CHANGES}):
        browser.go(f"/recent?month={month}")
        for row in texts(browser, "main section:first-of-type tbody tr"):
            at, *counts = row.split()
            sums[at] = [int(it) for it in counts]
    want = {}
    for at, _, was, now, *_ in CHANGES:
        kind = 0 if was is None else 2 if now is None else 1
        want.setdefault(day(at), [0, 0, 0])[kind] += 1
    cases.equal("month: the numbers of its days", sums, want)


def items(cases, browser):
    """What a number meant when, and who changed it."""
    browser.go(f"/item/{CHIP}")
    browser.has("It has its name since", ".history")
    for it in browser.all(".history summary"):
        it.click()
    got = texts(browser, ".history > .said:nth-of-type(1) .changes li, .history > .changes li")
    ages = [f"{(time.time() - BEGIN - at * DAY) // DAY:.0f}" for at in (16, 14, 12, 7, 3)]
    said = [re.sub(r"(\d+) days ago|last month|\d+ months? ago", "AGO", it) for it in got]
    cases.equal("month: the names of an item", said, [
        "Imaginary Controller X AGO, #4 by alice, approved by sam",
        "Imaginary Controller AGO, by a restore of the registry Restore",
        "removed AGO, #4 by dora, approved by sam",
        "Imaginary Controller AGO, #2 by alice, approved by mona Restore",
        "Imaginary AGO, #1 by alice, approved by mona Restore"])
    titles = [it.get_attribute("title") for it in browser.all(".history .changes time")]
    cases.equal(f"month: and when, {ages} days ago", [it[:10] for it in titles[:5]],
                [day(it) for it in (16, 14, 12, 7, 3)])
    browser.go(f"/item/{SHORT}").heading("8086:7d8c has no name")
    cases.equal("month: a removed item", browser.has("It was called Short-lived and was removed"),
                True)
    browser.click("main .buttons a.button")
    browser.wait(lambda: browser.one("#name").get_property("value") == "Short-lived", "its name")
    browser.go("/proposals/2")
    browser.has("Restore the former name")
    dates = [it.get_attribute("title")[:10] for it in browser.all(".facts time")]
    cases.equal("month: a proposal", dates, [day(6), day(7)])
    browser.go("/search?q=imaginary")
    browser.wait(lambda: texts(browser, "#found li"), "what is found")
    browser.go("/")
    browser.has("Short-lived", ".latest")
    first = texts(browser, ".latest .changes li")[0]
    cases.equal("month: the start page", first.startswith("8086:7d8c Short-lived removed #6"), True)


def test_site_month(cases):
    program.need("gnupg", "gpgv", "jing", "pciutils")
    with World() as world, Browser(world.base) as browser:
        month = Month(world)
        month.live()
        there = os.path.join(world.folder, "published")
        shutil.copy(f"{there}/pci.ids", f"{world.folder}/public/pci.ids")
        files(cases, month, there)
        feeds(cases, there)
        programs(cases, world, there)
        days(cases, browser)
        items(cases, browser)
        cases.equal("month: the console", browser.faults(), [])
