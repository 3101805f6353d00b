"""Histories that are drawn, through the program and through a slow registry: the same replies to
all commands, and the same answers to all questions. The text and the lists that a registry keeps
in memory, and remarks, are asked for after nearly each command. The registry's file is opened
again and again, by scripts, and by servers, which are killed."""
import json
import os
from urllib.parse import urlencode

import pytest

import refusals
from answer_texts import as_json, as_text
from generated import ACCOUNTS, NAMES, PATHS, Commands, Sampled
from http_server import Server, posted, read_reply
from old_registry import canonical
from program import WHOLE
from registry import asked, work
from shims import SAMPLE
from slow_file import parent
from slow_registry import Refused, SlowRegistry, check_who, command_of

STATUSES = {number: status for number, (_, status) in refusals.shown().items()}
# Commands in a session at most, after how many everything is asked, and how many make a history.
SESSION, EACH, HISTORY = 24, 8, 500
# After how many of ten commands what is kept is asked for: it must follow two in a row, too.
OFTEN = 8
# A mirror that polls asks for the changes of so many commands at most.
FEW = 5
# Items, submissions and remarks of a history that begins with more than pages have.
MANY = 130


def told(question, *words):
    """The answer to a question, or its refusal."""
    try:
        return question(*words)
    except Refused as refused:
        return refused.told


class History(Sampled):
    """The same commands for both, over one file."""

    def __init__(self, cases, path, seed):
        super().__init__(cases, seed)
        self.path, self.slow = path, SlowRegistry()
        self.commands, self.count = Commands(self.slow, seed), 0

    def commands_so_far(self):
        return self.count

    def draw(self):
        self.count += 1
        return self.commands.one()

    def is_asked(self):
        return self.random.randrange(10) < OFTEN

    # Scripts.

    def line_and_reply(self, verb, account, key, pairs):
        """The line of a command, and its reply."""
        # What is not UTF-8 in a field is replaced as it is decoded.
        pairs = [(name, value.decode(errors="replace") if name == "file" else value)
                 for name, value in pairs]
        fields = pairs + [("key", key)] * (key is not None)
        self.random.shuffle(fields)
        read = [(name, value.encode() if name == "file" else value) for name, value in pairs]
        reply = told(lambda: self.slow.obey(command_of(verb, account, key, read)))
        return f"{verb} {account} {urlencode(fields)}", as_text(reply)

    def export(self):
        return "export", self.slow.text().decode()

    def questions_of_scripts(self):
        path = self.random.choice((*PATHS, "PC/80A6"))
        item, vendor = told(self.slow.read, path), self.slow.names().get("PC/8086")
        yield f"read path={path}", f"name {item['name']}\n" if "name" in item else as_text(item)
        yield "lookup flags=1&vendor=8086", f"text {vendor or 'Vendor 8086'}\n"
        yield self.export()

    def run_script(self, rows):
        """Runs a script of rows: lines, each with its reply."""
        out, err, status = work("".join(f"{line}\n" for line, _ in rows).encode(),
                                "script", "--db", self.path)
        for line, reply in rows:
            got, out = out[:len(reply.encode())], out[len(reply.encode()):]
            self.expect(line, got.decode(errors="replace"), reply)
        self.expect("the end of a script", (out, err, status), (b"", b"", 0))

    def session_of_script(self, commands):
        rows = []
        for number, command in enumerate(commands):
            rows.append(self.line_and_reply(*command))
            if number % EACH == 0:
                rows += self.questions_of_scripts()
            elif self.is_asked():
                rows.append(self.export())
        self.run_script(rows)

    # HTTP.

    def send(self, verb, account, key, pairs):
        """A command, and its reply in one of the formats."""
        def reply():
            check_who(account, key)
            return self.slow.obey(command_of(verb, account, key, pairs))

        body = pairs[0][1] if verb == "import" else urlencode(pairs).encode()
        target, fields = f"/{verb}", [f"X-Key: {key}"] * (key is not None)
        self.expect_answer(target, told(reply), lambda it: posted(it, account, body, *fields))

    def expect_answer(self, target, want, request, formats=None):
        for form in formats or [self.random.choice(("", "json", "text"))]:
            asked = f"{target}{'&' if '?' in target else '?'}format={form}" if form else target
            self.client.sendall(request(asked))
            body = as_text(want).encode() if form == "text" else as_json(want)
            status = STATUSES[want["refused"]] if "refused" in want else 200
            self.expect(asked, read_reply(self.stream), (status, body))

    def ask(self, target, want, formats=("json", "text")):
        def request(it):
            return f"GET {it} HTTP/1.1\r\n\r\n".encode()

        self.expect_answer(target, want, request, formats)

    def ask_pages(self, words, want):
        """The pages of a list of submissions, each of which says where the next one begins."""
        rows, before = [], words["before"]
        for _ in range(len(want) + 2):
            query = urlencode({**words, "before": before})
            self.client.sendall(f"GET /submissions?{query} HTTP/1.1\r\n\r\n".encode())
            page = json.loads(read_reply(self.stream)[1])
            self.expect("the rows of a page", len(page["submissions"]) <= 100, True)
            rows, before = rows + page["submissions"], page["before"]
            if before == 0:
                break
        self.expect(f"/submissions: {words}", (rows, before), (want, 0))

    def ask_text(self):
        self.client.sendall(b"GET /pci.ids HTTP/1.1\r\n\r\n")
        self.expect("/pci.ids", read_reply(self.stream), (200, self.slow.text()))

    def ask_kept(self):
        """The text, and the lists that a registry keeps and each command renews; and remarks."""
        slow, chance = self.slow, self.random
        rows, revision = len(slow.submissions()), len(slow.accepted)
        self.ask_text()
        self.ask("/children", slow.children(""), None)
        since, after = chance.choice((
            (max(revision - chance.randint(0, FEW), 0), ""),
            (chance.randint(0, revision), chance.choice(("", *PATHS))),
        ))
        self.ask(f"/changes?since={since}&after={after}", slow.changes(since, after), None)
        self.ask("/status", slow.status(), None)
        self.ask("/pending", slow.pending(0), None)
        path, author = chance.choice(PATHS), chance.choice(ACCOUNTS)
        for words in {"path": path}, {"author": author}, {"path": path, "author": author}:
            before = chance.choice((0, chance.randint(1, rows + 2)))
            want = slow.listed(words.get("path", ""), words.get("author"), before)
            self.ask_pages({**words, "before": before}, want)
        self.ask_remarks(chance.choice((1, chance.randint(1, rows + 1))), None)

    def ask_remarks(self, number, formats):
        after = self.random.choice((0, 1, 100, self.random.randint(0, MANY)))
        want = told(self.slow.remarks, str(number), after)
        self.ask(f"/remarks?num={number}&after={after}", want, formats)

    def ask_everything(self):
        slow, chance = self.slow, self.random
        rows, revision = len(slow.submissions()), len(slow.accepted)
        self.ask_kept()
        for path in chance.sample((*PATHS, "PC/80A6", "PD"), 4):
            self.ask(f"/read/{path}", told(slow.read, path))
            self.ask(f"/children?of={path}", told(slow.children, path))
        self.ask("/children", slow.children(""))
        for number in (chance.randint(1, rows + 1), "0", "01"):
            self.ask(f"/submission/{number}", told(slow.submission, str(number)))
        for number in (1, chance.randint(1, rows + 1)):
            self.ask_remarks(number, ("json", "text"))
        for after in (0, chance.randint(0, rows)):
            self.ask(f"/pending?after={after}", slow.pending(after))
            self.ask(f"/queue?after={after}", slow.queue(after))
        for since, after in (0, ""), (chance.randint(0, revision), chance.choice(("", *PATHS))):
            self.ask(f"/changes?since={since}&after={after}", slow.changes(since, after))
        self.ask("/status", slow.status())
        for who in (*ACCOUNTS, "carol"):
            self.ask(f"/account?who={who}", told(slow.account, who))
        before = chance.choice((0, chance.randint(1, rows + 2)))
        self.ask_pages({"path": "", "before": before}, slow.listed("", None, before))

    def session_of_server(self, commands):
        with Server(self.path, program=WHOLE) as server, server.connect() as self.client:
            self.stream = self.client.makefile("rb")
            for number, command in enumerate(commands):
                self.send(*command)
                if command[0] in ("approve", "confirm"):
                    self.ask_text()
                if number % EACH == 0:
                    self.ask_everything()
                elif self.is_asked():
                    self.ask_kept()

    def go_on(self):
        """Sessions of scripts and of servers in turn, until the history has its commands."""
        sessions = [self.session_of_script, self.session_of_server]
        while self.count < HISTORY:
            count = self.random.randint(1, SESSION)
            sessions[0](self.draw() for _ in range(count))
            sessions.reverse()


def many(history):
    """More items, submissions and remarks than a page has."""
    devices = "".join(f"\t{number:04x}  {NAMES[0]}\n" for number in range(MANY))
    yield "import", "root", None, [("file", f"10ec  Many\n{devices}".encode())]
    for number in range(MANY):
        path = PATHS[2] if number % 3 else f"PC/8086/{number:04x}"
        yield "submit", "root", None, [("path", path), ("name", f"{number}")]
        yield "comment", "root", None, [("num", "1"), ("text", f"{number}")]


@pytest.mark.parametrize("number", range(3))
def test_near(cases, room, number):
    """Of few paths, accounts and keys."""
    history = History(cases, os.path.join(room, "near.db"), SAMPLE + number)
    history.go_on()


def test_many(cases, room):
    """From more than pages have."""
    history = History(cases, os.path.join(room, "many.db"), SAMPLE)
    history.session_of_script(many(history))
    history.go_on()


# Paths that stand side by side, and the first and the last of each kind.
BESIDE = (
    "PC/0000", "PC/0000/0000", "PC/0000/0000/00000000", "PC/8086", "PC/8086/1237", "PC/8086/1238",
    "PC/8086/1237/1af41100", "PC/8086/1237/1af41101", "PC/ffff", "PC/ffff/ffff",
    "PC/ffff/ffff/ffffffff", "PD/00", "PD/00/00", "PD/00/00/00", "PD/01", "PD/01/01", "PD/01/01/80",
    "PD/ff", "PD/ff/ff", "PD/ff/ff/ff", "PS/0000/0000", "PS/0000/0001", "PS/8086/1100",
    "PS/8086/1101", "PS/8086/1102", "PS/ffff/ffff",
)


def each_write(registry, chance, count):
    """Commands that add items one by one, and then rename and remove some and add them again. In
    the end all of them are removed."""
    yield "account", "root", None, [("who", "mona"), ("rank", "2")]
    for number in range(count):
        names, path = registry.names(), chance.choice(BESIDE)
        while parent(path) not in (None, *names):
            path = parent(path)
        has_more = any(parent(it) == path for it in names)
        removes = number % 100 > 50 and path in names and not has_more
        change = ("remove", "yes") if removes else ("name", chance.choice(NAMES))
        yield from approved(registry, path, change)
    while registry.names():
        names = registry.names()
        path = chance.choice([it for it in names if it not in map(parent, names)])
        yield from approved(registry, path, ("remove", "yes"))


def approved(registry, path, change):
    yield "submit", "mona", None, [("path", path), change]
    yield "approve", "root", None, [("num", str(len(registry.submissions())))]


def test_renewed(cases, room):
    """The text after each item that was written, while it is kept and read anew."""
    history = History(cases, os.path.join(room, "renewed.db"), SAMPLE)
    rows = [("export", history.slow.text().decode())]
    for command in each_write(history.slow, history.random, 300):
        rows.append(history.line_and_reply(*command))
        rows.append(("export", history.slow.text().decode()))
        if len(rows) > 200:
            history.run_script(rows)
            rows = [("export", history.slow.text().decode())]
    history.run_script(rows)


# Paths of items with others below and without, and of others with a parent and without; and the
# names of the items.
MISSING = ("PC/1af4", "PC/8086/7000", "PC/1af4/1000", "PD/02")
EACH_PATH = ("PC/8086", "PC/10ec", "PC/8086/1237", "PC/8086/1237/1af41100", "PD/01", "PD/01/01",
             "PD/01/01/80", "PS/8086/1100", *MISSING)
ITEMS = {path: NAMES[0] for path in EACH_PATH if path not in MISSING}
RANKS = {"adm": "3", "mona": "2", "bob": "1", "sue": "0"}


def each_submission(registry):
    """Commands after which there is an account of each rank, and a submission of each kind."""
    for who, rank in RANKS.items():
        yield "account", "root", None, [("who", who), ("rank", rank)]
    yield "import", "root", "used", [("file", canonical(ITEMS))]
    for author in ("mona", "bob"):
        for path in EACH_PATH:
            for proposal in (("name", NAMES[0]), ("name", NAMES[1]), ("remove", "yes")):
                yield "submit", author, None, [("path", path), proposal]
    for verb, by, more in (("withdraw", "bob", []), ("reject", "mona", [("reason", "no")]),
                           ("approve", "mona", [])):
        for proposal in (("name", verb), ("remove", "yes")):
            yield "submit", "bob", None, [("path", "PC/10ec"), proposal]
            yield verb, by, None, [("num", str(len(registry.submissions()))), *more]


def each_command(registry):
    """Each command by each account on each submission, and on one that is not there."""
    rows, names = registry.submissions(), registry.names()
    for account in (*RANKS, "root", "joe"):
        for row in [*rows, {"num": len(rows) + 1, "path": ""}]:
            number, now = ("num", str(row["num"])), names.get(row["path"], "")
            for verb in ("approve", "withdraw"):
                yield verb, account, None, [number]
            for was in ("", now or "a", NAMES[1]):
                yield "confirm", account, None, [number, ("was", was)]
            yield "reject", account, None, [number, ("reason", "no")]
            yield "comment", account, None, [number, ("text", "seen")]
        for who in (*RANKS, "root", "joe"):
            for rank in "0123":
                yield "account", account, None, [("who", who), ("rank", rank)]
        for key in (None, "used"):
            yield "submit", account, key, [("path", "PC/1af4"), ("name", NAMES[0])]
            for file in (canonical(ITEMS), b"8086 ", b"1af4  New"):
                yield "import", account, key, [("file", file)]


@pytest.mark.needs("sqlite3")
def test_each_check(cases, room):
    """In a registry that counts no more commands, what passes all other checks is refused as full.
    So each command is judged over the same history."""
    history = History(cases, os.path.join(room, "full.db"), 0)
    slow = history.slow
    history.session_of_script(each_submission(slow))
    sql = "UPDATE meta SET value = 9000000000000000000 WHERE label = 'revision'"
    history.expect("the revision is set", asked(history.path, sql), "")
    slow.is_full = True
    rows = [history.line_and_reply(*it) for it in each_command(slow)]
    numbers = {int(reply.split()[1]) for _, reply in rows if reply.startswith("refused")}
    cases.equal("all refusals", numbers, {4, 5, 7, 8, 9, 10, 11, 12, 13, 14, 15, 30})
    history.run_script(rows)
