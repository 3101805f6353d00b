"""A registry in the size that users have: thousands of items and some hundreds of submissions in
every state, as the commands that lead to it and as the rows of schema 1 that show it. From a fixed
seed."""
import random
from urllib.parse import quote_plus

from program import HEADER

PENDING, APPROVED, REJECTED, WITHDRAWN = range(4)
STATES = ("pending", "approved", "rejected", "withdrawn")
RANKS = {"alice": 0, "carol": 0, "eve-2": 0, "bob": 1, "frank": 1, "dora": 2, "mona": 2, "gina": 3}

WORDS = [
    "Ethernet",
    "Controller",
    "Bridge",
    "O'Reilly's",
    'a "quoted" one',
    "100%",
    "x_y",
    "Gerät",
    "芯片",
    "😀",
    "#1",
    "[rev 2]",
    "tab\there",
    "&",
    "a+b=c",
    "\\",
    "--",
    "C 01",
    "ends in blanks  ",
]


def line_of(path, name):
    """The line of an item in the canonical text."""
    kind, *ids = path.split("/")
    if kind == "PC" and len(ids) == 3:
        ids[2] = f"{ids[2][:4]} {ids[2][4:]}"
    return (
        "\t" * (len(ids) - 1)
        + ("C " if kind == "PD" and len(ids) == 1 else "")
        + f"{ids[-1]}  {name}\n"
    )


def canonical(items):
    lines, block = [HEADER.decode()], None
    for path in sorted(items):
        if path.startswith("PS/") and path[:7] != block:
            block = path[:7]
            lines.append(f"S {block[3:]}\n")
        lines.append(line_of(path, items[path]))
    return "".join(lines).encode()


class Registry:
    """The commands and their replies so far, and what they came to: the rows of each table."""

    def __init__(self):
        self.chance = random.Random(20)
        self.lines, self.keys = [], 0
        self.accounts, self.items = {"root": 3}, {}
        self.submissions, self.remarks, self.receipts = [], [], {}

    def command(self, verb, who, fields, reply, receipt, has_key):
        if has_key:
            self.keys += 1
            key = self.chance.choice(["{}", "day/{}", "k+{}&x=%41", "~{}!"]).format(self.keys)
            fields = {**fields, "key": key}
            self.receipts[who, key] = receipt
        self.lines.append(
            (
                f"{verb} {who} "
                + "&".join(
                    f"{name}={quote_plus(str(value), safe='/')}" for name, value in fields.items()
                ),
                reply,
            )
        )

    def done(self, verb, who, fields):
        self.command(verb, who, fields, "ok", (0, 0, 0, 0), self.chance.random() < 0.3)

    def words(self, most):
        return " ".join(self.chance.choice(WORDS) for _ in range(self.chance.randint(1, most)))

    def text(self):
        """A note, a remark or a reason: mostly short, sometimes of 4,000 bytes."""
        return "x" * 4_000 if self.chance.random() < 0.01 else self.words(12)

    def name(self):
        return "y" * 1_000 if self.chance.random() < 0.005 else self.words(4)

    def bring_in(self, who, items):
        """The items as the file of an import."""
        added = sum(path not in self.items for path in items)
        same = sum(self.items.get(path) == name for path, name in items.items())
        counts = added, len(items) - added - same, same
        self.command(
            "import",
            who,
            {"file": canonical(items).decode()},
            "ok added=%d renamed=%d same=%d" % counts,
            (2, *counts),
            True,
        )
        self.items.update(items)

    def submit(self, author, path, name):
        num, note = len(self.submissions) + 1, self.chance.choice(["", self.text()])
        form = {"remove": "yes"} if name is None else {"name": name}
        if note:
            form["note"] = note
        self.command(
            "submit",
            author,
            {"path": path, **form},
            f"ok {num}",
            (1, num, 0, 0),
            self.chance.random() < 0.6,
        )
        self.submissions.append(
            [num, author, path, int(name is None), name or "", note, PENDING, "", ""]
        )

    def decide(self, submission, state):
        num, author, path, removes, name = submission[:5]
        if state == WITHDRAWN:
            decider, reason = author, ""
            self.done("withdraw", author, {"num": num})
        else:
            decider = self.chance.choice(
                [who for who, rank in self.accounts.items() if rank >= 2 and who != author]
            )
            reason = self.text() if state == REJECTED else ""
            self.done(
                "approve" if state == APPROVED else "reject",
                decider,
                {"num": num, "reason": reason} if reason else {"num": num},
            )
        if state == APPROVED and removes:
            del self.items[path]
        elif state == APPROVED:
            self.items[path] = name
        submission[6:] = state, decider, reason

    def remark(self, who, num):
        seq, body = 1 + sum(it[0] == num for it in self.remarks), self.text()
        self.done("comment", who, {"num": num, "text": body})
        self.remarks.append((num, seq, who, body))

    def tables(self):
        """The rows of each table of schema 1."""
        counts = [("schema", 1), ("items", len(self.items)), ("submissions", len(self.submissions))]
        receipts = [(*whose, *told) for whose, told in self.receipts.items()]
        return {
            "meta": counts,
            "account": list(self.accounts.items()),
            "item": list(self.items.items()),
            "submission": self.submissions,
            "remark": self.remarks,
            "receipt": receipts,
        }

    def inserts(self):
        """The statements that write these rows, in any order of keys."""
        for table, rows in self.tables().items():
            rows = [
                f"({', '.join(quoted(value) for value in row)})"
                for row in self.chance.sample(rows, len(rows))
            ]
            for first in range(0, len(rows), 500):
                yield f"INSERT INTO {table} VALUES {', '.join(rows[first:first + 500])};\n"

    def discussion(self, submission):
        """What the registry shows of a submission and its remarks, as text."""
        num, author, path, removes, name, note, state, decider, reason = submission
        lines = [
            f"num {num}",
            f"author {author}",
            f"path {path}",
            "remove" if removes else f"name {name}",
            f"note {note}",
        ]
        lines += [f"state {STATES[state]}", f"decider {decider}", f"reason {reason}"]
        lines += [f"remark {who} {body}" for of, _, who, body in self.remarks if of == num]
        return "".join(line + "\n" for line in lines).encode()


def quoted(value):
    return str(value) if isinstance(value, int) else "'" + value.replace("'", "''") + "'"


def first_items(registry):
    """The items of the first file: vendors below f000 and what stands under them, classes, generic
    subsystems."""
    chance, items = registry.chance, {}

    def put(path, digits, most):
        for number in chance.sample(range(16**digits), chance.randint(0, most)):
            items[f"{path}{number:0{digits}x}"] = registry.name()
            yield f"{path}{number:0{digits}x}"

    for number in chance.sample(range(0xF000), 300):
        vendor = f"{number:04x}"
        items[f"PC/{vendor}"] = registry.name()
        for device in put(f"PC/{vendor}/", 4, 16):
            for _ in put(f"{device}/", 8, chance.choice([0, 0, 3])):
                pass
        for _ in put(f"PS/{vendor}/", 4, chance.choice([0, 0, 0, 5])):
            pass
    for device in put("PD/", 2, 20):
        for below in put(f"{device}/", 2, 6):
            for _ in put(f"{below}/", 2, 3):
                pass
    return items


def made():
    """The registry of these tests."""
    registry = Registry()
    for who, rank in RANKS.items():
        registry.done("account", "root", {"who": who, "rank": rank})
        registry.accounts[who] = rank
    registry.bring_in("root", first_items(registry))
    chance, people = registry.chance, [*registry.accounts]
    for number in range(600):
        if number % 100 == 50:
            named = {
                path: registry.name() if chance.random() < 0.5 else registry.items[path]
                for path in registry.items
                if path.count("/") == 1 and path[:2] != "PS"
            }
            registry.bring_in(
                chance.choice(["dora", "gina"]), {**named, f"PC/{0xf000 + number:04x}": "A vendor"}
            )
        known = (
            [path for path in registry.items if path.startswith("PC/")]
            if number % 50 == 0
            else known
        )
        path, name = chance.choice(known), registry.name()
        what = chance.randrange(4)
        if what == 0 and path.count("/") == 1:
            path = f"{path}/{chance.randrange(0x10000):04x}"
        elif what == 1:
            name = None
        registry.submit(chance.choice(people), path, name)
        for _ in range(chance.choice([0, 0, 1, 3])):
            registry.remark(chance.choice(people), chance.randint(1, number + 1))
        submission = chance.choice(registry.submissions)
        if submission[6] == PENDING:
            state = chance.choice([APPROVED, APPROVED, REJECTED, WITHDRAWN])
            path, name = submission[2], submission[4]
            has_below = any(
                other.startswith(path + "/") or other.startswith(f"PS/{path[3:]}/")
                for other in registry.items
            )
            is_idle = (
                name == registry.items.get(path)
                if name
                else path not in registry.items or has_below
            )
            is_loose = name and path.rpartition("/")[0] not in (*registry.items, "PC")
            if state != APPROVED or not (is_idle or is_loose):
                registry.decide(submission, state)
    return registry
