"""Commands that are drawn: near each other and near what a registry holds, with few accounts, paths
and keys, and now and then with a form that breaks a rule."""
import random
import re

import pytest

from old_registry import canonical
from shims import SAMPLE
from slow_file import parent

ACCOUNTS = ("root", "mona", "bob", "sue", "joe")
PATHS = (
    "PC/10ec", "PC/10ec/8139", "PC/8086", "PC/8086/1237", "PC/8086/1237/1af41100", "PC/8086/7000",
    "PD/01", "PD/01/01", "PD/01/01/80", "PS/10ec/0001", "PS/8086/1100",
)
NAMES = ("Intel", "Other name", "Société  ", "a\tb", '"&+%=\\', "#;", "n" * 1_000)
TEXTS = ("seen", "no & why?", "ü\t+", "t" * 4_000)
KEYS = ("k1", "k2", "k3", "~!+&=%41;", "k" * 64)
# How often each command is drawn.
VERBS = {"account": 2, "submit": 8, "comment": 2, "withdraw": 2, "approve": 6, "confirm": 4,
         "reject": 2, "import": 3}

LONG_TEXT, BAD_TEXTS = "t" * 4_001, ("a\nb", "\x7f", "\x00")
# Values that break the rule of their field.
BAD = {
    "who": ("", "Bob", "b_b", "b" * 33),
    "rank": ("", "4", "01", "+1"),
    "path": ("", "PC/80A6", "PC/8086/", "PC/8086/1237/1af4/1100", "PD/0", "PS/8086", "pc/8086"),
    "name": ("", " x", "\tx", "a\x1f", "\x7f", "n" * 1_001, "é" * 501),
    "num": ("", "0", "01", "x", " 1", "2000000001", "10000000000"),
    "was": (" x", "a\nb", "n" * 1_001),
    "remove": ("", "no", "Yes"),
    "note": (LONG_TEXT, *BAD_TEXTS),
    "text": ("", LONG_TEXT, *BAD_TEXTS),
    "reason": ("", LONG_TEXT, *BAD_TEXTS),
}
BAD_KEYS = ("", "a b", "k" * 65)
# Lines of files.
LINES = (
    b"8086  Intel", b"10EC\tThird\r", b"1af4 \t Red Hat", b"\t1237  440FX", b"\t7000 \t ISA",
    b"\t\t1AF4 1100  Card", b"C 01  Mass", b"\t01  IDE", b"\t\t80  Legacy", b"S 8086",
    b"S 10ec\t ", b"\t1100  Board", b"# none", b"", b" \t", b"A block", b"\t\t\tdeep", b"8086",
    b"8086 ", b"S 80860", b"8086  a\x01", b" 8086  I", b"C 1  x", b"C 01", b"\t\t1af41100  x",
    b"#\xff", b"1234  \xc3\xa9", b"\t1237  \xe2\x82", b"\t\t0001  too deep",
)


class Commands:
    """Draws commands for a registry; of an import the one field `file` has bytes."""

    def __init__(self, registry, seed):
        self.registry, self.random = registry, random.Random(seed)

    def one(self):
        """The verb, the account, the key and the fields of a command, which may break any rule."""
        chance = self.random
        verb, = chance.choices([*VERBS], VERBS.values())
        account = chance.choice(("root", "mona", *ACCOUNTS))
        key = chance.choice(KEYS) if chance.random() < 0.2 else None
        pairs = [*getattr(self, f"{verb}_fields")().items()]
        chance.shuffle(pairs)
        fault = chance.randrange(60)
        if fault == 0:
            account = chance.choice(("", "Root", "carol", "r" * 33))
        elif fault == 1:
            key = chance.choice(BAD_KEYS)
        elif fault < 8 and verb != "import":
            self.spoil(pairs, fault)
        return verb, account, key, pairs

    def spoil(self, pairs, fault):
        """Breaks the form of a command, or the rule of a value."""
        chance = self.random
        at = chance.randrange(len(pairs))
        name, value = pairs[at]
        if fault == 2:
            del pairs[at]
        elif fault == 3:
            pairs.append((name, value))
        elif fault == 4:
            pairs.append((chance.choice(("name", "remove", "num", "of")), "yes"))
        else:
            pairs[at] = name, chance.choice(BAD[name])

    def number(self):
        """The number of a submission, often of one that is pending."""
        rows = self.registry.submissions()
        pending = [it["num"] for it in rows if it["state"] == "pending"]
        if pending and self.random.random() < 0.7:
            return self.random.choice(pending)
        return self.random.randint(1, len(rows) + 1)

    def account_fields(self):
        return {"who": self.random.choice(ACCOUNTS), "rank": str(self.random.randrange(4))}

    def submit_fields(self):
        chance, fields = self.random, {"path": self.path()}
        if chance.random() < 0.75:
            fields["name"] = chance.choice(NAMES)
        else:
            fields["remove"] = "yes"
        return {**fields, "note": chance.choice(("", *TEXTS))} if chance.random() < 0.3 else fields

    def path(self):
        return self.random.choice(PATHS)

    def comment_fields(self):
        return {"num": str(self.number()), "text": self.random.choice(TEXTS)}

    def withdraw_fields(self):
        return {"num": str(self.number())}

    approve_fields = withdraw_fields

    def reject_fields(self):
        return {"num": str(self.number()), "reason": self.random.choice(TEXTS)}

    def confirm_fields(self):
        """Mostly of what is there now."""
        number, rows = self.number(), self.registry.submissions()
        path = rows[number - 1]["path"] if number <= len(rows) else ""
        was = self.registry.names().get(path, "")
        if self.random.random() < 0.2:
            was = self.random.choice(("", *NAMES))
        return {"num": str(number), "was": was}

    def import_fields(self):
        """A file of some paths and those above them, often with a line or two that is not of it."""
        chance = self.random
        paths = chance.sample(PATHS, chance.randrange(4))
        while above := [parent(it) for it in paths if parent(it) not in (None, *paths)]:
            paths += {*above}
        lines = canonical({it: chance.choice(NAMES) for it in paths}).splitlines()
        for _ in range(chance.choice((0, 0, 1, 1, 2))):
            line = chance.choice((chance.choice(LINES), chance.choice(lines)))
            lines.insert(chance.randint(0, len(lines)), line)
        if chance.random() < 0.3:
            # Digits may be in upper case, and lines may end with CR LF.
            lines = [re.sub(rb"^[^ ]*(?: |\t)", lambda it: it[0].upper(), it) for it in lines]
            return {"file": b"\r\n".join(lines)}
        return {"file": b"\n".join(lines)}


class Sampled:
    """What is drawn by a seed that the sample of a run gives."""

    def __init__(self, cases, seed):
        self.cases, self.seed, self.random = cases, seed, random.Random(seed)

    def commands_so_far(self):
        """How many commands there were before a comparison."""
        raise NotImplementedError

    def expect(self, name, got, want):
        """Compares. After a difference there is nothing more to compare."""
        at = f"{name}: seed {self.seed}, after {self.commands_so_far()} commands"
        self.cases.equal(at, got, want)
        if got != want:
            pytest.fail(f"PCIIDS_SAMPLE={SAMPLE}: {at}", pytrace=False)
