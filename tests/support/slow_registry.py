"""A slow registry that tests compare the program with. It keeps the list of the commands that were
accepted, and works out all else from that list each time, by docs/REGISTRY.md and docs/HTTP.md. Of
limits it knows that of the commands. It answers what a reply says in JSON, or raises the
refusal."""
import re
from typing import NamedTuple, Optional

import refusals
from old_registry import canonical
from slow_file import CONTROL, FileFault, is_name, names_of, parent

PAGE = 100
WORDS = {number: word for number, (word, _) in refusals.shown().items()}
HEX = {f"X{count}": f"[0-9a-f]{{{count}}}" for count in (2, 4, 8)}
PATH = re.sub("X.", lambda it: HEX[it[0]], "PC/X4(/X4(/X8)?)?|PD/X2(/X2(/X2)?)?|PS/X4/X4")


class Refused(Exception):
    def __init__(self, number, **more):
        self.told = {"ok": False, "refused": number, "word": WORDS[number], **more}


class Command(NamedTuple):
    """A command whose form is good. The field `file` has bytes, the others are texts."""

    verb: str
    account: str
    key: Optional[str]
    fields: dict


def is_path(text):
    return bool(re.fullmatch(PATH, text))


def is_account(text):
    return bool(re.fullmatch("[a-z0-9-]{1,32}", text))


def is_number(text):
    return bool(re.fullmatch("[1-9][0-9]{0,9}", text)) and int(text) <= 2_000_000_000


def is_text(text, least=1):
    return least <= len(text.encode()) <= 4_000 and not CONTROL.search(text)


# The fields that a command has to have, and those that it may have.
FIELDS = {
    "account": ({"who", "rank"}, set()),
    "submit": ({"path"}, {"name", "remove", "note"}),
    "comment": ({"num", "text"}, set()),
    "withdraw": ({"num"}, set()),
    "approve": ({"num"}, set()),
    "confirm": ({"num", "was"}, set()),
    "reject": ({"num", "reason"}, set()),
    "import": ({"file"}, set()),
}
# The rule of each field, and the refusal of a value that breaks it: the first of these is answered.
RULES = {
    "path": (1, is_path),
    "name": (2, is_name),
    "who": (3, is_account),
    "rank": (3, lambda text: text in ("0", "1", "2", "3")),
    "num": (3, is_number),
    "was": (3, lambda text: text == "" or is_name(text)),
    "remove": (3, lambda text: text == "yes"),
    "note": (3, lambda text: is_text(text, 0)),
    "text": (3, is_text),
    "reason": (3, is_text),
    "file": (3, lambda file: len(file) <= 4_194_304),
}
# The checks of each command in their order; an import is then refused by the reading of its file.
CHECKS = {
    "account": (4, 5, 10, 13),
    "submit": (4,),
    "comment": (4, 7),
    "withdraw": (4, 7, 9, 8),
    "approve": (4, 7, 8, 5, 10, 13, 11, 12),
    "confirm": (4, 7, 8, 5, 10, 30, 13, 11, 12),
    "reject": (4, 7, 8, 5, 10),
    "import": (4, 5),
}
STATES = {"approve": "approved", "confirm": "approved", "reject": "rejected"}
# What a list shows of a submission.
PENDING = ("author", "name", "num", "path")
QUEUED = (*PENDING, "note")
LISTED = (*PENDING, "decider", "reason", "state")


def check_who(account, key):
    """The rules of who sends a command, and of its key if it has one."""
    if not (is_account(account) and (key is None or re.fullmatch("[!-~]{1,64}", key))):
        raise Refused(3)


def command_of(verb, account, key, pairs):
    """The command that has these fields."""
    fields, (needed, more) = dict(pairs), FIELDS[verb]
    is_whole = len(fields) == len(pairs) and needed <= {*fields} <= needed | more
    if not is_whole or verb == "submit" and ("name" in fields) == ("remove" in fields):
        raise Refused(3)
    for field, (refusal, keeps_rule) in RULES.items():
        if field in fields and not keeps_rule(fields[field]):
            raise Refused(refusal)
    check_who(account, key)
    return Command(verb, account, key, fields)


def shown(row, keys):
    return {key: row[key] for key in keys}


class SlowRegistry:
    def __init__(self):
        # Commands that were accepted, each with its reply, the oldest first; and whether none is
        # accepted any more, since as many were counted as may be.
        self.accepted, self.is_full = [], False

    def rank(self, account):
        ranks = [int(it.fields["rank"]) for it, _ in self.accepted
                 if it.verb == "account" and it.fields["who"] == account]
        return ranks[-1] if ranks else 3 if account == "root" else None

    def kept(self, account, key):
        """The reply that is kept under a key."""
        return next((reply for it, reply in self.accepted
                     if key is not None and (it.account, it.key) == (account, key)), None)

    def submissions(self):
        """All submissions in order, as `/submission/NUM` shows them."""
        rows = []
        for it, _ in self.accepted:
            if it.verb == "submit":
                rows.append({
                    "num": len(rows) + 1, "author": it.account, "path": it.fields["path"],
                    "name": it.fields.get("name"), "note": it.fields.get("note", ""),
                    "state": "pending", "decider": "", "reason": "", "remarks": []})
            elif "num" in it.fields:
                row = rows[int(it.fields["num"]) - 1]
                if it.verb == "comment":
                    row["remarks"].append({"author": it.account, "text": it.fields["text"]})
                else:
                    row.update(state=STATES.get(it.verb, "withdrawn"), decider=it.account,
                               reason=it.fields.get("reason", ""))
        return rows

    def items(self):
        """The names by their paths, each with the number of the command that it is from."""
        items, rows = {}, self.submissions()
        for number, (it, _) in enumerate(self.accepted, 1):
            names = names_of(it.fields["file"]) if it.verb == "import" else {}
            if STATES.get(it.verb) == "approved":
                row = rows[int(it.fields["num"]) - 1]
                names = {row["path"]: row["name"]}
            for path, name in names.items():
                if name is None:
                    del items[path]
                elif path not in items or items[path][0] != name:
                    items[path] = name, number
        return items

    def names(self):
        """The names by their paths, in the order of these."""
        return {path: name for path, (name, _) in sorted(self.items().items())}

    def obey(self, command):
        """The reply to a command."""
        reply = self.kept(command.account, command.key)
        if reply is None:
            failed = self.failed(command)
            for check in CHECKS[command.verb]:
                if failed[check]:
                    raise Refused(check)
            reply = self.reply(command)
            if self.is_full:
                raise Refused(15)
            self.accepted.append((command, reply))
        return reply

    def failed(self, command):
        """Which checks a command fails. What is said of one that others precede holds if these do
        not fail."""
        verb, account, _, fields = command
        rank, rows, names = self.rank(account), self.submissions(), self.names()
        number = int(fields.get("num", 0))
        row = rows[number - 1] if 0 < number <= len(rows) else None
        path, name, author = (row["path"], row["name"], row["author"]) if row else (None,) * 3
        now, above = names.get(path), parent(path) if path else None
        needed = {"account": 3, "import": 2}.get(verb, 2 if name is None or above is None else 1)
        is_own, is_done = account == fields.get("who", author), now == name
        if verb == "account":
            is_done = self.rank(fields["who"]) == int(fields["rank"])
        return {
            4: rank is None,
            5: rank is not None and rank < needed,
            7: row is None,
            8: row is not None and row["state"] != "pending",
            9: not is_own,
            10: is_own,
            11: name is not None and above is not None and above not in names,
            12: name is None and path in map(parent, names),
            13: is_done,
            30: fields.get("was", "") != (now or ""),
        }

    def reply(self, command):
        """What an accepted command is answered."""
        if command.verb == "submit":
            return {"num": len(self.submissions()) + 1, "ok": True}
        if command.verb != "import":
            return {"ok": True}
        try:
            names, before = names_of(command.fields["file"]), self.names()
        except FileFault as fault:
            raise Refused(14, line=fault.line, kind=fault.kind) from None
        added = len(names.keys() - before.keys())
        same = len(names.items() & before.items())
        return {"added": added, "ok": True, "renamed": len(names) - added - same, "same": same}

    def text(self):
        return canonical(self.names())

    def read(self, path):
        if not is_path(path):
            raise Refused(1)
        if path not in self.names():
            raise Refused(25)
        return {"name": self.names()[path], "path": path}

    def children(self, of):
        if of != "":
            self.read(of)
        return [{"name": name, "path": path} for path, name in self.names().items()
                if parent(path) == (of or None)]

    def submission(self, number):
        if not is_number(number):
            raise Refused(3)
        if int(number) > len(self.submissions()):
            raise Refused(7)
        return self.submissions()[int(number) - 1]

    def remarks(self, number, after):
        """The submission with the remarks after a place, and how many there are in all."""
        found = self.submission(number)
        placed = [{**it, "place": place} for place, it in enumerate(found["remarks"], 1)]
        page = [it for it in placed if it["place"] > after][:PAGE]
        return {**found, "count": len(placed), "remarks": page}

    def waiting(self, after):
        """A page of what is pending."""
        found = [it for it in self.submissions() if it["state"] == "pending" and it["num"] > after]
        return found[:PAGE]

    def pending(self, after):
        return [shown(it, PENDING) for it in self.waiting(after)]

    def queue(self, after):
        names = self.names()
        return [{**shown(it, QUEUED), "now": names.get(it["path"]), "remarks": len(it["remarks"])}
                for it in self.waiting(after)]

    def listed(self, path, author, before):
        """The rows of all pages of `/submissions`."""
        return [{**shown(it, LISTED), "remarks": len(it["remarks"])}
                for it in reversed(self.submissions())
                if path in ("", it["path"]) and author in (None, it["author"])
                and (before == 0 or it["num"] < before)]

    def changes(self, since, after):
        items = [{"name": name, "path": path, "since": number}
                 for path, (name, number) in sorted(self.items().items())
                 if number > since and path > after]
        return {"items": items[:PAGE], "revision": len(self.accepted)}

    def status(self):
        rows, accounts = self.submissions(), {"root"}
        accounts.update(it.fields["who"] for it, _ in self.accepted if it.verb == "account")
        pending = [it for it in rows if it["state"] == "pending"]
        return {"accounts": len(accounts), "items": len(self.names()), "pending": len(pending),
                "revision": len(self.accepted), "submissions": len(rows)}

    def account(self, who):
        if self.rank(who) is None:
            raise Refused(29)
        return {"rank": self.rank(who), "who": who}
