"""What is made of the history for those who read a part of it: a day, a vendor, an account, a
proposal, the latest, a month in numbers. All of it can be made again from the logs."""
import os

from files import as_json, as_lines, read_file, read_json, rows_of, write_file, write_packed
from history import went_back
from proposals import Followed

LATEST = 200
# An import of more names is one entry among the latest.
FEW = 20
# Proposals of one file of dates.
BUCKET = 100
KINDS = ("added", "renamed", "removed")


def kind_of(row):
    """What a row does to the name."""
    return "added" if row["was"] is None else "removed" if row["now"] is None else "renamed"


def top_of(path):
    """The vendor or class of a path."""
    return f"PC/{path[3:7]}" if path[1] != "D" else path[:5]


def time_in(line):
    """The time of a line of JSON, which is its first value."""
    return line[9:29].decode()


def counted(rows):
    kinds = [kind_of(it) for it in rows]
    return {it: kinds.count(it) for it in KINDS}


def grouped(rows, key):
    """Rows by a key, in the order of its first appearance."""
    groups = {}
    for row in rows:
        groups.setdefault(key(row), []).append(row)
    return groups


def folded(rows):
    """Rows, the latest run first, with one entry in place of many that an import changed."""
    found = []
    for (when, how), group in grouped(rows, lambda it: (it["time"], it["how"])).items():
        is_many = how != "proposal" and len(group) > FEW
        found.append([{"time": when, "how": how, **counted(group)}] if is_many else group)
    return [it for group in reversed(found) for it in group]


def statistics(month, changes, decisions):
    """A month in numbers: by day, by vendor and class, by person."""
    by_day = grouped(changes, lambda it: it["time"][8:10])
    proposed = [it for it in changes if it["how"] == "proposal"]
    tops = {it: len(rows) for it, rows in grouped(proposed, lambda it: top_of(it["path"])).items()}
    people = {}
    for row in decisions:
        one = people.setdefault(row["author"], {})
        one[row["state"]] = one.get(row["state"], 0) + 1
        if row["state"] != "withdrawn":
            other = people.setdefault(row["decider"], {})
            other["decided"] = other.get("decided", 0) + 1
    return {
        "month": month, "days": {day: counted(rows) for day, rows in by_day.items()},
        "proposed": len(proposed), "tops": tops, "people": people,
    }


class Views:
    """The files of a folder that follow from its logs."""

    def __init__(self, history):
        self.history, self.folder = history, history.folder

    def path(self, name):
        return os.path.join(self.folder, name)

    def write(self, changes, decisions):
        """Brings all up to date with the rows that no run has worked up. Returns what was
        written for feeds: each with its rows, the latest first."""
        for month in sorted({it["time"][:7] for it in changes + decisions}):
            self.write_month(month, {it["time"][:10] for it in changes})
        self.write_index()
        self.write_proposals(decisions)
        found = {"changes": self.write_latest(changes)}
        for top, rows in grouped(changes, lambda it: top_of(it["path"])).items():
            found[top] = folded(self.write_rows(f"{top}.jsonl", rows))[:LATEST]
        for author, rows in grouped(decisions, lambda it: it["author"]).items():
            whole = self.write_rows(f"by/{author}.jsonl", rows)
            found[f"by/{author}"] = whole[::-1][:LATEST]
        return found

    def write_month(self, month, days):
        changes = self.history.changes.month(month)
        decisions = self.history.decisions.month(month)
        write_file(self.path(f"{month}.json"), as_json(statistics(month, changes, decisions)))
        for day, rows in grouped(changes, lambda it: it["time"][:10]).items():
            if day in days:
                write_packed(self.path(f"{day}.jsonl"), as_lines(rows))

    def write_index(self):
        """The months, and when the history begins."""
        calendar = self.history.calendar
        with open(calendar.path(calendar.names[0]), "rb") as file:
            began = rows_of(file.readline())[0]
        months = {it[:7] for log in (self.history.changes, self.history.decisions)
                  for it in (name.removeprefix(log.front) for name in log.names)}
        index = {"began": began["time"], "revision": began["revision"],
                 "submissions": began["submissions"], "months": sorted(months)}
        write_file(self.path("index.json"), as_json(index))

    def write_latest(self, changes):
        if not changes:
            return read_json(self.path("latest.json"), [])
        old = read_json(self.path("latest.json"), [])
        old = [it for it in old if it["time"] < changes[0]["time"]]
        latest = [*folded(changes), *old][:LATEST]
        write_packed(self.path("latest.json"), as_json(latest))
        return latest

    def write_rows(self, name, rows):
        """Adds rows to a file of them, in place of those of unfinished runs. Returns the latest:
        all of the runs that they are of."""
        lines = (read_file(self.path(name)) or b"").splitlines(keepends=True)
        while lines and time_in(lines[-1]) >= rows[0]["time"]:
            lines.pop()
        write_packed(self.path(name), b"".join(lines) + as_lines(rows))
        first = max(0, len(lines) - LATEST)
        while first and time_in(lines[first - 1]) == time_in(lines[first]):
            first -= 1
        return rows_of(b"".join(lines[first:])) + rows

    def write_proposals(self, decisions):
        """When proposals were made, and decided."""
        dates = {}
        for num, when in self.proposed():
            dates.setdefault(num // BUCKET, {})[f"proposed {num}"] = when
        for row in decisions:
            dates.setdefault(row["num"] // BUCKET, {})[f"decided {row['num']}"] = row["time"]
        for bucket, new in dates.items():
            path = self.path(f"proposals/{bucket}.json")
            write_file(path, as_json({**read_json(path, {}), **new}))

    def proposed(self):
        """The numbers of proposals that no run has worked up, each with its date."""
        kept = self.history.kept
        if not kept:
            return
        known = kept["submissions"]
        for row in self.history.calendar.after([f"calendar-{kept['time'][:7]}.jsonl", 0]):
            if row["time"] > kept["time"]:
                known = min(known, row["submissions"])
                yield from ((num, row["time"]) for num in range(known + 1, row["submissions"] + 1))
                known = row["submissions"]


def work_up(history, registry, counts, names, published):
    """Notes what is new, and brings what is made of it up to date: the changes, the rows of each
    feed that they belong to, and the proposals to follow."""
    followed, other = Followed(history.kept), "import" if history.kept else "unknown"
    if history.kept and went_back(history.kept, counts):
        other = "restore"
    history.note_counts(counts)
    decided = history.note_decisions(followed, registry, counts)
    fresh = [it for it in decided if it["state"] == "approved"]
    changes = history.note_changes(names, published, followed.approved + fresh, other)
    used = {it["num"] for it in changes}
    followed.approved = [it for it in fresh if it["num"] not in used]
    rows = Views(history).write(changes, decided)
    return changes, rows, followed
