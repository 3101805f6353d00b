"""The history of the published folder: what changed when, in files that only grow.

A `Log` is a line of JSON for each row, in a file for each month. What a run has worked up is kept
with a mark, the end of the log at that time. A run that was stopped left rows after the mark: the
next one takes them as they are, and adds only what they lack. So no row is lost, and none is there
twice.
"""
import calendar
import json
import os
import re
import time

from files import as_json, as_lines, read_json, rows_of, sync_folder, write_file
from proposals import change, decision


# No row is as long, in bytes.
LONGEST = 65_536


def clock():
    """Now, in seconds. Tests set PCIIDS_NOW."""
    return int(os.environ.get("PCIIDS_NOW") or time.time())


def stamp(seconds):
    return time.strftime("%Y-%m-%dT%H:%M:%SZ", time.gmtime(seconds))


def seconds_of(row):
    return calendar.timegm(time.strptime(row["time"], "%Y-%m-%dT%H:%M:%SZ")) if row else 0


def is_row(line):
    try:
        return isinstance(json.loads(line), dict)
    except ValueError:
        return False


class Log:
    """Rows with a `time`, in files FRONT2026-11.jsonl of a folder."""

    def __init__(self, folder, front=""):
        self.folder, self.front = folder, front
        form = re.compile(rf"{front}\d{{4}}-\d\d\.jsonl")
        self.names = sorted(filter(form.fullmatch, os.listdir(folder)))

    def path(self, name):
        return os.path.join(self.folder, name)

    def mend(self):
        """Cuts off a last line that a stop has left torn."""
        for name in self.names[-1:]:
            with open(self.path(name), "rb+") as file:
                data = file.read()
                end = data.rfind(b"\n") + 1
                # A power failure may leave a line of another text, too.
                while end and not is_row(data[data.rfind(b"\n", 0, end - 1) + 1 : end]):
                    end = data.rfind(b"\n", 0, end - 1) + 1
                if end != len(data):
                    file.truncate(end)
                    os.fsync(file.fileno())
            if not end:
                os.remove(self.path(self.names.pop()))

    def mark(self):
        """The end of the log: its last file, and the length of that."""
        last = self.names[-1:]
        return [*last, *(os.path.getsize(self.path(it)) for it in last)] or ["", 0]

    def after(self, mark):
        """The rows after a mark."""
        return [row for name in self.names if name >= mark[0]
                for row in self.rows(name, mark[1] if name == mark[0] else 0)]

    def rows(self, name, start=0):
        """The rows of a file from a place on."""
        with open(self.path(name), "rb") as file:
            file.seek(start)
            return rows_of(file.read())

    def month(self, month):
        """The rows of a month."""
        name = f"{self.front}{month}.jsonl"
        return self.rows(name) if name in self.names else []

    def last(self):
        """The last row, or None."""
        name, length = self.mark()
        if not length:
            return None
        with open(self.path(name), "rb") as file:
            file.seek(max(0, length - LONGEST))
            return json.loads(file.read().splitlines()[-1])

    def append(self, rows):
        """Adds rows of one time. They are on the disk when this returns."""
        if not rows:
            return
        name = f"{self.front}{rows[0]['time'][:7]}.jsonl"
        with open(self.path(name), "ab") as file:
            file.write(as_lines(rows))
            file.flush()
            os.fsync(file.fileno())
        if name not in self.names:
            sync_folder(self.folder)
            self.names.append(name)


def changed(before, after):
    """The paths whose names differ, in the order of paths."""
    return [it for it in sorted(before.keys() | after.keys()) if before.get(it) != after.get(it)]


def applied(names, rows):
    """Names after the changes of rows, which are in the order of their times."""
    names = dict(names)
    for row in rows:
        names.pop(row["path"], None)
        if row["now"] is not None:
            names[row["path"]] = row["now"]
    return names


class History:
    """The logs of a published folder: changes of names, decisions on proposals, and the calendar,
    in which each revision and each count of proposals has its date."""

    def __init__(self, folder):
        self.folder = folder
        os.makedirs(folder, exist_ok=True)
        self.changes, self.decisions = Log(folder), Log(folder, "decisions-")
        self.calendar = Log(folder, "calendar-")
        self.names_at = os.path.join(folder, ".names")
        self.followed_at = os.path.join(folder, ".followed")
        self.kept = read_json(self.followed_at, {})
        logs = (self.changes, self.decisions, self.calendar)
        for log in logs:
            log.mend()
        # Times rise from run to run, whatever the clock does.
        self.now = stamp(max(clock(), *(seconds_of(log.last()) + 1 for log in logs)))

    def is_done(self, counts):
        """Whether an earlier run has worked up a registry with these counts."""
        return all(self.kept.get(it) == counts[it] for it in ("revision", "submissions"))

    def note_counts(self, counts):
        """The calendar: a row where the numbers have moved. They only rise, but for a restore."""
        last = self.calendar.last()
        row = {"time": self.now, **{it: counts[it] for it in ("revision", "submissions")}}
        if last and went_back(last, counts):
            row["restored"] = True
        if not last or any(last[it] != row[it] for it in ("revision", "submissions")):
            self.calendar.append([row])

    def note_decisions(self, followed, registry, counts):
        """The rows of decisions that no run has worked up."""
        mark = self.kept.get("mark", self.decisions.mark())
        rows = self.decisions.after(mark)
        if not self.kept or went_back(self.kept, counts):
            followed.begin(registry, counts)
            return rows
        followed.settle(rows)
        new = [decision(it, self.now) for it in followed.decisions(registry, counts)]
        self.decisions.append(new)
        return rows + new

    def note_changes(self, names, published, approved, other):
        """The rows of changes that no run has worked up. `published` are the names to begin with
        where there is no history yet."""
        kept = read_json(self.names_at, None)
        if kept is None:
            kept = {"mark": self.changes.mark(), "names": published}
            write_file(self.names_at, as_json(kept), is_synced=True)
        rows = self.changes.after(kept["mark"])
        before = applied(kept["names"], rows)
        new = [change(it, before, names, self.now, approved, other)
               for it in changed(before, names)]
        self.changes.append(new)
        return rows + new

    def close(self, names, followed, counts):
        """All rows are worked up: the next run begins after them."""
        kept = {"mark": self.changes.mark(), "names": names}
        write_file(self.names_at, as_json(kept), is_synced=True)
        kept = {"time": self.now, "mark": self.decisions.mark(), "revision": counts["revision"],
                **followed.kept()}
        write_file(self.followed_at, as_json(kept), is_synced=True)


def went_back(before, now):
    """Whether a registry has lower numbers than before: it was restored."""
    return any(now[it] < before[it] for it in ("revision", "submissions"))
