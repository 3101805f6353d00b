"""Feeds in Atom 1.0 (RFC 4287) of what changed, and of what came of an account's proposals."""
import os
import uuid

from files import read_file, write_file, write_packed
from items import number_of, shown

FEED = """<?xml version="1.0" encoding="utf-8"?>
<feed xmlns="http://www.w3.org/2005/Atom" xml:lang="en">
<title>{title}</title>
<id>{id}</id>
<updated>{updated}</updated>
<link rel="self" type="application/atom+xml" href="{place}"/>
<link rel="alternate" type="text/html" href="{page}"/>
{entries}</feed>
"""
ENTRY = """<entry>
<title>{title}</title>
<id>{id}</id>
<updated>{time}</updated>
<link rel="alternate" type="text/html" href="{page}"/>
<author><name>{author}</name></author>
<content type="text">{text}</content>
</entry>
"""
BY_OTHERS = {
    "import": "by an import", "restore": "by a restore of the registry",
    "unknown": "before proposals were followed",
}


def quoted(name):
    return f"&quot;{shown(name)}&quot;"


def cause_of(row):
    """By whom a name changed."""
    if row["how"] != "proposal":
        return BY_OTHERS[row["how"]]
    return f"proposed by {row['author']} (#{row['num']}), approved by {row['decider']}"


def said_of_change(row):
    """What changed, and the page that shows it."""
    if "path" not in row:
        parts = [f"{row[it]:,} {it}" for it in ("added", "renamed", "removed") if row[it]]
        words = f"Names: {', '.join(parts)}; {BY_OTHERS[row['how']]}"
        return words, words, f"/recent/{row['time'][:10]}", "import"
    if row["now"] is None:
        what = f"removed, was {quoted(row['was'])}"
    elif row["was"] is None:
        what = f"{quoted(row['now'])}, new"
    else:
        what = f"{quoted(row['now'])}, was {quoted(row['was'])}"
    title = f"{number_of(row['path'])}  {what}"
    page = f"/item/{row['path']}"
    return title, f"{title}; {cause_of(row)}", page, row["author"] or row["how"]


def said_of_decision(row):
    """What came of a proposal, and the page that shows it."""
    wish = "removal" if row["name"] is None else quoted(row["name"])
    title = f"#{row['num']} {row['state']}: {number_of(row['path'])}  {wish}"
    by = "" if row["state"] == "withdrawn" else f"; {row['state']} by {row['decider']}"
    reason = f": {shown(row['reason'])}" if row["reason"] else ""
    return title, f"{title}{by}{reason}", f"/proposals/{row['num']}", row["decider"]


def kind_of(name):
    """The title of a feed, the page that it goes with, and what is said of its rows."""
    if name.startswith("by/"):
        return f"the proposals of {name[3:]}", f"/decided?author={name[3:]}", said_of_decision
    if name == "changes":
        return "what changed", "/recent", said_of_change
    return f"what changed of {number_of(name)}", f"/item/{name}", said_of_change


class Feeds:
    """The feeds of a published folder, under the number of its registry."""

    def __init__(self, public):
        self.folder = os.path.join(public, "feeds")
        place = os.path.join(self.folder, ".id")
        if not read_file(place):
            write_file(place, str(uuid.uuid4()).encode(), is_synced=True)
        self.space = uuid.UUID(read_file(place).decode())

    def id_of(self, *words):
        return uuid.uuid5(self.space, "\0".join(map(str, words))).urn

    def write(self, name, rows, began):
        """A feed of rows, the latest first."""
        title, page, said = kind_of(name)
        entries = []
        for row in rows:
            words, text, place, author = said(row)
            own = self.id_of(name, row["time"], row.get("path"), row.get("num"))
            entries.append(ENTRY.format(title=words, text=text, page=place, author=author,
                                        id=own, time=row["time"]))
        feed = FEED.format(
            title=f"PCI IDs: {title}", id=self.id_of(name), page=page,
            updated=rows[0]["time"] if rows else began, place=f"/feeds/{name}.atom",
            entries="".join(entries))
        write_packed(os.path.join(self.folder, f"{name}.atom"), feed.encode())
