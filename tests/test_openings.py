"""Files of both schemas that the real sqlite3 damaged and mended, and others' tables beside a
registry's: what the program's openings and migrations say, and how it goes on."""
import contextlib
import gzip
import os
import shutil
import sqlite3

import pytest

from http_server import answers
from old_files import old_file
from registry import asked, obeys, script, work

pytestmark = pytest.mark.needs("sqlite3", "curl")

DAMAGED = (b"", b"open: Damaged\n", 3)
NEWER = (b"", b"open: NewerSchema 3\n", 3)
STORE = (b"", b"open: Store\n", 3)
OPENED = (b"", b"", 0)
ALREADY = (b"schema 2 already\n", b"", 0)

# Lines of scripts, each with its reply.
RUN = (
    ("account root who=bob&rank=2", "ok"),
    ("submit bob path=PC/8086&name=Intel&key=k1", "ok 1"),
    ("approve root num=1", "ok"),
)
AGAIN = (
    ("submit bob path=PC/8086&name=Intel&key=k1", "ok 1"),
    ("approve root num=1", "refused 8 NotPending"),
    ("export", "# PCI ID registry\n8086  Intel"),
)
GOES_ON = (
    ("submit alice path=PC/8086&remove=yes", "ok 2"),
    ("approve root num=2", "ok"),
    ("import root file=8086++X", "ok added=1 renamed=0 same=0"),
)


# What the toolchain's sqlite does not read, what is said of it, and how docs/STORAGE.md has it
# undone.
UNREAD = (
    ("CREATE INDEX i ON item(name) WHERE name > 'M'", DAMAGED, "DROP INDEX i"),
    ("CREATE INDEX i ON item(upper(name))", DAMAGED, "DROP INDEX i"),
    ("CREATE VIEW v AS SELECT path, count(*) OVER () FROM item", DAMAGED, "DROP VIEW v"),
    ("CREATE VIRTUAL TABLE f USING fts5(path, name)", DAMAGED, "DROP TABLE f"),
    ("CREATE VIRTUAL TABLE r USING rtree(id, low, high)", DAMAGED, "DROP TABLE r"),
    ("CREATE TABLE o (a); INSERT INTO o VALUES (1); ALTER TABLE o ADD COLUMN b DEFAULT 5",
     DAMAGED, "ALTER TABLE o DROP COLUMN b"),
    ("ALTER TABLE item ADD COLUMN extra TEXT NOT NULL DEFAULT 'e'",
     DAMAGED, "ALTER TABLE item DROP COLUMN extra"),
    ("PRAGMA auto_vacuum = 1; VACUUM", STORE, "PRAGMA auto_vacuum = 0; VACUUM"),
)

# Rows that break a rule of their table, what docs/FAILURES.md has sqlite3 asked of them and what it
# says, and what mends them.
UNRULY = (
    (
        "INSERT INTO receipt VALUES ('nobody', 'k', 0, 0, 0, 0)",
        "ok\nreceipt|2|account|0\n",
        "DELETE FROM receipt WHERE account = 'nobody'",
    ),
    (
        "PRAGMA ignore_check_constraints = 1; INSERT INTO account VALUES ('carol', 7)",
        "CHECK constraint failed in account\n",
        "DELETE FROM account WHERE name = 'carol'",
    ),
    (
        "CREATE TABLE o (a TEXT); CREATE UNIQUE INDEX u ON o (a);"
        " INSERT INTO o VALUES ('x'), ('y'); PRAGMA writable_schema = 1;"
        " UPDATE sqlite_schema SET sql = 'CREATE INDEX u ON o (a)' WHERE name = 'u';"
        " PRAGMA writable_schema = RESET; INSERT INTO o VALUES ('x');"
        " PRAGMA writable_schema = 1;"
        " UPDATE sqlite_schema SET sql = 'CREATE UNIQUE INDEX u ON o (a)' WHERE name = 'u';"
        " PRAGMA writable_schema = RESET",
        "non-unique entry in index u\n",
        "DELETE FROM o WHERE rowid = 3",
    ),
)


def is_moved(cases, name, path):
    """The items, the submission and the changes of the file of schema 1, once it is moved."""
    shown = {
        "/changes?format=text&since=0": "revision 0\n",
        "/pci.ids": "# PCI ID registry\n8086  Intel Corporation\n",
        "/submission/1?format=text": (
            "num 1\nauthor alice\npath PC/8086\nname Intel Corporation\nnote \nstate approved\n"
            "decider root\nreason \n"
        ),
    }
    answers(cases, f"{name}: moved", path, shown)


def goes_on(cases, name, path):
    obeys(cases, f"{name}: commands", path, GOES_ON)
    shown = {
        "/changes?format=text&since=0": "revision 3\n3 PC/8086 X\n",
        "/changes?format=text&since=3": "revision 3\n",
    }
    answers(cases, f"{name}: it goes on", path, shown)


def migrate(path):
    return work(b"", "migrate", "--db", path)


ITEM_SINCE = (
    "CREATE TABLE item_since (path TEXT NOT NULL PRIMARY KEY REFERENCES item(path)"
    " ON DELETE CASCADE, since INTEGER NOT NULL) STRICT"
)
REMARK = (
    "CREATE TABLE remark (num INTEGER NOT NULL REFERENCES submission(num), seq INTEGER NOT NULL,"
    " author TEXT NOT NULL REFERENCES account(name), body TEXT NOT NULL,"
    " PRIMARY KEY (num, seq)) STRICT"
)
RECEIPT = (
    "CREATE TABLE receipt (account TEXT NOT NULL REFERENCES account(name), token TEXT NOT NULL,"
    " kind INTEGER NOT NULL, a INTEGER NOT NULL, b INTEGER NOT NULL, c INTEGER NOT NULL,"
    " PRIMARY KEY (account, token)) STRICT"
)

# What damages a registry, how it is refused, and what mends it.
DAMAGES = (
    (
        "UPDATE meta SET value = 3 WHERE label = 'items'",
        DAMAGED,
        "UPDATE meta SET value = 1 WHERE label = 'items'",
    ),
    (
        "UPDATE account SET rank = 1 WHERE name = 'root'",
        DAMAGED,
        "UPDATE account SET rank = 3 WHERE name = 'root'",
    ),
    ("UPDATE item SET name = ''", DAMAGED, "UPDATE item SET name = 'Intel'"),
    ("UPDATE submission SET decider = 'bob'", DAMAGED, "UPDATE submission SET decider = 'root'"),
    ("UPDATE receipt SET a = 2", DAMAGED, "UPDATE receipt SET a = 1"),
    (
        "UPDATE meta SET value = 3 WHERE label = 'schema'",
        NEWER,
        "UPDATE meta SET value = 2 WHERE label = 'schema'",
    ),
    (
        "UPDATE meta SET value = 2 WHERE label = 'revision'",
        DAMAGED,
        "UPDATE meta SET value = 3 WHERE label = 'revision'",
    ),
    ("UPDATE item_since SET since = 4", DAMAGED, "UPDATE item_since SET since = 3"),
    ("DELETE FROM item_since", DAMAGED, "INSERT INTO item_since VALUES ('PC/8086', 3)"),
    (
        "DROP TABLE item_since; CREATE TABLE item_since (x INTEGER)",
        DAMAGED,
        f"DROP TABLE item_since; {ITEM_SINCE}; INSERT INTO item_since VALUES ('PC/8086', 3)",
    ),
    (
        "DROP TABLE remark; CREATE VIEW remark AS SELECT 1 AS x",
        DAMAGED,
        f"DROP VIEW remark; {REMARK}",
    ),
)


def test_damage(cases, folder):
    path = os.path.join(folder, "damaged.db")
    obeys(cases, "damage: a registry", path, RUN)
    for damage, told, mend in DAMAGES:
        got = (asked(path, damage), script(path), script(path), asked(path, mend))
        cases.equal(f"damage: {damage}", got, ("", told, told, ""))
    newer, older = (f"UPDATE meta SET value = {it} WHERE label = 'schema'" for it in (3, 2))
    got = (asked(path, newer), migrate(path), migrate(path), asked(path, older))
    cases.equal("damage: a later schema is not moved", got, ("", NEWER, NEWER, ""))
    obeys(cases, "damage: mended", path, AGAIN)


# The same of a file of schema 1.
OLDER_DAMAGES = (
    (
        "UPDATE meta SET value = 2 WHERE label = 'items'",
        DAMAGED,
        "UPDATE meta SET value = 1 WHERE label = 'items'",
    ),
    (
        "UPDATE meta SET value = 3 WHERE label = 'schema'",
        NEWER,
        "UPDATE meta SET value = 1 WHERE label = 'schema'",
    ),
    (
        "INSERT INTO meta VALUES ('revision', 0)",
        DAMAGED,
        "DELETE FROM meta WHERE label = 'revision'",
    ),
    ("UPDATE submission SET decider = 'alice'", DAMAGED, "UPDATE submission SET decider = 'root'"),
    (
        "CREATE TABLE item_since (path TEXT NOT NULL PRIMARY KEY, since INTEGER NOT NULL) STRICT",
        DAMAGED,
        "DROP TABLE item_since",
    ),
    ("CREATE VIEW item_since AS SELECT 1 AS x", DAMAGED, "DROP VIEW item_since"),
    ("CREATE INDEX item_since ON item (name)", DAMAGED, "DROP INDEX item_since"),
    (
        "DROP TABLE receipt; CREATE TABLE receipt (x INTEGER)",
        DAMAGED,
        f"DROP TABLE receipt; {RECEIPT}",
    ),
)


def test_older_damage(cases, folder):
    """Neither a migration nor an opening changes what is damaged."""
    path = os.path.join(folder, "older.db")
    cases.equal("older damage: a file", old_file(path), "")
    for damage, told, mend in OLDER_DAMAGES:
        got = (asked(path, damage), migrate(path), script(path), script(path), asked(path, mend))
        cases.equal(f"older damage: {damage}", got, ("", told, told, told, ""))
    second, first = (f"UPDATE meta SET value = {it} WHERE label = 'schema'" for it in (2, 1))
    got = (asked(path, second), script(path), asked(path, first))
    cases.equal("older damage: called schema 2", got, ("", DAMAGED, ""))
    is_moved(cases, "older damage", path)
    goes_on(cases, "older damage", path)


def test_moved_once(cases, folder):
    path = os.path.join(folder, "older.db")
    got = (old_file(path), migrate(path), migrate(path))
    cases.equal("moved once", got, ("", (b"moved to schema 2\n", b"", 0), ALREADY))
    is_moved(cases, "moved once", path)
    goes_on(cases, "moved once", path)
    cases.equal("moved once: again", migrate(path), ALREADY)
    later = {"/changes?format=text&since=2": "revision 3\n3 PC/8086 X\n"}
    answers(cases, "moved once: opened again", path, later)


# What others make before a registry's tables, and after; what they ask of it, and what it then
# shows.
BESIDE = (
    (
        "CREATE TABLE other (x TEXT); INSERT INTO other VALUES ('kept')",
        "",
        "SELECT x FROM other",
        "kept\n",
    ),
    (
        "",
        "CREATE TABLE other (x TEXT); INSERT INTO other VALUES ('kept')",
        "SELECT x FROM other",
        "kept\n",
    ),
    (
        "CREATE TABLE other (x TEXT PRIMARY KEY) STRICT; INSERT INTO other VALUES ('kept');"
        " CREATE INDEX by_x ON other (x); CREATE VIEW others AS SELECT x FROM other",
        "",
        "SELECT x FROM others",
        "kept\n",
    ),
    (
        "",
        "CREATE VIEW roots AS SELECT name FROM account WHERE name = 'root'",
        "SELECT name FROM roots",
        "root\n",
    ),
    (
        "",
        "CREATE INDEX by_name ON item (name);"
        " CREATE INDEX by_state ON submission (state, author)",
        "SELECT name FROM sqlite_schema WHERE name = 'by_name'",
        "by_name\n",
    ),
)


def test_beside(cases, folder):
    """What others made is as it was after a registry obeyed, and after it is opened again."""
    for number, (before, after, question, shown) in enumerate(BESIDE):
        path, name = os.path.join(folder, f"{number}.db"), f"beside: {before}{after}"
        got = (asked(path, before), script(path), asked(path, after))
        cases.equal(f"{name}: made", got, ("", OPENED, ""))
        for lines in (RUN, AGAIN):
            obeys(cases, name, path, lines)
            cases.equal(f"{name}: {question}", asked(path, question), shown)


def test_older_beside(cases, folder):
    """Tables of schema 1 are moved in the same file."""
    for number, (before, after, question, shown) in enumerate(BESIDE):
        path, name = os.path.join(folder, f"{number}.db"), f"older beside: {before}{after}"
        got = (asked(path, before), old_file(path), asked(path, after))
        cases.equal(f"{name}: made", got, ("", "", ""))
        for step in (is_moved, goes_on):
            step(cases, name, path)
            cases.equal(f"{name}: {question}", asked(path, question), shown)


# What has the name of a table of a registry, and what takes it away.
TAKEN = (
    ("CREATE TABLE meta (x INTEGER)", "DROP TABLE meta"),
    ("CREATE TABLE receipt (x INTEGER)", "DROP TABLE receipt"),
    ("CREATE TABLE item_since (x INTEGER)", "DROP TABLE item_since"),
    (
        "CREATE TABLE account (name TEXT NOT NULL PRIMARY KEY, rank INTEGER NOT NULL) STRICT",
        "DROP TABLE account",
    ),
    ("CREATE VIEW item AS SELECT 1 AS x", "DROP VIEW item"),
    ("CREATE TABLE other (x INTEGER); CREATE INDEX meta ON other (x)", "DROP INDEX meta"),
)


def test_refused(cases, folder):
    """What the page of the file lists as not read: nothing opens, and the file is as it was, until
    it is undone as the page says."""
    for number, (added, told, undone) in enumerate(UNREAD):
        path = os.path.join(folder, f"{number}.db")
        script(path, *(line for line, _ in RUN))
        got = (asked(path, added), script(path), script(path), asked(path, undone))
        cases.equal(f"refused: {added}", got, ("", told, told, ""))
        obeys(cases, f"refused: {undone}", path, AGAIN)
    for suffix in ("", "-wal"):
        path = os.path.join(folder, f"linked{suffix}.db")
        script(path, *(line for line, _ in RUN))
        os.link(path + suffix, path + ".other")
        cases.equal(f"refused: another name of {suffix}", script(path), STORE)
        os.remove(path + ".other")
        obeys(cases, f"refused: {suffix} without it", path, AGAIN)


def test_refused_log(cases, folder):
    """What sqlite3 left in the log of a file that is refused is not copied into the file."""
    made, path = (os.path.join(folder, name) for name in ("made.db", "r.db"))
    script(made, *(line for line, _ in RUN))
    with contextlib.closing(sqlite3.connect(made)) as kept_open:
        kept_open.execute("PRAGMA journal_mode = WAL")
        kept_open.execute("UPDATE meta SET value = 3 WHERE label = 'schema'")
        kept_open.commit()
        for suffix in ("", "-wal"):
            shutil.copy(made + suffix, path + suffix)
    with open(path, "rb") as file:
        before = file.read()
    for job in ("script", "migrate", "export"):
        cases.equal(f"a log: {job}", work(b"", job, "--db", path), NEWER)
        with open(path, "rb") as file:
            cases.equal(f"a log: the file after {job}", file.read() == before, True)
    label = asked(path, "SELECT value FROM meta WHERE label = 'schema'")
    cases.equal("a log: what it holds", label, "3\n")


def test_unruly(cases, folder):
    """Rows that break a rule of their table are damage, which sqlite3 shows as the page says."""
    question = "PRAGMA integrity_check; PRAGMA foreign_key_check"
    for number, (broken, shown, mend) in enumerate(UNRULY):
        path = os.path.join(folder, f"{number}.db")
        script(path, *(line for line, _ in RUN))
        got = (asked(path, broken), script(path), migrate(path), asked(path, question))
        cases.equal(f"unruly: {broken}", got, ("", DAMAGED, DAMAGED, shown))
        cases.equal(f"unruly: {mend}", asked(path, mend), "")
        obeys(cases, f"unruly: after {mend}", path, AGAIN)


def test_no_database(cases, folder):
    """What does not begin as a database is none, and not a damaged one; it stays as it is. An
    empty file becomes a registry."""
    whole, path = os.path.join(folder, "whole.db"), os.path.join(folder, "r.db")
    script(whole, *(line for line, _ in RUN))
    with open(whole, "rb") as file:
        database = file.read()
    for name, contents in (
        ("a text", b"SQLite format 3: what a database begins with\n" * 200),
        ("gzip", gzip.compress(database)),
        ("a database after a line", b"\n" + database),
    ):
        with open(path, "wb") as file:
            file.write(contents)
        got = (script(path), migrate(path), script(path))
        cases.equal(f"no database: {name}", got, (STORE, STORE, STORE))
        with open(path, "rb") as file:
            cases.equal(f"no database: {name} stays", file.read() == contents, True)
    open(path, "wb").close()
    cases.equal("no database: an empty file", (script(path), migrate(path)), (OPENED, ALREADY))


def test_taken(cases, folder):
    for number, (taken, mend) in enumerate(TAKEN):
        path = os.path.join(folder, f"{number}.db")
        got = (asked(path, taken), script(path), migrate(path), script(path), asked(path, mend))
        cases.equal(f"taken: {taken}", got, ("", DAMAGED, DAMAGED, DAMAGED, ""))
        obeys(cases, f"taken: {mend}", path, RUN)
