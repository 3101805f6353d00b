"""A registry's file, made by the program's words, as the real sqlite3 sees it."""
import os
import re
import shutil
import subprocess

import pytest

import refusals
from http_server import JSON, TEXT, Server, posted
from program import HEADER, REAL_FILE, WHOLE
from registry import asked, bring_in, copied, moderated, script, texts_of_schema, work

pytestmark = pytest.mark.needs("sqlite3")

VENDORS = b"8086  Intel\n\t1237  440FX\n1af4  Red Hat\nS 1af4\n\t1100  Qemu\nC 01  Mass\n"


def moved(old, new):
    """An item with another path, and its number with it."""
    return "; ".join(
        f"UPDATE {table} SET path = '{new}' WHERE path = '{old}'"
        for table in ("item", "item_since")
    )


# What another program did to a good file, and what the program says of it: one broken condition
# each, or none.
CHANGED = {
    "nothing is changed": ("", None),
    "a wrong count of items": ("UPDATE meta SET value = 99 WHERE label = 'items'", "damaged"),
    "a wrong count of submissions": (
        "UPDATE meta SET value = 1 WHERE label = 'submissions'",
        "damaged",
    ),
    "one more label": ("INSERT INTO meta VALUES ('more', 1)", "damaged"),
    "no schema": ("DELETE FROM meta WHERE label = 'schema'", "damaged"),
    "schema 0": ("UPDATE meta SET value = 0 WHERE label = 'schema'", "damaged"),
    "a later schema": ("UPDATE meta SET value = 3 WHERE label = 'schema'", "newer"),
    "a later schema before all else": (
        (
            "UPDATE meta SET value = 3 WHERE label = 'schema'; DELETE FROM item_since; DELETE FROM"
            " item"
        ),
        "newer",
    ),
    "a later schema before a missing table": (
        "UPDATE meta SET value = 3 WHERE label = 'schema'; DROP TABLE receipt",
        "newer",
    ),
    "schema 1": ("UPDATE meta SET value = 1 WHERE label = 'schema'", "damaged"),
    "no revision": ("DELETE FROM meta WHERE label = 'revision'", "damaged"),
    "a revision below 0": ("UPDATE meta SET value = -1 WHERE label = 'revision'", "damaged"),
    "the last revision": (
        "UPDATE meta SET value = 9000000000000000000 WHERE label = 'revision'",
        None,
    ),
    "a revision behind the last": (
        "UPDATE meta SET value = 9000000000000000001 WHERE label = 'revision'",
        "damaged",
    ),
    "an item without a number": ("DELETE FROM item_since WHERE path = 'PC/8086/1237'", "damaged"),
    "a number of no item": ("INSERT INTO item_since VALUES ('PC/9999', 0)", "damaged"),
    "another number": ("UPDATE item_since SET since = 0 WHERE path = 'PC/8086'", None),
    "a number above the revision": (
        "UPDATE item_since SET since = 1000 WHERE path = 'PC/8086'",
        "damaged",
    ),
    "a number below 0": ("UPDATE item_since SET since = -1 WHERE path = 'PC/8086'", "damaged"),
    "no numbers": ("DROP TABLE item_since", "damaged"),
    "a missing table": ("DROP TABLE receipt", "damaged"),
    "a missing column": (
        (
            "DELETE FROM item_since; DROP TABLE item; CREATE TABLE item (path TEXT NOT NULL PRIMARY"
            " KEY) STRICT"
        ),
        "damaged",
    ),
    "missing labels": ("DROP TABLE meta", "damaged"),
    "one more account": ("INSERT INTO account VALUES ('carol', 0)", None),
    "no administrator": ("UPDATE account SET rank = 2 WHERE name = 'root'", "damaged"),
    "no root": (
        (
            "INSERT INTO account VALUES ('sue', 3); UPDATE submission SET decider = 'sue';"
            " DELETE FROM account WHERE name = 'root'"
        ),
        "damaged",
    ),
    "no account's name": ("INSERT INTO account VALUES ('Carol', 0)", "damaged"),
    "another name": ("UPDATE item SET name = 'AMD' WHERE path = 'PC/8086'", None),
    "an item less": (
        (
            "PRAGMA foreign_keys = 1; DELETE FROM item WHERE path = 'PC/8086/1237';"
            " UPDATE meta SET value = 6 WHERE label = 'items'"
        ),
        None,
    ),
    "an item more": (
        (
            "INSERT INTO item VALUES ('PC/10ec', 'Realtek');"
            " INSERT INTO item_since VALUES ('PC/10ec', 2);"
            " UPDATE meta SET value = 8 WHERE label = 'items'"
        ),
        None,
    ),
    "no name": ("UPDATE item SET name = ' AMD' WHERE path = 'PC/8086'", "damaged"),
    "no path": (moved("PC/0001", "PC/80A6"), "damaged"),
    "a path without its number": (
        "UPDATE item SET path = 'PC/0007' WHERE path = 'PC/0001'",
        "damaged",
    ),
    "an item without its parent": (moved("PC/8086/1237", "PC/9999/1237"), "damaged"),
    "a generic subsystem without its vendor": (moved("PS/1af4/1100", "PS/9999/1100"), "damaged"),
    "a gap in the submissions": ("UPDATE submission SET num = 3 WHERE num = 2", "damaged"),
    "an own decision": ("UPDATE submission SET decider = 'bob' WHERE num = 1", "damaged"),
    "a decider who is none": ("UPDATE submission SET decider = 'carol' WHERE num = 1", "damaged"),
    "a pending one with a decider": ("UPDATE submission SET state = 0 WHERE num = 1", "damaged"),
    "a pending one": ("UPDATE submission SET state = 0, decider = '' WHERE num = 1", None),
    "a rejection without a reason": ("UPDATE submission SET state = 2 WHERE num = 1", "damaged"),
    "a rejection": ("UPDATE submission SET state = 2, reason = 'no' WHERE num = 1", None),
    "a removal with a name": ("UPDATE submission SET form = 1 WHERE num = 1", "damaged"),
    "a remark": ("INSERT INTO remark VALUES (1, 1, 'bob', 'seen')", None),
    "a remark without the one before": (
        "INSERT INTO remark VALUES (1, 2, 'bob', 'seen')",
        "damaged",
    ),
    "an empty remark": ("INSERT INTO remark VALUES (1, 1, 'bob', '')", "damaged"),
    "a receipt": ("INSERT INTO receipt VALUES ('bob', 'k1', 1, 2, 0, 0)", None),
    "a receipt for another's submission": (
        "INSERT INTO receipt VALUES ('root', 'k1', 1, 2, 0, 0)",
        "damaged",
    ),
    "a receipt for no submission": (
        "INSERT INTO receipt VALUES ('bob', 'k1', 1, 3, 0, 0)",
        "damaged",
    ),
    "a receipt of no kind": ("INSERT INTO receipt VALUES ('bob', 'k1', 3, 0, 0, 0)", "damaged"),
    "a receipt without a key": ("INSERT INTO receipt VALUES ('bob', 'k 1', 0, 0, 0, 0)", "damaged"),
    "a receipt of too many": (
        "INSERT INTO receipt VALUES ('bob', 'k1', 2, 100000, 1, 0)",
        "damaged",
    ),
    "a receipt of fewer than none": (
        "INSERT INTO receipt VALUES ('bob', 'k1', 2, 5, -1, 0)",
        "damaged",
    ),
    "a receipt of an import": ("INSERT INTO receipt VALUES ('bob', 'k1', 2, 99999, 1, 0)", None),
}

TOLD = {
    None: (b"", b"", 0),
    "damaged": (b"", b"open: Damaged\n", 3),
    "newer": (b"", b"open: NewerSchema 3\n", 3),
}


def try_changed(cases, path):
    """A good file that the real sqlite3 changed, each time anew."""
    for name, (sql, what) in CHANGED.items():
        changed = path + ".changed"
        copied(path, changed)
        said = asked(changed, sql)
        cases.equal(f"changed: {name}", (said, script(changed)), ("", TOLD[what]))


def test_unopened(cases, folder):
    """Files that are no registry, or can't be opened: reported, and left as they are."""
    store = (b"", b"open: Store\n", 3)
    broken, empty, locked = (
        os.path.join(folder, name) for name in ("broken.db", "empty.db", "locked.db")
    )
    with open(broken, "wb") as file:
        file.write(b"no database" * 1000)
    cases.equal("no such folder", script(os.path.join(folder, "none", "x.db")), store)
    cases.equal("a folder", script(folder), store)
    for words in (
        ("script", "--db", broken),
        ("export", "--db", broken),
        ("import", "--db", broken, "--account", "root", "/dev/null"),
    ):
        cases.equal(f"no database: {words[0]}", work(b"", *words), store)
    with open(broken, "rb") as file:
        cases.equal("no database: it stays", file.read(), b"no database" * 1000)
    open(empty, "wb").close()
    cases.equal(
        "an empty file becomes a registry",
        (script(empty), asked(empty, "SELECT count(*) FROM meta")),
        ((b"", b"", 0), "4\n"),
    )
    holder = subprocess.Popen(
        [WHOLE, "script", "--db", locked], stdin=subprocess.PIPE, stdout=subprocess.PIPE
    )
    holder.stdin.write(b"import root file=8086++Intel\n")
    holder.stdin.flush()
    cases.equal(
        "two programs: the first answers",
        holder.stdout.readline(),
        b"ok added=1 renamed=0 same=0\n",
    )
    cases.equal("two programs: the second is told", script(locked, "export"), store)
    cases.equal(
        "two programs: the first goes on",
        (holder.communicate(b"read path=PC/8086\n")[0], holder.wait()),
        (b"name Intel\n", 0),
    )
    cases.equal(
        "two programs: then the second",
        script(locked, "read path=PC/8086"),
        (b"name Intel\n", b"", 0),
    )


def test_small(cases, folder):
    path = os.path.join(folder, "small.db")
    cases.equal("a small file", bring_in(path, VENDORS), (b"ok added=5 renamed=0 same=0\n", b"", 0))
    cases.equal(
        "a moderator's vendors", script(path, *moderated(2)), (b"ok\nok 1\nok\nok 2\nok\n", b"", 0)
    )
    cases.equal("integrity", asked(path, "PRAGMA integrity_check"), "ok\n")
    cases.equal("references", asked(path, "PRAGMA foreign_key_check"), "")
    schema = asked(path, "SELECT sql FROM sqlite_master WHERE sql IS NOT NULL").splitlines()
    cases.equal("the schema", sorted(schema), texts_of_schema())
    cases.equal(
        "meta",
        asked(path, "SELECT * FROM meta ORDER BY label"),
        "items|7\nrevision|6\nschema|2\nsubmissions|2\n",
    )
    cases.equal("accounts", asked(path, "SELECT * FROM account ORDER BY name"), "bob|1\nroot|3\n")
    items = (
        "PC/0000|renamed\nPC/0001|renamed\nPC/1af4|Red"
        " Hat\nPC/8086|Intel\nPC/8086/1237|440FX\nPD/01|Mass\nPS/1af4/1100|Qemu\n"
    )
    cases.equal("items", asked(path, "SELECT * FROM item ORDER BY path"), items)
    submissions = "1|bob|PC/0000|0|renamed||1|root|\n2|bob|PC/0001|0|renamed||1|root|\n"
    cases.equal("submissions", asked(path, "SELECT * FROM submission"), submissions)
    cases.equal("opened again", bring_in(path, VENDORS), (b"ok added=0 renamed=0 same=5\n", b"", 0))
    faulty = (b"refused 14 FileFault line=2 kind=5 NoName\n", b"", 1)
    cases.equal("a faulty text changes nothing", bring_in(path, b"9999  New\n9999 \n"), faulty)
    try_changed(cases, path)
    cases.equal("items as before", asked(path, "SELECT * FROM item ORDER BY path"), items)


def items_alone(path):
    """What sqlite3 finds in a registry's file that was copied without its log."""
    copy = path + ".alone"
    shutil.copy(path, copy)
    return asked(copy, "SELECT path, name FROM item ORDER BY path")


def test_closed(cases, folder):
    """When the program has ended, all changes are in the registry's file, and its log may be
    deleted."""
    path = os.path.join(folder, "closed.db")
    work(b"", "migrate", "--db", path)
    cases.equal("closed: a new registry", items_alone(path), "")
    script(path, "import root file=8086++Intel")
    cases.equal("closed: by a script", items_alone(path), "PC/8086|Intel\n")
    bring_in(path, b"1af4  Red Hat\n")
    want = "PC/1af4|Red Hat\nPC/8086|Intel\n"
    cases.equal("closed: by an import", items_alone(path), want)
    with Server(path, 1, program=WHOLE) as server:
        server.raw(posted("/import", "root", b"1b36  Other\n"))
        server.ended()
    want = "PC/1af4|Red Hat\nPC/1b36|Other\nPC/8086|Intel\n"
    cases.equal("closed: by a server", items_alone(path), want)


# A registry whose submissions wait, one of them sent under a key: eight commands.
BEGUN = (
    ("account root who=alice&rank=0", b"ok\n"),
    ("account root who=mona&rank=2", b"ok\n"),
    (
        "import root file=10ec++Realtek%0A8086++Intel%0A%091237++440FX",
        b"ok added=3 renamed=0 same=0\n",
    ),
    ("submit alice path=PC/8086&name=Intel+Corporation&key=first", b"ok 1\n"),
    ("submit alice path=PC/10ec&remove=yes", b"ok 2\n"),
    ("submit alice path=PC/1af4&name=Red+Hat", b"ok 3\n"),
    ("submit alice path=PC/1b36&name=Red+Hat", b"ok 4\n"),
    ("submit alice path=PC/1b37&name=Red+Hat", b"ok 5\n"),
)


def answered(cases, name, path, *lines):
    """A script of these lines over the file gets these replies, each beside its line."""
    cases.equal(
        name,
        script(path, *(line for line, _ in lines)),
        (b"".join(reply for _, reply in lines), b"", 0),
    )


def at_revision(cases, path, revision):
    answered(cases, f"{revision}: begun", path, *BEGUN)
    cases.equal(
        f"{revision}: set",
        asked(path, f"UPDATE meta SET value = {revision} WHERE label = 'revision'"),
        "",
    )


@pytest.mark.needs("curl")
def test_great_revisions(cases, folder):
    """Commands of each kind around the revision 2^32, and then what has changed."""
    path = os.path.join(folder, "great.db")
    first = 2**32 - 4
    at_revision(cases, path, first)
    answered(
        cases,
        "2^32: commands",
        path,
        ("approve mona num=1", b"ok\n"),
        ("account root who=bob&rank=1", b"ok\n"),
        ("comment bob num=2&text=gone?", b"ok\n"),
        ("approve mona num=2&key=gone", b"ok\n"),
        ("reject mona num=3&reason=no", b"ok\n"),
        ("withdraw alice num=4", b"ok\n"),
        ("approve mona num=5", b"ok\n"),
        ("import root file=%091237++82441FX%0A", b"refused 14 FileFault line=1 kind=3 NoParent\n"),
        (
            "import root file=8086++Intel+Corporation%0A%091237++82441FX%0A",
            b"ok added=0 renamed=1 same=1\n",
        ),
        ("submit bob path=PC/1af4&name=Red+Hat", b"ok 6\n"),
    )
    cases.equal(
        "2^32: the revision",
        asked(path, "SELECT value FROM meta WHERE label = 'revision'"),
        f"{first + 9}\n",
    )
    numbers = {"PC/1b37": first + 7, "PC/8086": first + 1, "PC/8086/1237": first + 8}
    cases.equal(
        "2^32: the numbers",
        asked(path, "SELECT * FROM item_since ORDER BY path"),
        "".join(f"{path}|{number}\n" for path, number in numbers.items()),
    )
    with Server(path, program=WHOLE) as server:
        names = {"PC/1b37": "Red Hat", "PC/8086": "Intel Corporation", "PC/8086/1237": "82441FX"}
        for since in (first, first + 1, 2**32 - 1, 2**32 + 3, first + 9):
            told = "".join(
                f"{number} {path} {names[path]}\n"
                for path, number in numbers.items()
                if number > since
            )
            want = (200, TEXT, f"revision {first + 9}\n{told}".encode())
            cases.equal(
                f"2^32: changes since {since}",
                server.curl(f"/changes?format=text&since={since}"),
                want,
            )
    answered(
        cases,
        "2^32: opened again",
        path,
        ("approve mona num=2&key=gone", b"ok\n"),
        ("read path=PC/8086/1237", b"name 82441FX\n"),
        ("approve mona num=6", b"ok\n"),
    )


@pytest.mark.needs("curl")
def test_last_revision(cases, folder):
    """Where one command more can be counted that one is accepted, and after it none; what was kept
    and what is asked is answered as ever."""
    path = os.path.join(folder, "last.db")
    last = 9_000_000_000_000_000_000
    at_revision(cases, path, last - 1)
    bring = (
        "import mona file=8086++Intel+Corp.%0A1af4++Red+Hat&key=last",
        b"ok added=1 renamed=1 same=0\n",
    )
    full = b"refused 15 Full\n"
    refused = [
        (line, full)
        for line in (
            "account root who=bob&rank=1",
            "submit alice path=PC/1b36&name=Other",
            "comment mona num=1&text=seen",
            "withdraw alice num=1",
            "approve mona num=1",
            "reject mona num=1&reason=no",
            "import mona file=1b36++Other",
            "import mona file=8086++Intel+Corp.&key=another",
        )
    ]
    kept = [
        bring,
        ("comment mona num=1&text=seen&key=last", bring[1]),
        ("submit alice path=PC/1b36&name=Other&key=first", b"ok 1\n"),
    ]
    questions = [
        ("read path=PC/8086", b"name Intel Corp.\n"),
        ("lookup flags=1&vendor=1af4", b"text Red Hat\n"),
        ("approve mona num=9", b"refused 7 NoSubmission\n"),
    ]
    answered(cases, "last revision: one more", path, bring, *refused, *kept, *questions)
    rows = "items|4\nrevision|9000000000000000000\nschema|2\nsubmissions|5\n"
    cases.equal("last revision: meta", asked(path, "SELECT * FROM meta ORDER BY label"), rows)
    numbers = f"PC/10ec|3\nPC/1af4|{last}\nPC/8086|{last}\nPC/8086/1237|3\n"
    cases.equal(
        "last revision: the numbers", asked(path, "SELECT * FROM item_since ORDER BY path"), numbers
    )
    with Server(path, program=WHOLE) as server:
        told = (
            b'{"items":[{"name":"Red'
            b' Hat","path":"PC/1af4","since":9000000000000000000},{"name":"Intel'
            b' Corp.","path":"PC/8086","since":9000000000000000000}],'
            b'"revision":9000000000000000000}'
        )
        cases.equal(
            "last revision: what changed",
            server.curl(f"/changes?since={last - 1}"),
            (200, JSON, told),
        )
        told = (
            f"revision {last}\n3 PC/10ec Realtek\n{last} PC/1af4 Red Hat\n{last} PC/8086 Intel"
            " Corp.\n3 PC/8086/1237 440FX\n"
        )
        cases.equal(
            "last revision: all changes",
            server.curl("/changes?format=text"),
            (200, TEXT, told.encode()),
        )
        cases.equal(
            "last revision: none since",
            server.curl(f"/changes?format=text&since={last}"),
            (200, TEXT, f"revision {last}\n".encode()),
        )
        cases.equal(
            "last revision: no more",
            server.post("/approve?format=text", "mona", "num=1"),
            (503, TEXT, full),
        )
    answered(cases, "last revision: opened again", path, *refused, *kept, *questions)
    text = HEADER + b"10ec  Realtek\n1af4  Red Hat\n8086  Intel Corp.\n\t1237  440FX\n"
    cases.equal("last revision: exported", work(b"", "export", "--db", path), (text, b"", 0))
    cases.equal(
        "last revision: meta as it was", asked(path, "SELECT * FROM meta ORDER BY label"), rows
    )


# The limits of docs/REGISTRY.md and their names in the definitions.
MOST = {
    "items of the registry": "most_items",
    "submissions": "most_submissions",
    "remarks on one submission": "most_remarks",
    "commands that are counted": "most_revision",
}


def test_limits(cases):
    """The definitions have the limits of the page: that of submissions no test can reach."""
    page = refusals.text_of("docs", "REGISTRY.md")
    text = refusals.spec("pid_moderation", "CheckTables")
    for what, name in MOST.items():
        shown = re.search(rf"^\| {what} \| ([0-9,]+) \| 15 \|$", page, re.M)
        defined = re.search(rf"^{name} = (\d+)$", text, re.M)
        cases.equal(what, int(defined[1]), int(shown[1].replace(",", "")))


def test_most_items(cases, folder):
    """A registry of 100,000 items takes no new one; names and removals go on."""
    path = os.path.join(folder, "items.db")
    text = b"".join(b"%04x  a\n" % vendor for vendor in range(65_536))
    text += b"".join(b"\t%04x  a\n" % device for device in range(34_464))
    cases.equal("items: all", bring_in(path, text), (b"ok added=100000 renamed=0 same=0\n", b"", 0))
    full = b"refused 15 Full\n"
    lines = (
        ("import root file=0000++a%0A%090000++a", full),
        ("import root file=0000++b", b"ok added=0 renamed=1 same=0\n"),
        ("account root who=bob&rank=2", b"ok\n"),
        ("submit root path=PC/0000/0000&name=a", b"ok 1\n"),
        ("submit root path=PC/0000&name=c", b"ok 2\n"),
        ("submit root path=PC/0001&remove=yes", b"ok 3\n"),
        ("approve bob num=1", full),
        ("confirm bob num=1&was=", full),
        ("approve bob num=2", b"ok\n"),
        ("approve bob num=3", b"ok\n"),
        ("approve bob num=1", b"ok\n"),
        ("import root file=0001++a", full),
    )
    answered(cases, "items: at the limit", path, *lines)


def test_most_remarks(cases, folder):
    """A submission with 1,000,000 remarks takes no more; another one does."""
    path = os.path.join(folder, "remarks.db")
    submit = "submit root path=PC/8086&name=Intel"
    answered(cases, "remarks: begun", path, (submit, b"ok 1\n"), (submit, b"ok 2\n"))
    sql = """WITH RECURSIVE made (seq) AS
        (VALUES (1) UNION ALL SELECT seq + 1 FROM made WHERE seq < 999999)
        INSERT INTO remark SELECT 1, seq, 'root', 'a' FROM made"""
    cases.equal("remarks: all but one", asked(path, sql), "")
    comment = "comment root num=1&text=last"
    lines = (comment, b"ok\n"), (comment, b"refused 15 Full\n"), (submit, b"ok 3\n")
    answered(cases, "remarks: at the limit", path, *lines)
    answered(cases, "remarks: of another", path, ("comment root num=2&text=a", b"ok\n"))


# What somebody makes in the file of a registry.
BESIDE = {
    "an index": "CREATE INDEX by_name ON item (name)",
    "a table": "CREATE TABLE other (x TEXT); INSERT INTO other VALUES ('kept')",
    "a counted table": (
        "CREATE TABLE other (x INTEGER PRIMARY KEY AUTOINCREMENT); INSERT INTO other VALUES (7)"
    ),
    "a view": "CREATE VIEW names AS SELECT path, name FROM item",
}

# The same, where the file may also be refused: no page says which.
MAY_BE_REFUSED = {
    "statistics": "ANALYZE",
    "an index of some rows": "CREATE INDEX classes ON item (name) WHERE path > 'PD'",
    "a falling index": "CREATE INDEX by_state ON submission (state, author DESC)",
    "a trigger": (
        "CREATE TABLE seen (path TEXT); CREATE TRIGGER noted AFTER INSERT ON item BEGIN INSERT INTO"
        " seen VALUES (new.path); END"
    ),
}
REFUSED = [(b"", b"open: Damaged\n", 3), (b"", b"open: Store\n", 3)]

# A command of each kind that writes another table, and what they come to.
GOES_ON = (
    ("account root who=carol&rank=0", b"ok\n"),
    ("submit carol path=PC/8087&name=Intel&key=k1", b"ok 3\n"),
    ("comment root num=3&text=seen", b"ok\n"),
    ("approve root num=3", b"ok\n"),
    ("import root file=8086++Intel+Corporation", b"ok added=0 renamed=1 same=0\n"),
    ("submit bob path=PC/8087&remove=yes", b"ok 4\n"),
    ("approve root num=4", b"ok\n"),
    ("submit carol path=PC/8087&name=Intel&key=k1", b"ok 3\n"),
    ("lookup flags=1&vendor=8086", b"text Intel Corporation\n"),
)

# All rows of the registry, and all that the file has.
REGISTRY_ROWS = (
    "SELECT * FROM meta ORDER BY label; SELECT * FROM account ORDER BY name; SELECT * FROM item"
    " ORDER BY path; SELECT * FROM submission; SELECT * FROM remark; SELECT * FROM receipt; SELECT"
    " * FROM item_since ORDER BY path"
)
MADE = "SELECT type, name, sql FROM sqlite_master ORDER BY name"


def test_beside(cases, folder):
    """A file of a registry in which somebody made something: it is opened and goes on as one
    without it, or is refused and stays as it is."""
    first, plain = os.path.join(folder, "first.db"), os.path.join(folder, "plain.db")
    bring_in(first, VENDORS)
    script(first, *moderated(2))
    shutil.copy(first, plain)
    answered(cases, "alone", plain, *GOES_ON)
    rows, text = asked(plain, REGISTRY_ROWS), work(b"", "export", "--db", plain)
    for number, (name, sql) in enumerate([*BESIDE.items(), *MAY_BE_REFUSED.items()]):
        path = os.path.join(folder, f"beside{number}.db")
        shutil.copy(first, path)
        cases.equal(f"beside {name}: made", asked(path, sql), "")
        made, opened = asked(path, MADE), script(path)
        if name in MAY_BE_REFUSED and opened in REFUSED:
            print(f"a registry beside {name}: {opened[1].decode().strip()}")
        else:
            answered(cases, f"beside {name}", path, *GOES_ON)
            found = (asked(path, REGISTRY_ROWS), work(b"", "export", "--db", path))
            cases.equal(f"beside {name}: the rows and the text", found, (rows, text))
            cases.equal(f"beside {name}: integrity", asked(path, "PRAGMA integrity_check"), "ok\n")
        cases.equal(f"beside {name}: it stays", asked(path, MADE), made)

@pytest.mark.needs("pci.ids")
def test_real_file(cases, folder):
    path = os.path.join(folder, "real.db")
    with open(REAL_FILE, "rb") as file:
        text = file.read()
    out, err, status = work(b"", "import", "--db", path, "--account", "root", REAL_FILE)
    cases.equal("the real file: made", (err, status), (b"", 0))
    cases.equal(
        "the real file: items",
        f"ok added={asked(path, 'SELECT count(*) FROM item').strip()} renamed=0 same=0\n".encode(),
        out,
    )
    cases.equal(
        "the real file: meta",
        asked(path, "SELECT value FROM meta WHERE label = 'items'"),
        asked(path, "SELECT count(*) FROM item"),
    )
    cases.equal(
        "the real file: its canonical text", work(b"", "export", "--db", path), work(text, "tidy")
    )
    cases.equal(
        "the real file: integrity",
        asked(path, "PRAGMA integrity_check; PRAGMA foreign_key_check"),
        "ok\n",
    )
    intel = subprocess.run(
        ["grep", "-m1", "^8086  ", REAL_FILE], stdout=subprocess.PIPE
    ).stdout.decode()[6:]
    cases.equal(
        "the real file: a name", asked(path, "SELECT name FROM item WHERE path = 'PC/8086'"), intel
    )
