"""Files of schema 1, written by the real sqlite3, and what becomes of them: by the word for it, by
any other, and where the disk or memory stops. And registries of both schemas beside other tables,
and with their own in another order."""
import itertools
import os
import random
import shutil
import subprocess
import tempfile
from urllib.parse import quote_plus

import pytest

import old_registry
from http_server import JSON, TEXT, Server, reply
from old_files import TABLES, old_file, texts_in_order
from program import HEADER, WHOLE
from registry import asked, copied, script, texts_of_schema, work
from shims import ROOM, SAMPLE, first_of, run_refusing

pytestmark = pytest.mark.needs("sqlite3", "curl")

CREATED, MOVED, ALREADY = (
    (b"created schema 2\n", b"", 0),
    (b"moved to schema 2\n", b"", 0),
    (b"schema 2 already\n", b"", 0),
)
EXPORTED = (HEADER + b"8086  Intel Corporation\n", b"", 0)

# All rows, so that two files can be compared.
DUMP = (
    "SELECT * FROM meta ORDER BY label; SELECT * FROM account ORDER BY name; SELECT * FROM item"
    " ORDER BY path; SELECT * FROM submission; SELECT * FROM remark; SELECT * FROM receipt"
)
BEFORE = (
    "items|1\nschema|1\nsubmissions|1\nalice|0\nroot|3\nPC/8086|Intel"
    " Corporation\n1|alice|PC/8086|0|Intel Corporation||1|root|\n"
)
AFTER = BEFORE.replace("schema|1", "revision|0\nschema|2")


def written(path, sql):
    """What the real sqlite3 says to these statements."""
    return subprocess.run(
        ["sqlite3", path],
        input=sql.encode(),
        stdout=subprocess.PIPE,
        stderr=subprocess.STDOUT,
        timeout=120,
    ).stdout.decode()


def migrate(path):
    return work(b"", "migrate", "--db", path)


def test_taken_over(cases, folder):
    path = os.path.join(folder, "old.db")
    cases.equal("schema 1: written", (old_file(path), asked(path, DUMP)), ("", BEFORE))
    cases.equal("schema 1: moved", migrate(path), MOVED)
    cases.equal("schema 1: again", migrate(path), ALREADY)
    cases.equal("moved: the rows", asked(path, DUMP), AFTER)
    cases.equal(
        "moved: the numbers of changes", asked(path, "SELECT * FROM item_since"), "PC/8086|0\n"
    )
    cases.equal(
        "moved: integrity and references",
        asked(path, "PRAGMA integrity_check; PRAGMA foreign_key_check"),
        "ok\n",
    )
    schema = asked(path, "SELECT sql FROM sqlite_master WHERE sql IS NOT NULL").splitlines()
    cases.equal("moved: the tables of a new registry", sorted(schema), texts_of_schema())
    cases.equal("moved: its text", work(b"", "export", "--db", path), EXPORTED)
    with Server(path) as server:
        cases.equal(
            "moved: nothing has changed",
            server.curl("/changes"),
            (200, JSON, b'{"items":[],"revision":0}'),
        )
    lines = (
        "submit alice path=PC/8086&remove=yes",
        "approve root num=2",
        "import root file=8086++X",
    )
    cases.equal(
        "moved: commands",
        script(path, *lines),
        (b"ok 2\nok\nok added=1 renamed=0 same=0\n", b"", 0),
    )
    with Server(path) as server:
        cases.equal(
            "moved: what changed",
            server.curl("/changes?format=text"),
            (200, TEXT, b"revision 3\n3 PC/8086 X\n"),
        )
    cases.equal(
        "moved: its row",
        asked(path, "SELECT * FROM item_since; SELECT value FROM meta WHERE label = 'revision'"),
        "PC/8086|3\n3\n",
    )


def test_by_other_words(cases, folder):
    """Each word on a registry takes an old file over first."""
    for name, words, told in (
        ("script", ("script",), (b"", b"", 0)),
        ("export", ("export",), EXPORTED),
        (
            "import",
            ("import", "--account", "root", "/dev/null"),
            (b"ok added=0 renamed=0 same=0\n", b"", 0),
        ),
    ):
        path = os.path.join(folder, f"{name}.db")
        old_file(path)
        cases.equal(f"schema 1: {name}", work(b"", words[0], "--db", path, *words[1:]), told)
        cases.equal(f"schema 1: behind {name}", migrate(path), ALREADY)
    path = os.path.join(folder, "new.db")
    cases.equal("no file", migrate(path), CREATED)
    cases.equal(
        "no file: made",
        asked(path, "SELECT * FROM meta ORDER BY label"),
        "items|0\nrevision|0\nschema|2\nsubmissions|0\n",
    )
    cases.equal("no file: again", migrate(path), ALREADY)


# What somebody made of a file of schema 1: it is refused, and stays as it is.
BROKEN = {
    "a table of the new name": ("CREATE TABLE item_since (x)", b"open: Damaged\n"),
    "the new table, as it will be": (
        (
            "CREATE TABLE item_since (path TEXT NOT NULL PRIMARY KEY REFERENCES item(path) ON"
            " DELETE CASCADE, since INTEGER NOT NULL) STRICT"
        ),
        b"open: Damaged\n",
    ),
    "a view of the new name": (
        "CREATE VIEW item_since AS SELECT path, 0 AS since FROM item",
        b"open: Damaged\n",
    ),
    "an index of the new name": ("CREATE INDEX item_since ON item(name)", b"open: Damaged\n"),
    "a revision": ("INSERT INTO meta VALUES ('revision', 0)", b"open: Damaged\n"),
    "a wrong count": ("UPDATE meta SET value = 2 WHERE label = 'items'", b"open: Damaged\n"),
    "no name": ("UPDATE item SET name = ''", b"open: Damaged\n"),
    "a later schema": (
        "UPDATE meta SET value = 3 WHERE label = 'schema'",
        b"open: NewerSchema 3\n",
    ),
}


def test_not_taken_over(cases, folder):
    for name, (sql, told) in BROKEN.items():
        path = os.path.join(folder, "broken.db")
        for end in ("", "-wal", "-shm"):
            if os.path.exists(path + end):
                os.remove(path + end)
        cases.equal(f"schema 1 with {name}: written", old_file(path, sql), "")
        before = asked(path, "SELECT type, name, sql FROM sqlite_master; " + DUMP)
        cases.equal(f"schema 1 with {name}", (migrate(path), script(path)), ((b"", told, 3),) * 2)
        cases.equal(
            f"schema 1 with {name}: as it was",
            asked(path, "SELECT type, name, sql FROM sqlite_master; " + DUMP),
            before,
        )


def test_called_later(cases, folder):
    """Tables of schema 1 whose label names schema 2: there is nothing to take over, and they are no
    registry."""
    path = os.path.join(folder, "called.db")
    old_file(path, "UPDATE meta SET value = 2 WHERE label = 'schema'")
    cases.equal(
        "schema 1, called 2", (migrate(path), script(path)), (ALREADY, (b"", b"open: Damaged\n", 3))
    )


# Other tables in the file of a registry: made before its own, between them and after them.
MINE = (
    "CREATE TABLE mine (x TEXT PRIMARY KEY, y); INSERT INTO mine VALUES ('a', 1), ('b', NULL);"
    " CREATE INDEX by_y ON mine(y);"
)
COUNTED = (
    "CREATE TABLE counted (n INTEGER PRIMARY KEY AUTOINCREMENT); INSERT INTO counted VALUES (7);"
    " CREATE VIEW ours AS SELECT x FROM mine;"
)
INDEXED = (
    "CREATE INDEX by_name ON item(name); CREATE VIEW names AS SELECT path, name FROM item; CREATE"
    " TABLE behind (z BLOB); INSERT INTO behind VALUES (x'00ff');"
)
FOREIGN = (
    "SELECT * FROM mine; SELECT * FROM counted; SELECT * FROM ours; SELECT hex(z) FROM behind;"
    " SELECT count(*) FROM names EXCEPT SELECT count(*) FROM item"
)
FOREIGN_ROWS = "a|1\nb|\n7\na\nb\n00FF\n"
SOUND = "PRAGMA integrity_check; PRAGMA foreign_key_check"


def rows_of(path):
    """The rows of the seven tables, each in the order of its keys."""
    keys = ["label", "name", "path", "num", "num, seq", "account, token", "path"]
    return {
        table: asked(path, f"SELECT * FROM {table} ORDER BY {key}")
        for table, key in zip(TABLES, keys)
    }


def rows_written(registry):
    """The same of what was written, with the rows that the move of schema 1 adds."""
    rows = {
        table: "".join("|".join(map(str, row)) + "\n" for row in sorted(those))
        for table, those in registry.tables().items()
    }
    counts = f"items|{len(registry.items)}\nrevision|0\nschema|2\n"
    counts += f"submissions|{len(registry.submissions)}\n"
    return {
        **rows,
        "meta": counts,
        "item_since": "".join(f"{path}|0\n" for path in sorted(registry.items)),
    }


def read_back(cases, name, path, registry):
    """What lines say of each row, of which none changes anything: a rank that somebody has, a name,
    whether a submission is pending, a kept reply."""
    lines = [
        (
            f"account {'gina' if who == 'root' else 'root'} who={who}&rank={rank}",
            "refused 13 NothingToDo",
        )
        for who, rank in registry.accounts.items()
    ]
    lines += [(f"read path={path}", f"name {name}") for path, name in registry.items.items()]
    lines += [
        (
            f"approve alice num={it[0]}",
            "refused 5 RankTooLow" if it[6] == old_registry.PENDING else "refused 8 NotPending",
        )
        for it in registry.submissions
    ]
    for (who, key), (kind, *told) in registry.receipts.items():
        kept = ["ok", f"ok {told[0]}", "ok added=%d renamed=%d same=%d" % tuple(told)][kind]
        lines.append((f"comment {who} num=600&text=again&key={quote_plus(key)}", kept))
    wanted = "".join(said + "\n" for _, said in lines).encode() + old_registry.canonical(
        registry.items
    )
    cases.equal(
        f"{name}: read by lines",
        script(path, *(line for line, _ in lines), "export"),
        (wanted, b"", 0),
    )


def asked_back(cases, name, path, registry):
    """What the server shows of each submission with its remarks, and that nothing has changed."""
    asks = b"".join(
        b"GET /submission/%d?format=text HTTP/1.1\r\n\r\n" % it[0] for it in registry.submissions
    )
    with Server(path, program=WHOLE) as server:
        told = b"".join(
            reply("200 OK", TEXT, registry.discussion(it)) for it in registry.submissions
        )
        cases.equal(f"{name}: asked for each submission", server.raw(asks), told)
        cases.equal(
            f"{name}: asked what has changed",
            server.curl("/changes"),
            (200, JSON, b'{"items":[],"revision":0}'),
        )


def commands(number):
    """Commands of each kind after so many submissions, each with its reply, on accounts and paths
    that no registry of these tests has."""
    return [
        ("account root who=ann&rank=0", "ok"),
        ("account root who=ben&rank=2&key=rank", "ok"),
        (
            "import ben file=f000++Intel%0A%091237++440FX%0Af001++Realtek&key=file",
            "ok added=3 renamed=0 same=0",
        ),
        (
            "submit ann path=PC/f000&name=Intel+Corporation&note=their+own&key=first",
            f"ok {number + 1}",
        ),
        ("submit ann path=PC/f001&remove=yes", f"ok {number + 2}"),
        ("submit ann path=PC/f002&name=Red+Hat", f"ok {number + 3}"),
        ("submit ann path=PC/f003&name=Red+Hat", f"ok {number + 4}"),
        ("submit ann path=PC/f000/7000&name=82371SB", f"ok {number + 5}"),
        (f"comment ben num={number + 2}&text=gone?", "ok"),
        (f"comment ann num={number + 2}&text=yes", "ok"),
        (f"approve ben num={number + 1}", "ok"),
        (f"approve ben num={number + 2}&key=gone", "ok"),
        (f"reject ben num={number + 3}&reason=whose?", "ok"),
        (f"withdraw ann num={number + 4}", "ok"),
        (
            "import ben file=f000++Intel+Corporation%0A%091237++82441FX",
            "ok added=0 renamed=1 same=1",
        ),
    ]


def repeats(number):
    """The same under their keys, which do nothing, and two lines that are judged by what the first
    ones did."""
    return [
        ("comment root num=1&text=x&key=rank", "ok"),
        ("comment ben num=1&text=x&key=file", "ok added=3 renamed=0 same=0"),
        ("comment ben num=1&text=x&key=gone", "ok"),
        ("submit ann path=PC/f004&name=X&key=first", f"ok {number + 1}"),
        (f"approve ann num={number + 4}", "refused 8 NotPending"),
        (f"approve ann num={number + 5}", "refused 5 RankTooLow"),
    ]


# The rows that they lead to in a new registry.
WORKED = {
    "meta": "items|2\nrevision|15\nschema|2\nsubmissions|5\n",
    "account": "ann|0\nben|2\nroot|3\n",
    "item": "PC/f000|Intel Corporation\nPC/f000/1237|82441FX\n",
    "submission": (
        "1|ann|PC/f000|0|Intel Corporation|their"
        " own|1|ben|\n2|ann|PC/f001|1|||1|ben|\n3|ann|PC/f002|0|Red"
        " Hat||2|ben|whose?\n4|ann|PC/f003|0|Red Hat||3|ann|\n5|ann|PC/f000/7000|0|82371SB||0||\n"
    ),
    "remark": "2|1|ben|gone?\n2|2|ann|yes\n",
    "receipt": "ann|first|1|1|0|0\nben|file|2|3|0|0\nben|gone|0|0|0|0\nroot|rank|0|0|0|0\n",
    "item_since": "PC/f000|11\nPC/f000/1237|15\n",
}
WORKED_TEXT = HEADER + b"f000  Intel Corporation\n\t1237  82441FX\n"


def obeys(cases, name, path, number=0):
    """The commands get their replies, and opened again the registry knows them."""
    for lines in (commands(number), repeats(number)):
        told = "".join(said + "\n" for _, said in lines).encode()
        cases.equal(f"{name}: commands", script(path, *(line for line, _ in lines)), (told, b"", 0))


def changes_told(cases, name, path, revision=15):
    with Server(path, program=WHOLE) as server:
        told = f"revision {revision}\n11 PC/f000 Intel Corporation\n15 PC/f000/1237 82441FX\n"
        cases.equal(
            f"{name}: what changed", server.curl("/changes?format=text"), (200, TEXT, told.encode())
        )
        cases.equal(
            f"{name}: what changed last",
            server.curl("/changes?format=text&since=11&after=PC/f000"),
            (200, TEXT, b"revision 15\n15 PC/f000/1237 82441FX\n"),
        )


def test_registry_of_users(cases, room):
    """A file of schema 1 as users have them, alone and with others' tables before, between and
    after, moved by its command and by the next opening."""
    registry = old_registry.made()
    plain, mixed, fresh = (os.path.join(room, f"{name}.db") for name in ("plain", "mixed", "fresh"))
    texts, inserts = [text + ";" for text in texts_in_order()[:6]], "BEGIN;" + "".join(
        registry.inserts()
    ) + "COMMIT;"
    cases.equal("users: written", written(plain, "".join(texts) + inserts), "")
    cases.equal(
        "users: written beside",
        written(
            mixed, MINE + "".join(texts[:3]) + COUNTED + "".join(texts[3:]) + INDEXED + inserts
        ),
        "",
    )
    rows = rows_written(registry)
    told = "".join(said + "\n" for _, said in registry.lines).encode()
    cases.equal(
        "users: the commands that lead there",
        script(fresh, *(line for line, _ in registry.lines)),
        (told, b"", 0),
    )
    cases.equal(
        "users: the same rows",
        {**rows_of(fresh), "meta": "", "item_since": ""},
        {**rows, "meta": "", "item_since": ""},
    )
    after = {}
    for name, file, is_moved_alone in (
        ("migrate", plain, True),
        ("open", plain, False),
        ("migrate beside", mixed, True),
        ("open beside", mixed, False),
    ):
        path = os.path.join(room, "moved.db")
        for end in ("-wal", ""):
            if os.path.exists(path + end):
                os.remove(path + end)
        shutil.copy(file, path)
        if is_moved_alone:
            cases.equal(
                f"users: {name}",
                (migrate(path), migrate(path), migrate(path)),
                (MOVED, ALREADY, ALREADY),
            )
            cases.equal(f"users: {name}: the rows", rows_of(path), rows)
        read_back(cases, f"users: {name}", path, registry)
        cases.equal(
            f"users: {name}: the rows behind", (rows_of(path), migrate(path)), (rows, ALREADY)
        )
        if is_moved_alone:
            asked_back(cases, f"users: {name}", path, registry)
        obeys(cases, f"users: {name}", path, len(registry.submissions))
        changes_told(cases, f"users: {name}", path)
        after[name] = rows_of(path)
        cases.equal(f"users: {name}: integrity", asked(path, SOUND), "ok\n")
        if file == mixed:
            cases.equal(f"users: {name}: what stood there", asked(path, FOREIGN), FOREIGN_ROWS)
    for table in TABLES:
        cases.equal(
            f"users: the same rows of {table} however it was moved",
            [rows[table] for rows in after.values()],
            [after["migrate"][table]] * 4,
        )


def test_new_beside(cases, folder):
    """A new registry, made beside the tables of somebody else, or met by them later."""
    for name, making in (
        ("migrate", lambda path: migrate(path) == CREATED),
        ("script", lambda path: script(path) == (b"", b"", 0)),
        ("export", lambda path: work(b"", "export", "--db", path) == (HEADER, b"", 0)),
    ):
        path = os.path.join(folder, f"beside-{name}.db")
        cases.equal(
            f"made beside by {name}", (asked(path, MINE + COUNTED), making(path)), ("", True)
        )
        rows = {
            **dict.fromkeys(TABLES, ""),
            "meta": "items|0\nrevision|0\nschema|2\nsubmissions|0\n",
            "account": "root|3\n",
        }
        cases.equal(f"made beside by {name}: root alone", rows_of(path), rows)
        cases.equal(
            f"made beside by {name}: and met by more",
            (asked(path, INDEXED), migrate(path)),
            ("", ALREADY),
        )
        obeys(cases, f"made beside by {name}", path)
        cases.equal(f"made beside by {name}: the rows", rows_of(path), WORKED)
        changes_told(cases, f"made beside by {name}", path)
        cases.equal(
            f"made beside by {name}: its text",
            work(b"", "export", "--db", path),
            (WORKED_TEXT, b"", 0),
        )
        cases.equal(
            f"made beside by {name}: what stood there",
            (asked(path, FOREIGN), asked(path, SOUND)),
            (FOREIGN_ROWS, "ok\n"),
        )


def orders():
    """Orders of the seven tables: the usual one, each with two swapped, and some of all, from a
    fixed seed."""
    yield [*range(7)]
    for one, other in itertools.combinations(range(7), 2):
        yield [{one: other, other: one}.get(at, at) for at in range(7)]
    chance = random.Random(14)
    for _ in range(12):
        yield chance.sample(range(7), 7)


def test_other_orders(cases, room):
    """Registries of both schemas whose own tables were made in another order, some with others' in
    between: they open, obey and are exported as ever."""
    texts = [text + ";" for text in texts_in_order()]
    for number, order in enumerate(orders()):
        for schema in (1, 2):
            path, named = (
                os.path.join(room, f"order-{schema}-{number}.db"),
                f"schema {schema} in the order {order}",
            )
            made = [texts[at] for at in order if at < 6 or schema == 2]
            rows = (
                f"INSERT INTO meta VALUES ('schema', {schema}), ('items', 0), ('submissions', 0);"
                " INSERT INTO account VALUES ('root', 3);"
            )
            if schema == 2:
                rows += "INSERT INTO meta VALUES ('revision', 0);"
            is_mixed = number % 2 == 1
            if is_mixed:
                made.insert(number % 6, MINE)
                made += [COUNTED, INDEXED]
            cases.equal(f"{named}: written", asked(path, "".join(made) + rows), "")
            obeys(cases, named, path)
            cases.equal(f"{named}: the rows", rows_of(path), WORKED)
            cases.equal(
                f"{named}: its text", work(b"", "export", "--db", path), (WORKED_TEXT, b"", 0)
            )
            cases.equal(
                f"{named}: what stood there",
                asked(path, SOUND + (";" + FOREIGN if is_mixed else "")),
                "ok\n" + (FOREIGN_ROWS if is_mixed else ""),
            )


def stopped(cases, shim, name, step):
    """A migration with one call refused, every step-th in turn: the file is of the one schema or of
    the other, with the same rows, and the next migration upgrades it."""
    refusals = 0
    for at in range(first_of(step), 100_000, step):
        with tempfile.TemporaryDirectory(dir=ROOM) as folder:
            path = os.path.join(folder, "old.db")
            old_file(path)
            ran, was_refused = run_refusing(shim, at, b"", "migrate", "--db", path)
            status = ran[2]
            copy = os.path.join(folder, "copy.db")
            copied(path, copy)
            found = asked(copy, DUMP)
            again = migrate(path)
            good = (
                (found, again) in ((BEFORE, MOVED), (AFTER, ALREADY))
                and (status in (0, 3))
                and (status == 3 or found == AFTER)
            )
            if not good or (asked(path, DUMP), work(b"", "export", "--db", path)) != (
                AFTER,
                EXPORTED,
            ):
                cases.equal(f"{name} {at}: status {status}", (found, again), (AFTER, ALREADY))
                return refusals
            if not was_refused:
                cases.equal(f"{name}: none refused", ran, MOVED)
                return refusals
            refusals += 1


@pytest.mark.needs("gcc", "libc6-dev")
@pytest.mark.parametrize("name, step, least", [("refuse_disk", 1, 10), ("refuse_malloc", 11, 20)])
def test_stopped(cases, shims, name, step, least):
    refusals = stopped(cases, shims[name], name, step)
    print(f"{name}: {refusals} calls of a migration refused, one in each run; sample {SAMPLE}")
    cases.equal(f"{name}: calls of a migration were refused", refusals >= least, True)
