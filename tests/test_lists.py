"""The lists of registries that commands made, as the server answers them page by page."""
import json
import os

import pytest

from http_server import TEXT, Server, answers
from program import WHOLE
from registry import asked, obeys

pytestmark = pytest.mark.needs("sqlite3", "curl")

# Lines of scripts, each with its reply.
COMMANDS = (
    ("account root who=bob&rank=1", "ok"),
    ("submit bob path=PC/8086/1237&name=440FX", "ok 1"),
    ("approve root num=1", "refused 11 ParentMissing"),
    ("submit bob path=PC/8086&name=Intel", "ok 2"),
    ("approve root num=2", "ok"),
    ("approve root num=1", "ok"),
    ("submit bob path=PC/8086&remove=yes", "ok 3"),
    ("approve root num=3", "refused 12 HasChildren"),
    ("comment root num=3&text=no", "ok"),
    ("reject root num=3&reason=no", "ok"),
    ("withdraw bob num=3", "refused 8 NotPending"),
)
ITEMS = (
    ("account root who=bob&rank=1", "ok"),
    ("submit bob path=PC/8086&name=Intel", "ok 1"),
    ("approve root num=1", "ok"),
    ("submit bob path=PC/8086/1237&name=440FX", "ok 2"),
    ("approve root num=2", "ok"),
    ("submit bob path=PC/8086/1237/1af41100&name=Machine", "ok 3"),
    ("approve root num=3", "ok"),
    ("submit bob path=PS/8086/1100&name=Board", "ok 4"),
    ("approve root num=4", "ok"),
    ("submit bob path=PD/01&name=Storage", "ok 5"),
    ("approve root num=5", "ok"),
    ("submit bob path=PD/02&name=Network", "ok 6"),
    ("submit bob path=PD/03&name=Display", "ok 7"),
    ("submit bob path=PD/04&name=Media", "ok 8"),
    ("withdraw bob num=7", "ok"),
    ("comment bob num=8&text=one", "ok"),
    ("comment root num=8&text=two", "ok"),
    ("comment bob num=6&text=other", "ok"),
)
NAMED = (
    ("account root who=alice&rank=0", "ok"),
    ("submit alice path=PC/8086&name=Intel+Corporation", "ok 1"),
    ("approve root num=1", "ok"),
    (
        "import root file=8086++Intel+Corporation%0A10ec++Realtek",
        "ok added=1 renamed=0 same=1",
    ),
    ("import root file=10ec++Realtek%0A%098139++Fast&key=k1", "ok added=1 renamed=0 same=1"),
    ("import root file=10ec++Other&key=k1", "ok added=1 renamed=0 same=1"),
    ("import root file=8086++Intel", "ok added=0 renamed=1 same=0"),
    ("submit alice path=PC/10ec/8139&remove=yes", "ok 2"),
    ("approve root num=2", "ok"),
    ("submit carol path=PC/10ec&name=X", "refused 4 NoAccount"),
)


def test_changes(cases, folder):
    path = os.path.join(folder, "changes.db")
    answers(cases, "no changes", path, {"/changes?format=text": "revision 0\n"})
    obeys(cases, "changes", path, COMMANDS)
    device = "5 PC/8086/1237 440FX\n"
    shown = {
        "/changes?format=text": f"revision 8\n4 PC/8086 Intel\n{device}",
        "/changes?format=text&since=4": f"revision 8\n{device}",
        "/changes?format=text&since=3&after=PC/8086": f"revision 8\n{device}",
        "/changes?format=text&since=5": "revision 8\n",
    }
    answers(cases, "changes", path, shown)


def test_numbers_stay(cases, folder):
    """A registry that is opened again has the numbers of its changes."""
    path = os.path.join(folder, "named.db")
    obeys(cases, "numbers", path, NAMED)
    shown = {"/changes?format=text": "revision 8\n4 PC/10ec Realtek\n6 PC/8086 Intel\n"}
    answers(cases, "numbers", path, shown)


def test_pages_of_changes(cases, folder):
    """A page has a hundred of them; the next one begins after the last path."""
    path = os.path.join(folder, "pages.db")
    text = "".join(f"{vendor:04x}++a%0A" for vendor in range(120))
    obeys(
        cases, "pages of changes", path,
        [(f"import root file={text}", "ok added=120 renamed=0 same=0")],
    )
    first, last = (
        "revision 1\n" + "".join(f"1 PC/{vendor:04x} a\n" for vendor in vendors)
        for vendors in (range(100), range(100, 120))
    )
    shown = {"/changes?format=text": first, "/changes?format=text&after=PC/0063": last}
    answers(cases, "pages of changes", path, shown)


def test_pages_of_pending(cases, folder):
    path = os.path.join(folder, "pending.db")
    numbers = range(1, 102)
    obeys(
        cases, "pages of pending", path,
        [("submit root path=PC/8086&name=a", f"ok {number}") for number in numbers],
    )
    lines = [f"{number} root name PC/8086 a\n" for number in numbers]
    shown = {
        "/pending?format=text&after=0": "".join(lines[:100]),
        "/pending?format=text&after=100": lines[100],
        "/pending?format=text&after=101": "",
    }
    answers(cases, "pages of pending", path, shown)


def test_children_and_submissions(cases, folder):
    path = os.path.join(folder, "items.db")
    obeys(cases, "items", path, ITEMS)
    shown = {
        "/children?format=text&of=PC/8086": "PC/8086/1237 440FX\nPS/8086/1100 Board\n",
        "/children?format=text&of=PC/8086/1237": "PC/8086/1237/1af41100 Machine\n",
        "/children?format=text&of=PC/10ec": "refused 25 NoItem\n",
        "/children?format=text": "PC/8086 Intel\nPD/01 Storage\n",
        "/pending?format=text&after=0": "6 bob name PD/02 Network\n8 bob name PD/04 Media\n",
        "/pending?format=text&after=6": "8 bob name PD/04 Media\n",
        "/pending?format=text&after=8": "",
    }
    answers(cases, "items", path, shown)
    with Server(path, program=WHOLE) as server:
        for number, remarks in (
            (8, ["remark bob one", "remark root two"]),
            (6, ["remark bob other"]),
            (9, []),
        ):
            told = server.curl(f"/submission/{number}?format=text")[2].decode().splitlines()
            found = [line for line in told if line.startswith("remark ")]
            cases.equal(f"remarks on {number}", found, remarks)
        absent = (404, TEXT, b"refused 7 NoSubmission\n")
        cases.equal("no submission 9", server.curl("/submission/9?format=text"), absent)


def test_pages_of_remarks(cases, folder):
    """A page has a hundred of them, from any place on, and the submission as it stands."""
    path = os.path.join(folder, "remarks.db")
    numbers = range(1, 206)
    obeys(
        cases, "pages of remarks", path,
        [("submit root path=PC/8086&name=a", "ok 1"), ("submit root path=PC/8086&name=b", "ok 2"),
         *((f"comment root num={1 + number % 2}&text={number}", "ok") for number in range(410))],
    )
    shown = "num 2;author root;path PC/8086;name b;note ;state pending;decider ;reason ;count 205;"
    lines = [f"remark {number} root {2 * number - 1}\n" for number in numbers]
    answers(cases, "pages of remarks", path, {
        f"/remarks?num=2&format=text&after={after}":
            shown.replace(";", "\n") + "".join(lines[after:after + 100])
        for after in (0, 1, 99, 100, 105, 200, 204, 205, 206, 2_000_000_000)
    })


def listed(server, query):
    """The numbers of a page of submissions, and where the next one begins."""
    told = json.loads(server.curl(f"/submissions?{query}")[2])
    return [it["num"] for it in told["submissions"]], told["before"]


# What is asked of the submissions, their numbers, and where the next page begins.
SUBMISSIONS = {
    "": ([8, 7, 6, 5, 4, 3, 2, 1], 0),
    "before=3": ([2, 1], 0),
    "path=PC/8086/1237": ([2], 0),
    "path=PC/8086/1237&author=bob&before=2": ([], 0),
    "author=root": ([], 0),
    "author=bob&before=2": ([1], 0),
}

# Pending submissions of bob with the numbers 9 to 213.
REMOVALS = """WITH RECURSIVE made (num) AS
    (VALUES (9) UNION ALL SELECT num + 1 FROM made WHERE num < 213)
    INSERT INTO submission (num, author, path, form, name, note, state, decider, reason)
    SELECT num, 'bob', 'PD/02', 1, '', '', 0, '', '' FROM made;
    UPDATE meta SET value = 213 WHERE label = 'submissions'"""


def test_submissions(cases, folder):
    path, none = (os.path.join(folder, f"{name}.db") for name in ("submissions", "none"))
    with Server(none, program=WHOLE) as server:
        cases.equal("no submissions", listed(server, ""), ([], 0))
    obeys(cases, "submissions", path, ITEMS)
    with Server(path, program=WHOLE) as server:
        for query, page in SUBMISSIONS.items():
            cases.equal(f"submissions {query}", listed(server, query), page)
    cases.equal("more submissions", asked(path, REMOVALS), "")
    with Server(path, program=WHOLE) as server:
        for before, last, following in ((0, 213, 114), (114, 113, 14), (14, 13, 0)):
            first = following or 1
            page = (list(range(last, first - 1, -1)), following)
            got = listed(server, f"author=bob&before={before}")
            cases.equal(f"submissions of bob before {before}", got, page)
