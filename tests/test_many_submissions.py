"""Every submission for a path and of an author, page by page, beside what sqlite3 selects."""
import json
import os
import re

import pytest

from http_server import Server
from program import WHOLE
from registry import asked, script

pytestmark = pytest.mark.needs("sqlite3", "curl")

MANY = 30_000
# Bob's are few and early, rare paths too; most are decided.
ROWS = f"""INSERT INTO account VALUES ('bob', 1), ('carol', 0), ('dave', 0);
WITH RECURSIVE numbers(n) AS (SELECT 1 UNION ALL SELECT n + 1 FROM numbers WHERE n < {MANY})
INSERT INTO submission SELECT n,
    CASE WHEN n < 700 AND n % 3 = 0 THEN 'bob' WHEN n % 2 THEN 'carol' ELSE 'root' END,
    CASE WHEN n % 250 = 7 THEN 'PC/1af4' WHEN n < 500 THEN 'PD/02' ELSE 'PC/8086' END,
    0, 'Name', '', CASE WHEN n % 5 THEN 2 ELSE 0 END,
    CASE WHEN n % 5 THEN 'dave' ELSE '' END, CASE WHEN n % 5 THEN 'no' ELSE '' END FROM numbers;
UPDATE meta SET value = {MANY} WHERE label = 'submissions'"""

SEARCHES = (
    {"author": "bob"},
    {"author": "dave"},
    {"author": "nobody"},
    {"path": "PC/1af4"},
    {"path": "PD/02"},
    {"path": "PC/ffff"},
    {"path": "PC/1af4", "author": "carol"},
    {"path": "PD/02", "author": "bob"},
    {"path": "PC/8086", "author": "bob"},
    {"path": "PC/8086", "author": "root"},
)


def selected(path, search):
    """The numbers that sqlite3 finds, the latest first."""
    terms = " AND ".join(f"{column} = '{value}'" for column, value in search.items())
    found = asked(path, f"SELECT num FROM submission WHERE {terms} ORDER BY num DESC")
    return [int(line) for line in found.split()]


def page(server, search, before):
    query = "&".join(f"{name}={value}" for name, value in search.items())
    told = json.loads(server.curl(f"/submissions?{query}&before={before}")[2])
    return [it["num"] for it in told["submissions"]], told["before"]


def pages(server, search):
    """The pages from the latest on, each asked with the number that the one before names."""
    taken, before = [], 0
    while True:
        numbers, before = page(server, search, before)
        taken.append(numbers)
        if before == 0:
            return taken


def made(path):
    script(path)
    asked(path, ROWS)


def test_all_are_found(cases, folder):
    """However far back they are, each once; each page but the last is full."""
    path = os.path.join(folder, "many.db")
    made(path)
    wanted = {str(search): selected(path, search) for search in SEARCHES}
    with Server(path, program=WHOLE) as server:
        for search in SEARCHES:
            got = pages(server, search)
            cases.equal(f"all of {search}", sum(got, []), wanted[str(search)])
            full = [len(numbers) for numbers in got[:-1]]
            cases.equal(f"full pages of {search}", full, [100] * len(full))
        for before in (1, 2, 8, 700, 701, MANY, MANY + 1):
            for search in SEARCHES:
                want = [it for it in wanted[str(search)] if it < before][:100]
                got = page(server, search, before)[0]
                cases.equal(f"{search} before {before}", got, want)


# What is done after the lists were asked for.
COMMANDS = (
    ("/submit", "bob", "path=PC/1af4&name=Red+Hat"),
    ("/submit", "bob", "path=PC/1af4&name=Other"),
    ("/submit", "nobody", "path=PC/1af4&name=Other"),
    ("/reject", "root", f"num={MANY + 1}&reason=no"),
    ("/withdraw", "bob", f"num={MANY + 2}"),
)


def test_commands_are_followed(cases, folder):
    """A submission made, decided and withdrawn since the lists were asked for is on them."""
    path = os.path.join(folder, "followed.db")
    made(path)
    searches = ({"author": "bob"}, {"path": "PC/1af4"}, {"path": "PC/1af4", "author": "bob"})
    with Server(path, program=WHOLE) as server:
        before = [sum(pages(server, search), []) for search in searches]
        for target, account, form in COMMANDS:
            server.post(target, account, form)
        after = [sum(pages(server, search), []) for search in searches]
    for search, old, got in zip(searches, before, after):
        cases.equal(f"{search} with the new ones", got, [MANY + 2, MANY + 1, *old])
        cases.equal(f"{search} beside sqlite3", got, selected(path, search))


FIRST = ("/status", "/pending", "/queue", "/children", "/submissions?path=PC/1af4",
         "/submissions?author=bob", "/pci.ids")


def read_by(server):
    """How many bytes the server has read so far, from files and clients."""
    with open(f"/proc/{server.process.pid}/io", encoding="ascii") as file:
        return int(re.search(r"^rchar: (\d+)$", file.read(), re.M)[1])


@pytest.mark.parametrize("journal", (None, "journal"))
def test_first_questions(cases, folder, journal):
    """The first question after a start does not go through all submissions, of which each is long:
    what the server keeps of them was read before it listened."""
    path = os.path.join(folder, "first.db")
    made(path)
    asked(path, "UPDATE submission SET note = printf('%.*c', 1000, 'x')")
    place = journal and os.path.join(folder, journal)
    with Server(path, program=WHOLE, journal=place) as server:
        for target in FIRST:
            before = read_by(server)
            cases.equal(target, server.curl(target)[0], 200)
            read = read_by(server) - before
            cases.equal(f"{target}: few bytes, and not {read}", read < 1_500_000, True)
