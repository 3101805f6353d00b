"""A registry in which more is pending than the server keeps numbers of: these are 1,000,000."""
import json
import os
import sqlite3

from http_server import Server
from program import WHOLE
from registry import script

MANY = 1_000_001
ROWS = """WITH RECURSIVE numbers(n) AS (SELECT 1 UNION ALL SELECT n + 1 FROM numbers WHERE n < ?)
INSERT INTO submission SELECT n, 'root', 'PC/8086', 0, 'Intel', '', 0, '', '' FROM numbers"""


def test_many_pending(cases, room):
    path = os.path.join(room, "r.db")
    script(path)
    with sqlite3.connect(path) as registry:
        registry.execute(ROWS, (MANY,))
        registry.execute("UPDATE meta SET value = ? WHERE label = 'submissions'", (MANY,))
    registry.close()
    want = {"accounts": 1, "items": 0, "pending": MANY, "revision": 0, "submissions": MANY}
    with Server(path, program=WHOLE) as server:
        for name in ("the counts", "and once more"):
            status, _, body = server.curl("/status")
            cases.equal(name, (status, json.loads(body)), (200, want))
        status, _, body = server.curl(f"/pending?after={MANY - 2}")
        listed = [it["num"] for it in json.loads(body)]
        cases.equal("the last page", (status, listed), (200, [MANY - 1, MANY]))
