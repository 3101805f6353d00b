"""A greedy visitor of a site and another one, for a test of the machine that serves it: run there,
by its own Python.

  greedy.py FOLDER

FOLDER has `certificate.pem`. From one address come as many clients at once as GREEDY says, each of
which asks again and again for what takes the registry long. Meanwhile another one asks at most
QUESTIONS small questions. Then `greedy.json` is written: `codes`, how often the greedy one was
answered with each status; `ahead`, how many of his were answered while each question waited; and
`told` and `seconds` of the questions.
"""
import collections
import http.client
import json
import os
import sys
import threading
import time

from visitors import Connection

GREEDY = 32
QUESTIONS = 30
# Of those who are refused: as many tries a second as no program makes by accident. And of the other
# one between two questions.
PAUSE, REST = 0.2, 0.1
# How long all of it may take, where he is refused nothing.
LONGEST = 60
LONG = ("/children", "/children", "/pci.ids")


class Greedy(threading.Thread):
    def __init__(self, folder, codes):
        super().__init__(daemon=True)
        self.folder, self.codes, self.is_over = folder, codes, False

    def run(self):
        connection = Connection(self.folder, "127.0.8.1")
        count = 0
        while not self.is_over:
            try:
                connection.request("GET", LONG[count % 3], headers={"Cache-Control": "no-cache"})
                response = connection.getresponse()
                response.read()
                code = response.status
            except (OSError, http.client.HTTPException):
                connection.close()
                code = 0
            self.codes[code] += 1
            count += 1
            if code != 200:
                time.sleep(PAUSE)


def question(folder):
    """The status of a small question of the other one, and how many seconds it took."""
    start = time.monotonic()
    connection = Connection(folder, "127.0.8.2")
    try:
        connection.request("GET", "/read/PC/0001")
        code = connection.getresponse().status
    except (OSError, http.client.HTTPException):
        code = 0
    finally:
        connection.close()
    return code, time.monotonic() - start


def main(folder):
    codes = collections.Counter()
    greedy = [Greedy(folder, codes) for _ in range(GREEDY)]
    for it in greedy:
        it.start()
    # By then he has asked what he may ask at once.
    end = time.monotonic() + LONGEST
    while codes[429] < 2 * GREEDY and codes[200] < 2 * GREEDY and time.monotonic() < end:
        time.sleep(0.1)
    ahead, told, seconds = [], [], []
    while len(told) < QUESTIONS and (time.monotonic() < end or not told):
        before = codes[200]
        code, took = question(folder)
        ahead.append(codes[200] - before)
        time.sleep(REST)
        told.append(code)
        seconds.append(took)
    for it in greedy:
        it.is_over = True
    for it in greedy:
        it.join(30)
    found = {"codes": dict(codes), "ahead": ahead, "told": told, "seconds": seconds}
    with open(os.path.join(folder, "greedy.json"), "w", encoding="utf-8") as file:
        json.dump(found, file)


if __name__ == "__main__":
    main(sys.argv[1])
