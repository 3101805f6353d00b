"""Visitors of a site, for a test of the machine that serves it: run there, by its own Python.

  visitors.py FOLDER

FOLDER has `people`, a line `NAME:PASSWORD` for each of those who propose names, and
`certificate.pem`. Until there is a file `stop`, each of them sends commands with keys, again until
they are answered, every third once more after that, and asks for what was acknowledged before.
Then `told.json` is written.
"""
import base64
import http.client
import json
import os
import random
import socket
import ssl
import sys
import threading
import time
import urllib.parse

HOST = "pciids.example.org"
PAUSE = 0.05
# What nginx says while the registry does not answer.
AWAY = (502, 503, 504)


class Connection(http.client.HTTPSConnection):
    """To the site, from an address of this machine that stands for a visitor."""

    def __init__(self, folder, address):
        context = ssl.create_default_context(cafile=os.path.join(folder, "certificate.pem"))
        super().__init__(HOST, context=context)
        self.from_address, self.safe = (address, 0), context

    def connect(self):
        place = ("127.0.0.1", 443)
        client = socket.create_connection(place, timeout=20, source_address=self.from_address)
        self.sock = self.safe.wrap_socket(client, server_hostname=HOST)


class Person(threading.Thread):
    def __init__(self, folder, number, name, password):
        super().__init__()
        self.folder, self.number, self.name = folder, number, name
        login = base64.b64encode(f"{name}:{password}".encode()).decode()
        self.login = {"Authorization": f"Basic {login}"}
        self.commands, self.odd, self.unanswered = [], [], 0
        self.tries, self.answered, self.last, self.gap = 0, 0, time.monotonic(), 0.0

    def is_over(self):
        return os.path.exists(os.path.join(self.folder, "stop"))

    def ask(self, method, path, form=None, fields=None):
        """The status and the body of what the registry answers; None if it does not."""
        # Each try has another address, so that no limit of a visitor is met.
        self.tries += 1
        address = f"127.0.{self.number + 1}.{self.tries % 200 + 1}"
        connection = Connection(self.folder, address)
        try:
            body = urllib.parse.urlencode(form) if form else None
            connection.request(method, path, body, fields or {})
            response = connection.getresponse()
            status, text = response.status, response.read().decode()
        except (OSError, http.client.HTTPException):
            status, text = 502, ""
        finally:
            connection.close()
        now = time.monotonic()
        if status in AWAY:
            self.unanswered += 1
            return None
        self.gap, self.last = max(self.gap, now - self.last), now
        self.answered += 1
        return status, text

    def until(self, *words):
        """Asks until there is an answer."""
        while (told := self.ask(*words)) is None:
            time.sleep(PAUSE)
        return told

    def command(self, count):
        """A submission under a key. Its number, as often as it came."""
        name, path = f"Name {self.name} {count}", f"PC/{self.number:x}{count:03x}"
        key = {"X-Key": f"{self.name}/{count}", **self.login}
        form, numbers = {"path": path, "name": name}, []
        for _ in range(2 if count % 3 == 0 else 1):
            status, text = self.until("POST", "/submit", form, key)
            if status == 200:
                numbers.append(json.loads(text)["num"])
            else:
                self.odd.append([path, status, text])
        self.commands.append([self.name, path, name, numbers])

    def question(self):
        """One about what was acknowledged before."""
        _, path, name, numbers = random.choice(self.commands)
        told = self.ask("GET", f"/submission/{numbers[0]}")
        if told is None:
            return
        status, text = told
        row = json.loads(text) if status == 200 else {}
        if (row.get("path"), row.get("name")) != (path, name):
            self.odd.append([path, status, text])

    def run(self):
        count = 0
        while not self.is_over():
            self.command(count)
            count += 1
            self.question()
            time.sleep(PAUSE)


def main(folder):
    with open(os.path.join(folder, "people"), encoding="utf-8") as file:
        names = [line.strip().split(":") for line in file]
    people = [Person(folder, number, *it) for number, it in enumerate(names)]
    for it in people:
        it.start()
    for it in people:
        it.join()
    told = {
        "commands": [row for it in people for row in it.commands],
        "odd": [row for it in people for row in it.odd],
        "unanswered": sum(it.unanswered for it in people),
        "answered": sum(it.answered for it in people),
        "gap": max(it.gap for it in people),
    }
    beside = os.path.join(folder, "told.new")
    with open(beside, "w", encoding="utf-8") as file:
        json.dump(told, file)
    os.rename(beside, os.path.join(folder, "told.json"))


if __name__ == "__main__":
    main(sys.argv[1])
