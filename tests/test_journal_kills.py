"""`serve` with a journal, killed again and again while a client sends commands that are drawn.
Before a third of the starts its file is taken away, or replaced by an older copy; some are killed
before they serve. What was acknowledged is there, a command in doubt was obeyed once or not at all,
and in the end the rows are those of a run that nobody disturbed. 40 kills, with --all 1,000."""
import json
import os
import subprocess
import threading
import time
from typing import NamedTuple
from urllib.parse import urlencode

import pytest

import refusals
from answer_texts import as_json
from generated import Commands, Sampled
from http_server import Server, free_port, posted, read_reply
from journal_room import lose, names_in, text_of
from program import WHOLE
from registry import asked, copied, work
from shims import SAMPLE
from slow_registry import Refused, SlowRegistry, check_who, command_of

KILLS, STORIES = 40, 25
STATUSES = {number: status for number, (_, status) in refusals.shown().items()}
# A long line of a file: a segment of the journal has a few of these.
COMMENT = b"# " + b"x" * 600_000 + b"\n"


class Drawn(NamedTuple):
    """A command: what is sent, the reply, and the counts before and after it."""

    request: bytes
    reply: tuple
    has_key: bool
    before: dict
    after: dict


class Story(Sampled):
    """A registry and its journal, and what a slow registry says of them."""

    def __init__(self, cases, folder, seed):
        super().__init__(cases, seed)
        self.db, self.journal, self.other = (
            os.path.join(folder, it) for it in ("r.db", "journal", "other.db")
        )
        self.slow = SlowRegistry()
        self.commands = Commands(self.slow, seed)
        # What is to be sent, and what was obeyed or refused.
        self.drawn, self.done, self.copies = [], [], []
        # Whether the first of those drawn was sent, and how long a command takes, in seconds.
        self.is_in_doubt, self.pace = False, 0.005
        self.ends = {"obeyed": 0, "not obeyed": 0}

    def commands_so_far(self):
        return len(self.done)

    def draw(self):
        verb, account, key, pairs = self.commands.one()
        if verb == "import" and self.random.random() < 0.15:
            pairs = [("file", COMMENT + pairs[0][1])]
        before = self.slow.status()
        try:
            check_who(account, key)
            told = self.slow.obey(command_of(verb, account, key, pairs))
        except Refused as refused:
            told = refused.told
        body = pairs[0][1] if verb == "import" else urlencode(pairs).encode()
        request = posted(f"/{verb}", account, body, *[f"X-Key: {key}"] * (key is not None))
        reply = STATUSES[told["refused"]] if "refused" in told else 200, as_json(told)
        after = self.slow.status()
        self.drawn.append(Drawn(request, reply, key is not None, before, after))

    def settle(self, client, stream):
        """All that was acknowledged is there. A command in doubt was obeyed or not: the counts say
        which, so that it is sent again only if it was not. One that has a key always is."""
        client.sendall(b"GET /status HTTP/1.1\r\n\r\n")
        status = json.loads(read_reply(stream)[1])
        first = self.drawn[0]
        was_obeyed = self.is_in_doubt and status == first.after != first.before
        self.expect("the counts", status, first.after if was_obeyed else first.before)
        if self.is_in_doubt and first.after != first.before:
            self.ends["obeyed" if was_obeyed else "not obeyed"] += 1
        if was_obeyed and not first.has_key:
            self.done.append(self.drawn.pop(0))
        self.is_in_doubt = False

    def send(self, client, stream):
        """Sends the first command of those drawn. Whether its reply came."""
        self.is_in_doubt = True
        client.sendall(self.drawn[0].request)
        reply = read_reply(stream)
        if reply is None:
            return False
        self.expect("the reply", reply, self.drawn[0].reply)
        self.is_in_doubt = False
        self.done.append(self.drawn.pop(0))
        return True

    def talk(self, server, killer, count):
        """Sends commands; the killer begins to wait with the one after so many."""
        with server.connect() as client:
            stream = client.makefile("rb")
            self.settle(client, stream)
            begun, sent = time.monotonic(), 0
            while self.drawn:
                if sent == count:
                    self.pace = (time.monotonic() - begun) / max(sent, 1)
                    killer.start()
                if not self.send(client, stream):
                    return
                sent += 1

    def session(self):
        """Starts a server, and kills it within a command or soon after one."""
        count = self.random.randrange(16)
        while len(self.drawn) < count + 12:
            self.draw()
        with Server(self.db, program=WHOLE, journal=self.journal) as server:
            wait = self.random.uniform(0, 2 * self.pace)
            killer = threading.Timer(wait, server.process.kill)
            try:
                self.talk(server, killer, count)
            except ConnectionError:
                pass
            self.expect("it was the kill", killer.ident is not None, True)
            killer.join()

    def kill_opening(self):
        """Kills a server that may not serve yet."""
        words = ["--db", self.db, "--journal", self.journal, "--port", str(free_port())]
        quiet = {"stdout": subprocess.DEVNULL, "stderr": subprocess.DEVNULL}
        with subprocess.Popen([WHOLE, "serve", *words], **quiet) as process:
            time.sleep(self.random.uniform(0, 0.2))
            process.kill()

    def disturb(self, number):
        """What becomes of the file after the kill with this number."""
        if number % 3 == 2:
            lose(self.db)
            if self.copies and self.random.random() < 0.5:
                copied(self.random.choice(self.copies), self.db)
        elif self.random.random() < 0.3:
            self.copies.append(f"{self.db}.{number}")
            copied(self.db, self.copies[-1])
        if self.random.random() < 0.2:
            self.kill_opening()

    def undisturbed(self):
        """The rows of another registry, without a journal, that was sent the same commands."""
        with Server(self.other, program=WHOLE) as server, server.connect() as client:
            stream = client.makefile("rb")
            for it in self.done:
                client.sendall(it.request)
                self.expect("undisturbed", read_reply(stream), it.reply)
        return asked(self.other, ".dump")

    def end(self):
        """One more opening without a file, a session that ends, and the rows."""
        self.draw()
        lose(self.db)
        with Server(self.db, program=WHOLE, journal=self.journal) as server:
            with server.connect() as client:
                stream = client.makefile("rb")
                self.settle(client, stream)
                while self.drawn:
                    self.expect("a reply at the end", self.send(client, stream), True)
        rows = self.undisturbed()
        self.expect("the rows", asked(self.db, ".dump"), rows)
        lose(self.db)
        opened = work(b"", "script", "--db", self.db, "--journal", self.journal)
        self.expect("opened without the file", opened, (b"", b"", 0))
        self.expect("the rows of the journal", asked(self.db, ".dump"), rows)
        lose(self.db)
        status = work(text_of(self.journal), "script", "--db", self.db)[1:]
        self.expect("the journal as a script", status, (b"", 0))
        self.expect("the rows of that", asked(self.db, ".dump"), rows)


def pytest_generate_tests(metafunc):
    stories = STORIES if metafunc.config.option.all else 1
    metafunc.parametrize("number", range(stories))


@pytest.mark.needs("sqlite3")
def test_killed(cases, folder, number):
    story = Story(cases, folder, SAMPLE + number)
    for kill in range(KILLS):
        story.session()
        story.disturb(kill)
    story.end()
    segments = len(names_in(story.journal))
    told = ", ".join(f"{count} {end}" for end, count in story.ends.items())
    print(f"{len(story.done)} commands, {KILLS} kills; in doubt: {told}; {segments} segments")
    cases.equal("commands were sent", len(story.done) > 3 * KILLS, True)
