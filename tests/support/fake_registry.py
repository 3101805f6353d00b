"""A server that stands for the registry at a socket: accounts with ranks, and keys, as docs/HTTP.md
says of them. It serves one connection after the other."""
import contextlib
import json
import re
import socket
import threading
import urllib.parse

from http_server import clients_of


def text_of(told):
    """An answer as text."""
    if "rank" in told:
        return f"{told['who']} {told['rank']}\n"
    return "ok\n" if told["ok"] else f"refused {told['refused']} {told['word']}\n"


class Listener(threading.Thread):
    """A server at a socket of the file system."""

    def __init__(self, path):
        super().__init__(daemon=True)
        self.path, self.listener = path, socket.socket(socket.AF_UNIX)
        self.listener.bind(path)
        self.listener.listen(64)
        self.start()

    def close(self):
        # Its thread ends first: it would accept at what gets the same number.
        self.listener.shutdown(socket.SHUT_RDWR)
        self.join(timeout=60)
        self.listener.close()


class FakeRegistry(Listener):
    def __init__(self, path):
        self.accounts, self.receipts, self.commands = {"root": 3}, {}, []
        # After how many bytes of which response a connection ends; none does by default.
        self.cut, self.answered = None, 0
        super().__init__(path)

    def run(self):
        for client in clients_of(self.listener):
            with client, contextlib.suppress(OSError):
                self.serve(client)

    def serve(self, client):
        """The requests of one connection, until its client closes it."""
        client.settimeout(30)
        left = b""
        while True:
            while b"\r\n\r\n" not in left:
                piece = client.recv(65536)
                if not piece:
                    return
                left += piece
            head, _, body = left.partition(b"\r\n\r\n")
            found = re.search(rb"(?i)\r\ncontent-length: *(\d+)", head)
            length = int(found[1]) if found else 0
            while len(body) < length:
                body += client.recv(65536)
            left = body[length:]
            if not self.sent(client, self.answer(head.decode(), body[:length].decode())):
                return

    def sent(self, client, answer):
        """Sends a response, whole or not. False where the connection ends."""
        status, told = answer
        data = told if isinstance(told, str) else json.dumps(told, separators=(",", ":"))
        data = data.encode()
        data = f"HTTP/1.1 {status} X\r\nContent-Type: application/json\r\n".encode() + (
            f"Content-Length: {len(data)}\r\n\r\n".encode() + data)
        number, self.answered = self.answered, self.answered + 1
        if self.cut is None or self.cut[0] != number:
            client.sendall(data)
            return True
        client.sendall(data[: self.cut[1]])
        self.cut = None
        return False

    def answer(self, head, body):
        method, target, _ = head.split("\r\n")[0].split(" ")
        fields = dict(re.findall(r"(?i)\r\n(x-account|x-key): *([^\r]*)", head))
        status, told = self.judged(method, target, fields, body)
        return status, text_of(told) if "format=text" in target else told

    def judged(self, method, target, fields, body):
        if method == "GET":
            who = urllib.parse.parse_qs(target.partition("?")[2])["who"][0]
            if who in self.accounts:
                return 200, {"rank": self.accounts[who], "who": who}
            return 404, {"ok": False, "refused": 29, "word": "NoSuchAccount"}
        form = dict(urllib.parse.parse_qsl(body))
        return self.set_rank(fields.get("X-Account"), fields.get("X-Key"), form)

    def set_rank(self, sender, key, form):
        if key and (sender, key) in self.receipts:
            return 200, {"ok": True}
        who, rank = form["who"], int(form["rank"])
        if self.accounts.get(sender, 0) < 3:
            return 403, {"ok": False, "refused": 5, "word": "RankTooLow"}
        if self.accounts.get(who) == rank:
            return 409, {"ok": False, "refused": 13, "word": "NothingToDo"}
        self.commands.append((who, self.accounts.get(who), rank))
        self.accounts[who] = rank
        self.receipts[sender, key] = True
        return 200, {"ok": True}
