"""A small registry in Python that speaks HTTP as far as `mirror` and `publish` ask: what it knows
can be set, kept and put back at once."""
import copy
import json
import re
import threading
import urllib.parse
from http.server import BaseHTTPRequestHandler, ThreadingHTTPServer

HEADER = "# PCI ID registry\n"
PAGE = 100


def text_of(names):
    """The canonical text of names by their paths."""
    lines = [HEADER]
    for path in sorted(it for it in names if it.count("/") == 1):
        inside = sorted(it for it in names if it.startswith(path + "/"))
        lines += [line_of(it, names[it]) for it in [path, *inside]]
        generic = sorted(it for it in names if it.startswith(f"PS/{path[3:]}/"))
        if path.startswith("PC/") and generic:
            lines += [f"S {path[3:]}\n", *(line_of(it, names[it]) for it in generic)]
    return "".join(lines)


def line_of(path, name):
    numbers = path.split("/")[1:]
    own = re.sub(r"^(.{4})(.{4})$", r"\1 \2", numbers[-1])
    tabs = "\t" * (len(numbers) - 1)
    return f"{tabs}{'C ' if path[:2] == 'PD' and not tabs else ''}{own}  {name}\n"


class SmallRegistry:
    """Names, proposals and the count of commands."""

    def __init__(self):
        self.names, self.since, self.rows, self.revision = {}, {}, [], 0
        self.asked = []

    def counts(self):
        pending = len([it for it in self.rows if it["state"] == "pending"])
        return {"revision": self.revision, "submissions": len(self.rows), "pending": pending,
                "items": len(self.names), "accounts": 1}

    def put(self, path, name):
        if name is None:
            del self.names[path], self.since[path]
        elif self.names.get(path) != name:
            self.names[path], self.since[path] = name, self.revision

    def submit(self, author, path, name):
        self.revision += 1
        self.rows.append({
            "num": len(self.rows) + 1, "state": "pending", "author": author, "path": path,
            "name": name, "decider": "", "reason": "", "remarks": 0})
        return len(self.rows)

    def comment(self, num):
        self.revision += 1
        self.rows[num - 1]["remarks"] += 1

    def settle(self, num, state, decider, reason=""):
        self.revision += 1
        self.rows[num - 1].update(state=state, decider=decider, reason=reason)
        if state == "approved":
            self.put(self.rows[num - 1]["path"], self.rows[num - 1]["name"])

    def import_names(self, names):
        self.revision += 1
        for path, name in names.items():
            self.put(path, name)

    def kept(self):
        return copy.deepcopy((self.names, self.since, self.rows, self.revision))

    def restore(self, kept):
        self.names, self.since, self.rows, self.revision = copy.deepcopy(kept)

    def pending(self):
        return {it["num"] for it in self.rows if it["state"] == "pending"}

    def proposals(self, numbers):
        return {it: dict(self.rows[it - 1]) for it in numbers if it <= len(self.rows)}

    def answer(self, path, query):
        """What is at an address: a text, or a value that is shown as JSON."""
        number = {key: int(query.get(key) or 0) for key in ("since", "before")}
        if path == "/pci.ids":
            return text_of(self.names)
        if path == "/changes":
            found = [it for it in sorted(self.names) if self.since[it] > number["since"]
                     and it > query.get("after", "")]
            lines = [f"{self.since[it]} {it} {self.names[it]}\n" for it in found[:PAGE]]
            return f"revision {self.revision}\n{''.join(lines)}"
        if path == "/pending":
            found = [it for it in self.rows if it["state"] == "pending"
                     and it["num"] > int(query.get("after") or 0)]
            return [{key: it[key] for key in ("author", "name", "num", "path")}
                    for it in found[:PAGE]]
        if path == "/submissions":
            found = [it for it in reversed(self.rows)
                     if not number["before"] or it["num"] < number["before"]][:PAGE]
            before = found[-1]["num"] if found and found[-1]["num"] > 1 else 0
            return {"before": before, "submissions": found}
        return self.counts() if path == "/status" else None


class SmallServer:
    """A small registry at a port of loopback."""

    def __init__(self, registry):
        class Handler(BaseHTTPRequestHandler):
            def do_GET(self):
                path, _, query = self.path.partition("?")
                registry.asked.append(path)
                told = registry.answer(path, dict(urllib.parse.parse_qsl(query)))
                body = (told if isinstance(told, str) else json.dumps(told)).encode()
                self.send_response(404 if told is None else 200)
                self.send_header("Content-Length", str(len(body)))
                self.end_headers()
                self.wfile.write(body)

            def log_message(self, *_):
                pass

        self.listener = ThreadingHTTPServer(("127.0.0.1", 0), Handler)
        self.address = f"http://127.0.0.1:{self.listener.server_address[1]}"
        threading.Thread(target=self.listener.serve_forever, args=[0.02], daemon=True).start()

    def close(self):
        self.listener.shutdown()
        self.listener.server_close()
