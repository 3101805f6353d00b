"""What `publish` asks a registry: its counts, and what came of proposals."""
import http.client
import json
import urllib.error
import urllib.request

PATIENCE = 60


class Registry:
    """A registry at an address."""

    def __init__(self, server):
        self.server = server.rstrip("/")

    def ask(self, path):
        asked = urllib.request.Request(f"{self.server}/{path}", headers={"Connection": "close"})
        try:
            with urllib.request.urlopen(asked, timeout=PATIENCE) as answer:
                return json.load(answer)
        except (OSError, ValueError, http.client.HTTPException) as fault:
            raise SystemExit(f"publish: {path}: {fault}") from fault

    def counts(self):
        """The revision, and how many proposals there are and are pending."""
        return self.ask("status")

    def pending(self):
        """The numbers of all pending proposals."""
        numbers = []
        while page := self.ask(f"pending?after={numbers[-1] if numbers else 0}"):
            numbers += [it["num"] for it in page]
        return set(numbers)

    def proposals(self, numbers):
        """The proposals of these numbers, by number."""
        found, left = {}, sorted(numbers)
        while left:
            page = self.ask(f"submissions?before={left[-1] + 1}")["submissions"]
            found.update((it["num"], it) for it in page if it["num"] in numbers)
            lowest = page[-1]["num"] if page else 0
            left = [it for it in left if it < lowest]
        return found


class Followed:
    """The proposals that were pending when a run last looked, and those that were approved then."""

    def __init__(self, kept):
        self.pending, self.settled = set(kept.get("pending", ())), set()
        self.count = kept.get("submissions", 0)
        self.approved = kept.get("approved", [])

    def kept(self):
        return {"pending": sorted(self.pending), "submissions": self.count,
                "approved": self.approved}

    def begin(self, registry, counts):
        """Begins with what is pending now: of what was decided before nothing is known."""
        self.pending, self.count = registry.pending(), counts["submissions"]
        self.approved = []

    def settle(self, rows):
        """Takes decisions that are in the log already."""
        self.settled = {it["num"] for it in rows}

    def decisions(self, registry, counts):
        """The proposals that were decided since, in the order of their numbers."""
        new = range(self.count + 1, counts["submissions"] + 1)
        known = {*self.pending, *new} - self.settled
        gone = set()
        if len(known) != counts["pending"]:
            gone = known - registry.pending()
        found = registry.proposals(gone)
        decided = [found[it] for it in sorted(gone)
                   if it in found and found[it]["state"] != "pending"]
        self.pending = known - {it["num"] for it in decided}
        self.count = counts["submissions"]
        return decided


KEYS = ("num", "state", "path", "name", "author", "decider", "reason")


def decision(proposal, when):
    """The row of a decision."""
    return {"time": when, **{key: proposal[key] for key in KEYS}}


def change(path, before, after, when, approved, other):
    """The row of a change of a name: by the approved proposal for it, or by something else."""
    fitting = [it for it in approved if (it["path"], it["name"]) == (path, after.get(path))]
    by = max(fitting, key=lambda it: it["num"], default={})
    return {
        "time": when, "path": path, "was": before.get(path), "now": after.get(path),
        "how": "proposal" if by else other,
        "num": by.get("num"), "author": by.get("author"), "decider": by.get("decider"),
    }
