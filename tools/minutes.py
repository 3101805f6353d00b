#!/usr/bin/env python3
"""Runs a command, and prints at its end the processor minutes of the provers that it started.

    tools/minutes.py COMMAND ..

A row for each crate: for its proof, its tests and its edits. It looks twice a second at what runs
below it. The gate prints the same table."""
import collections
import contextlib
import glob
import os
import subprocess
import sys
import threading
import time

PARTS = ("proof", "tests", "edits")


def children(process):
    for path in glob.glob(f"/proc/{process}/task/*/children"):
        with open(path, encoding="utf-8") as file:
            yield from file.read().split()


def minutes_of(process):
    """The processor minutes of a process, and of those that it started."""
    with open(f"/proc/{process}/stat", encoding="utf-8") as file:
        ticks = sum(map(int, file.read().rpartition(")")[2].split()[11:15]))
    return ticks / os.sysconf("SC_CLK_TCK") / 60 + sum(map(minutes_of, children(process)))


def task_of(process):
    """The crate that a prover works on, and whether for its proof, its tests or an edit; None of
    another process."""
    with open(f"/proc/{process}/cmdline", encoding="utf-8", errors="replace") as file:
        words = file.read().split("\0")
    if os.path.basename(words[0]) != "rattle" or "--crate-name" not in words:
        return None
    is_edit = "/rt-edit-" in os.readlink(f"/proc/{process}/cwd")
    part = "edits" if is_edit else "tests" if "--test" in words else "proof"
    return words[words.index("--crate-name") + 1], part


class Meter(threading.Thread):
    """Notes what each prover below this process has used, by its crate and its part."""

    def __init__(self):
        super().__init__(daemon=True)
        self.used = collections.defaultdict(dict)
        self.start()

    def run(self):
        while time.sleep(0.5) is None:
            self.look(os.getpid())

    def look(self, process):
        # A process may end meanwhile.
        with contextlib.suppress(OSError):
            if task := task_of(process):
                self.used[task][process] = minutes_of(process)
            else:
                for it in children(process):
                    self.look(it)

    def table(self):
        used = {task: sum(by_process.values()) for task, by_process in list(self.used.items())}
        crates = sorted({crate for crate, _ in used})
        rows = {crate: [used.get((crate, part), 0) for part in PARTS] for crate in crates}
        rows["all"] = [sum(it) for it in zip([0] * len(PARTS), *rows.values())]
        head = f"{'processor minutes':30}" + "".join(f"{it:>8}" for it in (*PARTS, "all"))
        lines = [f"{name:30}" + "".join(f"{it:8.1f}" for it in (*cells, sum(cells)))
                 for name, cells in rows.items()]
        return "\n".join([head, *lines])


if __name__ == "__main__":
    meter = Meter()
    status = subprocess.run(sys.argv[1:]).returncode
    print(meter.table())
    sys.exit(status)
