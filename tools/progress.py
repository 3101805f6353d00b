"""Says on standard error how far a build is, and about how long it still takes.

At a terminal that is one line, which is written anew each second. Elsewhere it is a line for each
crate, and one every two minutes between them.
"""

import contextlib
import os
import re
import shutil
import sys
import threading
import time

TABLE = os.path.join(os.path.dirname(os.path.abspath(__file__)), "seconds.txt")
# The longest time without a line, in seconds, where standard error is no terminal.
SILENCE = 120
# What `rattle` prints of a crate beside its faults.
PASSING = re.compile(r".*: proved|statements .*|by-macro: .*")


def spelled(seconds):
    """A time as a person says it."""
    minutes, seconds = divmod(int(seconds), 60)
    return f"{minutes} min {seconds:02} s" if minutes else f"{seconds} s"


def rounded(seconds):
    """A time that is only known roughly."""
    if seconds > 90:
        return f"about {seconds / 60:.0f} min"
    return f"about {max(10, round(seconds / 10) * 10)} s"


def read_table():
    with open(TABLE, encoding="utf-8") as file:
        rows = [line.partition("#")[0].split() for line in file]
    return {row[0]: float(row[1]) for row in rows if row}


class Estimate:
    """How long crates take on this machine: the seconds of the table, in the ratio in which those
    crates took theirs that were proved here."""

    def __init__(self, sizes, uses):
        """Takes the size of each crate, those that others use first, and what each uses."""
        table = read_table()
        known = [it for it in sizes if it in table]
        rate = sum(table[it] for it in known) / max(1, sum(sizes[it] for it in known))
        self.users = {it: [one for one in sizes if it in uses[one]] for it in sizes}
        self.expected = {it: table.get(it, sizes[it] * rate) for it in sizes}
        self.measured = {}

    def seconds(self, crate):
        took = sum(self.measured.values())
        wanted = sum(self.expected[it] for it in self.measured)
        return self.expected[crate] * (took / wanted if took and wanted else 1)

    def left(self, waiting, running, processors):
        """The time until all crates are built. Takes those that wait, and for how long others have
        been running: one that lasts longer than expected has a tenth of its time left."""
        left = {it: self.seconds(it) for it in waiting}
        left |= {it: max(self.seconds(it) - so_far, so_far / 10) for it, so_far in running.items()}
        # How long it takes from each crate to the end.
        chains = {}
        for crate in reversed(self.expected):
            longest = max((chains[it] for it in self.users[crate]), default=0)
            chains[crate] = left.get(crate, 0) + longest
        return max(*chains.values(), sum(left.values()) / processors)


class Progress(threading.Thread):
    """Says how far a build is, until it is over."""

    def __init__(self, build, what, quiet):
        """A build that ends within `quiet` seconds has nothing to say."""
        super().__init__(daemon=True)
        self.build, self.what, self.quiet = build, what, quiet
        self.is_over, self.began = threading.Event(), time.monotonic()
        self.is_terminal = sys.stderr is not None and sys.stderr.isatty()
        # How many crates were named as proved, and when the last line was written.
        self.named, self.last = 0, self.began
        self.is_silent, self.is_explained, self.is_in_line = True, False, False

    def run(self):
        if self.is_over.wait(self.quiet):
            return
        self.is_silent = False
        with self.build.changed:
            count, left = len(self.build.crates), rounded(self.left())
        say(f"pciids: building {self.what}: {count} crates, {left}\n")
        while not self.is_over.wait(1 if self.is_terminal else 0.1):
            self.look()

    def look(self):
        """Says what is new."""
        self.explain()
        with self.build.changed:
            if self.build.broken and not self.build.running:
                return
            # The last one is the program, whose end is said by `end`.
            proved = self.build.proved[self.named : len(self.build.crates) - 1]
            before = self.named + 1
            lines = [self.line(f"{it} is proved: ", at) for at, it in enumerate(proved, before)]
            lines = lines or [self.line()]
        if self.is_terminal:
            say("\r" + self.line()[: shutil.get_terminal_size().columns - 1] + "\033[K")
            self.is_in_line = True
        elif proved or time.monotonic() - self.last >= SILENCE:
            say("".join(f"{it}\n" for it in lines))
            self.last = time.monotonic()
        self.named += len(proved)

    def explain(self):
        """Says which crate is not proved, and what the toolchain said of it."""
        if not self.build.broken or self.is_explained:
            return
        crate, told = self.build.broken
        shown = [it for it in told.splitlines() if not PASSING.fullmatch(it)]
        self.end_line()
        say("".join(f"{it}\n" for it in shown) + f"pciids: the crate {crate} was not built\n")
        self.is_explained = True

    def end_line(self):
        if self.is_in_line:
            say("\n")
        self.is_in_line = False

    def line(self, head="", count=None):
        build, so_far = self.build, spelled(time.monotonic() - self.began)
        if build.broken:
            return f"pciids: {so_far}, waiting for {', '.join(build.running)}"
        counts = f"{count or len(build.proved)} of {len(build.crates)} crates, {so_far}"
        now = f", proving {', '.join(build.running)}" if build.running else ""
        return f"pciids: {head}{counts}, {rounded(self.left())} left{now}"

    def left(self):
        build, now = self.build, time.monotonic()
        running = {it: now - began for it, began in build.running.items()}
        waiting = [it for it in build.crates if it not in build.built | running.keys()]
        return build.estimate.left(waiting, running, build.processors)

    def end(self, is_built):
        """Leaves the line, and says how long it took."""
        self.is_over.set()
        if self.ident is not None:
            self.join()
        self.explain()
        self.end_line()
        if is_built and not self.is_silent:
            say(f"pciids: built in {spelled(time.monotonic() - self.began)}\n")


def say(text):
    """Writes to standard error, which may be closed."""
    with contextlib.suppress(AttributeError, OSError, ValueError):
        sys.stderr.write(text)
        sys.stderr.flush()
