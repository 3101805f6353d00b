#!/usr/bin/env python3
"""Proves and builds a program and the libraries that it consists of, several side by side.

    tools/build.py PROGRAM [PROCESSORS] [--llvm]

Each crate is proved from nothing. Of a library, `rattle build --statements` then writes what the
crates above it can cite, without the proofs, so that they have less to load than of a library that
`rt lib` builds. As many crates as there are processors are built side by side; those for which the
longest chain of crates waits begin first, and the others give way to them. A crate of that chain,
or one that is built alone, has half of the processors. Each other crate has one job, since a prover
with N jobs makes a copy of itself for each module. The largest crate of a program of two libraries
has all of them.
Rattle's own compiler makes the program; with --llvm LLVM does, which takes longer, for a program
that is faster.
Says on standard error how far it is, and if a crate is not proved, what `rattle` said of it.
"""

import contextlib
import fcntl
import importlib
import os
import re
import shutil
import signal
import subprocess
import sys
import threading
import time

from progress import Estimate, Progress, say

TOP = os.path.dirname(os.path.dirname(os.path.abspath(__file__)))
SOURCES = ("src", "specs", "proofs")
TARGET = "x86_64-unknown-linux-gnu"
# It runs until the whole program is built.
FIRST = "pid_cli_first"
# A prover and its copies are ended together. They stay in this session if Python can do that, since
# Linux shares the processors out between sessions whatever `nice` says.
GROUP = {"process_group": 0} if sys.version_info >= (3, 11) else {"start_new_session": True}


def read_uses():
    """Returns the libraries that each crate uses, of the repository and of the toolchain."""
    uses = {}
    with open(os.path.join(TOP, "crates.txt"), encoding="utf-8") as file:
        for line in file:
            name, colon, libraries = line.partition("#")[0].partition(":")
            if colon:
                uses[name.split()[0]] = libraries.split()
    return uses


def below(uses, crate):
    """Returns the repository's crates below this one, lowest first."""
    found = []
    for used in uses[crate]:
        if used in uses:
            found += [it for it in [*below(uses, used), used] if it not in found]
    return found


def folder(crate):
    return os.path.join(TOP, "crates", crate)


def is_current(program):
    """Returns whether no source is newer than a program, nor a folder that has lost one."""
    path, crates = os.path.join(folder(program), "out", program), below(read_uses(), program)
    places = [os.path.join(folder(it), part) for it in [*crates, program] for part in SOURCES]
    words = ["find", *filter(os.path.isdir, places), os.path.join(TOP, "crates.txt")]
    words += ["-newer", path, "-print", "-quit"]
    return os.access(path, os.X_OK) and not subprocess.check_output(words)


def size(crate):
    """Returns how many bytes the sources of a crate have: roughly how long its proof takes."""
    total = 0
    for part in SOURCES:
        for place, _, names in os.walk(os.path.join(folder(crate), part)):
            total += sum(os.path.getsize(os.path.join(place, name)) for name in names)
    return total


def lock(crates):
    """Waits until no other build and no `rt` works in these crates' folders, which then wait."""
    held = [os.open(it, os.O_RDONLY) for it in sorted(map(folder, crates))]
    for it in held:
        # Some file systems have no locks.
        with contextlib.suppress(OSError):
            try:
                fcntl.flock(it, fcntl.LOCK_EX | fcntl.LOCK_NB)
            except BlockingIOError:
                say("pciids: waiting for another build of this folder\n")
                fcntl.flock(it, fcntl.LOCK_EX)


def processors():
    """Returns how many provers may run at once: one for each processor, with 3 GB of memory for
    each. The largest crate takes 2 GB more."""
    with open("/proc/meminfo", encoding="utf-8") as file:
        free = re.search(r"^MemAvailable: *(\d+) kB$", file.read(), re.M)
    room = (int(free[1]) - 2_000_000) // 3_000_000
    return max(1, min(room, len(os.sched_getaffinity(0))))


class Toolchain:
    """The commands that prove, build and link, and the sum by which `rt` knows a built library."""

    def __init__(self, uses, backend="rattle"):
        page = subprocess.run(["rt", "doc"], stdout=subprocess.PIPE, text=True, check=True)
        self.kit = os.path.dirname(page.stdout.strip())
        self.uses, self.backend = uses, backend
        sys.path.insert(0, os.path.join(self.kit, "bin"))

    def build(self, crate, jobs):
        """Returns the command that proves a crate and builds its library or its object file."""
        command = [f"{self.kit}/bin/rattle", "build", "--crate-name", crate]
        command += ["src/main.rt" if self.is_program(crate) else "src/lib.rt"]
        for used in ("std", *self.uses[crate]):
            place = self.library(used) if used in self.uses else f"{self.kit}/rlibs/{used}.rlib"
            command += ["--extern", f"{used}={place}"]
        for place in (self.kit + "/rlibs", *map(self.place, below(self.uses, crate))):
            command += ["-L", f"dependency={place}"]
        command += ["--antt-project", f"{self.kit}/rattle/logic/antt-project.json"]
        command += ["--logic-built", f"{self.kit}/logic_built"]
        command += ["--links", f"{crate}=", "--jobs", str(jobs)]
        if self.is_program(crate):
            command += ["--toolchain", f"{self.kit}/toolchain", "--backend", self.backend]
            return [*command, "-o", f"out/{crate}.o"]
        return [*command, "--statements", "-o", self.library(crate)]

    def link(self, crate):
        """Returns the command that links a program."""
        command = [f"{self.kit}/bin/rattle-link", "--target", TARGET]
        command += ["--toolchain", f"{self.kit}/toolchain", "-o", f"out/{crate}", f"out/{crate}.o"]
        return [*command, f"{self.kit}/c/libos_c.a", f"{self.kit}/c/liblibc_c.a"]

    @staticmethod
    def is_program(crate):
        return os.path.exists(os.path.join(folder(crate), "src", "main.rt"))

    @staticmethod
    def place(crate):
        return os.path.join(folder(crate), "out", "rlib")

    def library(self, crate):
        return os.path.join(self.place(crate), f"{crate}.rlib")

    def sum(self, crate):
        """Returns the sum of all that a library is made from. `rt` takes a library with this sum
        as built; a toolchain that makes it otherwise builds all libraries anew."""
        try:
            return importlib.import_module("rtlib").Crate(folder(crate), TOP, {}).stamp()
        except (AttributeError, ImportError, OSError, TypeError, SystemExit):
            return None


class Build:
    """The crates of a program: which are built, and which are being built."""

    def __init__(self, program, processors, backend):
        self.uses = read_uses()
        self.crates = [*below(self.uses, program), program]
        self.below = {crate: below(self.uses, crate) for crate in self.crates}
        # Whether next to nothing can be built beside the largest crate.
        self.is_small = len(self.crates) <= 3
        self.toolchain = Toolchain(self.uses, backend)
        self.processors = processors
        self.built, self.begun, self.failed = set(), set(), False
        # Those that are proved, in turn, and since when others are being proved.
        self.proved, self.running = [], {}
        # Those that are built beside the ones for which the longest chain waits.
        self.beside = set()
        self.changed = threading.Condition()
        self.started, self.broken = [], None
        self.sizes = {crate: size(crate) for crate in self.crates}
        # The longest chain that waits for a crate.
        self.above = {}
        for crate in reversed(self.crates):
            users = [it for it in self.above if crate in self.uses[it]]
            self.above[crate] = max((self.chain(it) for it in users), default=0)
        self.estimate = Estimate(self.sizes, self.uses)
        for crate in self.crates:
            self.measure(crate)

    def chain(self, crate):
        return self.sizes[crate] + self.above[crate]

    def ready(self):
        """Returns the crates that can be built now, those with the longest chain first."""
        waiting = [it for it in self.crates if it not in self.begun]
        ready = [it for it in waiting if self.built.issuperset(self.below[it])]
        return sorted(ready, key=lambda it: -self.chain(it))

    def run(self):
        """Builds all crates. Returns whether that succeeded."""
        threads = []
        with self.changed:
            while not self.failed and len(self.built) < len(self.crates):
                free = self.processors - len(self.begun - self.built)
                for crate in self.ready()[:free]:
                    if not self.leads(crate):
                        self.beside.add(crate)
                    self.begun.add(crate)
                    parts = (crate, self.jobs(crate))
                    threads.append(threading.Thread(target=self.build, args=parts))
                    threads[-1].start()
                self.changed.wait(timeout=1)
        for thread in threads:
            thread.join()
        return not self.failed

    def leads(self, crate):
        """Returns whether the longest chain of crates waits for this one."""
        first = max((it for it in self.crates if it not in self.built), key=self.chain)
        return self.above[crate] == self.above[first]

    def jobs(self, crate):
        """Returns how many jobs a crate has that begins now."""
        others = (self.begun - self.built - {crate}).union(self.ready())
        if self.is_small:
            is_largest = all(self.chain(it) <= self.chain(crate) for it in others)
            return self.processors if is_largest else 1
        if others and not self.leads(crate):
            return 1
        return max(1, self.processors // 2)

    def build(self, crate, jobs):
        """Builds one crate, and lets those above it begin."""
        succeeded = False
        try:
            succeeded = self.is_built(crate) or self.prove(crate, jobs)
        finally:
            with self.changed:
                self.beside.discard(crate)
                self.running.pop(crate, None)
                self.failed = self.failed or not succeeded
                self.built.add(crate)
                self.proved += [crate] if succeeded else []
                self.changed.notify()

    def measure(self, crate, seconds=None):
        """Notes how many seconds a crate took to prove, here or in an earlier build."""
        path = os.path.join(folder(crate), "out", "seconds")
        with contextlib.suppress(OSError, ValueError):
            if seconds is not None:
                with open(path, "w", encoding="utf-8") as file:
                    file.write(f"{seconds:.0f}\n")
            with open(path, encoding="utf-8") as file:
                self.estimate.measured[crate] = float(file.read())

    def is_built(self, crate):
        """Returns whether a library was built from its sources as they are now, and over the
        libraries that are below it now."""
        places = [os.path.join(Toolchain.place(it), "stamp") for it in [crate, *self.below[crate]]]
        try:
            with open(places[0], encoding="utf-8") as file:
                is_same = file.read() == self.toolchain.sum(crate)
            ages = [os.stat(it).st_mtime_ns for it in places]
        except FileNotFoundError:
            return False
        return is_same and ages[0] == max(ages)

    def prove(self, crate, jobs):
        """Proves and builds a crate. Returns whether that succeeded."""
        with self.changed:
            self.running[crate] = began = time.monotonic()
        succeeded = self.prove_now(crate, self.toolchain.build(crate, jobs))
        if succeeded:
            self.measure(crate, time.monotonic() - began)
        return succeeded

    def prove_now(self, crate, command):
        place, toolchain = Toolchain.place(crate), self.toolchain
        if toolchain.is_program(crate):
            os.makedirs(os.path.dirname(place), exist_ok=True)
            return self.call(crate, command) and self.call(crate, toolchain.link(crate))
        shutil.rmtree(place, ignore_errors=True)
        os.makedirs(place)
        before = toolchain.sum(crate)
        succeeded = self.call(crate, command)
        if succeeded and before and before == toolchain.sum(crate):
            with open(os.path.join(place, "stamp"), "w", encoding="utf-8") as file:
                file.write(before)
        return succeeded

    def call(self, crate, command):
        """Runs a command in a crate's folder; a crate that is built beside others gives way."""
        with self.changed:
            if self.failed:
                return False
            process = subprocess.Popen(
                [*(["nice"] if crate in self.beside else []), *command],
                cwd=folder(crate),
                stdin=subprocess.DEVNULL,
                stdout=subprocess.PIPE,
                stderr=subprocess.STDOUT,
                text=True,
                **GROUP,
            )
            self.started.append(process)
        told, _ = process.communicate()
        with self.changed:
            if process.returncode and not self.failed:
                self.failed, self.broken = True, (crate, told)
                # It is not one of those for which the build waits.
                self.running.pop(crate, None)
        return process.returncode == 0

    def stop(self):
        """Ends the builds that run, with the copies that a prover makes of itself."""
        with self.changed:
            self.failed = True
            for process in self.started:
                if process.poll() is None:
                    os.killpg(process.pid, signal.SIGTERM)


def main():
    program, *words = sys.argv[1:]
    count = [it for it in words if it != "--llvm"]
    # The program is then newer than what it was built from, and older than what changed meanwhile.
    start, path = time.time_ns(), os.path.join(folder(program), "out", program)
    if not os.access(os.environ.get("TMPDIR", "/tmp"), os.W_OK):
        os.environ.pop("TMPDIR", None)
    backend = "llvm" if "--llvm" in words else "rattle"
    build = Build(program, int(count[0]) if count else processors(), backend)
    signal.signal(signal.SIGTERM, lambda *_: sys.exit(build.stop() or 143))
    is_built, is_small = False, program == FIRST
    what = "the first program, for tidy, check and help" if is_small else "the whole program"
    # If only the times of files have changed, a build ends within a second or two.
    progress = Progress(build, what, 3 if os.path.exists(path) else 0)
    try:
        lock(build.crates)
        progress.start()
        is_built = build.run()
        if is_built:
            os.utime(path, ns=(start, start))
    except KeyboardInterrupt:
        build.stop()
        return 130
    finally:
        progress.end(is_built)
    return 0 if is_built else 1


if __name__ == "__main__":
    sys.exit(main())
