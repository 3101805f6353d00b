"""usage: ./test [--edits]

Proves every crate and its tests from nothing, runs the tests and the programs as two compilers
build them (`rt ci`, in a copy without the must-fail edits), and tries the built program against
real peers (tests/run). With --edits `rt ci` runs in the repository itself, and the prover has to
refuse each edit, for more than a name that it takes away. At the end it prints minutes: of provers,
by crate, and by the clock. The last line is 'N passed, N failed[, N skipped]'.
"""
import glob
import os
import re
import shutil
import subprocess
import sys
import tempfile
import time

TOP = os.path.dirname(os.path.dirname(os.path.abspath(__file__)))
sys.path[:0] = [os.path.join(TOP, "tools"), os.path.join(TOP, "tests", "support")]

from cases import last_line  # noqa: E402
from minutes import Meter  # noqa: E402

PROGRAMS = ("crates/pid_cli/out/pid_cli", "crates/pid_cli_first/out/pid_cli_first")
# What `rt ci` prints of what is as it should be, but for the end of a crate.
GOOD = re.compile(
    r"(?!rt: ).*: proved|statements .*|by-macro: .*|== .*|test .* ok|test result: ok.*|rt: chose.*"
    r"|running \d+ test.*|rt: must-fail .*: refused, as it must be(?!.*says little).*|"
)
# What it counts as passed, though no contract refused the edit: a proof names what that took away.
FOR_A_NAME = re.compile(r"rt: must-fail .*: refused, as it must be.*says little.*")


def counted(line):
    """What passed, failed and was skipped by a last line; without one, a failure."""
    found = re.fullmatch(r"(\d+) passed, (\d+) failed(?:, (\d+) skipped)?", line)
    return tuple(int(it or 0) for it in found.groups()) if found else (0, 1, 0)


def ran(folder, *words):
    """Runs a command and shows its lines, each with the minutes until then. Returns the counts of
    the last one, where an edit refused for a name alone has failed; and the minutes it took."""
    how = {"stdin": subprocess.DEVNULL, "stdout": subprocess.PIPE, "stderr": subprocess.STDOUT}
    # What is tried was built in the folder, whatever the caller's PCIIDS names.
    environment = {name: value for name, value in os.environ.items() if name != "PCIIDS"}
    start, line, named = time.monotonic(), "", 0
    with subprocess.Popen(words, cwd=folder, env=environment, errors="replace", **how) as running:
        for line in map(str.rstrip, running.stdout):
            if not GOOD.fullmatch(line):
                print(f"{(time.monotonic() - start) / 60:6.1f}  {line}", flush=True)
            named += FOR_A_NAME.fullmatch(line) is not None
    passed, failed, skipped = counted(line)
    failed += running.returncode != 0 and not failed
    counts = max(passed - named, 0), failed + named, skipped
    return counts, (time.monotonic() - start) / 60


def gate(folder):
    """Proves and tries what is in a folder. Returns whether something failed."""
    start, meter = time.time_ns(), Meter()
    proved, took = ran(folder, "rt", "ci")
    tried, took_tests = (0, 1, 0), 0
    for path in glob.glob("crates/*/must-fail", root_dir=TOP) if folder != TOP else ():
        # Tests of the documents count them.
        shutil.copytree(os.path.join(TOP, path), os.path.join(folder, path))
    programs = [os.path.join(folder, it) for it in PROGRAMS]
    if all(map(os.path.exists, programs)):
        for it in programs:
            # A source that has changed since then is newer.
            os.utime(it, ns=(start, start))
        tried, took_tests = ran(folder, os.path.join(folder, "tests", "run"))
    counts = [sum(it) for it in zip(proved, tried)]
    wall = f"wall minutes: {took:.1f} of rt ci, {took_tests:.1f} of tests/run"
    print(meter.table(), wall, last_line(*counts), sep="\n")
    return counts[1] != 0


def main(words):
    if words not in ([], ["--edits"]):
        print(__doc__, end="")
        return 0 if words in (["--help"], ["-h"]) else 2
    if shutil.which("rt") is None:
        missing = "./test: the command rt is missing; have the toolchain's folder bin in PATH"
        print(missing, last_line(0, 1, 0), sep="\n")
        return 2
    if words:
        return gate(TOP)
    with tempfile.TemporaryDirectory(prefix="pciids-test-") as room:
        left_out = shutil.ignore_patterns("out", ".git", "must-fail")
        shutil.copytree(TOP, f"{room}/pciids", ignore=left_out)
        # `rt ci` takes a folder for a repository by that.
        os.mkdir(f"{room}/pciids/.git")
        return gate(f"{room}/pciids")


if __name__ == "__main__":
    sys.exit(main(sys.argv[1:]))
