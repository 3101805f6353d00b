"""Each row of bench/run can be measured: on small input, where its figures mean nothing."""
import os
import re
import subprocess
import sys

import pytest

from program import TOP, WHOLE

RUN = os.path.join(TOP, "bench", "run")

# A row whose measuring ends in a way that nobody foresaw.
BROKEN = """
import sys
from importlib.machinery import SourceFileLoader
sys.path.insert(0, sys.argv[1].rpartition("/")[0])
run = SourceFileLoader("bench_run", sys.argv[1]).load_module()
row = run.rows.Row("broken", "broken", "ours", lambda room: max([]))
print(run.cells_of(row, None)[0][4])
"""


# The ratio to what took no time that could be measured.
NONE = """
import sys
sys.path.insert(0, sys.argv[1].rpartition("/")[0])
import rows
print(*(rows.Row("none", "none", "ours", None, 2).met(rows.Figures(0.001, it)) for it in (0.0, -1)))
"""


@pytest.mark.needs("gcc", "libc6-dev", "libpci-dev", "libsqlite3-dev")
@pytest.mark.needs("nginx-light", "pci.ids", "sqlite3", "valgrind")
def test_rows(cases):
    """A row whose other is missing, such as rustc, is skipped."""
    listed = subprocess.run([RUN, "--list"], stdout=subprocess.PIPE, text=True, check=True).stdout
    works = [line.split(" | ")[1] for line in listed.splitlines()]
    environment = {**os.environ, "PCIIDS": WHOLE}
    how = {"capture_output": True, "text": True, "env": environment, "timeout": 1_200}
    ran = subprocess.run([RUN, "--small"], **how)
    shown = {row[0]: row for row in (line[2:].split(" | ") for line in ran.stdout.splitlines())}
    faults = re.findall(r".* failed: .*", ran.stderr)
    cases.equal("rows that failed", (faults, ran.returncode), ([], 0))
    for work in works:
        cells = shown.get(work, [])
        if cells[4:5] and cells[4].startswith("skipped"):
            cases.skipped(f"bench: {work}", cells[4])
        else:
            cases.equal(f"bench: {work}", [bool(it) for it in cells[2:3]], [True])


def printed(code):
    words = [sys.executable, "-B", "-W", "ignore", "-c", code, RUN]
    return subprocess.run(words, capture_output=True, text=True, timeout=60)


def test_no_time(cases):
    """On small input the other may take as little as the process without any, which is taken off:
    its bar is not met, and the row does not break."""
    ran = printed(NONE)
    cases.equal("beside no time", (ran.stdout, ran.stderr), ("no no\n", ""))


def test_broken_row(cases):
    """A row that cannot be measured says so, and costs no other."""
    ran = printed(BROKEN)
    cases.equal("broken", (ran.stdout, ran.returncode), ("failed\n", 0))
    cases.equal("why", "broken failed: ValueError" in ran.stderr, True)
