"""Libraries that refuse the program under test a request for memory, a call of its disk, or a
connection, or note its calls."""
import os
import subprocess
import time

from program import SUPPORT, WHOLE, Skip

# In memory where that can be had, so that no run waits for a disk.
ROOM = "/dev/shm" if os.access("/dev/shm", os.W_OK) else None

# The libraries, each from its source in C.
NAMES = ("refuse_disk", "refuse_malloc", "refuse_accept", "note_calls")

# Where a sample begins: at another call in each run, so that runs in turn try all of them. A test
# prints it, and PCIIDS_SAMPLE repeats it.
SAMPLE = int(os.environ.get("PCIIDS_SAMPLE") or time.time_ns() // 1_000_000_007)


def first_of(step):
    """The first call of a sample that has every step-th one."""
    return 1 + SAMPLE % step


def build_shims(folder):
    """The paths of the libraries by their names, built in a folder."""
    shims = {name: os.path.join(folder, f"{name}.so") for name in NAMES}
    for name, shim in shims.items():
        source = os.path.join(SUPPORT, f"{name}.c")
        words = ["gcc", "-O1", "-shared", "-fPIC", source, "-o", shim, "-ldl"]
        if subprocess.run(words, timeout=60).returncode != 0:
            raise Skip("gcc could not build the shims")
    return shims


def run_refusing(shim, at, text, *words, within=None):
    """Runs the program with its request number `at` refused: output, faults and status, and whether
    there was such a request. Requests of the disk may be counted of some files alone: those whose
    paths have a text."""
    reading, writing = os.pipe()
    environment = dict(os.environ, LD_PRELOAD=shim, REFUSE_AT=str(at), REFUSE_FD=str(writing))
    if within:
        environment["REFUSE_IN"] = within
    how = {"env": environment, "pass_fds": [writing], "timeout": 60}
    ran = subprocess.run([WHOLE, *words], input=text, capture_output=True, **how)
    os.close(writing)
    with os.fdopen(reading, "rb") as pipe:
        was_refused = pipe.read(1) == b"!"
    return (ran.stdout, ran.stderr, ran.returncode), was_refused
