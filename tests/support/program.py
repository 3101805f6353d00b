"""The program under test."""
import os
import subprocess
# Ends a test, the rest of which is counted as skipped. It says why.
from unittest import SkipTest as Skip

import apt

SUPPORT = os.path.dirname(os.path.abspath(__file__))
TOP = os.path.dirname(os.path.dirname(SUPPORT))
SITE = os.path.join(TOP, "site")
REAL_FILE = "/usr/share/misc/pci.ids"
HEADER = b"# PCI ID registry\n"

# Debian has nginx in a folder that only root's PATH names.
os.environ["PATH"] = os.environ.get("PATH", os.defpath) + ":/usr/sbin:/sbin"

# PCIIDS names an installed program to try, relative to the caller's folder. Without it the programs
# of this source tree are tried: the script, which calls one of the other two, the whole program and
# the first one, which has no registry.
INSTALLED = os.environ.get("PCIIDS")
if INSTALLED is None:
    PROGRAM = os.path.join(TOP, "pciids")
    WHOLE = os.path.join(TOP, "crates", "pid_cli", "out", "pid_cli")
    FIRST = os.path.join(TOP, "crates", "pid_cli_first", "out", "pid_cli_first")
else:
    PROGRAM = WHOLE = os.path.abspath(INSTALLED)
    FIRST = None


def fault_of_installed():
    """Why the program that PCIIDS names can't be tried, or None."""
    if INSTALLED is None:
        return None
    if not INSTALLED:
        return "PCIIDS is set, but empty: it has to name the program to try"
    if not os.path.exists(PROGRAM):
        return f"PCIIDS names {PROGRAM}, which does not exist"
    if not os.path.isfile(PROGRAM) or not os.access(PROGRAM, os.X_OK):
        return f"PCIIDS names {PROGRAM}, which is not an executable file"
    return None


# What is called once the tests have ended.
AT_END = []


def need(*names):
    """Skips the rest of a test if one of these packages or commands is missing."""
    missing = [it for it in names if not apt.is_here(it)]
    if missing:
        raise Skip(f"{', '.join(missing)} not installed")


class Ran:
    def __init__(self, done):
        self.out = done.stdout
        self.err = done.stderr
        self.status = done.returncode


def run(text, *words):
    """Runs the program with these arguments and this text on its standard input."""
    words = [PROGRAM, *words]
    return Ran(subprocess.run(words, input=text, capture_output=True, timeout=60))


def into_left(text, *words):
    """What the program reports, and its status, if the reader of its standard output has gone."""
    there, here = os.pipe()
    os.close(there)
    try:
        ran = subprocess.run(
            [PROGRAM, *words], input=text, stdout=here, stderr=subprocess.PIPE, timeout=60
        )
    finally:
        os.close(here)
    return ran.stderr, ran.returncode


def tidy(text):
    """Without arguments the program prints the canonical text."""
    return run(text)


def entries_of(canonical):
    """The number of entries of a canonical text: its lines after the header that open no block."""
    return sum(not line.startswith((b"#", b"S ")) for line in canonical.splitlines())
