"""usage: tests/run [--no-install] first
       tests/run [--no-install] [PART..] [ARGUMENT OF PYTEST..]

Tries the built program against files and real peers: all parts, or those that are named. First it
builds the programs that they try, if they are missing or older than a source, and installs Debian's
packages that they need; with --no-install tests that need a missing one are skipped. `first` builds
and tries the first program alone: tidy, check and help.

  tests/run words::test_tidy              one test of a part
  tests/run -k refused -x                 tests by a part of their names, up to the first failure
  tests/run words -n 0 -s                 without other processes, and with what is printed
  tests/run refusing --all -k migrate     each call refused, in place of a sample
  tests/run journal_kills --all           a server killed 1,000 times, in place of 40
  PCIIDS=/usr/bin/pciids tests/run        an installed program; nothing is built
  PCIIDS_SAMPLE=123 tests/run migrate     the calls that a run with that sample refused

PCIIDS has to name the program itself, not a script that calls it, since some parts refuse it memory
or stop its disk. Where they refuse some of many calls, these are others in each run. The last line
is 'N passed, N failed', followed by ', N skipped' if cases were skipped.
"""
import glob
import os
import subprocess
import sys
import textwrap
import traceback
from importlib.util import find_spec
from itertools import takewhile

HERE = os.path.dirname(os.path.abspath(__file__))
sys.path[:0] = [os.path.join(HERE, "support")]

import apt  # noqa: E402
import program  # noqa: E402
from cases import Counts, last_line  # noqa: E402

# How many processes try the parts of a folder, in this order: many those that mostly wait, a few
# those that have browsers. Beside what takes times or measures memory nothing is tried.
FOLDERS = {"": len(os.sched_getaffinity(0)), "service": 99, "site": 3, "alone": 1}
ALONE = ("front_attack", "progress", "serving", "serving_memory", "site_access")
# Where tests with the mark `first` are; and what tries no program.
OF_FIRST = ("fault_gallery", "limits", "lspci", "real_file", "words", "worked_rows")
OF_SOURCES = ("apt", "building", "contracts", "documents", "harness", "style")


def files_of_parts():
    """The file of each part, by its name."""
    paths = [it for folder in FOLDERS for it in glob.glob(os.path.join(HERE, folder, "test_*.py"))]
    return {os.path.basename(it)[len("test_"):-len(".py")]: it for it in sorted(paths)}


def folder_of(part, path):
    """The folder by which a part is tried."""
    return "alone" if part in ALONE else os.path.relpath(os.path.dirname(path), HERE).strip(".")


def help_text():
    parts = textwrap.fill(" ".join(files_of_parts()), 96)
    return f"{__doc__}\nThe parts are:\n{textwrap.indent(parts, '  ')}"


def fault_of_building(names):
    """Builds what isn't current of these programs. Returns why they can't be tried, or None."""
    sys.path.append(os.path.join(program.TOP, "tools"))
    import build
    for name in (it for it in names if not build.is_current(it)):
        print(f"{name}: missing, or older than a source: proving and building it")
        words = [sys.executable, "-B", build.__file__, name]
        if subprocess.call(words, stdin=subprocess.DEVNULL) or not build.is_current(name):
            return f"{name} was not built, or a source changed meanwhile"
    return None


def run_pytest(tests, words, counts):
    """Runs pytest for each folder, on the tests of its parts: pairs of a part and a path."""
    import pytest
    for folder, most in FOLDERS.items():
        paths = [path for part, path in tests if folder_of(part, path) == folder]
        # Not in groups (loadgroup): xdist 3.1 waits for a process that has ended there for ever.
        how = ["-v", "--dist", "load", "-n", str(min(most, len(paths)))]
        status = pytest.main([*how, *paths, *words], plugins=[counts]) if paths else 5
        if counts.is_interrupted:
            raise KeyboardInterrupt
        # 5: no test was chosen here. Any other status but 0 has a failure.
        if status not in (0, 5) and not counts.all[1]:
            counts.add(0, 1, 0)
        if counts.all[1] and {"-x", "--exitfirst"} & {*words}:
            return


def main(words, counts):
    """Tries what is asked for. Returns why that can't be tried, or None."""
    installs, words = "--no-install" not in words, [it for it in words if it != "--no-install"]
    files, names = files_of_parts(), list(takewhile(lambda it: it[0] != "-", words))
    words, is_first = words[len(names):], names == ["first"]
    if is_first:
        names, words = OF_FIRST, ["-m", "first", *words]
    of = {it: [part for part in files if folder_of(part, files[part]) == it] for it in FOLDERS}
    parts = [it.partition("::") for name in names or files for it in of.get(name) or [name]]
    unknown = [part for part, *_ in parts if part not in files]
    if unknown:
        return f"tests/run: unknown part: {', '.join(unknown)}\n{help_text()}"
    fault = program.fault_of_installed()
    if not fault:
        apt.make_ready([files[part] for part, *_ in parts], installs)
    if program.INSTALLED is None and {it for it, *_ in parts} - {*OF_SOURCES}:
        fault = fault_of_building(["pid_cli_first", "pid_cli"][:1 if is_first else 2])
    if fault or not all(map(find_spec, ("pytest", "pytest_timeout", "xdist"))):
        return fault or f"tests/run: needs Debian's packages {', '.join(sorted(apt.PYTEST))}"
    if program.INSTALLED is not None:
        os.environ["PCIIDS"] = program.PROGRAM
    os.chdir(HERE)
    run_pytest([(it[0], files[it[0]] + it[1] + it[2]) for it in parts], words, counts)
    return None if any(counts.all) else "FAILED: no test was chosen"


def closed(words):
    """Runs the tests. Whatever happens, the last line has the counts."""
    if {"--help", "-h"} & {*words}:
        return print(help_text())
    sys.stdout.reconfigure(line_buffering=True, errors="backslashreplace")
    counts, status = Counts(), 1
    try:
        fault = main(words, counts)
    except KeyboardInterrupt:
        fault, status = "FAILED: interrupted", 130
    except Exception:
        fault = traceback.format_exc()
    if fault:
        print(fault)
        counts.add(0, 1, 0)
    print(last_line(*counts.all))
    return status if counts.all[1] else 0


if __name__ == "__main__":
    sys.exit(closed(sys.argv[1:]))
