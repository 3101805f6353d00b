"""How tests/run installs Debian's packages: apt-get has a stand-in."""
import os
import sys

import pytest

import all as frame
import apt

# What parts need that is no package to install: Debian's own tools, and the toolchain's.
COMMANDS = {"deb-systemd-helper", "perl", "rt", "systemd-sysusers"}

# Says what it would install, or notes what it is called with and makes the command.
APT_GET = """#!/bin/sh
case "$*" in
*--print-uris*) cat "$0.says" ;;
*)
    echo "apt-get $*"
    echo "$*" >> "$0.calls"
    [ "$1" = update ] || cp "$0" "${0%/*}/no-such-command"
    ;;
esac
"""
SAYS = """Reading package lists...
0 upgraded, 32 newly installed, 0 to remove and 3 not upgraded.
Need to get {fetched} of archives.
After this operation, 31.5 MB of additional disk space will be used.
'http://example.org/a.deb' a.deb {size} SHA256:00
'http://example.org/b.deb' b.deb 1000 SHA256:00
"""
PART = 'import pytest\n\n@pytest.mark.needs("no-such-package", "rt")\ndef test_it():\n    pass\n'


class Terminal:
    """A terminal at which this was typed."""

    def __init__(self, typed):
        self.typed = typed

    def isatty(self):
        return True

    def readline(self):
        return self.typed


@pytest.fixture
def room(folder, monkeypatch):
    """A folder with a part and a stand-in of apt-get. pytest is there, and no other package."""
    monkeypatch.setenv("PATH", folder + os.pathsep + os.environ["PATH"])
    monkeypatch.setattr(apt, "SHOWN_BY", {"no-such-package": "no-such-command", "another": "other"})
    for name, text in (("apt-get", APT_GET), ("test_part.py", PART), ("apt-get.calls", "")):
        path = os.path.join(folder, name)
        with open(path, "w", encoding="utf-8") as file:
            file.write(text)
        os.chmod(path, 0o755)
    says(folder, "8,123 kB", 8_122_000)
    return folder


def says(room, fetched, size):
    with open(os.path.join(room, "apt-get.says"), "w", encoding="utf-8") as file:
        file.write(SAYS.format(fetched=fetched, size=size))


def made_ready(room, capfd, may_install=True):
    """What is printed when a part's packages are made ready, and how apt-get was called."""
    apt.make_ready([os.path.join(room, "test_part.py")], may_install)
    with open(os.path.join(room, "apt-get.calls"), encoding="utf-8") as file:
        return capfd.readouterr().out.splitlines(), file.read().splitlines()


INSTALL = "install -y --no-install-recommends no-such-package"
SKIPPED = "tests/run: without no-such-package: the tests that need them are skipped"


def test_names(cases):
    """What parts need is a package, or a command that is known not to be one."""
    needed = apt.needed_by(frame.files_of_parts().values())
    cases.equal("they need some", len(needed) > 15, True)
    cases.equal("names that are unknown", needed - set(apt.SHOWN_BY) - COMMANDS, set())


def test_first(cases):
    """The tests of the first program need few packages."""
    files = frame.files_of_parts()
    named = apt.needed_by(files[it] for it in frame.OF_FIRST) & set(apt.SHOWN_BY)
    cases.equal("first", named, {"pci.ids", "pciutils", *apt.PYTEST})


def test_installed(cases, room, capfd, monkeypatch):
    """What is missing is installed, and how much it is comes before."""
    monkeypatch.setattr(os, "geteuid", lambda: 0)
    printed, calls = made_ready(room, capfd)
    cases.equal("the calls", calls, ["update", INSTALL])
    size = "tests/run: 32 packages, 8,123 kB to fetch, 31.5 MB on disk"
    missing = "tests/run: missing packages: no-such-package"
    shown = sorted([missing, size, "apt-get update", f"apt-get {INSTALL}"])
    cases.equal("what is printed", sorted(printed), shown)
    cases.equal("nothing is missing then", made_ready(room, capfd), ([], calls))


@pytest.mark.parametrize(
    "typed, installs", (("\n", True), ("y\n", True), ("n\n", False), ("", False))
)
def test_asked(cases, room, capfd, monkeypatch, typed, installs):
    """Much is asked about at a terminal. Without an answer nothing is installed."""
    monkeypatch.setattr(os, "geteuid", lambda: 0)
    says(room, "386 MB", 386_000_000)
    monkeypatch.setattr(sys, "stdin", Terminal(typed))
    monkeypatch.setattr(sys.stdout, "isatty", lambda: True, raising=False)
    printed, calls = made_ready(room, capfd)
    cases.equal("it asks", any("[Y/n]" in line for line in printed), True)
    cases.equal("it installs", calls, ["update", *([INSTALL] if installs else [])])


def test_not_asked(cases, room, capfd, monkeypatch):
    """Little is not asked about, and nothing without a terminal."""
    monkeypatch.setattr(os, "geteuid", lambda: 0)
    monkeypatch.setattr(sys.stdout, "isatty", lambda: True, raising=False)
    says(room, "386 MB", 386_000_000)
    printed, calls = made_ready(room, capfd)
    cases.equal("without a terminal", ("[Y/n]" in "".join(printed), len(calls)), (False, 2))
    os.remove(os.path.join(room, "no-such-command"))
    says(room, "48.9 MB", 48_900_000)
    monkeypatch.setattr(sys, "stdin", Terminal("n\n"))
    printed, calls = made_ready(room, capfd)
    cases.equal("little at a terminal", ("[Y/n]" in "".join(printed), len(calls)), (False, 4))


def test_not_root(cases, room, capfd, monkeypatch):
    """Another user is shown the one line to run."""
    monkeypatch.setattr(os, "geteuid", lambda: 1_000)
    printed, calls = made_ready(room, capfd)
    cases.equal("the calls", calls, [])
    line = f"  apt-get {INSTALL}"
    cases.equal("the line, and what is skipped", printed[-2:], [line, SKIPPED])


def test_no_install(cases, room, capfd):
    printed, calls = made_ready(room, capfd, may_install=False)
    cases.equal("nothing is installed", (printed, calls), ([SKIPPED], []))
