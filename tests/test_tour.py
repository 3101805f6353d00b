"""The tour of README.md: its commands are typed to one shell, in turn, in an empty folder, and each
prints what the page shows below it."""
import os
import re
import subprocess

import pytest

from examples import commands_in
from http_server import free_port
from program import PROGRAM, REAL_FILE, TOP

END = "--- the command has ended ---\n"


class Shell:
    """A shell in a folder, to which one command is typed after the other."""

    def __init__(self, folder):
        piped = {"stdin": subprocess.PIPE, "stdout": subprocess.PIPE, "stderr": subprocess.STDOUT}
        self.shell = subprocess.Popen(["bash"], cwd=folder, text=True, **piped)

    def typed(self, command, lines_later=0):
        """What a command prints, up to so many lines if it goes on in the background."""
        self.shell.stdin.write(f"{command}\nprintf '%s' '{END}'\n")
        self.shell.stdin.flush()
        printed = []
        while (line := self.shell.stdout.readline()) and not line.endswith(END):
            printed.append(line)
        printed.append(line.removesuffix(END))
        while "".join(printed).count("\n") < lines_later:
            printed.append(self.shell.stdout.readline())
        return "".join(printed)

    def end(self):
        self.typed("kill $(jobs -p) 2> /dev/null; wait")
        self.shell.stdin.close()
        self.shell.wait(timeout=60)


def at_port(text, port):
    return re.sub(r"(--port |127\.0\.0\.1:)8086", rf"\g<1>{port}", text)


def has_shown_version():
    if not os.path.exists(REAL_FILE):
        return False
    with open(REAL_FILE, "rb") as file:
        return b"2023.04.10" in file.read(1_000)


@pytest.mark.needs("curl", "pci.ids")
def test_tour(cases, folder):
    with open(os.path.join(TOP, "README.md"), encoding="utf-8") as page:
        tour = re.search(r"^## A tour$(.*?)^## ", page.read(), re.M | re.S).group(1)
    if not has_shown_version():
        pytest.skip("it shows version 2023.04.10 of pci.ids, which is not installed")
    blocks = [commands_in([block]) for block in tour.split("```")[1::2]]
    cases.equal("README.md: the tour has commands", sum(map(len, blocks)) > 10, True)
    os.symlink(PROGRAM, os.path.join(folder, "pciids"))
    port = free_port()
    for block in blocks:
        shell = Shell(folder)
        for command, printed in block:
            # The server's port may be taken here.
            command = at_port(command, port)
            printed = at_port(printed.rstrip("\n") + "\n", port)
            file = re.fullmatch(r"cat (\w+)", command)
            if file and not os.path.exists(os.path.join(folder, file.group(1))):
                # A file of the reader's own, which the tour shows.
                with open(os.path.join(folder, file.group(1)), "w", encoding="utf-8") as own:
                    own.write(printed)
            shown = shell.typed(command, printed.count("\n") if command.endswith("&") else 0)
            cases.equal(f"README.md: {command}", shown, printed)
        # What a block left running ends with it.
        shell.end()
