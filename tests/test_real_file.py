"""The file of Debian's package pci.ids, against grep and against the program's own output."""
import re
import subprocess

import pytest

from program import HEADER, REAL_FILE, entries_of, run as run_program, tidy


@pytest.mark.needs("pci.ids")
@pytest.mark.usefixtures("either")
def test_real_file(cases):
    with open(REAL_FILE, "rb") as file:
        text = file.read()
    # The file is sorted as the canonical text is, so this is that text without our own reader.
    entry_lines = ["grep", "-v", "-e", "^[[:space:]]*#", "-e", "^[[:space:]]*$", REAL_FILE]
    entries = subprocess.run(entry_lines, stdout=subprocess.PIPE, check=True).stdout
    ran = tidy(text)
    cases.equal("the real file: status", (ran.status, ran.err), (0, b""))
    cases.equal("the real file: its entry lines after the header", ran.out, HEADER + entries)
    counted = run_program(text, "check")
    want = b"ok %d\n" % entries_of(entries)
    cases.equal("the real file: its entries", (counted.out, counted.status), (want, 0))
    if re.search(rb"^#\s*Version: 2023\.04\.10", text, re.M):
        cases.equal("version 2023.04.10: lines", ran.out.count(b"\n"), 35599)
        cases.equal("version 2023.04.10: entries", counted.out, b"ok 35598\n")
        cases.equal("version 2023.04.10: bytes", len(ran.out), 1339707)
    else:
        cases.skipped("version 2023.04.10", "another version of pci.ids is installed")
    cases.equal("the real file: tidied twice", tidy(ran.out).out, ran.out)
    with_cr = tidy(text.replace(b"\n", b"\r\n"))
    cases.equal("the real file with CR LF", with_cr.out, ran.out)
