"""The memory that a server takes: the file of an import passes through, and so does the text of all
items if it can't be kept.

What a request took is shown by how far the mark of the server's resident memory rose (VmHWM), and
by what is answered where the server may take little more than it has. Forms and lists, which are
held, show that both would notice it."""
import errno
import os
import resource
import subprocess
import time

import pytest

from http_server import JSON, TEXT, Server, posted, refusal, reply
from program import HEADER, REAL_FILE, WHOLE
from resident import KIB, told

LONGEST = 4_194_304

# Of the longest length: a text of short lines, a form, and one of more fields than any command
# has. And a text of nearly that length.
COMMENTS = (b"# " + b"c" * 61 + b"\n") * (LONGEST // 64)
FORM = b"num=1&text=" + b"a" * (LONGEST - 11)
MANY_FIELDS = b"a=b&" * (LONGEST // 4)
VENDORS = b"".join(b"%04x  %s\n" % (vendor, b"n" * 56) for vendor in range(65_536))

# What a request may take beside what it holds, in KiB: buffers, and pages of the file.
FEW = 512

# What a request gets that finds no room.
NO_ROOM = (
    b"",
    reply("503 Service Unavailable", JSON, refusal(16, "Memory")),
    reply("503 Service Unavailable", TEXT, b"refused 16 Memory\n"),
)

# What is taken at once in such a size is given back at once, and does not hide what is taken next
# (mallopt(3)).
ENVIRONMENT = dict(os.environ, MALLOC_MMAP_THRESHOLD_="131072")


def reset_mark(pid):
    """The mark is then what the process holds (proc(5))."""
    with open(f"/proc/{pid}/clear_refs", "w") as file:
        file.write("5")


def question(path):
    return b"GET %s HTTP/1.1\r\n\r\n" % path


def counts(added, same):
    return reply("200 OK", JSON, b'{"added":%d,"ok":true,"renamed":0,"same":%d}' % (added, same))


# How the client learns that the server has cut the connection: at a write, a read or its end.
CUT = (errno.EPIPE, errno.ECONNRESET, errno.ENOTCONN)


class Serving(Server):
    """A server that was asked once, so that what the first request takes is there."""

    def __init__(self, database):
        super().__init__(database, program=WHOLE, env=ENVIRONMENT)
        self.raw(question(b"/pending"))

    def told(self, word):
        return told(self.process.pid, word)

    def raised(self, sent):
        """By how many KiB a request raised the mark, and its reply."""
        reset_mark(self.process.pid)
        before = self.told("VmHWM")
        back = self.raw(sent)
        return self.told("VmHWM") - before, back

    def answered(self, sent):
        """What comes back; nothing if the connection is cut, as after a body that was not read."""
        try:
            return self.raw(sent)
        except OSError as fault:
            if fault.errno not in CUT:
                raise
            return b""


class Measured:
    """What was taken, in KiB, held against bounds."""

    def __init__(self, cases):
        self.cases, self.rows = cases, []

    def row(self, name, took, least, most):
        self.rows.append(f"{name} {took}")
        self.cases.equal(
            f"memory: {name} took {took} KiB, which is to be {least} to {most}",
            least <= took <= most,
            True,
        )

    def list(self, of, took, back):
        """A list is held whole, and little beside its text: its rows are put together one by
        one."""
        size = len(back) // KIB
        self.row(f"a list of {of}, {size} KiB, which is held,", took, size, 4 * size + FEW)


def bodies(measured, folder):
    """Bodies of 4 MiB of a new registry."""
    with Serving(os.path.join(folder, "bodies")) as server:
        took, back = server.raised(posted("/import", "root", COMMENTS))
        measured.cases.equal("memory: a file of comments", back, counts(0, 0))
        measured.row("a file of comments", took, 0, FEW)
        bad_text = reply("400 Bad Request", JSON, refusal(3, "BadText"))
        took, back = server.raised(posted("/comment", "root", MANY_FIELDS))
        measured.cases.equal("memory: a form of many fields", back, bad_text)
        # Its body is held; part of that may be room which the file before it left.
        measured.row("a form of many fields", took, LONGEST // KIB // 2, 2 * LONGEST // KIB)
        took, back = server.raised(posted("/comment", "root", FORM))
        measured.cases.equal("memory: a form", back, bad_text)
        measured.row("a form, which is held,", took, LONGEST // KIB, 4 * LONGEST // KIB)


def peak_of(words):
    """The greatest mark that was seen while a program ran."""
    process, peak = subprocess.Popen(words, stdout=subprocess.PIPE, env=ENVIRONMENT), 0
    while process.poll() is None:
        peak = max(peak, told(process.pid, "VmHWM"))
        time.sleep(0.001)
    process.communicate()
    return peak


def vendors(measured, folder, database):
    """New items take as much over HTTP as by the word `import`, and such as are there no more than
    the walk over them."""
    path = os.path.join(folder, "vendors")
    with open(path, "wb") as file:
        file.write(VENDORS)
    by_word = peak_of(
        [WHOLE, "import", "--db", os.path.join(folder, "by word"), "--account", "root", path]
    )
    with Serving(database) as server:
        measured.cases.equal(
            "memory: 65,536 new vendors",
            server.raw(posted("/import", "root", VENDORS)),
            counts(65_536, 0),
        )
        measured.row(
            "65,536 new vendors, beside the word,",
            server.told("VmHWM") - by_word,
            -2 * FEW,
            2 * FEW,
        )
        took, back = server.raised(posted("/import", "root", VENDORS))
        measured.cases.equal("memory: the same vendors", back, counts(0, 65_536))
        measured.row("the same vendors", took, 0, 2 * FEW)
        took, back = server.raised(question(b"/children"))
        measured.cases.equal("memory: the vendors in a list", back.count(b'"name"'), 65_536)
        measured.list("vendors", took, back)


def real_file(measured, folder):
    """Debian's file out and in again."""
    if not os.path.exists(REAL_FILE):
        measured.cases.skipped("memory: the real file", "the package pci.ids is not installed")
        return
    database = os.path.join(folder, "real")
    subprocess.run(
        [WHOLE, "import", "--db", database, "--account", "root", REAL_FILE],
        stdout=subprocess.DEVNULL,
        check=True,
    )
    with open(REAL_FILE, "rb") as file:
        text = file.read()
    canonical = subprocess.run([WHOLE, "tidy"], input=text, stdout=subprocess.PIPE).stdout
    with Serving(database) as server:
        took, back = server.raised(question(b"/pci.ids"))
        measured.cases.equal(
            "memory: the text of the real file", back, reply("200 OK", TEXT, canonical)
        )
        kept = 3 * len(canonical) // 1024
        measured.row("the text of the real file, which is kept", took, 0, kept + FEW)
        took, again = server.raised(question(b"/pci.ids"))
        measured.cases.equal("memory: the text once more", again, back)
        measured.row("the same text once more", took, 0, FEW)
        took, back = server.raised(question(b"/children?of=PC/8086"))
        # What was freed while the text grew may do for it.
        measured.row("a list of subsystems", took, 0, 4 * len(back) // KIB + FEW)
        took, back = server.raised(posted("/import", "root", text))
        measured.cases.equal("memory: the real file", back.startswith(b"HTTP/1.1 200 OK\r\n"), True)
        measured.row("the real file, which drops the text", took, -kept, FEW)


def limited(cases, database):
    """A server that may take a MiB more than it has: files and the text pass through. A form and
    lists do not fit: they are refused, or their connections end without a reply, and the server
    goes on."""
    requests = {
        "the text of 4 MiB": (question(b"/pci.ids"), reply("200 OK", TEXT, HEADER + VENDORS)),
        "a file of 4 MiB": (posted("/import", "root", VENDORS), counts(0, 65_536)),
        "a form of 4 MiB": (posted("/comment", "root", FORM), None),
        "a list of 65,536 items": (question(b"/children"), None),
        "the same list as text": (question(b"/children?format=text"), None),
        "a small form": (
            posted("/submit", "root", b"path=PC/8086&name=Intel"),
            reply("200 OK", JSON, b'{"num":1,"ok":true}'),
        ),
        "a question": (
            question(b"/read/PC/8086?format=text"),
            reply("200 OK", TEXT, b"n" * 56 + b"\n"),
        ),
    }
    with Serving(database) as server:
        # So the text that it keeps is dropped.
        cases.equal("a file", server.raw(posted("/import", "root", VENDORS)), counts(0, 65_536))
        size = server.told("VmData") * KIB + 2 * FEW * KIB
        resource.prlimit(server.process.pid, resource.RLIMIT_DATA, (size, size))
        for name, (sent, want) in requests.items():
            answered = server.answered(sent)
            if want is None and answered in NO_ROOM:
                want = answered
            cases.equal(f"little memory: {name}", answered, want)


def test_memory(cases, folder):
    try:
        reset_mark("self")
    except OSError:
        pytest.skip("the system does not reset the mark of a process")
    measured, database = Measured(cases), os.path.join(folder, "many")
    bodies(measured, folder)
    vendors(measured, folder, database)
    limited(cases, database)
    real_file(measured, folder)
    print(f"serving_memory: KiB taken: {'; '.join(measured.rows)}")
