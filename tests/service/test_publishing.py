"""deploy/lib/publish by itself: the published file as distributions' tools take it, and pages."""
import glob
import os
import re
import shutil
import subprocess
import tempfile

import pytest

import lspci
from program import REAL_FILE, SITE, TOP, tidy
from small_registry import SmallRegistry, SmallServer

PUBLISH = os.path.join(TOP, "deploy", "lib", "publish")
TEXT = """# PCI ID registry
8086  Intel
\t1237  440FX <b>\u202e
\t\t1af4 1100  Qemu
1af4  Red Hat
S 1af4
\t1100  Generic
C 01  Mass
\t01  IDE
\t\t80  Master
"""
# A name with what other programs take for the end of a line, and then a line that leads elsewhere.
LINES = TEXT.replace("  Intel\n", "  Intel\u2028../../escaped  <b>\x85\t0000  One\u2029\t\t\tx\n")
# How scripts of distributions find the version and the date.
READERS = {
    "sed": "sed -n 's/^#\\s*Version: *//p' pci.ids",
    "awk": "awk '/^#[\\t ]*Version:/ { print $3; exit }' pci.ids",
    "date": "sed -n 's/^#\\tDate: *\\([0-9-]*\\) .*/\\1/p' pci.ids | tr - .",
}


class Press:
    """`publish` with a mirror that copies a text of the test, and a registry without proposals."""

    def __init__(self, folder):
        self.text = os.path.join(folder, "text")
        self.copy, self.public, self.lib = (
            os.path.join(folder, it) for it in ("copy", "public", "lib")
        )
        for it in (self.copy, self.public, self.lib):
            os.mkdir(it)
        for it in [PUBLISH, *glob.glob(os.path.join(os.path.dirname(PUBLISH), "*.py"))]:
            shutil.copy(it, self.lib)
        self.server = SmallServer(SmallRegistry())
        with open(os.path.join(self.lib, "mirror"), "w", encoding="utf-8") as file:
            file.write(f'#!/bin/sh\ncp {self.text} "$2/pci.ids"; cat {self.text}.told\n')
        os.chmod(os.path.join(self.lib, "mirror"), 0o755)

    def run(self, text, told=""):
        """Publishes a text, of which the mirror prints what changed."""
        for path, its in ((self.text, text), (f"{self.text}.told", told)):
            with open(path, "w", encoding="utf-8") as file:
                file.write(its)
        words = [os.path.join(self.lib, "publish"), self.server.address, self.copy, self.public]
        quiet = {"capture_output": True, "timeout": 300}
        environment = {**os.environ, "PYTHONDONTWRITEBYTECODE": "1"}
        ran = subprocess.run([*words, SITE], env=environment, **quiet)
        return ran.returncode, ran.stdout.decode() + ran.stderr.decode()

    def shell(self, command):
        ran = subprocess.run(command, shell=True, cwd=self.public, capture_output=True, timeout=60)
        return ran.returncode, ran.stdout.decode()

    def read(self, name):
        path = os.path.join(self.public, name)
        if not os.path.exists(path):
            return None
        with open(path, encoding="utf-8") as file:
            return file.read()


def tools(cases, press):
    day = press.shell("date -u +%Y.%m.%d")[1]
    for name, command in READERS.items():
        cases.equal(f"publish: the version, by {name}", press.shell(command), (0, day))
    whole = press.read("pci.ids")
    lines = [it for it in whole.splitlines(True) if it != "#\n" and not it.startswith("#\t")]
    cases.equal("publish: the names", "".join(lines), TEXT)
    for unpack in ("gzip", "bzip2"):
        suffix = {"gzip": "gz", "bzip2": "bz2"}[unpack]
        got = press.shell(f"{unpack} -dc pci.ids.{suffix}")
        cases.equal(f"publish: {unpack}", got, (0, whole))
    cases.equal("publish: lspci", press.shell("lspci -i pci.ids > /dev/null")[0], 0)
    update = shutil.which("update-pciids")
    press.shell(
        f"sed -e 's|^SRC=.*|SRC=file://{press.public}/pci.ids|'"
        f" -e 's|^DEST=.*|DEST={press.copy}/updated|' {update} > {press.copy}/update"
    )
    cases.equal("publish: update-pciids", press.shell(f"sh {press.copy}/update -q")[0], 0)
    cases.equal("publish: its file", press.shell(f"cat {press.copy}/updated"), (0, whole))


def disorder(text):
    """The first line whose number does not rise, by the rule of hwdata 0.394, check-pci-ids.py: the
    numbers of vendors rise, and so do those of the devices of one vendor."""
    vendor = device = -1
    for line in text.splitlines():
        if found := re.match(r"([0-9a-fA-F]{4})\s+.*\S", line):
            if int(found[1], 16) <= vendor:
                return line
            vendor, device = int(found[1], 16), -1
        elif found := re.match(r"\t([0-9a-fA-F]{4})\s+.*\S", line):
            if int(found[1], 16) <= device:
                return line
            device = int(found[1], 16)
    return None


def hwdata(cases, press):
    """The names of Debian's file, published, by the steps of `make check` of hwdata 0.394."""
    with open(REAL_FILE, "rb") as file:
        names = tidy(file.read()).out.decode()
    cases.equal("publish: the real names", press.run(names)[0], 0)
    with open(os.path.join(press.public, "dump"), "w", encoding="ascii") as file:
        file.write(lspci.dump([(0x8086, 0x1237, 0x1AF4, 0x1100), (0x10DE, 0x0020, 0, 0)]))
    show = "lspci -A dump -O dump.name=dump -i {} 2> {}.told | sed 's/^.*: //'"
    shown = press.shell(show.format("pci.ids", "new"))
    vendors = [it.split(" [")[0] for it in shown[1].splitlines()]
    want = ["Intel Corporation 440FX - 82441FX PMC", "NVIDIA Corporation NV4"]
    got = [it.startswith(of) for it, of in zip(vendors, want)], press.read("new.told")
    cases.equal(f"publish: hwdata, lspci shows {vendors}", got, ([True, True], ""))
    text = press.read("pci.ids")
    cases.equal("publish: hwdata, the order", disorder(text), None)
    cases.equal("publish: hwdata, UTF-8", press.shell("iconv -f UTF-8 pci.ids > /dev/null")[0], 0)
    date = press.shell("grep 'Date:' pci.ids | cut -d ' ' -f 5")[1]
    cases.equal("publish: hwdata, the date", date, press.shell("date -u +%F")[1])
    # The same steps refuse what is not right.
    swapped = text.replace("\n1002  ", "\n8086  Intel\n1002  ", 1)
    cases.equal("publish: hwdata, out of order", disorder(swapped) is None, False)
    broken = text.replace("\n8086  ", "\n8086x  ", 1)
    with open(os.path.join(press.public, "broken"), "w", encoding="utf-8") as file:
        file.write(broken)
    press.shell(show.format("broken", "broken"))
    cases.equal("publish: lspci refuses a fault", "Parse error" in press.read("broken.told"), True)


def pages(cases, press):
    found = press.shell("find item -type f | sort")[1].split()
    want = "PC/1af4 PC/8086 PC/8086/1237 PD/01 PD/01/01".split()
    cases.equal("publish: the pages", found, [f"item/{it}.html" for it in want])
    for name, link in (("vendors", "PC/8086"), ("classes", "PD/01")):
        cases.equal(f"publish: {name}", f'<a href="/item/{link}">' in press.read(f"{name}.html"),
                    True)
    page = press.read("item/PC/8086/1237.html")
    for part in (
        "<title>8086:1237 440FX &lt;b&gt;[U+202E] · Intel · PCI ID registry</title>",
        '<meta name="description" content="8086:1237 440FX &lt;b&gt;[U+202E] · Intel: its name',
        '<link rel="canonical" href="/item/PC/8086/1237">',
        '<h1 tabindex="-1"><bdi>440FX &lt;b&gt;[U+202E]</bdi></h1>',
        "<pre>\t<bdi>1237  440FX &lt;b&gt;[U+202E]</bdi></pre>",
        '<a class="button" href="/propose?path=PC/8086/1237">',
        '<a href="/item/PC/8086/1237/1af41100"><code>1af4 1100</code> <bdi>Qemu</bdi></a></li>',
        '<a href="/item/PC/8086"><code>8086</code> <bdi>Intel</bdi></a>',
    ):
        cases.equal(f"publish: a page has {part}", part in page, True)
    cases.equal("publish: no markup of a name", "<b>" in page, False)
    generic = ('<h2>Generic subsystems</h2>\n<ol class="items">\n'
               '<li><a href="/item/PS/1af4/1100"><code>1100</code> <bdi>Generic</bdi></a></li>')
    cases.equal("publish: generic ones", generic in press.read("item/PC/1af4.html"), True)
    cases.equal("publish: 404", "No such page" in press.read("404.html"), True)
    row = '<li><a href="/item/PC/8086/1237/1af41100"><code>8086:1237 1af4:1100</code> Qemu</a>'
    cases.equal("publish: a word", row in press.read("words/qe.html"), True)
    found = press.shell("cd words; ls")[1].split()
    want = "01 11 12 1a 44 80 ge ha id in ma qe re".split()
    cases.equal("publish: first letters of words", found, [f"{it}.html" for it in want])


def packed(cases, press):
    """A page has no packed copy: nginx would send it without its styles. Older ones go."""
    press.shell("gzip -k vendors.html")
    entries = "".join(f"{it:04x}  Vendor {it}\n\t0000  Device\n" for it in range(500))
    cases.equal("publish: a long list", press.run(f"# PCI ID registry\n{entries}")[0], 0)
    cases.equal("publish: it is not packed", press.shell("find . -name '*.html.gz'"), (0, ""))
    cases.equal("publish: a short list", press.run(TEXT)[0], 0)


def lines(cases, press):
    """Only a line feed ends a line: a name makes no other page than its own."""
    find = "find .. -type f ! -path '*/history/*' ! -path '*/feeds/*' ! -path '*/words/*' | sort"
    before = press.shell(find)[1]
    cases.equal("publish: line separators in a name", press.run(LINES)[0], 0)
    cases.equal("publish: no other page", press.shell(find)[1], before)
    shown = "<bdi>Intel[U+2028]../../escaped  &lt;b&gt;[U+0085][U+0009]0000  One[U+2029]"
    cases.equal("publish: they are shown", shown in press.read("item/PC/8086.html"), True)
    marks = "e" + "\u0301" * 300
    status = press.run(TEXT.replace("  Intel\n", f"  \u0406ntel \uff29 {marks}t\u00e9\n"))[0]
    shown = ("<bdi>\u0406[U+0406]ntel \uff29[U+FF29] e" + "\u0301[U+0301]" * 2
             + "[+298 marks]t\u00e9</bdi></h1>")
    cases.equal("publish: what passes for another letter", (status, shown in press.read(
        "item/PC/8086.html")), (0, True))
    status, told = press.run(f"{TEXT}9999 no name\n")
    cases.equal("publish: no canonical text", (status, "9999 no name" in told), (1, True))
    cases.equal("publish: the text again", press.run(TEXT)[0], 0)


def changed(cases, press):
    """What changed is passed on, but not the thousands of lines of a first run."""
    for number in (0, 1, 100, 101, 35_598):
        changes = "".join(f"{it} PC/8086/{it:04x} Name\u2028{it}\n" for it in range(number))
        got = press.run(TEXT, changes)[1].partition("published: ")[0]
        want = changes if number <= 100 else f"{number:,} items were added or renamed\n"
        cases.equal(f"publish: {number} changes", got, want)


@pytest.mark.needs("bzip2", "curl", "pci.ids", "pciutils")
def test_publishing(cases):
    with tempfile.TemporaryDirectory() as folder:
        press = Press(folder)
        status, told = press.run(TEXT)
        told = told.startswith("published: names 0 added, 0 renamed, 0 removed; pages 26 written")
        cases.equal("publish: the first run", (status, told), (0, True))
        tools(cases, press)
        pages(cases, press)
        lines(cases, press)
        changed(cases, press)
        path = os.path.join(press.public, "pci.ids")
        os.utime(path, (1_000_000_000, 1_000_000_000))
        cases.equal("publish: nothing new", press.run(TEXT), (0, ""))
        cases.equal("publish: the file is as before", int(os.stat(path).st_mtime), 1_000_000_000)
        status, told = press.run(TEXT.replace("1af4  Red Hat\nS 1af4\n\t1100  Generic\n", ""))
        cases.equal("publish: a vendor is gone", (status, "2 removed; " in told), (0, True))
        left = press.shell("find item -name '1af4*'")
        cases.equal("publish: its page too", left, (0, ""))
        cases.equal("publish: the new file", "Red Hat" in press.read("pci.ids"), False)
        hwdata(cases, press)
        packed(cases, press)
