"""The page's own check of a file beside the program: `check`, `tidy`, and imports, on the real
file, on generated texts of each fault, at the limits, and on cuts of UTF-8."""
import base64
import collections
import json
import random
import threading
import time

import program
from http_server import posted, read_reply
from site_browser import Browser
from site_world import World

KINDS = 8
# How many texts of each kind, and how long a run may take for them.
EACH = 2_500
SECONDS = 45
BATCH = 400
SEED = 8086

# What the page says of texts: a line as `check` prints it.
READ = """
const [texts, wantsText, done] = arguments;
Promise.all([import("/site/reader.js"), import("/site/canonical.js")]).then(([reader, printer]) => {
  const bytesOf = (text) => Uint8Array.from(atob(text), (it) => it.charCodeAt(0));
  const said = (it) => it.isTooLarge ? "too large" : it.hasTooMany ? "too many entries"
    : it.names ? `ok ${it.names.size}` : `line ${it.line}: ${it.kind}`;
  done(texts.map((text) => {
    const it = reader.read(bytesOf(text));
    return wantsText && it.names ? printer.canonical(it.names) : said(it);
  }));
}).catch((fault) => done(String(fault)));
"""


class Page:
    def __init__(self, browser):
        self.driver = browser.go("/help").driver

    def read(self, texts, wants_text=False):
        packed = [base64.b64encode(it).decode() for it in texts]
        return self.driver.execute_async_script(READ, packed, wants_text)


def imported(world, texts):
    """What the registry says of each text as the file of an import, in the words of the page. The
    imports go out over one connection, all at once."""
    with world.server.connect() as client:
        sent = b"".join(posted("/import", "root", it) for it in texts)
        threading.Thread(target=client.sendall, args=(sent,)).start()
        with client.makefile("rb") as stream:
            for _ in texts:
                reply = json.loads(read_reply(stream)[1])
                if reply["ok"]:
                    yield f"ok {reply['added'] + reply['renamed'] + reply['same']}"
                else:
                    yield f"line {reply['line']}: {reply['kind']}"


class Texts:
    """Texts of each fault: a good front, one line that has it, and lines after it."""

    GOOD = ("ab01  V", "\t0000  D", "\t\t0001 0002  S", "\t0001  E", "C 01  c", "\t01  s",
            "\t\t01  p", "S ab01", "\t0a0b  g", "ba10\tW", "\t0000 \tF", "# c", "", " \t ")
    NAMES = ("X", "Intel", "\u00e9", "a\tb", "a ", "#x", "\ufeffx", "a" * 1000, "\u00e9" * 500,
             "\U0010ffff", "a\u2028b", "\u0085")
    BAD_NAMES = ("\x7f", "a\x01", "a" * 1001, "\u00e9" * 501, "x\x00", "a\rb", "a\r", "\x0b")

    def __init__(self, seed):
        self.random = random.Random(seed)

    def pick(self, some):
        return self.random.choice(some)

    def hex(self, count):
        return "".join(self.pick("0123abAB") for _ in range(count))

    def blank(self):
        return self.pick((" ", "  ", "\t", " \t ", "   "))

    def front(self):
        return list(self.GOOD[:self.random.randrange(len(self.GOOD) + 1)])

    def line(self, kind):
        number, blank, name = self.hex(4), self.blank(), self.pick(self.NAMES)
        if kind == 0:
            front, digits = self.pick((("", 4), ("\t", 4), ("C ", 2), ("\t", 2), ("\t\t", 2)))
            return f"{front}{self.hex(digits)}{blank}{name}"
        if kind == 2:
            return "\t" * self.pick((2, 3, 4, 9)) + self.pick((number, "x", "", "0a0b  g", "é"))
        if kind == 3:
            return "\t" * self.pick((1, 2)) + number + blank + name
        if kind == 4:
            front = self.pick(("", "\t", "C ", "C", "c ", "S ", "S\t", "A", "\t\t", " "))
            return front + self.pick(
                (number, number[:3] + blank + name, "g000 x", f"{number}\v{name}", number + name,
                 f"{self.hex(4)}  {self.hex(4)} x", f"ab01 {name}"))
        if kind == 5:
            return self.pick(("", "\t", "\t\t0001 ", "C ")) + number[:self.pick((2, 4))] + blank
        if kind == 6:
            return self.pick(("", "\t")) + number + blank + self.pick(self.BAD_NAMES)
        if kind == 7:
            return self.pick(("ab01", "AB01", "\t0000", "C 01", "\t01", "\t\t01", "\t0A0B",
                              "\t\t0001\t0002")) + blank + name
        return f"S {number}{self.pick(('', ' ', chr(9), ' x', chr(11)))}"

    def text(self, kind):
        lines = self.front()
        lines += [self.line(0 if kind == 1 else kind)] + [self.line(0)] * self.pick((0, 0, 1))
        end = self.pick(("\n", "\n", "\n", "\r\n"))
        whole = (end.join(lines) + self.pick(("", end, "\r"))).encode()
        if kind != 1:
            return whole
        at = self.random.randrange(len(whole) + 1)
        bad = self.pick((b"\xff", b"\xc0", b"\xed\xa0\x80", b"\x80", b"\xe2\x82",
                         b"\xf4\x90\x80\x80"))
        return whole[:at] + bad + whole[at:]


def generated(cases, world, page):
    """Texts of each kind of fault; each kind is said of many of them."""
    texts, end = Texts(SEED), time.monotonic() + SECONDS
    tried, said = 0, collections.Counter()
    while tried < EACH * (KINDS + 1) and time.monotonic() < end:
        batch = [texts.text((tried + at) % (KINDS + 1)) for at in range(BATCH)]
        mine, theirs = page.read(batch), list(imported(world, batch))
        for text, one, other in zip(batch, mine, theirs):
            said[other.split()[-1] if "line" in other else "ok"] += 1
            if one != other:
                cases.equal(f"reader: {text[:300]!r}", one, other)
        cases.equal("reader: a batch of generated texts", (len(mine), mine), (BATCH, theirs))
        tried += BATCH
    print(f"site_reader: {tried} generated texts; what was said of them: {sorted(said.items())}")
    kinds = [*map(str, range(1, KINDS + 1)), "ok"]
    rare = [it for it in kinds if said[it] < tried // 100]
    cases.equal("reader: kinds that hardly any text had", rare, [])


def cuts(cases, world, page):
    """A text with characters of each length, cut at each byte."""
    whole = "8086  Int\u00e9l\n\t1237  44\u20acFX \U0001f600\n# \u00e9\u20ac\U0001f600\n".encode()
    texts = [whole[:at] for at in range(len(whole) + 1)]
    cases.equal("reader: cuts of UTF-8", page.read(texts), list(imported(world, texts)))


def of_program(text):
    """What `check` prints, in the words of the page."""
    line = program.run(text, "check").out.decode().strip()
    return " ".join(line.split()[:3]) if line.startswith("line") else line


def processes(cases, page):
    """A few texts by `check` and `tidy` themselves; elsewhere imports take their place."""
    texts = Texts(SEED + 1)
    for kind in (*range(9), *range(9)):
        text = texts.text(kind)
        cases.equal(f"reader: check {text[:200]!r}", page.read([text])[0], of_program(text))
    good = [b"\n".join(it.encode() for it in Texts.GOOD), b"1af4  R\nS 1AF4\n\t1100  Q\n8086  I\n",
            b"C 01  a\nab01  V\r\n\t0000\tD\r\n", b"", b"ab01  V\nA b\n\tjunk\n"]
    for text in good:
        cases.equal(f"reader: tidy {text!r}", page.read([text], True)[0].encode(),
                    program.tidy(text).out)


def limits(cases, page):
    """The longest file, a longer one, 100,000 entries and what may follow them."""
    entries = [f"{at:04x}  a" for at in range(65_536)] + [f"\t{at:04x}  a" for at in range(34_464)]
    whole = "\n".join(entries)
    for name, text, want in (
        ("the longest", b"#" * 4_194_304, "ok 0"),
        ("longer", b"#" * 4_194_305, "too large"),
        ("100,000 entries", whole.encode(), "ok 100000"),
        ("one more", f"{whole}\n\tffff  a".encode(), "too many entries"),
        ("one more that is faulty", f"{whole}\n\tfff".encode(), "line 100001: 4"),
        ("one more that is there", f"{whole}\n\t0000  b".encode(), "line 100001: 7"),
    ):
        # docs/FILE_FORMAT.md has these limits; tests/limits.py tries the program at them.
        cases.equal(f"reader: {name}", page.read([text])[0], want)


def real_file(cases, page):
    with open(program.REAL_FILE, "rb") as file:
        text = file.read()
    cases.equal("reader: check of the real file", page.read([text])[0], of_program(text))
    printed = page.read([text], True)[0].encode()
    cases.equal("reader: tidy of the real file", printed == program.tidy(text).out, True)


def test_site_reader(cases):
    with World() as world, Browser(world.base) as browser:
        page = Page(browser)
        cuts(cases, world, page)
        processes(cases, page)
        limits(cases, page)
        real_file(cases, page)
        generated(cases, world, page)
        cases.equal("reader: the console", browser.faults(), [])
