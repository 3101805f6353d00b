"""What people paste and type: lines of pci.ids, diffs and lspci become rows, lines that are not
taken are named, numbers of another kind change the kind; the search finds vendors and numbers
without names; a name that looks odd is said to, and goes through."""
import os
import re

from site_browser import Browser
from site_world import SITE, World, items_of_file

LSPCI = ("00:02.0 VGA compatible controller [0300]: Intel Corporation Device [8086:fd19] (rev 08)\n"
         "\tSubsystem: Dell Device [1028:0cc4]\n"
         "\tFlags: bus master, fast devsel, latency 0\n"
         "\n"
         "00:1f.0 ISA bridge [0601]: Intel Corporation 440FX [8086:1237]\n"
         "what is this\n")
LINES = ("# a comment\n8086  Intel Corporation\n\tfd8c  A new one\n\t\t1028 0ABC  A board\n"
         "\t1237  440FX - 82441FX PMC [Natoma]\nC 01  Mass storage controller\n\tfe  A subclass\n"
         "S 1af4\n\tfe99  A generic one\n")
DIFF = ("diff --git a/pci.ids b/pci.ids\n--- a/pci.ids\n+++ b/pci.ids\n@@ -30,6 +30,8 @@\n"
        " \t1235  430FX - 82437FX TSC [Triton I]\n"
        " \t1237  440FX - 82441FX PMC [Natoma]\n"
        " \t\t1af4 1100  Qemu virtual machine\n"
        "+\t\t1028 0abc  A board\n"
        "+\tfe38  A new one\n"
        "-\t1239  82371FB IDE Interface\n"
        "+\t1239  82371FB IDE Interface, renamed\n"
        "-\t123b  82380PB PCI to PCI Docking Bridge\n"
        "+no line of it\n"
        "@@ -90,1 +92,2 @@\n"
        " \tfffe  nothing that the file has\n"
        "+\tffff  where is this\n")
# A text, the rows that it makes, how many lines are so already, and the lines that are left.
WISHES = {
    LSPCI: ([["PC/8086/fd19", ""], ["PC/8086/fd19/10280cc4", ""], ["PC/8086/1237", ""]], 0, [6]),
    LINES: ([["PC/8086/fd8c", "A new one"], ["PC/8086/fd8c/10280abc", "A board"],
             ["PD/01/fe", "A subclass"], ["PS/1af4/fe99", "A generic one"]], 3, []),
    LINES.replace("\t", " " * 8): (
        [["PC/8086/fd8c", "A new one"], ["PC/8086/fd8c/10280abc", "A board"],
         ["PD/01/fe", "A subclass"], ["PS/1af4/fe99", "A generic one"]], 3, []),
    DIFF: ([["PC/8086/1237/10280abc", "A board"], ["PC/8086/fe38", "A new one"],
            ["PC/8086/1239", "82371FB IDE Interface, renamed"]], 0, [12, 13, 16]),
    "\t1237  440FX - 82441FX PMC [Natoma]\n\tfe39  Beside it\n": (
        [["PC/8086/fe39", "Beside it"]], 1, []),
    "8086:fd19 A name\n8086:1237 1028:0abc A board\n8086 fd20\n": (
        [["PC/8086/fd19", "A name"], ["PC/8086/1237/10280abc", "A board"], ["PC/8086/fd20", ""]],
        0, []),
    "fff3:0001 Of nobody": ([["PC/fff3", ""], ["PC/fff3/0001", "Of nobody"]], 0, []),
    "face the facts\n": ([], 0, [1]),
    "": ([], 0, []),
}
# A kind, a box of it and a text; the kind that it becomes, the first box that is filled, and what
# is filled in.
PASTED = (
    ("device", 0, "8086:7d8a 1028:0abc", ["subsystem", 0, ["8086", "7d8a", "1028", "0abc"]]),
    ("device", 1, "8086:7d8a", ["device", 0, ["8086", "7d8a"]]),
    ("vendor", 0, "8086:7d8a", ["device", 0, ["8086", "7d8a"]]),
    ("generic", 0, "8086:7d8a", ["generic", 0, ["8086", "7d8a"]]),
    ("class", 0, "01 06 01", ["interface", 0, ["01", "06", "01"]]),
    ("subclass", 0, "01 06", ["subclass", 0, ["01", "06"]]),
    ("subsystem", 2, "1028:0abc", ["subsystem", 0, ["1028", "0abc"]]),
    ("interface", 1, "06 01", ["interface", 1, ["06", "01"]]),
    ("interface", 2, "06 01", None),
    ("device", 0, "8086", None),
)
# A query, and the first rows that it has to find.
FOUND = {
    "amd": ["PC/1002", "PC/1022"], "sun": ["PC/108e"], "sis": ["PC/1039"], "intel": ["PC/8086"],
    "rtx4090": ["PC/10de/2684"], "AX-210": ["PC/8086/2725"], "440fx": ["PC/8086/1237"],
    "8086:fd19": ["PC/8086/fd19", "PC/8086"], "PC/8086/fd19": ["PC/8086/fd19"],
    "8086:1237 1028:0abc": ["PC/8086/1237", "PC/8086/1237/10280abc"],
}
# A name for a device of Intel's, and a word of what is said of it; None where nothing is.
ODD = {
    "Intel Ethernet Controller I225-V": "vendor", "Ethernet Controller (rev 03)": "revision",
    "GeForce\u00ae RTX": "trademark", "GeForce(TM) RTX": "trademark",
    "ETHERNET CONTROLLER I225-V": "capitals", "Unknown device": "nothing", "Device fd19": "nothing",
    "Two  blanks": "two blanks", "A blank ": "at an end", "8086:fd19 thing": "own number",
    '"Quoted"': "quotes", "See https://example.org": "address",
    "Ethernet Controller I225-V": None, "RTL8111/8168/8411 PCI Express Gigabit": None, "": None,
    "ICH9 SATA RAID": None, "Intellon thing": None,
}


def script(browser, name, body, *words):
    """What a module of the site answers."""
    text = (f"const words = [...arguments], done = words.pop();"
            f"import('/site/{name}.js').then(async (it) => {{ {body} }})"
            f".then(done, (fault) => done(String(fault.stack)))")
    return browser.driver.execute_async_script(text, *words)


def rules(cases, browser):
    """The rules of texts, without a page."""
    body = "await it.load(); return Promise.all(words[0].map((text) => it.wishesIn(text)));"
    told = script(browser, "names", body, [*WISHES])
    for (text, want), got in zip(WISHES.items(), told):
        rows = [[it["path"], it["name"]] for it in got["rows"]]
        left = [it["line"] for it in got["left"]]
        cases.equal(f"pastes: {text[:60]!r}", (rows, got["same"], left), want)
    body = "return words[0].map(([kind, at, text]) => it.pastedInto(kind, at, text));"
    told = script(browser, "pasted", body, [it[:3] for it in PASTED])
    for (*given, want), got in zip(PASTED, told):
        got = got and [got["kind"], got["at"], got["digits"]]
        cases.equal(f"pastes: into a box, {given}", got, want)
    body = "return Promise.all(words[0].map((text) => it.search(text)));"
    for (query, want), got in zip(FOUND.items(), script(browser, "names", body, [*FOUND])):
        paths = [it["path"] for it in got["rows"]][:len(want)]
        cases.equal(f"search: {query!r} finds", paths, want)


def advice(cases, browser):
    """What is odd is said of odd names, and of few of those that the list has."""
    body = "return words[0].map(([path, name, vendor]) => it.oddities(name, path, () => vendor));"
    told = script(browser, "advice", body, [["PC/8086/fd19", it, "Intel Corporation"]
                                            for it in ODD])
    for (name, want), got in zip(ODD.items(), told):
        is_so = want in " ".join(got) if want else got == []
        cases.equal(f"advice: {name!r}", (got, is_so), (got, True))
    names = dict(items_of_file())
    vendor = {it: names.get("PC/" + (it[13:17] if it.count("/") == 3 else it[3:7]))
              for it in names if it.startswith("P")}
    told = script(browser, "advice", body, [[it, name, vendor[it]] for it, name in names.items()])
    odd = sum(bool(it) for it in told)
    cases.equal(f"advice: {odd} names of {len(names)} are odd", odd * 50 < len(names), True)
    shown = script(browser, "pages/guide", "return Object.values(it.EXAMPLES).flat();")
    numbers = {re.sub("[: ]", "", path[3:].replace("/", "")): name for path, name in names.items()
               if path.startswith("PC")}
    wrong = [it for it in shown if numbers.get(re.sub("[: ]", "", it[0])) != it[1]]
    cases.equal("advice: the guide's examples are the list's", (wrong, len(shown) > 5), ([], True))


def many(cases, world, browser):
    """Each row has what it is below, what is pending for it and what is odd; the rest is named."""
    world.submit("dora", "PC/8086/fd8c", "Pending before")
    browser.go("/propose?many=yes")
    browser.put("#pasted", LSPCI + "8086:fd8c INTEL thing\n8086:1237 Intel 440FX\n")
    browser.click("main form button")
    browser.wait(lambda: len(browser.all(".many > li")) == 4, "four rows")
    rows = browser.js("return [...document.querySelectorAll('.many > li')]"
                      ".map((it) => it.innerText.replace(/\\s+/g, ' '))")
    for row, words in zip(rows, (
        ("Intel Corporation 8086:fd19 no name yet",),
        ("Intel Corporation › 8086:fd19 8086:fd19 1028:0cc4 no name yet",),
        ("8086:1237 now 440FX - 82441FX", "begins with the vendor"),
        ("Pending already: #", "Pending before by dora", "begins with the vendor"),
    )):
        cases.equal(f"pastes: a row of many has {words}", [it in row for it in words],
                    [True] * len(words))
    left = browser.text("main")
    cases.equal("pastes: what isn't taken", "line 6, not understood: what is this" in left, True)
    browser.type("[id='name-PC/8086/fd19/10280cc4']", "A board")
    told = browser.has("8086:fd19 has no name: that is approved first.", ".many")
    cases.equal("pastes: what it is below comes first", told, True)
    browser.type("[id='name-PC/8086/fd19']", "A device")
    gone = "return document.querySelector('.many').innerText.includes('is approved first')"
    browser.wait(lambda: not browser.js(gone), "no warning")
    cases.equal("pastes: and its row will do", browser.has("4 to be proposed", ".count"), True)


def boxes(cases, browser):
    """A subsystem that is pasted into the boxes of a device makes it one; the kind is kept."""
    browser.go("/propose?kind=device")
    browser.js("const data = new DataTransfer(); data.setData('text', '8086:7d8a 1028:0abc');"
               "document.getElementById('number-0').dispatchEvent(new ClipboardEvent('paste',"
               "{ clipboardData: data, cancelable: true, bubbles: true }))")
    values = ("return [document.getElementById('kind').value,"
              " ...[...document.querySelectorAll('.numbers input')].map((it) => it.value)]")
    want = ["subsystem", "8086", "7d8a", "1028", "0abc"]
    cases.equal("pastes: the kind follows", browser.js(values), want)
    cases.equal("pastes: and says so", browser.has("numbers of a subsystem", "#notice"), True)
    browser.driver.refresh()
    browser.ready()
    cases.equal("pastes: it is kept", browser.js(values), want)


def searched(cases, world, browser):
    """A number without a name says so, and what is pending for it; Enter goes to its page."""
    number = world.submit("dora", "PC/8086/fd19", "Pending for it")
    browser.go("/search?q=8086:fd19")
    browser.has("8086:fd19 has no name. 1 found.", ".count")
    told = browser.text(".offer")
    cases.equal("search: what is pending", f"Pending: #{number} Pending for it by dora" in told,
                True)
    cases.equal("search: the title", browser.driver.title, "8086:fd19 · Search · PCI ID registry")
    browser.put("#q", "8086:fd20")
    browser.has("8086:fd20 has no name", ".count")
    cases.equal("search: the title follows", browser.driver.title.startswith("8086:fd20 ·"), True)
    browser.type("#q", browser.keys.ENTER)
    cases.equal("search: Enter", browser.heading("8086:fd20 has no name"), True)


def checked(cases, browser):
    """New names are proposed apart from other names."""
    browser.go("/check")
    browser.put("#paste", "8086  Intel\n\t1237  Older\n\tab12  New A\n\tab13  New B\n")
    browser.click("main form button.main")
    browser.has("2 new, 2 with another name", ".result")
    buttons = browser.js("return [...document.querySelectorAll('.result .buttons button')]"
                         ".map((it) => it.textContent)")
    want = ["Propose 2 new names …", "Propose 2 other names …"]
    cases.equal("pastes: two buttons of a check", buttons, want)
    browser.js("sessionStorage.clear()")
    browser.click(".result .buttons button")
    browser.wait(lambda: browser.all(".many > li"), "rows")
    rows = browser.js("return [...document.querySelectorAll('.many input')].map((it) => it.value)")
    cases.equal("pastes: new names alone", rows, ["New A", "New B"])


def limits(cases):
    """Each limit of the registry is in one file of the site."""
    texts = {}
    for folder, _, names in os.walk(SITE):
        for name in (it for it in names if it.endswith(".js")):
            with open(os.path.join(folder, name), encoding="utf-8") as file:
                texts[name] = file.read()
    for limit in ("4[_,]194[_,]304", "100[_,]000", "1[_,]000 bytes|NAME = 1[_,]000",
                  "4[_,]000 bytes|TEXT = 4[_,]000"):
        found = [it for it, text in texts.items() if re.search(limit, text)]
        cases.equal(f"limits: {limit}", found, ["limits.js"])


def test_site_pastes(cases):
    limits(cases)
    with World() as world, Browser(world.base) as browser:
        browser.go("/help")
        rules(cases, browser)
        advice(cases, browser)
        many(cases, world, browser)
        boxes(cases, browser)
        searched(cases, world, browser)
        checked(cases, browser)
        cases.equal("pastes: the console", browser.faults(), [])
