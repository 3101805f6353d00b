"""The story of four people in their browsers: a visitor finds a device, a contributor proposes a
name, a moderator comments, rejects and approves, a maintainer brings a file; the file changes."""
from http_server import ask_curl
from site_browser import Browser
from site_world import World

LSPCI = ("00:00.0 Host bridge [0600]: Intel Corporation 440FX [8086:1237] (rev 02)\n"
         "\tSubsystem: Red Hat, Inc. Qemu virtual machine [1af4:1100]\n"
         "00:02.0 VGA [0300]: Device [8086:ab01] (rev 02)\n"
         "00:03.0 VGA [0300]: Device [8086:ab02]\n")
PASTES = {
    "8086:1237": "440FX", "8086 1237": "440FX", "0x8086 0x1237": "440FX",
    r"PCI\VEN_8086&DEV_1237&SUBSYS_11001AF4&REV_02": "Qemu virtual machine",
    "00:00.0 0600: 8086:1237 (rev 02)": "440FX",
    "pci:v00008086d00001237sv00001AF4sd00001100bc06sc00i00": "Qemu virtual machine",
    "00:00.0 Host bridge [0600]: Intel Corporation 440FX [8086:1237]": "440FX",
    "1237": "Alta Technology Corporation", "intel corp": "Intel Corporation",
    "PC/8086/1237": "440FX", "440fx natoma": "440FX",
}


def visitor(cases, browser):
    keys = browser.keys
    browser.go("/")
    for text, want in PASTES.items():
        browser.put("#q", text)
        browser.wait(lambda want=want: want in browser.text("#found li"), f"{text} finds {want}")
        cases.equal(f"story: {text!r} is found first", want in browser.text("#found li"), True)
    browser.js("const data = new DataTransfer(); data.setData('text', arguments[0]);"
               "document.getElementById('q').dispatchEvent(new ClipboardEvent('paste',"
               "{ clipboardData: data, cancelable: true }))", LSPCI)
    browser.has("Qemu virtual machine", "#found")
    cases.equal("story: a paste of lines offers the rest", browser.has(
        "Propose names for 2 devices"), True)
    browser.put("#q", "1237")
    browser.wait(lambda: "440FX" in browser.text("#found"), "the device of that number")
    browser.js("document.getElementById('q').value = ''")
    browser.type("#q", "8086:1237")
    browser.wait(lambda: "440FX" in browser.text("#found li"), "440FX")
    browser.type("#q", keys.ENTER)
    browser.heading("440FX")
    cases.equal("story: the item's address", browser.driver.current_url,
                f"{browser.base}/item/PC/8086/1237")
    shown = "Intel Corporation 440FX - 82441FX PMC [Natoma] [8086:1237]"
    cases.equal("story: what lspci shows", shown in browser.text(), True)
    cases.equal("story: its line", "\t1237  440FX - 82441FX PMC [Natoma]" in browser.text(), True)
    focus = browser.js("return document.activeElement.tagName")
    cases.equal("story: the focus is on the heading", focus, "H1")
    cases.equal("story: the title", browser.driver.title.startswith("8086:1237 440FX"), True)
    browser.driver.back()
    browser.wait(lambda: browser.all("#found a"), "the search again")
    typed = browser.js("return document.getElementById('q').value")
    cases.equal("story: back to the search", typed, "8086:1237")
    browser.go("/item/PC/8086/")
    cases.equal("story: an address with a slash", browser.heading("Intel Corporation"), True)
    for path in ("PC/8086/1237", "PD/01/00", "PD/01"):
        browser.go(f"/item/{path}")
        cases.equal(f"story: since when {path} has its name",
                    browser.has("It isn't known since when it has its name.", ".history"), True)


def contributor(cases, world, browser):
    """Returns the number of the proposal."""
    browser.go("/item/PC/8086")
    browser.log_in("alice")
    browser.click("a.button[href*='kind=device']")
    browser.heading("Propose")
    cases.equal("story: the vendor is there already",
                browser.js("return document.getElementById('number-0').value"), "8086")
    browser.type("#number-1", "7D8C")
    browser.has("has no name yet", ".about")
    browser.type("#name", "Imaginary Controller")
    browser.type("#note", "seen in\na laptop")
    browser.click("form.propose button.main")
    browser.heading("Proposal ")
    number = int(browser.driver.current_url.rsplit("/", 1)[1])
    told = world.ask(f"/submission/{number}")
    got = [told[it] for it in ("author", "path", "name", "note", "state")]
    want = ["alice", "PC/8086/7d8c", "Imaginary Controller", "seen in a laptop", "pending"]
    cases.equal("story: the proposal as the registry has it", got, want)
    buttons = browser.js("return [...document.querySelectorAll('.decide button')]"
                         ".map((it) => it.textContent)")
    cases.equal("story: its author may withdraw and not decide", buttons, ["Withdraw"])
    browser.go("/mine")
    cases.equal("story: among her own", browser.has("Imaginary Controller"), True)
    others(cases, world, browser)
    return number


def others(cases, world, browser):
    """A better name begins with the present one; a removal; and taking both back."""
    present = world.ask("/read/PC/8086/1237")["name"]
    value = "return document.getElementById('name').value"
    browser.go("/propose?path=PC/8086/1237")
    browser.wait(lambda: browser.js(value) == present, "the present name")
    browser.click("form.propose button.main")
    told = browser.has("It has that name already", "form.propose")
    cases.equal("story: the name of today isn't proposed", told, True)
    browser.type("#name", " B")
    browser.click("form.propose button.main")
    browser.heading("Proposal ")
    got = [it["name"] for it in world.pending("PC/8086/1237")]
    cases.equal("story: a better name", got, [f"{present} B"])
    browser.click(".decide button")
    browser.has("Withdrawn", "h1")
    browser.go("/item/PC/8086/1237")
    browser.click("a.button[href*='remove=yes']")
    browser.has("is now", ".about")
    browser.click("form.propose button.main")
    browser.heading("Proposal ")
    cases.equal("story: a removal", [it["name"] for it in world.pending("PC/8086/1237")], [None])
    browser.click(".decide button")
    browser.has("Withdrawn", "h1")
    cases.equal("story: both taken back", world.pending("PC/8086/1237"), [])


def ranks(cases, world, browser):
    """What a page offers goes by the rank that the account has by now, and no command asks for
    it. `browser` is alice's, who is a contributor."""
    number = world.submit("dora", "PC/8086/7d8b", "To decide")
    approve = f"/proposals/{number}", ".decide button.main"
    for rank, may in (("0", False), ("1", True), ("2", True), ("0", False)):
        world.ask("/account", {"who": "alice", "rank": rank})
        browser.go("/queue")
        browser.has("To decide", ".queue")
        got = [len(browser.all(".queue .buttons")) > 0]
        browser.go(approve[0])
        got.append(len(browser.all(approve[1])) > 0)
        cases.equal(f"story: what is offered to rank {rank}", got, [may, may])
    cases.equal("story: and who decides", browser.has("A moderator or above decides on this"), True)
    vendor = world.submit("dora", "PC/7d8a", "A vendor")
    world.ask("/account", {"who": "alice", "rank": "1"})
    browser.go("/queue")
    browser.has("For a senior moderator or above.", ".queue")
    cases.equal("story: rows for another rank", len(browser.all(".queue .buttons")), 1)
    world.ask("/account", {"who": "alice", "rank": "0"})
    for it in (number, vendor):
        world.ask("/withdraw", {"num": it}, "dora")
    browser.click("#log")
    browser.wait(lambda: browser.text("#log") == "Log in", "logged out")
    world.spoiler.seen.clear()
    browser.log_in("alice")
    browser.wait(lambda: browser.js("return document.getElementById('own').title"), "her rank")
    told = browser.js("return document.getElementById('own').title")
    asked = [it for it in world.spoiler.seen if not it.startswith(b"GET ")]
    cases.equal("story: a log-in sends no command", (told, asked), ("contributor", []))


def moderator(cases, world, browser, number):
    other = world.submit("alice", "PC/8086/7d8e", "Bad")
    browser.go("/queue")
    cases.equal("story: a visitor may not decide", browser.all(".queue .buttons"), [])
    browser.log_in("mona")
    browser.wait(lambda: browser.all(".queue > li .buttons"), "buttons")
    browser.has("seen in a laptop", ".queue")
    browser.click(f".queue a[href='/proposals/{number}']")
    browser.heading(f"Proposal {number}")
    browser.type("#comment", "Where is it from?")
    browser.click("section form button.main")
    browser.has("Where is it from?", ".remarks")
    browser.go("/queue")
    # By keyboard alone: down to the row, and `a` twice.
    browser.wait(lambda: browser.all(".queue > li"), "rows")
    browser.js("document.querySelector('.queue > li[tabindex=\"0\"]').focus()")
    browser.press("j", "k")
    row = browser.js("return document.activeElement.getAttribute('aria-label')")
    cases.equal("story: j and k go down and up", row,
                f"Proposal {number}: Imaginary Controller, 8086:7d8c")
    browser.js("return new Promise((go) => setTimeout(go, 600))")
    browser.press("a")
    cases.equal("story: one key does not approve", world.state(number), "pending")
    # The second one has to come within three seconds: both at once, once the first is forgotten.
    armed = "return document.activeElement.innerText.includes('Press a again')"
    browser.wait(lambda: not browser.js(armed), "the first key to be forgotten")
    browser.press("aa")
    browser.wait(lambda: world.state(number) == "approved", "approved")
    browser.wait(lambda: "Bad" in browser.js("return document.activeElement.innerText"), "the next")
    browser.press("r")
    browser.js("return new Promise((go) => setTimeout(go, 600))")
    browser.press("no such chip", browser.keys.ENTER)
    browser.wait(lambda: world.state(other) == "rejected", "rejected")
    cases.equal("story: rejected with the reason",
                world.ask(f"/submission/{other}")["reason"], "no such chip")
    browser.has("Rejected", ".queue")
    cases.equal("story: what was decided stays in its place", len(browser.all(".queue > li")), 2)
    live = ask_curl("-k", "-H", "Cache-Control: no-cache", f"{world.base}/pci.ids")[2]
    cases.equal("story: the file has it", b"\t7d8c  Imaginary Controller\n" in live, True)


def refusals(cases, world, browser):
    """What the registry refuses is said in plain words."""
    taken = world.submit("alice", "PC/8086/7d8d", "Two")
    browser.go(f"/proposals/{taken}")
    browser.wait(lambda: browser.all(".decide button.main"), "Approve")
    world.ask("/withdraw", {"num": taken}, "alice")
    browser.click(".decide button.main")
    told = browser.has("isn't pending any more", "#notice"), browser.heading("Withdrawn")
    cases.equal("story: withdrawn meanwhile", (told, browser.all(".decide")), ((True, True), []))
    orphan = world.submit("alice", "PC/fff1/0001", "NoVendor")
    browser.go(f"/proposals/{orphan}")
    browser.click(".decide button.main")
    cases.equal("story: no parent", browser.has("isn't in the registry yet", ".decide"), True)
    vendor = world.submit("alice", "PC/fff1", "Vendor")
    browser.go(f"/proposals/{vendor}")
    cases.equal("story: whom it is for", browser.has("A senior moderator or above decides"), True)
    browser.go("/proposals/99999")
    cases.equal("story: none of that number", browser.has("There is no such proposal."), True)


# What a question of the page is answered.
ASK = ("const [path, done] = arguments; import('/site/api.js').then((it) => it.ask(path))"
       ".then((it) => done(JSON.stringify(it)))")


def at_once(cases, world, browser):
    """What a person changed he sees at once, though others' lists are kept for a moment."""
    for number in range(3):
        path = f"PC/8086/7f0{number}"
        proposal = world.submit("alice", path, "Seen at once")
        browser.go(f"/proposals/{proposal}")
        browser.one(".decide button.main")
        ask_curl("-k", f"{world.base}/children?of=PC/8086")
        browser.click(".decide button.main")
        browser.wait(lambda it=proposal: world.state(it) == "approved", "an approval")
        told = browser.driver.execute_async_script(ASK, "/children?of=PC/8086")
        cases.equal(f"story: {path} is in the list at once", path in told, True)


def many(cases, world, browser):
    """A paste of several unknown devices becomes several proposals."""
    browser.go("/propose?many=yes")
    browser.put("#pasted", LSPCI)
    browser.one("main form button")
    browser.js("const it = document.querySelector('main form button'); it.click(); it.click()")
    browser.wait(lambda: browser.all(".many > li"), "rows")
    browser.js("return new Promise((go) => setTimeout(go, 300))")
    cases.equal("story: three rows, though they were asked for twice",
                len(browser.all(".many > li")), 3)
    for row, name in ((1, "First of two"), (2, "Second of two")):
        browser.all(".many input")[row].send_keys(name)
    browser.has("Propose 2 names")
    browser.js("return new Promise((go) => setTimeout(go, 600))")
    browser.js("[...document.querySelectorAll('main button')]"
               ".find((it) => it.textContent.startsWith('Propose 2')).click()")
    browser.wait(lambda: len(browser.all(".many .good")) == 2, "both proposed")
    told = {it["path"]: it["name"] for it in world.pending() if it["author"] == "alice"}
    got = told.get("PC/8086/ab01"), told.get("PC/8086/ab02")
    cases.equal("story: two devices, two proposals", got, ("First of two", "Second of two"))


def maintainer(cases, world, browser):
    """A file is checked, its names are proposed by who may not import, and imported by who may."""
    browser.go("/check")
    browser.type("#paste", "8086  Intel\n8086  Other")
    browser.click("main form button.main")
    cases.equal("story: the first fault", browser.has("line 2: an earlier line has the same number",
                                                      ".result"), True)
    browser.js("document.getElementById('paste').value = '8086  Intel Corporation\\n\\tab03  New'")
    browser.click("main form button.main")
    cases.equal("story: what differs", browser.has("1 new, 0 with another name", ".result"), True)
    browser.click(".result .buttons button")
    browser.heading("Propose many")
    browser.has("8086:ab03", ".many")
    browser.go("/load")
    cases.equal("story: a contributor may not import", browser.has("rank is too low"), True)
    browser.click("#log")
    browser.wait(lambda: browser.text("#log") == "Log in", "logged out")
    browser.log_in("sam")
    # The page is made anew after a log-in: what is typed is kept.
    browser.put("#paste", "8086  Intel Corporation\n\tab03  New")
    browser.click("main form button.main")
    browser.has("Import it", ".result")
    browser.click(".result button.main")
    cases.equal("story: imported", browser.has("1 added, 0 renamed, 1 the same"), True)
    cases.equal("story: it is there", world.ask("/read/PC/8086/ab03")["name"], "New")


def administrator(cases, world, browser):
    browser.go("/people")
    browser.click("#log")
    browser.wait(lambda: browser.text("#log") == "Log in", "logged out")
    browser.log_in("root")
    browser.wait(lambda: browser.all(".accounts li"), "the page made anew, with the accounts")
    browser.type("#who-name", "emil", browser.keys.TAB)
    cases.equal("story: a new account", browser.has("emil is no account yet."), True)
    browser.click("main form button.main")
    browser.has("emil is a contributor now", "#notice")
    browser.type("#who-name", "mona", browser.keys.TAB)
    cases.equal("story: an account's rank", browser.has("mona is a moderator."), True)
    told = world.ask("/submit", {"path": "PC/8086/ab04", "name": "By emil"}, "emil")
    cases.equal("story: a new account proposes", told["ok"], True)
    cases.equal("story: nobody's rank was changed by a log-in",
                world.ask("/account", {"who": "root", "rank": "3"}, "root")["word"], "OwnDecision")


def listed(cases, world, browser):
    """The lists of proposals, page by page: of all, of an account, for an item."""
    told = {it: world.submit("dora", f"PC/8086/7e{it:02x}", f"Listed {it}") for it in range(230)}
    number = world.submit("dora", "PC/8086/7e00", "Listed again")
    world.ask("/comment", {"num": number, "text": "Twice"}, "mona")
    world.ask("/reject", {"num": told[0], "reason": "too short"}, "root")

    def numbers(address):
        found = []
        browser.go(address)
        while True:
            rows = browser.js("return [...document.querySelectorAll('.items > li a > code')]"
                              ".map((it) => Number(it.textContent.slice(1)))")
            found += rows
            if not browser.all("main p .button"):
                return found
            last = f"return document.querySelector('.items code').textContent !== '#{rows[0]}'"
            browser.click("main p .button")
            browser.wait(lambda last=last: browser.js(last), "older ones")

    cases.equal("story: all proposals", numbers("/decided"), [*range(number, 0, -1)])
    cases.equal("story: those of an account", numbers("/decided?author=dora")[:231],
                [number, *reversed(told.values())])
    cases.equal("story: those for an item", numbers("/decided?path=PC/8086/7e00"),
                [number, told[0]])
    got = browser.text(".items")
    cases.equal("story: and what came of them", [it in got for it in (
        "Rejected by root", "too short", "Pending", "1 comment", "PC/8086/7e00")],
        [True, True, True, True, False])
    browser.go("/item/PC/8086/7e00")
    cases.equal("story: on the item's page", browser.has("Rejected by root", ".history"), True)
    browser.go("/propose?path=PC/8086/7e00")
    got = [browser.has(it, ".about") for it in (f"Pending already: #{number}", "too short")]
    cases.equal("story: what was proposed before", got, [True, True])


def discussed(cases, world, browser):
    """A proposal shows its latest hundred comments, and earlier ones as they are asked for."""
    number = world.submit("dora", "PC/8086/7f10", "Discussed")
    for place in range(1, 206):
        world.ask("/comment", {"num": number, "text": f"comment {place}"}, "mona")
    rows = "[...document.querySelectorAll('.remarks .words')].map((it) => it.textContent)"
    shown = f"return [document.querySelector('.remarks')?.start, {rows}]"
    browser.go(f"/proposals/{number}")
    for first, is_more in ((106, True), (6, True), (1, False)):
        browser.wait(lambda it=first: browser.js(shown)[0] == it, f"comment {first}")
        words = f"The latest {206 - first} of 205."
        cases.equal(f"story: comments from {first} on",
                    (browser.js(shown), words in browser.text("main section")),
                    ([first, [f"comment {it}" for it in range(first, 206)]], is_more))
        if is_more:
            browser.click("main section > p button")


# What the page asks for, and finds, where each question has so many rows and leads to the next.
SPARSE = """
const [rows, name, which, done] = arguments, asked = [], fetched = globalThis.fetch;
globalThis.fetch = async (path) => {
  const at = asked.push(new URLSearchParams(path.split("?")[1]).get("before")) - 1;
  const before = at + 1 < rows.length ? 900 - at : 0;
  return Response.json({ before, submissions: Array.from({ length: rows[at] }, () => ({})) });
};
import("/site/submissions.js").then((it) => it[name](which)).then(({ value }) => {
  globalThis.fetch = fetched;
  done([asked, value.submissions.length, value.before]);
});
"""


def sparse(cases, browser):
    """A page of few rows is filled from the next ones, by five questions at most."""
    ask = browser.driver.execute_async_script
    cases.equal("story: few rows", ask(SPARSE, [0, 3, 20, 20], "submissions", {"author": "a"}),
                [[None, "900", "899"], 23, 898])
    cases.equal("story: few rows at the end", ask(SPARSE, [0, 3], "submissions", {"before": "950"}),
                [["950", "900"], 3, 0])
    cases.equal("story: no rows", ask(SPARSE, [0] * 9, "submissions", {"author": "a"}),
                [[None, "900", "899", "898", "897"], 0, 896])
    cases.equal("story: one question for an item", ask(SPARSE, [0, 3], "submissionsFor", "PC/8086"),
                [[None], 0, 900])


def counts(cases, world, browser):
    """The start page has the numbers of the registry."""
    told = world.ask("/status")
    browser.go("/")
    words = f"The registry has {told['items']} names. Of {told['submissions']} proposals" \
            f" {told['pending']} are pending."
    cases.equal("story: the counts", browser.has(words, ".status"), True)


def test_site_story(cases):
    with World() as world:
        with Browser(world.base) as one, Browser(world.base) as two, Browser(world.base) as three:
            visitor(cases, one)
            number = contributor(cases, world, two)
            ranks(cases, world, two)
            moderator(cases, world, three, number)
            two.go("/mine")
            told = two.has("Approved by mona (new)")
            cases.equal("story: alice sees what came of it", told, True)
            one.go("/").log_in("alice")
            one.go("/mine")
            told = one.has("Approved by mona"), "(new)" in one.text()
            cases.equal("story: and from another computer", told, (True, False))
            listed(cases, world, one)
            discussed(cases, world, one)
            sparse(cases, one)
            counts(cases, world, one)
            refusals(cases, world, three)
            at_once(cases, world, three)
            many(cases, world, two)
            maintainer(cases, world, two)
            administrator(cases, world, two)
            for name, it in (("visitor", one), ("contributor", two), ("moderator", three)):
                cases.equal(f"story: the console of the {name}", it.faults(), [])
