"""Strangers join by themselves: from a form that is filled to a proposal; a lost reply and a reload
join once; log-ins on another computer, another password, a lock, and leaving."""
import hashlib
import threading

from http_server import ask_curl
from joining_unit import settings
from test_site_access import CHECK, CONTRAST, LEAST, SIZES, WIDE
from site_acts import Person
from site_browser import Browser
from site_world import World


def owed_words(browser, words):
    browser.wait(lambda: words in browser.text("#owed"), f"{words!r} in the bar")


def join(browser, name):
    """Fills in the page of joining and sends it. Returns the password."""
    browser.put("#join-name", name)
    password = browser.js("return document.getElementById('join-password').value")
    browser.click("form.join button.main")
    return password


def enter(browser, name, password):
    browser.type("#log-name", name)
    browser.type("#log-password", password, browser.keys.ENTER)


def is_in(browser, name):
    return browser.wait(lambda: browser.text("#own") == name, f"{name} logged in")


def out(browser):
    browser.click("#log")
    browser.wait(lambda: browser.text("#log") == "Log in", "logged out")


def stranger(cases, world, browser):
    """A form is filled before anybody asks who it is; after joining it is still there."""
    browser.go("/propose?path=PC/8086/e001")
    browser.type("#name", "By a stranger")
    browser.click("form.propose button.main")
    browser.one("#log-name")
    browser.wait(lambda: browser.all("#dialog a"), "a way to join")
    browser.click("#dialog a")
    browser.heading("Join")
    password = join(browser, "dora-x")
    is_in(browser, "dora-x")
    browser.wait(lambda: browser.all("#name"), "the form again")
    kept = browser.js("return document.getElementById('name').value")
    cases.equal("joining: what was typed is still there", kept, "By a stranger")
    browser.click("form.propose button.main")
    browser.heading("Proposal ")
    pending = [(it["author"], it["name"]) for it in world.pending("PC/8086/e001")]
    cases.equal("joining: it is proposed", pending, [("dora-x", "By a stranger")])
    kept = browser.js("return JSON.stringify([{ ...localStorage }, { ...sessionStorage }])")
    cases.equal("joining: the password is in no storage", password in kept, False)
    out(browser)
    browser.click("#log")
    enter(browser, "dora-x", password)
    cases.equal("joining: out and in", is_in(browser, "dora-x"), True)
    out(browser)
    return password


LSPCI = "02:00.0 Ethernet controller [0200]: Intel Corporation Device [8086:e0f1] (rev 01)"
# In seconds.
LONGEST = 60


def stopwatch(cases, world, browser):
    """From a line of lspci that has no name to a proposal, by somebody without an account: what a
    person does takes less than a minute, with a name and a source to be typed."""
    browser.driver.get("data:text/html,<input id=line>")
    browser.type("#line", LSPCI, browser.keys.CONTROL, "a")
    browser.press(browser.keys.CONTROL + "c")
    person = Person(browser)
    browser.go("/")
    person.click("#q")
    person.press(browser.keys.CONTROL, "v")
    browser.has("8086:e0f1 has no name")
    person.click("main a[href^='/propose']")
    browser.heading("Propose")
    person.click("#name")
    person.press("Imaginary X710 Controller", browser.keys.TAB, "from the board's data sheet")
    person.click("form.propose button.main")
    person.click("#dialog a[href^='/join']")
    browser.heading("Join")
    password = browser.js("return document.getElementById('join-password').value")
    person.click("#join-name")
    person.press("newcomer", browser.keys.ENTER)
    browser.heading("Propose")
    person.click("form.propose button.main")
    browser.heading("Proposal ")
    pending = [(it["author"], it["name"]) for it in world.pending("PC/8086/e0f1")]
    want = [("newcomer", "Imaginary X710 Controller")]
    cases.equal("stopwatch: it is in the queue", pending, want)
    presses, keys = person.seen()
    # Fewer were not seen: 54 letters and 4 other keys are typed.
    cases.equal("stopwatch: all acts were seen", (presses, keys >= 58), (7, True))
    seconds = person.seconds()
    cases.equal(f"stopwatch: {presses} clicks, {keys} keys, {seconds:.1f} s", seconds < LONGEST,
                True)
    return password


SUBSYSTEMS = "8086  Intel Corporation\n\t1237  440FX - 82441FX PMC [Natoma]\n" + "".join(
    f"\t\t1028 0e0{at}  Board {at}\n" for at in range(5))


def pasted(cases, world, browser, password):
    """Five subsystems from a paste, by who has just joined; out, and in again on a phone."""
    browser.go("/propose?many=yes")
    browser.put("#pasted", SUBSYSTEMS)
    browser.click("main form button")
    browser.wait(lambda: len(browser.all(".many > li")) == 5, "five rows")
    browser.click("main .buttons button.main")

    def proposed():
        return [(it["path"], it["name"]) for it in world.pending() if it["author"] == "newcomer"]

    browser.wait(lambda: len(proposed()) == 6, "five more proposals")
    want = [(f"PC/8086/1237/10280e0{at}", f"Board {at}") for at in range(5)]
    cases.equal("joining: five subsystems", proposed()[1:], want)
    out(browser)
    with Browser(world.base, size=(420, 800)) as phone:
        phone.go("/mine")
        phone.click("main button.main")
        enter(phone, "newcomer", password)
        is_in(phone, "newcomer")
        cases.equal("joining: on a phone", phone.has("Board 4"), True)
        out(phone)
        cases.equal("joining: the console of the phone", phone.faults(), [])


def twins(cases, world, one):
    """Two ask for a name at the same moment: one gets it, and the other reads why not."""
    before = world.ask("/status")["accounts"]
    with Browser(world.base) as other:
        for it in (one, other):
            it.go("/join").put("#join-name", "twin-x")
        threads = [threading.Thread(target=it.click, args=("form.join button.main",))
                   for it in (one, other)]
        for it in threads:
            it.start()
        for it in threads:
            it.join()
        first = one.wait(lambda: (one.text("#own") == "twin-x" and one)
                         or (other.text("#own") == "twin-x" and other), "one of two")
        second = other if first is one else one
        second.has("twin-x is taken", "form.join")
        got = world.ask("/status")["accounts"] - before, second.text("#own"), second.owed()
        cases.equal("joining: one of two", got, (1, "", []))
        for it in (first, second):
            cases.equal("joining: the consoles of two", it.faults(), [])
        out(first)


def names(cases, browser):
    """What is refused, with the reason."""
    browser.go("/join")
    for name, script, words in (("labels", CHECK, ()), ("sizes", SIZES, ()), ("width", WIDE, ()),
                                ("contrast", CONTRAST, (LEAST,))):
        cases.equal(f"joining: {name} of the page", browser.js(script, *words) or [], [])
    for name, words in (("dora-x", "dora-x is taken"), ("adm1n", "adm1n is reserved"),
                        ("d0ra-x", "d0ra-x reads like dora-x"), ("a--b", "two hyphens")):
        join(browser, name)
        cases.equal(f"joining: {name}", browser.has(words, "form.join"), True)
    browser.put("#join-name", "short")
    browser.put("#join-password", "too short")
    told = browser.js("return document.getElementById('join-password').validationMessage")
    cases.equal("joining: a short password", told.startswith("At least 12"), True)


def doors(cases, world, browser):
    """What the operator wrote, as the page has it."""
    place = f"{world.folder}/join.conf"
    with open(place, encoding="utf-8") as file:
        before = file.read()
    for its, words in (
        (settings(rules="\n  Be kind.\n  No <b>spam</b>: 100% = 1", contact="Ask: us = 1, 100%"),
         ("Be kind.", "No <b>spam</b>: 100% = 1", "Ask: us = 1, 100%")),
        (settings(door="invitation", contact="Ask us."), ("takes an invitation", "Ask us.")),
        (settings(joins_a_day=0, contact="Ask us."), ("Nobody can join at the moment", "Ask us.")),
        (before, ("Ask registry@example.org.",)),
    ):
        with open(place, "w", encoding="utf-8") as file:
            file.write(its)
        browser.go("/join")
        cases.equal(f"joining: {words}", [browser.has(it) for it in words], [True] * len(words))


def links_of_invitations(world):
    """Three invitations, as pciids-invite makes them. Yields the link and the token of each."""
    tokens = [hashlib.md5(f"invitation {at}".encode()).hexdigest() for at in range(3)]
    for it in tokens:
        open(f"{world.folder}/accounts/invites/{it}", "w", encoding="ascii").close()
    yield f"/join#invite={tokens[0]}", tokens[0]
    # As they were before, and both.
    yield f"/join?invite={tokens[1]}&back=/help", tokens[1]
    yield f"/join?invite={tokens[0]}#invite={tokens[2]}", tokens[2]


def invited(cases, world, browser):
    """The token of an invitation leaves the address bar, and is kept over a reload. After a # it is
    in no request."""
    place = f"{world.folder}/join.conf"
    with open(place, encoding="utf-8") as file:
        before = file.read()
    with open(place, "w", encoding="utf-8") as file:
        file.write(settings(door="invitation"))
    links = list(links_of_invitations(world))
    for at, (link, token) in enumerate(links):
        browser.go(link)
        browser.one("#join-name")
        left = browser.js("return location.href.slice(location.origin.length)")
        want = "/join?back=%2Fhelp" if at == 1 else "/join"
        cases.equal(f"joining: {link}: the address bar", left, want)
        browser.driver.refresh()
        browser.ready()
        join(browser, f"guest-{at}x")
        cases.equal(f"joining: {link}", is_in(browser, f"guest-{at}x"), True)
        with open(f"{world.folder}/access.log", encoding="utf-8") as log:
            logged = token in log.read()
        cases.equal(f"joining: {link}: the log has its token", logged, at == 1)
        out(browser)
    browser.go("/join")
    browser.has("takes an invitation")
    browser.js("location.hash = '#invite=00'")
    browser.one("#join-name")
    cases.equal("joining: a link on the page itself", browser.js("return location.hash"), "")
    with open(place, "w", encoding="utf-8") as file:
        file.write(before)
    join(browser, "guest-3x")
    cases.equal("joining: a bad link", browser.has("This invitation isn't good", "form.join"), True)
    browser.click("form.join button.main")
    cases.equal("joining: and without it", is_in(browser, "guest-3x"), True)
    out(browser)


def lost(cases, world, browser):
    """Replies are lost, and the page is left meanwhile: one account, and the bar says so."""
    before = world.ask("/status")["accounts"]
    browser.go("/join")
    world.joiner.set("lose", left=2)
    join(browser, "edna")
    is_in(browser, "edna")
    cases.equal("joining: two replies lost, one account", world.ask("/status")["accounts"],
                before + 1)
    out(browser)
    browser.go("/join")
    world.joiner.set("lose", left=50)
    password = join(browser, "fritz")
    owed_words(browser, "It isn't known yet")
    kept = browser.js("return JSON.stringify({ ...localStorage })")
    cases.equal("joining: what is kept has no password", password in kept, False)
    browser.go("/help")
    owed_words(browser, "Join as fritz: no answer came")
    world.joiner.set("pass")
    browser.click("#owed button")
    owed_words(browser, "Join as fritz: done.")
    cases.equal("joining: over a reload, one account", world.ask("/status")["accounts"],
                before + 2)
    browser.click("#log")
    enter(browser, "fritz", password)
    cases.equal("joining: with the password of then", is_in(browser, "fritz"), True)


def own(cases, browser):
    """Another password, which the person chooses, and leaving."""
    browser.go("/password")
    browser.put("#password-present", "not this one, surely")
    browser.put("#password-password", "my own words: 12345")
    browser.click("form button.main")
    cases.equal("joining: a wrong present one", browser.has("weren't accepted"), True)
    out(browser)
    browser.go("/join")
    browser.put("#join-password", "my own words: 12345")
    browser.put("#join-name", "gerda")
    browser.click("form.join button.main")
    is_in(browser, "gerda")
    browser.go("/password")
    browser.put("#programs-present", "my own words: 12345")
    browser.js("document.getElementById('programs-present').form.requestSubmit()")
    browser.has("gerda:")
    found = browser.js("return [...document.querySelectorAll('main code')].at(-1).innerText")
    told = ask_curl("-k", "-u", found, f"{browser.base}/whoami")
    cases.equal("joining: what programs send", told[2], b'{"account":"gerda"}')
    browser.put("#password-present", "my own words: 12345")
    new = browser.js("return document.getElementById('password-password').value")
    browser.click("form button.main")
    browser.has("Done.")
    out(browser)
    browser.click("#log")
    enter(browser, "gerda", "my own words: 12345")
    cases.equal("joining: the former one", browser.has("weren't accepted", "#dialog"), True)
    browser.put("#log-password", new)
    browser.type("#log-password", browser.keys.ENTER)
    is_in(browser, "gerda")
    browser.go("/password")
    browser.put("#leave-present", new)
    browser.js("document.getElementById('leave-present').form.requestSubmit()")
    browser.wait(lambda: browser.text("#log") == "Log in", "gone")
    told = ask_curl("-k", "-u", f"gerda:{new}", f"{browser.base}/whoami")
    cases.equal("joining: who leaves", told[0], 401)


def locked(cases, world, browser, password):
    """A senior moderator locks an account whose owner is logged in."""
    browser.go("/help")
    browser.click("#log")
    enter(browser, "dora-x", password)
    is_in(browser, "dora-x")
    browser.go("/propose?path=PC/8086/e002")
    browser.type("#name", "While locked")
    with Browser(world.base) as sam:
        sam.go("/people").log_in("sam")
        sam.has("dora-x contributor, joined ")
        sam.has("1 pending")
        row = "return [...document.querySelectorAll('main li')].find((it) => it.innerText"
        press = ".startsWith('dora-x')).querySelector('button').click()"
        sam.js("return new Promise((go) => setTimeout(go, 600))")
        sam.js(row + press)
        sam.has("locked: its pending proposals")
        browser.click("form.propose button.main")
        told = browser.has("logged out by now: log in again. Nothing was done.", "form.propose")
        got = told, world.pending("PC/8086/e002"), browser.text("#log")
        cases.equal("joining: a locked account", got, (True, [], "Log in"))
        browser.click("form.propose button.main")
        enter(browser, "dora-x", password)
        cases.equal("joining: doesn't log in", browser.has("weren't accepted", "#dialog"), True)
        cases.equal("joining: the console of sam", sam.faults(), [])


def test_site_joining(cases):
    with World() as world:
        with Browser(world.base, size=(420, 800)) as browser:
            password = stranger(cases, world, browser)
            names(cases, browser)
            doors(cases, world, browser)
            invited(cases, world, browser)
            lost(cases, world, browser)
            own(cases, browser)
            locked(cases, world, browser, password)
            cases.equal("joining: the console", browser.faults(), [])
        with Browser(world.base) as browser:
            password = stopwatch(cases, world, browser)
            pasted(cases, world, browser, password)
            twins(cases, world, browser)
            cases.equal("stopwatch: the console", browser.faults(), [])
