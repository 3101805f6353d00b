"""Nothing acts twice or by accident: lost responses, reloads at any moment, a killed server, double
clicks, held keys, late answers, other tabs; and nothing that was typed is lost."""
import os
import threading
import time

from site_browser import Browser
from site_world import World, items_of_file

SETTLE = 0.7


def propose(browser, digits, name):
    """Fills in the form for a device of 8086."""
    browser.go(f"/propose?path=PC/8086/{digits}")
    browser.has("has no name yet", ".about")
    browser.type("#name", name)


def count(world, digits):
    return len(world.pending(f"PC/8086/{digits}"))


def comment_lost(world, browser, author, digits, text):
    """Sends a remark on a new proposal, whose answer does not come. Returns the number."""
    number = world.submit(author, f"PC/8086/{digits}", "To comment on")
    browser.go(f"/proposals/{number}")
    browser.type("#comment", text)
    world.spoiler.set("gone")
    browser.click("section form button.main")
    browser.has("It isn't known yet", "#owed")
    return number


def lost(cases, world, browser):
    world.spoiler.set("lose", left=3)
    propose(browser, "a001", "Lost three times")
    browser.click("form.propose button.main")
    browser.has("It isn't known yet whether this was done", "#owed")
    cases.equal("once: kept before its outcome is known", len(browser.owed()), 1)
    browser.heading("Proposal ")
    cases.equal("once: lost three times, one proposal", count(world, "a001"), 1)
    cases.equal("once: nothing is kept after it", browser.owed(), [])


def reloaded(cases, world, browser):
    """A reload during the first try, and one between two tries."""
    world.spoiler.set("keep")
    propose(browser, "a002", "Loaded anew in the first try")
    browser.click("form.propose button.main")
    browser.wait(lambda: count(world, "a002") == 1, "the first try to have come through")
    browser.go("/help")
    told = browser.has("Loaded anew in the first", "#owed")
    cases.equal("once: told of after a reload", told, True)
    world.spoiler.set("pass")
    browser.has("no answer came", "#owed")
    browser.click("#owed button")
    browser.has("done, as proposal", "#owed")
    cases.equal("once: asked again, one proposal", count(world, "a002"), 1)
    world.spoiler.set("lose", left=50)
    propose(browser, "a003", "Loaded anew between tries")
    browser.click("form.propose button.main")
    browser.has("It isn't known yet", "#owed")
    browser.go("/")
    browser.has("no answer came", "#owed")
    world.spoiler.set("pass")
    browser.click("#owed button")
    browser.has("done, as proposal", "#owed")
    cases.equal("once: the same between tries", (count(world, "a003"), browser.owed()), (1, []))


def restored(cases, world, browser):
    """A command that was meant for a number is not sent to a registry that was restored."""
    number = comment_lost(world, browser, "alice", "a007", "Meant for this one")
    browser.go("/help")
    browser.has("no answer came", "#owed")
    world.spoiler.set("pass")
    world.show_epoch(2)
    browser.click("#owed button")
    told = browser.has("restored from a backup", "#owed")
    got = told, len(world.ask(f"/submission/{number}")["remarks"]), len(browser.owed())
    cases.equal("once: the registry was restored", got, (True, 0, 1))
    browser.js("import('/site/sending/queue.js').then(({ owed, forget }) =>"
               " owed().forEach((it) => forget(it.key)))")
    browser.wait(lambda: not browser.owed(), "it is forgotten")
    propose(browser, "a008", "Proposed over a restore")
    world.spoiler.set("gone")
    browser.click("form.propose button.main")
    browser.has("It isn't known yet", "#owed")
    world.show_epoch(3)
    world.spoiler.set("pass")
    browser.heading("Proposal ")
    cases.equal("once: a proposal over a restore", count(world, "a008"), 1)


def doubled(cases, world, browser):
    """Double clicks and ten clicks at once propose once, and do nothing on the next page."""
    for digits, pause in (("a004", 0.12), ("a005", 0.3)):
        propose(browser, digits, "Double")
        time.sleep(SETTLE)
        place = browser.js("const it = document.querySelector('form.propose button.main')"
                           ".getBoundingClientRect(); return [it.x + 10, it.y + 10]")
        browser.stop_clock()
        for clicks in (1, 2):
            mouse(browser, place, clicks)
            time.sleep(pause)
            browser.let_pass(pause)
        browser.heading("Proposal ")
        time.sleep(SETTLE)
        browser.start_clock()
        states = [it["path"] for it in world.pending(f"PC/8086/{digits}")]
        cases.equal(f"once: a double click of {pause} s", states, [f"PC/8086/{digits}"])
    propose(browser, "a006", "Ten clicks")
    time.sleep(SETTLE)
    browser.js("const it = document.querySelector('form.propose button.main');"
               "for (let n = 0; n < 10; n += 1) it.click()")
    browser.heading("Proposal ")
    cases.equal("once: ten clicks at once", count(world, "a006"), 1)
    # What comes under the pointer with the new page doesn't act within half a second.
    number = world.pending("PC/8086/a006")[0]["num"]
    browser.js("document.querySelector('header nav a[href=\"/help\"]').click()")
    browser.heading("Help")
    browser.stop_clock()
    browser.js("window.clicks = 0; window.clicking = setInterval(() => {"
               "  const button = document.querySelector('.decide button');"
               "  if (button) { button.click(); window.clicks += 1; }"
               "}); history.back()")
    browser.heading("Proposal ")
    browser.wait(lambda: browser.js("return window.clicks > 3"), "clicks on what came")
    browser.js("clearInterval(window.clicking)")
    browser.start_clock()
    cases.equal("once: a button that just came", world.state(number), "pending")


def mouse(browser, place, clicks):
    for kind in ("mousePressed", "mouseReleased"):
        browser.driver.execute_cdp_cmd("Input.dispatchMouseEvent", {
            "type": kind, "x": place[0], "y": place[1], "button": "left", "clickCount": clicks})


def hold_key(browser, key, code, seconds):
    """Holds a key, as a keyboard does that repeats it."""
    words = {"key": key, "windowsVirtualKeyCode": code, "code": f"Key{key.upper()}", "text": key}
    if key == "Enter":
        words.update(code="Enter", text="\r")
    end, repeats = time.monotonic() + seconds, False
    while time.monotonic() < end:
        browser.driver.execute_cdp_cmd("Input.dispatchKeyEvent",
                                       {"type": "keyDown", "autoRepeat": repeats, **words})
        repeats = True
        time.sleep(0.04)
    words.pop("text")
    browser.driver.execute_cdp_cmd("Input.dispatchKeyEvent", {"type": "keyUp", **words})


def queued(cases, world, browser):
    """Held keys and double clicks in the queue."""
    numbers = [world.submit("alice", f"PC/8086/a1{it:02x}", f"Row {it}") for it in range(8)]
    browser.go("/queue")
    browser.wait(lambda: browser.all(".queue .buttons"), "buttons")
    browser.js("document.querySelector('.queue > li[tabindex=\"0\"]').focus()")
    time.sleep(SETTLE)
    hold_key(browser, "a", 65, 1.5)
    time.sleep(SETTLE)
    states = {world.state(it) for it in numbers}
    cases.equal("once: a held key approves nothing", states, {"pending"})
    for pause in (0.1, 0.25, 0.4):
        row = browser.js(
            "const it = [...document.querySelectorAll('.queue > li:not(.settled) button.main')][0];"
            "it.scrollIntoView({ block: 'center' }); const at = it.getBoundingClientRect();"
            "return [at.x + 10, at.y + 10]")
        before = len(world.pending())
        for clicks in (1, 2 if pause < 0.3 else 1):
            mouse(browser, row, clicks)
            time.sleep(pause)
        time.sleep(SETTLE)
        approved = before - len(world.pending())
        cases.equal(f"once: a double click of {pause} s approves one", approved, 1)
    cases.equal("once: the decided rows stay", len(browser.all(".queue > li.settled")), 3)


def late_row(cases, world, browser):
    """A button of a row that has just been shown does nothing, however long ago it was made."""
    number = world.pending()[0]["num"]
    browser.go("/help")
    browser.js("window.pressed = 0; new MutationObserver((_, it) => {"
               "  const button = document.querySelector('.queue button.main');"
               "  if (button) { it.disconnect(); window.pressed += 1; button.click(); }"
               "}).observe(document.body, { subtree: true, childList: true })")
    world.spoiler.set("hold", seconds=0.8)
    browser.js("document.querySelector('header nav a[href=\"/queue\"]').click()")
    browser.wait(lambda: browser.js("return window.pressed"), "the first row")
    world.spoiler.set("pass")
    time.sleep(SETTLE)
    cases.equal("once: a row that just came", world.state(number), "pending")


def elsewhere_decided(cases, world, browser):
    """Two clicks on a row that somebody else decided leave the other rows alone."""
    browser.go("/queue")
    rows = len(world.pending())
    browser.all_rows(".queue > li", rows)
    number = world.pending()[0]["num"]
    world.ask("/reject", {"num": number, "reason": "no"}, "root")
    time.sleep(SETTLE)
    browser.js("const it = document.querySelector('.queue button.main'); it.click(); it.click()")
    browser.has("isn't pending any more", ".queue")
    told = browser.has("Rejected", ".queue .settled")
    time.sleep(2)
    left = f"{rows - 1} proposal"
    cases.equal("once: decided by somebody else", (told, left in browser.text(".count"),
                len(browser.all(".queue > li"))), (True, True, rows))


def killed(cases, world, browser):
    """The server is killed while a command is sent, and started anew."""
    propose(browser, "a020", "Killed")
    threading.Timer(0.56, world.stop_server).start()
    browser.click("form.propose button.main")
    time.sleep(1.5)
    world.start_server()
    browser.heading("Proposal ")
    cases.equal("once: a killed server, one proposal", count(world, "a020"), 1)


def late(cases, world, browser):
    """A late answer doesn't take anybody away from where he is by now."""
    world.spoiler.set("keep")
    propose(browser, "a030", "Late")
    browser.click("form.propose button.main")
    browser.js("document.querySelector('header nav a[href=\"/check\"]').click()")
    browser.heading("Check a file")
    cases.equal("once: told in the bar meanwhile", browser.has("Late", "#owed"), True)
    browser.type("#paste", "typed meanwhile")
    world.spoiler.set("pass")
    browser.has("done, as proposal", "#owed")
    typed = browser.js("return document.getElementById('paste').value")
    cases.equal("once: who is elsewhere stays there", (browser.text("main h1"), typed),
                ("Check a file", "typed meanwhile"))
    # A page that is on its way isn't shown to who has gone back meanwhile.
    world.spoiler.set("hold", seconds=1)
    browser.js("document.querySelector('header nav a[href=\"/vendors\"]').click()")
    time.sleep(0.2)
    browser.js("history.back()")
    time.sleep(2.5)
    world.spoiler.set("pass")
    typed = browser.js("return document.getElementById('paste')?.value")
    cases.equal("once: who went back stays there", (browser.text("main h1"), typed),
                ("Check a file", "typed meanwhile"))
    cases.equal("once: nothing is said to load", browser.text("#notice"), "")


def forgotten(cases, world, browser):
    """`Forget it` in another tab stops the first; entries of two tabs are all kept."""
    driver = browser.driver
    world.spoiler.set("gone")
    browser.go("/propose?path=PC/8086/a040")
    browser.type("#name", "Forgotten")
    browser.click("form.propose button.main")
    browser.has("It isn't known yet", "#owed")
    first = driver.current_window_handle
    driver.switch_to.new_window("tab")
    browser.go("/help")
    browser.has("another tab is sending it", "#owed")
    cases.equal("once: another tab is logged in too", browser.text("#own"), "alice")
    browser.click("#owed button")
    second = driver.current_window_handle
    driver.switch_to.window(first)
    cases.equal("once: the first tab says so", browser.has("forgotten in another tab"), True)
    world.spoiler.set("pass")
    time.sleep(2)
    left = count(world, "a040"), browser.owed()
    cases.equal("once: what was forgotten isn't sent", left, (0, []))
    # Each tab makes sixty entries, both at once.
    make = ("const [done] = arguments, all = [];"
            "import('/site/sending/queue.js').then(async ({ begin, forget }) => {"
            "for (let n = 0; n < 60; n += 1) all.push((await begin('/x', 'a=b', 'x')).key);"
            "window.forgetAll = () => all.forEach(forget); done(all.length); })")
    driver.execute_script(f"(function () {{ {make} }})(() => {{ window.made = true; }})")
    driver.switch_to.window(second)
    driver.execute_async_script(make)
    browser.wait(lambda: len(browser.owed()) == 120, "entries of both tabs")
    cases.equal("once: two tabs keep all their entries", len(browser.owed()), 120)
    browser.js("window.forgetAll()")
    driver.close()
    driver.switch_to.window(first)
    browser.js("window.forgetAll()")
    cases.equal("once: and forget them", browser.owed(), [])
    told = driver.execute_async_script(
        "const [done] = arguments;"
        "import('/site/sending/queue.js').then(async ({ begin, settle }) => {"
        "  const entry = await begin('/x', 'a=b', 'x');"
        "  localStorage.setItem(`acted:${entry.key}`, JSON.stringify({ num: 7, at: 1 }));"
        "  localStorage.removeItem(`owed:${entry.key}`);"
        "  done((await settle(entry)).value?.num); })")
    cases.equal("once: what another tab has had the answer of is done", told, 7)


def unkept(cases, world, browser):
    """A browser that refuses storage and locks sends commands all the same."""
    driver = browser.driver
    made = driver.execute_cdp_cmd("Page.addScriptToEvaluateOnNewDocument", {"source": (
        "const no = () => new DOMException('no', 'SecurityError');"
        "LockManager.prototype.request = LockManager.prototype.query"
        " = () => Promise.reject(no()); Storage.prototype.setItem = () => { throw no(); };"
        "BroadcastChannel = class { constructor() { throw no(); } };")})
    propose(browser, "a045", "Nothing is kept")
    browser.click("form.propose button.main")
    browser.heading("Proposal ")
    cases.equal("once: a browser that keeps nothing", count(world, "a045"), 1)
    browser.go("/people")
    browser.type("#who-name", "emil")
    browser.click("main form button.main")
    browser.has("rank is too low")
    box = browser.js("const it = document.getElementById('who-name');"
                     "return [it.value, it.readOnly]")
    cases.equal("once: what was refused there can be mended", box, ["emil", False])
    driver.execute_cdp_cmd("Page.removeScriptToEvaluateOnNewDocument", made)


def others_key(cases, world, browser):
    """A row of many whose outcome is in doubt is sent again by its account alone, and acts once."""
    world.spoiler.set("lose", left=50)
    browser.go("/propose?many=yes&text=8086:a046%20In%20doubt")
    browser.click("main > .buttons button.main")
    browser.has("It isn't known yet", "#owed")
    browser.click("#owed button:last-child")
    browser.has("kept at the foot", ".many")
    world.spoiler.set("pass")
    for name in ("dora", "alice"):
        browser.click("#log")
        browser.wait(lambda: browser.text("#log") == "Log in", "logged out")
        browser.log_in(name)
        browser.has("It was sent as alice", ".many")
        hidden = "return document.querySelector('main > .buttons .main').hidden"
        want = name == "dora"
        is_so = browser.wait(lambda want=want, hidden=hidden: browser.js(hidden) == want,
                             f"the button as {name}")
        cases.equal(f"once: the row in doubt as {name}", is_so, True)
    browser.click("main > .buttons button.main")
    browser.has("Proposed as", ".many")
    told = [it["author"] for it in world.pending("PC/8086/a046")]
    cases.equal("once: one proposal, of its account", (told, browser.owed()), (["alice"], []))


def logged_out_elsewhere(cases, browser):
    """A page that was away while another tab logged out doesn't take its login up again."""
    driver = browser.driver
    first = driver.current_window_handle
    driver.get(browser.base + "/pci.ids")
    driver.switch_to.new_window("tab")
    browser.go("/help")
    browser.wait(lambda: browser.text("#own") == "alice", "the log-in of the other tab")
    browser.click("#log")
    driver.close()
    driver.switch_to.window(first)
    driver.back()
    browser.ready()
    cases.equal("once: logged out in another tab", browser.text("#log"), "Log in")
    browser.log_in("alice")


def logged_in_elsewhere(cases, world, browser):
    """A page whose command waits for a log-in isn't made anew when another tab logs in."""
    driver = browser.driver
    browser.click("#log")
    browser.wait(lambda: browser.text("#log") == "Log in", "logged out")
    propose(browser, "a047", "Waits for a log-in")
    browser.js("document.getElementById('name').mark = 1")
    browser.click("form.propose button.main")
    browser.one("#log-name")
    first = driver.current_window_handle
    driver.switch_to.new_window("tab")
    browser.go("/help").log_in("alice")
    driver.close()
    driver.switch_to.window(first)
    browser.wait(lambda: browser.text("#own") == "alice", "the log-in of the other tab")
    time.sleep(0.3)
    cases.equal("once: a page with a waiting command stays",
                browser.js("return document.getElementById('name').mark"), 1)
    browser.enter("alice")
    browser.heading("Proposal ")
    cases.equal("once: its command goes out once", count(world, "a047"), 1)


def drafts(cases, world, browser):
    """What was typed is there again after a reload, a key in the search box and Back, the skip
    link, and a decision on the same page."""
    propose(browser, "a050", "Half typed")
    browser.type("#note", "a note")
    value = lambda it: browser.js(f"return document.querySelector('{it}')?.value")
    browser.driver.refresh()
    browser.ready()
    cases.equal("drafts: a reload", (value("#name"), value("#note")), ("Half typed", "a note"))
    browser.type("#q", "i")
    browser.heading("Search")
    browser.js("history.back()")
    browser.heading("Propose")
    cases.equal("drafts: a key in the search box", value("#name"), "Half typed")
    browser.js("document.getElementById('name').mark = 1; document.querySelector('.skip').click()")
    time.sleep(0.3)
    browser.js("history.back()")
    time.sleep(0.3)
    cases.equal("drafts: the skip link makes no new page",
                browser.js("return document.getElementById('name').mark"), 1)
    browser.go("/search?q=i").put("#q", "intel")
    browser.wait(lambda: browser.driver.current_url.endswith("q=intel"), "the address")
    browser.has("Intel", "#found")
    browser.js("document.querySelector('#found li').mark = 1;"
               "document.querySelector('.skip').click()")
    time.sleep(0.5)
    cases.equal("drafts: nor does it where the address has followed what was typed",
                browser.js("return document.querySelector('#found li').mark"), 1)
    number = world.submit("mona", "PC/8086/a051", "To comment")
    browser.go(f"/proposals/{number}")
    browser.type("#comment", "half a comment")
    browser.click("#log")
    browser.wait(lambda: browser.text("#log") == "Log in", "logged out")
    cases.equal("drafts: a log-out", value("#comment"), "half a comment")
    browser.log_in("alice")
    cases.equal("drafts: a log-in", value("#comment"), "half a comment")


def imports(cases, world, browser):
    """An import whose page was loaded again asks for the same file, under the same key."""
    path = os.path.join(world.folder, "some.ids")
    other = os.path.join(world.folder, "other.ids")
    own = "8086  Intel Corporation\n\ta060  By file\n"
    for name, text in ((path, own), (other, "8086  Else\n")):
        with open(name, "w", encoding="utf-8") as file:
            file.write(text)
    browser.go("/load")
    browser.type("#file", path)
    browser.has("Import it", ".result")
    world.spoiler.set("lose", left=50)
    revision = world.ask("/changes?since=9000000000000000000")["revision"]
    browser.click(".result button.main")
    browser.has("It isn't known yet", "#owed")
    browser.go("/help")
    browser.has("Choose the same file again", "#owed")
    world.spoiler.set("pass")
    browser.type("#owed input", other)
    cases.equal("once: another file is refused", browser.has("another file", "#notice"), True)
    browser.type("#owed input", path)
    # That it isn't known whether it was done is said until then.
    browser.has(": done.", "#owed")
    now = world.ask("/changes?since=9000000000000000000")["revision"]
    cases.equal("once: an import after a reload", (now - revision, browser.owed()), (1, []))


def stopped(cases, world, browser):
    """The page says that a registry is slow or stopped, and browsing goes on."""
    browser.go("/help")
    time.sleep(3)
    world.spoiler.set("hold", seconds=5)
    browser.js("document.querySelector('header nav a[href=\"/vendors\"]').click()")
    cases.equal("stopped: told that it is slow", browser.has("slow to answer", "#notice"), True)
    browser.heading("Vendors")
    world.spoiler.set("gone")
    browser.go("/item/PC/8086/1237")
    got = browser.has("published file", "body"), "440FX" in browser.text("h1")
    cases.equal("stopped: an item from the published file", got, (True, True))
    browser.go("/vendors")
    cases.equal("stopped: all vendors", "2,3" in browser.text(".narrow output"), True)
    vendors = [(path[3:], name) for path, name in items_of_file() if len(path) == 7]
    has_words = lambda name: all(it in name.lower() for it in ("intel", "corp"))
    want = [f"{number} {name}" for number, name in vendors if has_words(name)]
    browser.put("#narrow-vendors", "intel corp")
    rows = browser.wait(lambda: 0 < len(browser.all(".items [role=listitem]")) < 90
                        and browser.text(".items").split("\n"), "fewer rows")
    cases.equal("stopped: the list of vendors is narrowed", rows, want)
    browser.go("/queue")
    cases.equal("stopped: told plainly", browser.has("isn't running at the moment"), True)
    world.spoiler.set("pass")
    cases.equal("stopped: tried again by itself", browser.heading("Queue"), True)


def test_site_once(cases):
    with World() as world, Browser(world.base) as alice, Browser(world.base) as mona:
        alice.go("/")
        alice.log_in("alice")
        mona.go("/")
        mona.log_in("mona")
        for part in (lost, reloaded, restored, doubled):
            part(cases, world, alice)
        for part in (queued, late_row, elsewhere_decided):
            part(cases, world, mona)
        for part in (killed, late, forgotten, unkept, others_key):
            part(cases, world, alice)
        logged_out_elsewhere(cases, alice)
        logged_in_elsewhere(cases, world, alice)
        drafts(cases, world, alice)
        mona.click("#log")
        mona.wait(lambda: mona.text("#log") == "Log in", "logged out")
        mona.log_in("sam")
        imports(cases, world, mona)
        stopped(cases, world, mona)
        for name, it in (("alice", alice), ("mona", mona)):
            cases.equal(f"once: the console of {name}", it.faults(), [])
