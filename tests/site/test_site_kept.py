"""Nothing that was typed is lost, or sent a second time after a reload; nothing shifts once it is
shown, however late answers come; and names of a long published file are found."""
import os
import time

from site_browser import Browser
from test_site_once import comment_lost, mouse
from site_world import World

SHIFTS = """
window.shifts = [];
new PerformanceObserver((all) => all.getEntries().forEach((it) => {
  if (!it.hadRecentInput) shifts.push(it.value.toFixed(4) + " " + it.sources.map(({ node }) =>
    (node?.outerHTML ?? node?.textContent ?? "").slice(0, 90)).join(" | "));
})).observe({ type: "layout-shift", buffered: true });
"""
# Where each Approve is, from the frame on in which it was first seen.
PLACES = """{
window.places = {};
const look = () => {
  for (const it of document.querySelectorAll(".queue button.main")) {
    const at = it.getBoundingClientRect();
    const place = `${Math.round(at.x + scrollX)} ${Math.round(at.y + scrollY)}`;
    const own = places[it.closest("li").getAttribute("aria-label").split(":")[0]] ??= [];
    if (at.width && own.at(-1) !== place) own.push(place);
  }
  requestAnimationFrame(look);
};
requestAnimationFrame(look);
}"""
LATE = ("/", "/vendors", "/item/PC/8086/1237", "/item/PC/8086", "/search?q=8086:ab01", "/recent",
        "/queue", "/propose?path=PC/8086/1237", "/propose?many=yes&text=8086:ab01%20A%20name",
        "/proposals/1", "/mine", "/check")


def value(browser, selector):
    return browser.js("const it = document.querySelector(arguments[0]);"
                      "return it && [it.value, it.readOnly]", selector)


def count(world, digits):
    return len(world.pending(f"PC/8086/{digits}"))


def send(browser, digits, name):
    browser.go(f"/propose?path=PC/8086/{digits}")
    browser.has("has no name yet", ".about")
    browser.type("#name", name)
    browser.click("form.propose button.main")


def again(browser):
    browser.driver.refresh()
    browser.ready()


def asked_in_the_bar(cases, world, browser):
    """A sent draft is bound to its key over a reload, and goes when the bar learns the outcome."""
    world.spoiler.set("keep")
    send(browser, "a070", "Sent once")
    browser.wait(lambda: count(world, "a070") == 1, "the first try to have come through")
    again(browser)
    cases.equal("kept: and says so", browser.has("This was sent", "form.propose"), True)
    cases.equal("kept: a sent draft can't be changed", value(browser, "#name"), ["Sent once", True])
    world.spoiler.set("pass")
    browser.has("no answer came", "#owed")
    browser.click("#owed button")
    told = browser.has("It was done, as proposal", "form.propose")
    cases.equal("kept: its form learns the outcome", told, True)
    cases.equal("kept: and is empty", value(browser, "#name"), ["", False])
    again(browser)
    browser.click("form.propose button.main")
    browser.has("There is no name", "form.propose")
    cases.equal("kept: a second Propose has nothing to send", count(world, "a070"), 1)


def asked_in_the_form(cases, world, browser):
    """Propose after a reload asks under the same key."""
    world.spoiler.set("lose", left=50)
    send(browser, "a071", "Lost")
    browser.has("It isn't known yet", "#owed")
    again(browser)
    world.spoiler.set("pass")
    browser.click("form.propose button.main")
    browser.heading("Proposal ")
    cases.equal("kept: Propose after a reload, one proposal", count(world, "a071"), 1)
    browser.go("/propose?path=PC/8086/a071")
    cases.equal("kept: nothing is left of it", (value(browser, "#name"), browser.owed()),
                (["", False], []))


def asked_in_another_tab(cases, world, browser):
    """Another tab learns the outcome: the form of the first one is empty then."""
    driver = browser.driver
    world.spoiler.set("lose", left=50)
    send(browser, "a072", "Two tabs")
    browser.has("It isn't known yet", "#owed")
    again(browser)
    first = driver.current_window_handle
    driver.switch_to.new_window("tab")
    browser.go("/help")
    world.spoiler.set("pass")
    browser.click("#owed button")
    browser.has("done, as proposal", "#owed")
    driver.close()
    driver.switch_to.window(first)
    browser.has("It was done, as proposal", "form.propose")
    cases.equal("kept: an outcome of another tab", (value(browser, "#name"), count(world, "a072")),
                (["", False], 1))


def refused(cases, world, browser):
    """What was refused is a draft again; and a new one may be begun beside one that is owed."""
    number = comment_lost(world, browser, "dora", "a073", "a comment")
    world.spoiler.set("pass")
    again(browser)
    browser.has("This was sent", "section form")
    browser.click("section form .said button")
    cases.equal("kept: another one is begun", value(browser, "#comment"), ["", False])
    browser.type("#comment", "another comment")
    again(browser)
    cases.equal("kept: the other one is a draft", value(browser, "#comment"),
                ["another comment", False])
    browser.click("#owed button")
    browser.wait(lambda: not browser.owed(), "the first comment's outcome")
    browser.click("section form button.main")
    browser.has("another comment", ".remarks")
    told = [it["text"] for it in world.ask(f"/submission/{number}")["remarks"]]
    cases.equal("kept: each comment once", told, ["a comment", "another comment"])
    taken = world.submit("dora", "PC/8086/a074", "Taken back")
    send(browser, "a074", "x" * 400)
    browser.heading("Proposal ")
    cases.equal("kept: two proposals of one number", count(world, "a074"), 2)
    return taken


def fallen(cases, world, browser):
    """A click that was meant for the bar doesn't fall onto what it lay over."""
    world.spoiler.set("keep")
    send(browser, "a075", "Left at once")
    browser.js("document.querySelector('header nav a[href=\"/help\"]').click()")
    browser.heading("Help")
    world.spoiler.set("pass")
    browser.has("done, as proposal", "#owed")
    browser.js("const it = document.createElement('button'); window.fell = 0;"
               "it.style.cssText = 'position: fixed; inset: auto 0 0 0; height: 300px; z-index: 1';"
               "it.onclick = () => { window.fell += 1; }; document.body.append(it)")
    time.sleep(0.6)
    place = browser.js("const it = document.querySelector('#owed button').getBoundingClientRect();"
                       "return [it.x + 5, it.y + 5]")
    browser.stop_clock()
    mouse(browser, place, 1)
    gone = "return document.getElementById('owed').hidden"
    cases.equal("kept: the bar is closed", browser.wait(lambda: browser.js(gone), "no bar"), True)
    browser.let_pass(0.2)
    mouse(browser, place, 1)
    cases.equal("kept: a click that was meant for the bar", browser.js("return fell"), 0)
    browser.let_pass(0.6)
    mouse(browser, place, 1)
    cases.equal("kept: and one that wasn't", browser.js("return fell"), 1)
    browser.start_clock()


def rejected(cases, world, browser, number):
    """A reason is a draft, in the queue and on the proposal's page; a refusal gives it back."""
    browser.go("/queue")
    browser.all_rows(".queue > li", len(world.pending()))
    row = f"#reason-{number}"
    reject = ("document.querySelector(`.queue .top a[href='/proposals/${arguments[0]}']`)"
              ".closest('li').querySelectorAll('.buttons button')[1]")
    browser.js(f"{reject}.scrollIntoView({{ block: 'center' }})", number)
    time.sleep(0.6)
    browser.js(f"{reject}.click()", number)
    browser.type(row, "half a reason")
    again(browser)
    browser.all_rows(".queue > li", len(world.pending()))
    seen = browser.js("return document.querySelector(arguments[0]).checkVisibility()", row)
    cases.equal("kept: a reason in the queue, after a reload", (value(browser, row), seen),
                (["half a reason", False], True))
    browser.go(f"/proposals/{number}")
    cases.equal("kept: the same on the proposal's page", value(browser, row)[0], "half a reason")
    browser.go("/help").go(f"/proposals/{number}")
    world.spoiler.set("gone")
    browser.click(".reject button")
    browser.has("It isn't known yet", "#owed")
    world.spoiler.set("pass")
    world.ask("/withdraw", {"num": number}, "dora")
    browser.has("isn't pending any more", "#notice")
    told = browser.has("The reason that you wrote wasn't sent: half a reason")
    cases.equal("kept: a refused reason isn't lost", (told, browser.heading("Withdrawn")),
                (True, True))


def beside_decision(cases, world, browser):
    """A decision leaves the comment that is half written on the same page."""
    number = world.submit("dora", "PC/8086/a076", "To approve")
    browser.go(f"/proposals/{number}")
    browser.type("#comment", "half a comment")
    browser.click(".decide button.main")
    browser.has("Approved", "h1")
    cases.equal("kept: a comment beside a decision", value(browser, "#comment"),
                ["half a comment", False])


def typed(cases, world, browser):
    """Everything else that is typed."""
    for path, box, text in (
        ("/people", "#who-name", "emil"), ("/check", "#paste", "8086  Intel\n" * 8_000),
        ("/propose?many=yes", "#pasted", "8086:ab01"), ("/propose?many=yes", "#note", "a note"),
        ("/item/PC/8086", "#narrow-devices", "440"), ("/search", "#q", "440fx"),
    ):
        browser.go(path)
        browser.put(box, text)
        again(browser)
        cases.equal(f"kept: {path} {box}, a reload", value(browser, box)[0], text)
        browser.js("document.querySelector('header nav a[href=\"/help\"]').click()")
        browser.heading("Help")
        browser.driver.back()
        browser.wait(lambda box=box: browser.all(box), box)
        browser.wait(lambda box=box, text=text: value(browser, box)[0] == text, f"{box} again")
        cases.equal(f"kept: {path} {box}, Back", value(browser, box)[0], text)
    browser.go("/item/PC/8086")
    narrowed = value(browser, "#narrow-devices")[0]
    cases.equal("kept: a list that is opened anew is whole", narrowed, "")


def shifts(cases, world, browser):
    """Each page while each answer comes late: nothing moves that was seen before."""
    made = browser.driver.execute_cdp_cmd("Page.addScriptToEvaluateOnNewDocument",
                                          {"source": SHIFTS})
    for width, pages in ((1100, LATE), (375, LATE[2:8])):
        browser.driver.execute_cdp_cmd("Emulation.setDeviceMetricsOverride", {
            "width": width, "height": 800, "deviceScaleFactor": 1, "mobile": width < 400})
        for path in pages:
            world.spoiler.set("hold", seconds=0.25)
            browser.go(path)
            browser.wait(lambda: "…" not in browser.text("#notice"), "the page")
            time.sleep(0.5)
            # Nobody sees less than a thousandth; browsers call up to a tenth good.
            seen = [it for it in browser.js("return shifts") if float(it.split()[0]) >= 0.001]
            cases.equal(f"steady: {path}, {width} wide", seen, [])
    browser.driver.execute_cdp_cmd("Emulation.clearDeviceMetricsOverride", {})
    world.spoiler.set("pass")
    browser.go("/help")
    browser.js("const it = document.createElement('p'); it.textContent = 'pushes';"
               "document.querySelector('main').prepend(it)")
    pushed = browser.wait(lambda: browser.js("return shifts"), "a shift that is made")
    cases.equal("steady: a shift is seen", len(pushed) > 0, True)
    browser.driver.execute_cdp_cmd("Page.removeScriptToEvaluateOnNewDocument", made)


def late_rows(cases, world, browser):
    """Approve stays where it was first seen: while answers come late, after decisions that change
    other rows, while a command waits, and after a refusal."""
    parent = world.submit("alice", "PC/fff2", "Vendor of a row")
    for at in range(3):
        world.submit("alice", f"PC/fff2/000{at}", f"Below it {at}", "a long note " * 40 * at)
    made = browser.driver.execute_cdp_cmd("Page.addScriptToEvaluateOnNewDocument",
                                          {"source": PLACES})
    world.spoiler.set("hold", seconds=0.3)
    browser.go("/queue")
    browser.wait(lambda: browser.all(".queue button.main"), "the first row")
    world.spoiler.set("pass")
    browser.all_rows(".queue > li", len(world.pending()))
    row = f".queue a[href='/proposals/{parent}']"
    approve = "document.querySelector(arguments[0]).closest('li').querySelector('button.main')"
    last = f".queue a[href='/proposals/{parent + 3}']"
    time.sleep(0.6)
    browser.js(f"{approve}.click()", last)
    browser.has("isn't in the registry yet", ".queue")
    world.spoiler.set("lose", left=2)
    browser.js(f"{approve}.click()", row)
    browser.has("It isn't known yet", "#owed")
    browser.wait(lambda: world.state(parent) == "approved", "approved")
    browser.wait(lambda: browser.js("return document.querySelector(arguments[0]).closest('li')"
                                    ".classList.contains('settled')", row), "the row")
    time.sleep(0.7)
    places = browser.js("return places")
    moved = {name: its for name, its in places.items() if len(its) != 1}
    cases.equal("steady: Approve stays in its place", (moved, len(places) >= 4), ({}, True))
    browser.driver.execute_cdp_cmd("Page.removeScriptToEvaluateOnNewDocument", made)


def unfetched(cases, world, browser):
    """A page whose file couldn't be fetched comes once it can; so does the search."""
    driver = browser.driver
    driver.execute_cdp_cmd("Network.enable", {})
    driver.execute_cdp_cmd("Network.setBlockedURLs", {"urls": ["*/pages/recent.js*"]})
    browser.go("/recent")
    told = browser.has("There is no connection")
    driver.execute_cdp_cmd("Network.setBlockedURLs", {"urls": []})
    cases.equal("kept: a file that was missing", (told, browser.heading("Recent changes")),
                (True, True))
    path = os.path.join(world.folder, "public", "pci.ids")
    os.rename(path, f"{path}.away")
    world.spoiler.set("gone")
    browser.go("/search?q=440fx")
    told = browser.has("couldn't be fetched")
    world.spoiler.set("pass")
    os.rename(f"{path}.away", path)
    cases.equal("kept: names that were missing", (told, browser.has("Natoma", "#found")),
                (True, True))


def called_today(cases, world, browser):
    """A row beside one that was approved has the name of today, and says that there are two."""
    one = world.submit("alice", "PC/8086/1237", "A first name")
    two = world.submit("alice", "PC/8086/1237", "A second name")
    was = world.ask("/read/PC/8086/1237")["name"]
    browser.go("/queue")
    browser.all_rows(".queue > li", len(world.pending()))
    row = "document.querySelector(`.queue .top a[href='/proposals/${arguments[0]}']`).closest('li')"
    old = f"return {row}.querySelector('del').textContent"
    cases.equal("kept: what it was called", browser.js(old, two), was)
    told = browser.js(f"return {row}.innerText", two)
    cases.equal("kept: two on one number", f"Also pending for this number: #{one}" in told, True)
    time.sleep(0.6)
    browser.js(f"{row}.querySelector('button.main').click()", one)
    browser.wait(lambda: browser.js(old, two) == "A first name", "the name of today")
    cases.equal("kept: the name of today", world.ask("/read/PC/8086/1237")["name"], "A first name")


def changed_meanwhile(cases, world, browser):
    """Nobody approves over a name that he has not seen, in the queue or on a proposal's page."""
    number = world.submit("alice", "PC/8086/1237", "By alice")
    row = "document.querySelector(`.queue .top a[href='/proposals/${arguments[0]}']`).closest('li')"
    for page, approve in (("/queue", f"return {row}.querySelector('button.main')"),
                          (f"/proposals/{number}",
                           "return document.querySelector('.decide button.main')")):
        browser.go(page)
        if page == "/queue":
            browser.all_rows(".queue > li", len(world.pending()))
        browser.wait(lambda approve=approve: browser.js(approve, number), "Approve")
        name = f"Meanwhile, beside {page[1:6]}"
        other = world.submit("dora", "PC/8086/1237", name)
        world.ask("/approve", {"num": other}, "root")
        time.sleep(0.6)
        browser.js(f"{approve}.click()".replace("return ", ""), number)
        told = browser.has("was renamed, added or removed since", "body")
        was = browser.wait(lambda name=name: name in browser.text("main"), "the name of today")
        got = told, was, world.state(number), world.ask("/read/PC/8086/1237")["name"]
        cases.equal(f"kept: {page}, a name that changed", got, (True, True, "pending", name))
    time.sleep(0.6)
    browser.js("document.querySelector('.decide button.main').click()")
    browser.has("Approved", "h1")
    cases.equal("kept: approved once it was seen", world.ask("/read/PC/8086/1237")["name"],
                "By alice")


def looked_again(cases, world, browser):
    """While it can't be learned what a row is called by now, nobody can approve it."""
    number = world.submit("alice", "PC/8086/1237", "By alice again")
    row = "document.querySelector(`.queue .top a[href='/proposals/${arguments[0]}']`).closest('li')"
    press = f"{row}.querySelector('button.main').click()"
    dead = f"return {row}.querySelector('button.main').ariaDisabled"
    browser.go("/queue")
    browser.all_rows(".queue > li", len(world.pending()))
    other = world.submit("dora", "PC/8086/1237", "Not seen yet")
    world.ask("/approve", {"num": other}, "root")
    time.sleep(0.6)
    world.spoiler.set("blind")
    browser.js(press, number)
    text = f"return {row}.innerText"
    browser.wait(lambda: "was renamed" in browser.js(text, number), "a refusal")
    browser.wait(lambda: browser.js(dead, number) == "true", "no Approve")
    world.spoiler.seen.clear()
    time.sleep(0.6)
    browser.js(press, number)
    time.sleep(0.6)
    sent = [it for it in world.spoiler.seen if it.startswith(b"POST")]
    cases.equal("kept: nothing is approved that wasn't seen", (sent, world.state(number)),
                ([], "pending"))
    world.spoiler.set("pass")
    browser.wait(lambda: "Not seen yet" in browser.js(text, number), "its name")
    browser.wait(lambda: browser.js(dead, number) is None, "Approve")
    time.sleep(0.6)
    browser.js(press, number)
    browser.wait(lambda: world.state(number) == "approved", "approved")
    cases.equal("kept: approved once it was looked at again",
                world.ask("/read/PC/8086/1237")["name"], "By alice again")


def long_file(cases, world, browser):
    """A published file of over 4 MiB: its names are found."""
    path = os.path.join(world.folder, "public", "pci.ids")
    with open(path, "w", encoding="utf-8") as file:
        file.write("8086  Intel Corporation\n")
        for at in range(5_000):
            file.write(f"\t{at:04x}  Needle{at} {'x' * 900}\n")
    cases.equal("kept: the file is longer than an import may be",
                os.path.getsize(path) > 4_194_304, True)
    browser.go("/search?q=needle4321")
    cases.equal("kept: a name of a long file is found", browser.has("8086:10e1", "#found"), True)


def test_site_kept(cases):
    with World() as world:
        with Browser(world.base) as browser:
            browser.go("/").log_in("alice")
            for part in (asked_in_the_bar, asked_in_the_form, asked_in_another_tab):
                part(cases, world, browser)
            taken = refused(cases, world, browser)
            typed(cases, world, browser)
            fallen(cases, world, browser)
            cases.equal("kept: the console of alice", browser.faults(), [])
        with Browser(world.base) as browser:
            browser.go("/").log_in("sam")
            rejected(cases, world, browser, taken)
            for part in (beside_decision, late_rows, called_today, changed_meanwhile,
                         looked_again, unfetched):
                part(cases, world, browser)
            browser.faults()
            browser.said = []
            shifts(cases, world, browser)
            long_file(cases, world, browser)
            cases.equal("kept: the console of sam", browser.faults(), [])
