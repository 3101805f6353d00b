"""What moderators and readers see of a registry at work: the latest changes after an import; the
queue by author, vendor and kind; several at once; decisions that are taken back in time."""
import time

from site_acts import Person
from site_browser import Browser
from site_world import World

SETTLE = 0.6
# In seconds: longer than a decision is held here.
HELD = 11.5
REASON = "There is no source for it."


def recent(cases, world, browser):
    """After an import of more entries than a page has rows, what was approved is listed first."""
    world.publish()
    lines = "".join(f"\t{at:04x}  By a file {at}\n" for at in range(700))
    world.ask("/import", f"0001  A vendor in front of the others\n{lines}".encode())
    number = world.submit("alice", "PC/8086/ac01", "Approved after the import")
    world.ask("/approve", {"num": number}, "mona")
    gone = world.ask("/submit", {"path": "PC/0001/0003", "remove": "yes"}, "alice")["num"]
    world.ask("/approve", {"num": gone}, "sam")
    world.publish()
    browser.go("/recent")
    rows = [it.text for it in browser.all(".changes li")]
    want = [("8086:ac01", "Approved after the import", f"#{number} by alice, approved by mona"),
            ("700 added by an import",)]
    got = [all(it in row for it in words) for row, words in zip(rows, want)]
    cases.equal("moderation: the latest changes after an import", (len(rows), got),
                (2, [True, True]))


def revision(world):
    return world.ask("/status")["revision"]


def rows(browser):
    """The rows that are shown, as text."""
    return browser.js("return [...document.querySelectorAll('.queue > li')]"
                      ".map((it) => it.innerText.replace(/\\s+/g, ' '))")


def row_of(number):
    return f".queue > li[aria-label^='Proposal {number}:']"


def choose(browser, selector, value):
    browser.js("const it = document.querySelector(arguments[0]); it.value = arguments[1];"
               "it.dispatchEvent(new Event('change', { bubbles: true }))", selector, value)


def narrowed(cases, world, browser):
    """Rows are a line or two; those of an author, a vendor and a kind; rivals are together."""
    one = world.submit("alice", "PC/8086/1237", "A first rival", "a data sheet")
    world.submit("alice", "PD/01/fe", "A subclass")
    for at in range(12):
        world.submit("alice", f"PC/10de/fd{at:02x}", f"Of alice {at}")
    two = world.submit("dora", "PC/8086/1237", "A second rival")
    other = world.submit("dora", "PC/8086/1239", "A later name")
    stale = world.submit("alice", "PC/8086/1239", "An older wish")
    later = world.submit("dora", "PC/8086/1239", "The name of today")
    world.ask("/reject", {"num": other, "reason": REASON}, "root")
    world.ask("/approve", {"num": later}, "root")
    browser.go("/queue")
    browser.has("A second rival", ".queue")
    high = browser.js("const it = document.querySelector('.queue');"
                      "return it.offsetHeight / it.childElementCount")
    cases.equal(f"moderation: rows of {high:.0f} pixels", high < 75, True)
    first = [it.split()[1] for it in rows(browser)][:2]
    cases.equal("moderation: rivals are together", first, [f"#{one}", f"#{two}"])
    told = browser.text(row_of(one))
    cases.equal("moderation: and are named", f"Also pending for this number: #{two}" in told, True)
    told = browser.text(row_of(stale))
    is_told = f"Changed since it was proposed: #{later}" in told
    cases.equal("moderation: what is stale", is_told, True)
    for box, value, count in (("#by-vendor", "10de", 12), ("#by-kind", "device", 12),
                              ("#by-vendor", "", 15), ("#by-kind", "", 16),
                              ("#by-kind", "subclass", 1), ("#by-kind", "", 16),
                              ("#by-author", "dora", 1)):
        choose(browser, box, value)
        cases.equal(f"moderation: {box} is {value!r}", len(rows(browser)), count)
    cases.equal("moderation: the author's record",
                browser.has("All proposals by dora: 1 approved, 1 rejected, 1 pending."), True)
    cases.equal("moderation: the address has it", browser.driver.current_url,
                f"{browser.base}/queue?author=dora")
    choose(browser, "#by-author", "")
    choose(browser, "#by-order", "newest")
    first = [it.split()[1] for it in rows(browser)][:1]
    cases.equal("moderation: the newest first", first, [f"#{stale}"])
    opened(cases, browser, one, two)
    browser.go(f"/proposals/{stale}")
    told = browser.has(f"Changed since it was proposed: #{later} The name of today was approved")
    cases.equal("moderation: stale on its own page", told, True)
    imported = world.submit("alice", "PC/8086/0007", "Before an import")
    was = world.ask("/read/PC/8086/0007")["name"]
    world.publish(1_800_000_000)
    world.ask("/import", b"8086  Intel Corporation\n\t0007  Of an import\n")
    world.publish(1_800_086_400)
    for page in (f"/proposals/{imported}", "/queue"):
        browser.go(page)
        if page == "/queue":
            browser.click(f"{row_of(imported)} .opener")
        told = browser.has(f"Its author saw\n{was}"), browser.has("by an import")
        cases.equal(f"moderation: what its author saw, {page[:6]}", told, (True, True))
    world.ask("/withdraw", {"num": imported}, "alice")
    return stale


def opened(cases, browser, one, two):
    """Enter opens a row: the note, the author's record, and the rivals side by side."""
    browser.go("/queue")
    browser.one(row_of(one))
    browser.js("document.querySelector('.queue > li[tabindex=\"0\"]').focus()")
    browser.press(browser.keys.ENTER)
    browser.has("approved", f"{row_of(one)} .more")
    told = browser.text(f"{row_of(one)} .more")
    want = ("a data sheet", "2 approved", f"#{one} A first rival by alice (this one)",
            f"#{two} A second rival by dora", "440FX")
    cases.equal("moderation: an open row", [it in told for it in want], [True] * len(want))
    browser.press(browser.keys.ENTER)
    seen = browser.js("return document.querySelector('.queue .more').checkVisibility()")
    cases.equal("moderation: Enter closes it", seen, False)
    # A button says of what, and Tab goes on to the next row.
    said = browser.js("const it = document.querySelector('.queue button.main');"
                      "const id = it.getAttribute('aria-describedby');"
                      "return document.getElementById(id).innerText")
    cases.equal("moderation: of what a button is", [it in said for it in ("8086:1237",
                "A first rival")], [True, True])
    inside = []
    for _ in range(9):
        browser.tab()
        inside.append(browser.js("return document.activeElement.closest('.queue > li')"
                                 "?.getAttribute('aria-label').split(':')[0]"))
    cases.equal("moderation: Tab goes through the rows", {f"Proposal {one}", f"Proposal {two}"}
                <= {*inside}, True)


def vandal(cases, world, browser):
    """Ten of an author are rejected with one reason by four acts; lost replies change nothing."""
    numbers = [world.submit("dora", f"PC/8086/ae{at:02x}", f"Vandal {at}") for at in range(10)]
    browser.go("/queue")
    before = revision(world)
    world.spoiler.set("lose", left=2)
    person = Person(browser)
    person.click(f"{row_of(numbers[0])} .meta a[href^='/queue?author=']")
    browser.has("All proposals by dora")
    browser.wait(lambda: len(rows(browser)) == 11, "the rows of one author")
    person.click(".bulk .buttons button")
    person.choose(".bulk select", REASON)
    person.click(".bulk form button")
    browser.has("11 proposals are rejected.", ".bulk")
    cases.equal("moderation: acts of a person", person.acts, 4)
    told = browser.has("All proposals by dora: 1 approved, 12 rejected.")
    cases.equal("moderation: the record follows", told, True)
    got = {(world.state(it), world.ask(f"/submission/{it}")["reason"]) for it in numbers}
    cases.equal("moderation: ten are rejected", (got, revision(world) - before, browser.owed()),
                ({("rejected", REASON)}, 11, []))
    told = browser.text(row_of(numbers[0]))
    hidden = browser.js("return [...document.querySelectorAll('.queue .reject')]"
                        ".filter((it) => it.checkVisibility()).length")
    cases.equal("moderation: the reason is shown, and no box", (REASON in told, hidden), (True, 0))
    cut = browser.js("const it = document.querySelector('.queue .state');"
                     "const [own, its] = [it, it.closest('.said')].map((one) =>"
                     " one.getBoundingClientRect());"
                     "return own.top < its.top - 0.5 || own.bottom > its.bottom + 0.5")
    cases.equal("moderation: the mark of a state is whole", cut, False)
    browser.go("/queue")
    options = browser.js("return [...document.querySelector('.bulk select').options]"
                         ".map((it) => it.value)[1]")
    cases.equal("moderation: the last reason is the first one", options, REASON)


def several(cases, world, browser):
    """What fails stays marked with its refusal, and a stop leaves the rest."""
    good = [world.submit("dora", f"PC/8086/af{at:02x}", f"Good {at}") for at in range(3)]
    orphan = world.submit("dora", "PC/fff1/0001", "Below nothing")
    browser.go("/queue?author=dora")
    browser.wait(lambda: len(rows(browser)) == 4, "four rows")
    for number in (good[0], orphan, good[1]):
        browser.click(f"{row_of(number)} input[type=checkbox]")
    cases.equal("moderation: three are marked", browser.has("Approve 3", ".bulk"), True)
    browser.click(".bulk button.main")
    browser.has("2 proposals are approved, 1 is not.", ".bulk")
    marked = browser.js("return [...document.querySelectorAll('.queue :checked')]"
                        ".map((it) => it.getAttribute('aria-label'))")
    told = browser.text(row_of(orphan))
    cases.equal("moderation: what failed is marked", (marked, "isn't in the registry yet" in told),
                ([f"Mark proposal {orphan}"], True))
    states = [world.state(it) for it in (*good, orphan)]
    cases.equal("moderation: and the others are done", states,
                ["approved", "approved", "pending", "pending"])
    rivals = [world.submit("dora", "PC/8086/af10", f"Rival {at}") for at in range(2)]
    browser.go("/queue?author=dora")
    browser.wait(lambda: len(rows(browser)) == 4, "the rivals")
    for number in rivals:
        browser.click(f"{row_of(number)} input[type=checkbox]")
    browser.click(".bulk button.main")
    browser.has("1 proposal is approved, 1 is not.", ".bulk")
    told = browser.has("was renamed, added or removed since it was shown", row_of(rivals[1]))
    cases.equal("moderation: no rival over a name that wasn't seen", (told, world.state(rivals[1])),
                (True, "pending"))
    world.ask("/withdraw", {"num": rivals[1]}, "dora")
    more = [world.submit("dora", f"PC/8086/b0{at:02x}", f"To stop at {at}") for at in range(6)]
    browser.go("/queue?author=dora")
    browser.wait(lambda: len(rows(browser)) == 8, "eight rows")
    browser.click(".bulk .buttons button")
    world.spoiler.set("hold", seconds=1)
    browser.click(".bulk button.main")
    browser.has("2 of 8", ".bulk")
    browser.click(".bulk .progress button")
    browser.has("are not.", ".bulk")
    world.spoiler.set("pass")
    left = [it for it in (*more, good[2]) if world.state(it) == "pending"]
    cases.equal("moderation: a stop leaves the rest", 0 < len(left) < 7, True)
    for it in (*left, orphan):
        world.ask("/withdraw", {"num": it}, "dora")


def own_tabs(cases, world, browser, number):
    """A second tab of the same person says that it was his own decision."""
    driver = browser.driver
    browser.go("/queue")
    browser.one(row_of(number))
    first = driver.current_window_handle
    driver.switch_to.new_window("tab")
    browser.go(f"/proposals/{number}")
    browser.wait(lambda: browser.all(".decide button.main"), "Approve")
    driver.switch_to.window(first)
    browser.click(f"{row_of(number)} button.main")
    browser.wait(lambda: world.state(number) == "approved", "approved")
    driver.switch_to.window(driver.window_handles[-1])
    browser.click(".decide button.main")
    told = browser.has("You decided on it already, perhaps in another tab.", "#notice")
    cases.equal("moderation: his own decision", told, True)
    driver.close()
    driver.switch_to.window(first)


def taken_back(cases, world, browser):
    """A decision is held for five seconds: it is taken back by a click and by a key."""
    numbers = [world.submit("alice", f"PC/8086/b1{at:02x}", f"Held {at}") for at in range(5)]
    browser.go("/queue?vendor=8086")
    browser.one(row_of(numbers[4]))
    before = revision(world)
    grace = browser.driver.execute_async_script(
        "const [done] = arguments; import('/site/sending/command.js').then((it) => done(it.GRACE))")
    cases.equal("grace: five seconds", 5_000 <= grace < 5_500, True)
    browser.click(f"{row_of(numbers[0])} button.main")
    browser.has("Approved.", row_of(numbers[0]))
    cases.equal("grace: it is kept, and not sent", (len(browser.owed()), revision(world)),
                (1, before))
    browser.click(f"{row_of(numbers[0])} .said button")
    browser.has("It was taken back. Nothing was done.", row_of(numbers[0]))
    browser.js("document.querySelector(arguments[0]).focus()", row_of(numbers[1]))
    time.sleep(SETTLE)
    browser.press("a", "a")
    browser.has("Approved.", row_of(numbers[1]))
    at = browser.js("return document.activeElement.getAttribute('aria-label').split(':')[0]")
    browser.press("u")
    browser.has("It was taken back", row_of(numbers[1]))
    cases.equal("grace: the focus went on, and u takes back", at, f"Proposal {numbers[2]}")
    browser.click(f"{row_of(numbers[2])} button.main")
    time.sleep(HELD)
    states = [world.state(it) for it in numbers[:3]]
    cases.equal("grace: two taken back, one goes out", (states, revision(world) - before,
                browser.owed()), (["pending", "pending", "approved"], 1, []))
    return numbers


def left_meanwhile(cases, world, browser, numbers):
    """Who goes to another page finds it in the bar; a reload sends it, and it acts once."""
    before = revision(world)
    browser.go("/queue?vendor=8086")
    browser.click(f"{row_of(numbers[0])} button.main")
    browser.js("document.querySelector('header nav a[href=\"/help\"]').click()")
    browser.heading("Help")
    browser.has("it is sent in a moment.", "#owed")
    browser.click("#owed button")
    time.sleep(HELD)
    cases.equal("grace: taken back from another page", (world.state(numbers[0]), browser.owed()),
                ("pending", []))
    browser.go("/queue?vendor=8086")
    browser.one(row_of(numbers[3]))
    time.sleep(SETTLE)
    # The page itself loads anew, before the time is over, however busy the machine is.
    browser.js("document.querySelector(arguments[0]).click(); document.body.id = 'old';"
               "setTimeout(() => location.reload(), 300)", f"{row_of(numbers[3])} button.main")
    browser.wait(lambda: not browser.all("#old"), "the page anew")
    browser.ready()
    browser.wait(lambda: world.state(numbers[3]) == "approved", "approved")
    browser.wait(lambda: not browser.owed(), "the outcome")
    cases.equal("grace: a reload sends it, once", revision(world) - before, 1)
    browser.go(f"/proposals/{numbers[4]}")
    browser.type(f"#reason-{numbers[4]}", REASON)
    browser.click(".decide .reject button")
    browser.has("Rejected.", ".decide")
    time.sleep(SETTLE)
    browser.press(browser.keys.ENTER)
    browser.has("It was taken back", ".decide")
    kept = browser.js("return document.querySelector('.decide input').value")
    cases.equal("grace: a reason that was taken back is there", (kept, world.state(numbers[4])),
                (REASON, "pending"))
    browser.go("/queue?vendor=8086")
    browser.click(".bulk .buttons button")
    browser.click(".bulk button.main")
    browser.has("will be approved.", ".bulk")
    browser.click(".bulk .progress button")
    browser.has("Taken back. Nothing was done.", ".bulk")
    time.sleep(HELD)
    cases.equal("grace: several at once, taken back", revision(world) - before, 1)


def test_site_moderation(cases):
    with World() as world:
        with Browser(world.base) as mona:
            mona.go("/").log_in("mona")
            recent(cases, world, mona)
            stale = narrowed(cases, world, mona)
            vandal(cases, world, mona)
            several(cases, world, mona)
            own_tabs(cases, world, mona, stale)
            cases.equal("moderation: the console", mona.faults(), [])
        with Browser(world.base, has_grace=True) as sam:
            sam.go("/").log_in("sam")
            numbers = taken_back(cases, world, sam)
            left_meanwhile(cases, world, sam, numbers)
            cases.equal("grace: the console", sam.faults(), [])
