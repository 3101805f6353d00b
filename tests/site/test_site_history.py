"""The story of a month in the browser: what changed when, what it was called before, who did it,
and the way back to a former name."""
import os
import re
import time

from http_server import ask_curl
from site_browser import Browser
from site_world import World

DAY = 86_400
# Some days and an hour ago, in whole minutes, and not at the end of a day.
BEGIN = (int(time.time()) - 20 * DAY - 3_600) // 60 * 60
BEGIN -= 600 if BEGIN % DAY > DAY - 600 else 0
CHIP = "PC/8086/7d8a"


def day(number, form="%Y-%m-%d"):
    return time.strftime(form, time.gmtime(BEGIN + number * DAY))


def approved(world, path, name, author="alice", decider="mona"):
    wish = {"remove": "yes"} if name is None else {"name": name}
    number = world.ask("/submit", {"path": path, **wish}, author)["num"]
    world.ask("/approve", {"num": number}, decider)
    return number


def month(world):
    """What happened on which day. Returns the numbers of the proposals."""
    world.publish(BEGIN)
    numbers = {"new": approved(world, CHIP, "Imaginary")}
    world.publish(BEGIN + DAY)
    numbers["better"] = world.submit("alice", CHIP, "Imaginary Controller")
    world.publish(BEGIN + 2 * DAY)
    world.ask("/approve", {"num": numbers["better"]}, "mona")
    numbers["bad"] = world.submit("alice", "PC/8086/1237", "Wrong")
    world.publish(BEGIN + 3 * DAY)
    world.ask("/reject", {"num": numbers["bad"], "reason": "no source"}, "mona")
    numbers["gone"] = approved(world, "PC/8086/7d8a", None, "dora", "sam")
    lines = "".join(f"\t{at:04x}  By a file {at}\n" for at in range(30))
    world.ask("/import", f"0001  A vendor of a file\n{lines}".encode())
    world.publish(BEGIN + 4 * DAY)
    numbers["again"] = approved(world, CHIP, "Back again", "dora")
    world.publish(BEGIN + 5 * DAY)
    return numbers


def row_texts(browser, selector=".changes li"):
    return [" ".join(it.text.split()) for it in browser.all(selector)]


def recent(cases, browser, numbers):
    browser.go("/recent")
    first = row_texts(browser)
    cases.equal("history: it says how long ago", first[0].endswith(", 15 days ago"), True)
    exact = browser.one(".changes time").get_attribute("title")
    cases.equal("history: and when exactly", exact, day(5, '%F %H:%M UTC'))
    got = [it.partition(" days ago")[0].rpartition(",")[0] for it in first]
    cases.equal("history: the latest changes", got, [
        f"8086:7d8a Back again #{numbers['again']} by dora, approved by mona",
        f"8086:7d8a Imaginary Controller removed #{numbers['gone']} by dora, approved by sam",
        "",
        f"8086:7d8a Imaginary Controller was Imaginary #{numbers['better']} by alice,"
        " approved by mona",
        f"8086:7d8a Imaginary #{numbers['new']} by alice, approved by mona"])
    cases.equal("history: an import is one row", "31 added by an import" in first[2], True)
    heads = [it.text for it in browser.all("main section h2")]
    cases.equal("history: by day", heads, [f"{day(5)} 1 added", f"{day(4)} 31 added, 1 removed",
                                           f"{day(3)} 1 renamed", f"{day(1)} 1 added"])
    browser.go("/recent?kind=renamed")
    cases.equal("history: those that were renamed", len(row_texts(browser)), 1)
    browser.go("/recent?of=8086&kind=removed")
    cases.equal("history: those of a vendor", len(row_texts(browser)), 1)
    browser.go(f"/recent/{day(4)}")
    browser.heading(f"What changed on {day(4)}")
    told = browser.has("31 added, 1 removed."), len(row_texts(browser))
    cases.equal("history: a day", told, (True, 32))
    browser.go(f"/recent?month={day(1)[:7]}")
    browser.heading(f"What changed in {day(1)[:7]}")
    cases.equal("history: its people", browser.has("alice"), True)


def item(cases, browser, numbers):
    browser.go(f"/item/{CHIP}")
    browser.has("It has its name since", ".history")
    cases.equal("history: since when", "15 days ago" in browser.text(".history"), True)
    if browser.all(".history details"):
        browser.click(".history summary")
    got = [it.partition(" 1")[0] for it in row_texts(browser, ".history .changes li")]
    cases.equal("history: its names", got, ["Back again", "removed", "Imaginary Controller",
                                            "Imaginary"])
    browser.click(".history .changes li:nth-child(3) a.button")
    browser.heading("Propose")
    browser.wait(lambda: browser.one("#name").get_property("value"), "a name")
    got = (browser.one("#name").get_property("value"),
           browser.driver.current_url.rpartition("?")[2])
    cases.equal("history: a former name is proposed with a click", got, (
        "Imaginary Controller", "path=PC%2F8086%2F7d8a&name=Imaginary+Controller"))
    browser.go(f"/proposals/{numbers['better']}")
    browser.has("Restore the former name")
    cases.equal("history: what it was before", "Imaginary" in browser.text(".facts del"), True)
    cases.equal("history: when it was decided", "17 days ago" in browser.text(".facts"), True)
    cases.equal("history: when it was proposed", "18 days ago" in browser.text(".facts"), True)
    browser.go("/item/PC/8086/1237")
    words = f"It had its name before {day(0, '%F %H:%M UTC')}, when the history begins."
    cases.equal("history: no guess", browser.has(words, ".history"), True)
    browser.go("/decided")
    got = [it for it in row_texts(browser, ".items li") if "17 days ago" in it]
    cases.equal("history: dates in a list", len(got), 1)


def removed(cases, world, browser):
    approved(world, CHIP, None, "dora", "sam")
    world.publish(BEGIN + 6 * DAY)
    browser.go(f"/item/{CHIP}")
    browser.heading("8086:7d8a has no name")
    cases.equal("history: the last name of what is gone",
                browser.has("It was called Back again and was removed 14 days ago."), True)
    browser.click("main .buttons a.button")
    browser.wait(lambda: browser.one("#name").get_property("value") == "Back again", "its name")


def answers(cases, world, browser):
    browser.go("/").log_in("alice")
    browser.wait(lambda: browser.js("return localStorage['answers:alice']"), "what was seen")
    number = world.submit("alice", "PC/8086/1237", "Other")
    world.ask("/reject", {"num": number, "reason": "no"}, "mona")
    approved(world, "PC/8086/7d8b", "Accepted")
    world.publish(BEGIN + 7 * DAY)
    browser.go("/")
    cases.equal("history: answers since then", browser.has("My proposals (2 new)", "#mine"), True)
    browser.has("8086:7d8b", ".latest")
    got = row_texts(browser, ".latest .changes li")
    cases.equal("history: the start page", (len(got), "Accepted" in got[0]), (7, True))
    browser.go("/mine")
    browser.wait(lambda: browser.text("#mine") == "My proposals", "no news")
    browser.go("/")
    browser.has("8086:7d8b", ".latest")
    cases.equal("history: they were seen", browser.text("#mine"), "My proposals")


def files(cases, world):
    """The same by what programs ask for."""
    status, kind, body = ask_curl("-k", f"{world.base}/history/PC/8086.jsonl")
    cases.equal("history: a vendor's changes", (status, kind, body.count(b"\n")),
                (200, "text/plain; charset=utf-8", 5))
    status, kind, body = ask_curl("-k", f"{world.base}/feeds/PC/8086.atom")
    cases.equal("history: a vendor's feed", (status, kind, body.count(b"<entry>")),
                (200, "application/atom+xml; charset=utf-8", 5))


def etag(world, path, *words):
    """The status of a file, and its ETag."""
    head = ask_curl("-k", "-I", *words, f"{world.base}{path}")
    found = re.search(rb"(?mi)^etag: (.*?)\r$", head[2])
    return head[0], found and found[1].decode()


def followed(cases, world, browser):
    """Feeds as readers find and ask for them."""
    for path in ("/feeds/changes.atom", "/feeds/PC/8086.atom", "/feeds/by/alice.atom",
                 "/history/latest.json"):
        status, tag = etag(world, path)
        again = etag(world, path, "-H", f"If-None-Match: {tag}")[0]
        cases.equal(f"history: {path}, and once more", (status, again), (200, 304))
    tags = [etag(world, f"/feeds/{it}.atom")[1] for it in ("by/alice", "by/dora")]
    approved(world, "PC/8086/7d8e", "For a feed")
    world.publish(BEGIN + 8 * DAY)
    now = [etag(world, f"/feeds/{it}.atom")[1] for it in ("by/alice", "by/dora")]
    cases.equal("history: another ETag where something changed",
                [one != other for one, other in zip(tags, now)], [True, False])
    feeds = ("return [...document.head.querySelectorAll('link[type=\"application/atom+xml\"]')]"
             ".map((it) => it.getAttribute('href').replace(location.origin, ''))")
    for path, named in (("/decided?author=alice", "by/alice"), ("/mine", "by/alice"),
                        ("/item/PC/8086", "PC/8086"), ("/recent?of=8086", "PC/8086"),
                        ("/decided?author=mona", None), ("/item/PC/10de", None)):
        browser.go(path)
        want = ["/feeds/changes.atom", *([f"/feeds/{named}.atom"] if named else [])]
        browser.wait(lambda want=want: browser.js(feeds) == want or None, f"{want} in {path}")


LOADED = "import('/site/names.js').then((it) => it.load()).then(() => arguments[0]())"


def slow(cases, world, browser):
    """While the registry is slow its items are shown as the file has them; then as they are."""
    browser.go("/vendors").driver.execute_async_script(LOADED)
    approved(world, "PC/10de/0020", "Newer than the file", "root", "sam")
    for path, first, then in (("PC/8086", "Intel Corporation", "lspci -nn"),
                              ("PC/10de/0020", "NV4 [Riva TNT]", "Newer than the file")):
        world.spoiler.set("hold", seconds=4)
        start = time.monotonic()
        browser.js("const it = document.createElement('a'); it.href = arguments[0];"
                   "document.querySelector('main').append(it); it.click()", f"/item/{path}")
        browser.heading(first)
        took = time.monotonic() - start
        cases.equal(f"history: {path} is shown after {took:.1f} s", took < 4, True)
        cases.equal("history: and corrected", browser.has(then), True)
        world.spoiler.set("pass")
    titles = browser.driver.title, browser.text("h1")
    want = "10de:0020 Newer than the file · NVIDIA Corporation · PCI ID registry"
    cases.equal("history: its title too", titles, (want, "Newer than the file"))
    world.spoiler.set("blind")
    browser.js("document.querySelector('.crumbs a[href=\"/item/PC/10de\"]').click()")
    cases.equal("history: without an answer", browser.heading("NVIDIA Corporation"), True)
    world.spoiler.set("pass")


SHOTS = os.environ.get("SITE_SHOTS")


def pictures(world, numbers):
    """Each page of the history: light, dark, and on a phone."""
    if not SHOTS:
        return
    world.submit("alice", "PC/8086/7d90", "Pending since a day")
    world.publish(BEGIN + 19 * DAY)
    places = {"recent": "/recent", "day": f"/recent/{day(4)}", "start": "/",
              "month": f"/recent?month={day(1)[:7]}", "item": f"/item/{CHIP}",
              "gone": "/item/PC/8086/7d8a", "decided": "/decided", "search": "/search?q=imaginary",
              "account": "/decided?author=alice", "vendor": "/item/PC/8086", "queue": "/queue",
              "proposal": f"/proposals/{numbers['better']}", "propose": f"/propose?path={CHIP}"}
    for name, size, dark in (("light", (1100, 900), False), ("dark", (1100, 900), True),
                             ("phone", (400, 800), False)):
        with Browser(world.base, size, dark) as browser:
            for place, path in places.items():
                browser.go(path)
                time.sleep(0.5)
                browser.save(os.path.join(SHOTS, f"history-{place}-{name}.png"))


def test_site_history(cases):
    with World() as world, Browser(world.base) as browser:
        numbers = month(world)
        recent(cases, browser, numbers)
        item(cases, browser, numbers)
        removed(cases, world, browser)
        files(cases, world)
        answers(cases, world, browser)
        followed(cases, world, browser)
        slow(cases, world, browser)
        pictures(world, numbers)
        cases.equal("history: the console", browser.faults(), [])
