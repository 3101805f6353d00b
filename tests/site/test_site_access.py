"""Can everybody use the site? Labels, landmarks, headings, focus, contrast, sizes, narrow windows,
reduced motion, the keyboard alone; and how fast it is. Pictures of each page, light and dark, on
phones and on a desktop, are kept in out/site, or in the folder that SITE_SHOTS names."""
import base64
import os
import statistics
import urllib.parse

import program
from site_browser import Browser
from site_world import World, items_of_file

PAGES = {
    "start": "/", "vendors": "/vendors", "classes": "/classes", "item": "/item/PC/8086/1237",
    "vendor": "/item/PC/8086", "absent": "/item/PC/8086/fffe", "search": "/search?q=intel+ethernet",
    "recent": "/recent", "queue": "/queue", "decided": "/decided",
    "propose": "/propose?path=PC/8086/1237", "many": "/propose?many=yes&text=8086:ab01%20A%20name",
    "guide": "/guide", "mine": "/mine", "people": "/people", "check": "/check", "load": "/load",
    "help": "/help", "join": "/join", "password": "/password",
    "proposal": "/proposals/1", "decision": "/proposals/2",
}
LEAST = 4.5
# In milliseconds, on loopback.
FIRST_VIEW, KEY_PRESS = 100, 50
# How many times as long as a bare page the first view may take on a machine that is slow or busy.
TIMES = 8
# A page without anything, and work of some 5 ms without the page: what this machine takes now.
BARE = "data:text/html," + urllib.parse.quote("<!doctype html><title>bare</title><p>bare")
WORK = """
const from = performance.now();
let it = 0;
for (let at = 0; at < 2e6; at += 1) it = (it * 31 + at) | 0;
return [performance.now() - from, it];
"""

CHECK = r"""
const seen = (it) => it.checkVisibility({ checkVisibilityCSS: true }) && it.offsetWidth > 1;
const all = (it) => [...document.querySelectorAll(it)];
const faults = [];
const say = (what, it) => faults.push(`${what}: ${it.outerHTML.slice(0, 120)}`);
const nameOf = (it) => (it.getAttribute("aria-label") ?? it.innerText ?? it.textContent).trim();
for (const it of all("input, select, textarea").filter(seen)) {
  if (!it.labels.length && !it.getAttribute("aria-label")) say("no label", it);
}
for (const it of all("a[href], button, summary").filter(seen)) if (!nameOf(it)) say("no name", it);
const ids = all("[id]").map((it) => it.id);
ids.forEach((it, at) => { if (ids.indexOf(it) !== at) faults.push(`twice the id ${it}`); });
for (const it of all("[for], [aria-describedby], [aria-labelledby], [aria-controls]")) {
  const id = it.htmlFor ?? it.getAttribute("aria-describedby")
    ?? it.getAttribute("aria-labelledby") ?? it.getAttribute("aria-controls");
  if (it.id !== "dialog" && !document.getElementById(id)) say("points to nothing", it);
}
if (all("main").length !== 1 || all("header").length !== 1 || all("footer").length !== 1
  || all("nav").some((it) => !it.getAttribute("aria-label"))) faults.push("landmarks");
if (all("main h1").length !== 1) faults.push("one heading");
let level = 1;
for (const it of all("main h1, main h2, main h3")) {
  const its = Number(it.tagName[1]);
  if (its > level + 1) say("skips a level", it);
  level = its;
}
if (all("[tabindex]").some((it) => it.tabIndex > 0)) faults.push("an order of its own");
if (!document.documentElement.lang || !document.title) faults.push("no language or title");
for (const it of all("[role=list]")) {
  if (!it.querySelector("[role=listitem]")) say("a list without items", it);
}
return faults;
"""

CONTRAST = r"""
const least = arguments[0], faults = [];
const parts = (text) => {
  const found = text.match(/[\d.]+/g).map(Number);
  return found.length === 4 ? found : [...found, 1];
};
const over = ([r, g, b, a], under) => [r, g, b].map((it, at) => it * a + under[at] * (1 - a));
const light = (rgb) => rgb.map((it) => it / 255)
  .map((it) => (it <= 0.04045 ? it / 12.92 : ((it + 0.055) / 1.055) ** 2.4))
  .reduce((sum, it, at) => sum + it * [0.2126, 0.7152, 0.0722][at], 0);
function backOf(it) {
  if (!it) return [255, 255, 255];
  const own = parts(getComputedStyle(it).backgroundColor);
  return own[3] === 1 ? own.slice(0, 3) : over(own, backOf(it.parentElement));
}
function opacityOf(it) {
  return it ? Number(getComputedStyle(it).opacity) * opacityOf(it.parentElement) : 1;
}
const walker = document.createTreeWalker(document.body, NodeFilter.SHOW_TEXT);
for (let node; (node = walker.nextNode());) {
  const it = node.parentElement;
  if (!node.data.trim() || it.closest("noscript, .unseen, .skip, :disabled, .settled")) continue;
  if (!it.checkVisibility() || it.offsetWidth < 2) continue;
  const back = backOf(it), ink = parts(getComputedStyle(it).color);
  ink[3] *= opacityOf(it);
  const [one, two] = [light(over(ink, back)), light(back)].sort((a, b) => b - a);
  const ratio = (one + 0.05) / (two + 0.05);
  if (ratio < least) faults.push(`${ratio.toFixed(2)}: ${node.data.trim().slice(0, 40)}`);
}
return [...new Set(faults)];
"""

SIZES = r"""
const seen = (it) => it.checkVisibility() && it.offsetWidth > 1;
const small = [...document.querySelectorAll("button, input, select, textarea, summary, header a,"
  + " main li > a:only-child, .crumbs a, .top a, .items a")].filter(seen)
  .filter((it) => it.getBoundingClientRect().height < 23.9);
return small.map((it) => `${it.getBoundingClientRect().height}: ${it.outerHTML.slice(0, 90)}`);
"""

WIDE = ("return Math.max(0, document.documentElement.scrollWidth"
        " - document.documentElement.clientWidth)")

# How long a key takes until the frame with what it found is drawn.
KEYS = """
window.times = [];
const box = document.getElementById("q");
box.addEventListener("keydown", () => {
  const from = performance.now();
  const watch = new MutationObserver(() => {
    if (!document.querySelector("#found")) return;
    watch.disconnect();
    requestAnimationFrame(() => setTimeout(() => times.push(performance.now() - from)));
  });
  watch.observe(document.getElementById("main"), { subtree: true, childList: true });
}, { capture: true });
"""


def contents(world):
    """Proposals in all states, so that pages have something to show."""
    one = world.submit("alice", "PC/8086/1237", "440FX - 82441FX PMC [Natoma] rev. 2", "data sheet")
    world.ask("/comment", {"num": one, "text": "Which revision is it?"}, "mona")
    two = world.submit("dora", "PC/1af4/1b01", "Imaginary Network Card", "seen in a server")
    for at, name in enumerate(("Bad", "Taken back", "Good name")):
        world.submit("alice", f"PC/10de/f00{at}", name)
    world.ask("/reject", {"num": two + 1, "reason": "no such chip"}, "mona")
    world.ask("/withdraw", {"num": two + 2}, "alice")
    world.ask("/approve", {"num": two + 3}, "mona")
    world.submit("dora", "PC/8086", "\u0406ntel Corporation", "better")
    world.submit("dora", "PC/8086/1237", "440FX", "shorter")
    world.ask("/submit", {"path": "PC/1234", "remove": "yes", "note": "a wrong number"}, "dora")


# What a page shows once all its answers are there.
WHOLE = {"/search?q=intel+ethernet": "#found li", "/propose?path=PC/8086/1237": ".about li",
         "/item/PC/8086/1237": ".history li", "/item/PC/8086": ".history li",
         "/": ".published a", "/queue": ".queue > li:nth-child(5)"}


def ready(browser, path):
    browser.go(path)
    browser.one(WHOLE.get(path, "h1"))
    browser.js("return new Promise((go) => setTimeout(go, 100))")


# The windows: how wide, how high, and whether it is a phone's.
WAYS = {"desktop": (1100, 900, False), "phone": (375, 720, True), "narrow": (320, 640, True)}
HIGHEST = 1_500
SHOTS = os.environ.get("SITE_SHOTS", os.path.join(program.TOP, "out", "site"))


def picture(browser, name):
    """A picture of the whole page, unless it is very long."""
    width, height = browser.js("return [innerWidth, document.documentElement.scrollHeight]")
    clip = {"x": 0, "y": 0, "width": width, "height": min(height, HIGHEST), "scale": 1}
    shot = browser.driver.execute_cdp_cmd(
        "Page.captureScreenshot", {"captureBeyondViewport": True, "clip": clip})
    with open(os.path.join(SHOTS, f"{name}.png"), "wb") as file:
        file.write(base64.b64decode(shot["data"]))


def window(browser, way):
    width, height, is_phone = WAYS[way]
    browser.driver.execute_cdp_cmd("Emulation.setDeviceMetricsOverride", {
        "width": width, "height": height, "deviceScaleFactor": 1, "mobile": is_phone})


def scheme(browser, name):
    browser.driver.execute_cdp_cmd("Emulation.setEmulatedMedia", {
        "features": [{"name": "prefers-color-scheme", "value": name}]})
    return browser.js("return matchMedia(arguments[0]).matches", f"(prefers-color-scheme: {name})")


def look(cases, browser):
    """All pages, each in all windows, light and dark."""
    os.makedirs(SHOTS, exist_ok=True)
    for name, path in PAGES.items():
        window(browser, "desktop")
        ready(browser, path)
        cases.equal(f"access: {name}: labels and landmarks", browser.js(CHECK), [])
        for way in WAYS:
            window(browser, way)
            for colours in ("light", "dark"):
                is_so = scheme(browser, colours)
                picture(browser, f"{name}-{way}-{colours}")
                pale = browser.js(CONTRAST, LEAST)
                cases.equal(f"access: {name}, {way}, {colours}: contrast", (is_so, pale),
                            (True, []))
            cases.equal(f"access: {name}, {way}: wider than the window", browser.js(WIDE), 0)
            if way != "desktop":
                cases.equal(f"access: {name}, {way}: small targets", browser.js(SIZES), [])
    scheme(browser, "light")
    browser.driver.execute_cdp_cmd("Emulation.clearDeviceMetricsOverride", {})
    print(f"site_access: pictures of {len(PAGES)} pages are in {SHOTS}")


# The button of the menu: whether it can be seen, what it is called, whether it says that the menu
# is open, what it opens, and how many links of that can be seen.
MENU = """
const menu = document.getElementById("menu");
const pages = document.getElementById(menu.getAttribute("aria-controls"));
const seen = (it) => it.checkVisibility({ checkVisibilityCSS: true });
return [seen(menu), menu.textContent, menu.getAttribute("aria-expanded"), pages.tagName,
  [...pages.querySelectorAll("a")].filter(seen).length];
"""


def menu(cases, browser):
    """On a phone a button opens the list of pages, and the first screen is the page's."""
    focused = "return document.activeElement.textContent"
    high = "return document.querySelector('header').offsetHeight"
    closed, opened = ([True, "Menu", said, "NAV", links]
                      for said, links in (("false", 0), ("true", 8)))
    for way in ("phone", "narrow"):
        window(browser, way)
        ready(browser, PAGES["item"])
        height = browser.js(high)
        is_low = height <= WAYS[way][1] / 6
        cases.equal(f"access: {way}: a head of {height} pixels", is_low, True)
        cases.equal(f"access: {way}: the menu is closed", browser.js(MENU), closed)
        browser.js("document.getElementById('menu').focus()")
        browser.press(browser.keys.ENTER)
        cases.equal(f"access: {way}: Enter opens it", browser.js(MENU), opened)
        got = browser.js(high) <= WAYS[way][1] / 2, browser.js(WIDE), browser.js(SIZES)
        cases.equal(f"access: {way}: an open menu", got, (True, 0, []))
        for colours in ("light", "dark"):
            scheme(browser, colours)
            picture(browser, f"menu-{way}-{colours}")
            pale = browser.js(CONTRAST, LEAST)
            cases.equal(f"access: menu, {way}, {colours}: contrast", pale, [])
        browser.tab()
        cases.equal(f"access: {way}: Tab goes into it", browser.js(focused), "Vendors")
        browser.press(browser.keys.ESCAPE)
        got = browser.js(MENU), browser.js(focused)
        cases.equal(f"access: {way}: Escape closes it", got, (closed, "Menu"))
        browser.press(browser.keys.ENTER)
        browser.click("#pages a[href='/help']")
        browser.heading("Help")
        cases.equal(f"access: {way}: so does a link of it", browser.js(MENU), closed)
    scheme(browser, "light")
    browser.driver.execute_cdp_cmd("Emulation.clearDeviceMetricsOverride", {})
    all_of_them = [False, "Menu", "false", "NAV", 8]
    cases.equal("access: elsewhere all links are there", browser.js(MENU), all_of_them)


def vendor(cases, browser):
    """On a phone the first device of a vendor is on the first screen."""
    window(browser, "phone")
    ready(browser, PAGES["vendor"])
    top = browser.js("return document.querySelector('.items [role=listitem]')"
                     ".getBoundingClientRect().top + scrollY")
    cases.equal(f"access: phone: the first device at {top:.0f}", top < WAYS["phone"][1], True)
    browser.driver.execute_cdp_cmd("Emulation.clearDeviceMetricsOverride", {})


def broken(cases, browser):
    """The checks themselves see what they look for."""
    browser.go("/help")
    browser.js("""
      const add = (tag, words = {}, text = "") => {
        const it = Object.assign(document.createElement(tag), words);
        it.textContent = text;
        document.querySelector("main").append(it);
        return it;
      };
      add("input"); add("button"); add("h1", {}, "again");
      add("label", { htmlFor: "nothing" }, "x");
      add("nav"); add("p", { id: "main" }, "twice");
      add("p", {}, "pale").style.color = "#999999";
      const small = add("button", {}, "small");
      small.style.minHeight = "10px"; small.style.height = "10px"; small.style.padding = "0";
      add("div", {}, "wide").style.width = "3000px";""")
    said = " ".join(browser.js(CHECK))
    for word in ("no label", "no name", "one heading", "points to nothing", "landmarks", "twice"):
        cases.equal(f"access: the check sees: {word}", word in said, True)
    pale = " ".join(browser.js(CONTRAST, LEAST))
    cases.equal("access: the check sees contrast", "pale" in pale, True)
    cases.equal("access: the check sees sizes", "small" in " ".join(browser.js(SIZES)), True)
    cases.equal("access: the check sees width", browser.js(WIDE) > 0, True)


def keyboard(cases, browser):
    """Tab goes through the page in its order, each stop can be seen, and the queue lets go."""
    for name in ("start", "item", "queue", "propose", "check"):
        ready(browser, PAGES[name])
        browser.js("document.activeElement.blur(); getSelection().removeAllRanges();"
                   "document.body.tabIndex = -1; document.body.focus()")
        hidden, stops = [], []
        for _ in range(120):
            browser.tab()
            it = browser.js("""
                const it = document.activeElement, style = getComputedStyle(it);
                return [it.outerHTML.slice(0, 80), style.outlineStyle, it === document.body,
                  it.closest("footer") !== null];""")
            if it[2]:
                break
            stops.append(it[0])
            if it[1] == "none":
                hidden.append(it[0])
            if it[3]:
                break
        cases.equal(f"access: {name}: the focus can be seen", hidden, [])
        cases.equal(f"access: {name}: Tab comes to the end", (len(stops) > 5, it[3]), (True, True))
    ready(browser, "/queue")
    browser.js("document.querySelector('.queue > li').focus()")
    inside = []
    for _ in range(9):
        browser.tab()
        inside.append(browser.js("return document.activeElement.textContent"))
    cases.equal("access: Tab reaches Approve and Reject in the row", {"Approve", "Reject \u2026"}
                <= {*inside}, True)


def motion(cases, browser):
    browser.driver.execute_cdp_cmd("Emulation.setEmulatedMedia", {
        "features": [{"name": "prefers-reduced-motion", "value": "reduce"}]})
    browser.go("/vendors")
    moving = browser.js("return [...document.querySelectorAll('*')].filter((it) => {"
                        "const style = getComputedStyle(it);"
                        "return style.transitionDuration !== '0s'"
                        " || style.animationName !== 'none' }).length")
    cases.equal("access: nothing moves where that is not wanted", moving, 0)
    browser.driver.execute_cdp_cmd("Emulation.setEmulatedMedia", {"features": []})


def quick(times):
    """The fastest quarter: what the page takes while nothing else has the processors."""
    return statistics.quantiles(times, n=4)[0]


def painted(browser):
    """When the page that was loaded last was first painted, in milliseconds after its request."""
    return browser.js("return new Promise((go) => {"
                      "  const paint = (all) => all.getEntriesByName('first-contentful-paint')[0];"
                      "  const done = paint(performance);"
                      "  if (done) go(done.startTime);"
                      "  else new PerformanceObserver((all) => paint(all) &&"
                      "    go(paint(all).startTime)).observe({ type: 'paint', buffered: true });"
                      "})")


# When the largest text of the page was painted, as far as that is known after a while.
LARGEST = """
const [done] = arguments;
let last = 0;
new PerformanceObserver((all) => all.getEntries().forEach((it) => { last = it.startTime; }))
  .observe({ type: "largest-contentful-paint", buffered: true });
setTimeout(() => done(last), 300);
"""


def first_view(cases, browser):
    """Loads the start page and a bare one in turn, until the fastest quarter is below the limit and
    the largest text was there with the first paint, at most 24 times."""
    first, bare, largest = [], [], []

    def late():
        return min(there - began for there, began in zip(largest, first))

    while len(first) < 24 and (len(first) < 8 or quick(largest) >= FIRST_VIEW or late() >= 1):
        browser.driver.get(BARE)
        bare.append(painted(browser))
        browser.go("/")
        first.append(painted(browser))
        largest.append(browser.driver.execute_async_script(LARGEST))
    told = f"{quick(largest):.0f} ms beside {quick(bare):.0f} ms of a bare page"
    print(f"site_access: first view {told} (fastest quarter of {len(first)}; medians"
          f" {statistics.median(largest):.0f} and {statistics.median(bare):.0f})")
    is_soon = quick(largest) < max(FIRST_VIEW, TIMES * quick(bare))
    cases.equal(f"access: the first view, whole, {told}", is_soon, True)
    # A page that is filled in after its first paint never has its largest text there; a whole one
    # has it there unless the browser is interrupted while it reads the page.
    cases.equal("access: the first view is the whole page", late() < 1, True)


def key_press(cases, browser):
    """What a key press takes, and work of the same kind that the page has no part in."""
    browser.wait(lambda: "35," in browser.text(".published"), "the names")
    browser.js(KEYS)
    words, work = "intel ethernet controller", []
    for at, key in enumerate(words):
        browser.type("#q", key)
        browser.wait(lambda at=at: browser.js("return times.length") == at + 1, "a frame")
        work.append(browser.js(WORK)[0])
    times = browser.js("return times")[1:]
    told = f"{quick(times):.0f} ms beside {quick(work):.1f} ms of work"
    print(f"site_access: a key press {told} (fastest quarter of {len(times)}; median"
          f" {statistics.median(times):.0f}, most {max(times):.0f})")
    is_soon = quick(times) < max(KEY_PRESS, TIMES * quick(work))
    cases.equal(f"access: a key press in the search, {told}", is_soon, True)


def found(cases, browser):
    """What is found by typing on is what is found by asking at once, and as many as there are."""
    names = dict(items_of_file())

    def text_of(path):
        above = [path.rpartition("/")[0], "PC/" + path[3:7]]
        if path.count("/") == 3 and path.startswith("PC"):
            above.append("PC/" + path[13:17])
        return "\n".join(names.get(it, "").lower() for it in [path, *dict.fromkeys(above)])

    texts = [text_of(it) for it in names]
    for query in ("intel ethernet", "controller red", "440fx"):
        said = browser.driver.execute_async_script("""
            const [query, done] = arguments;
            import("/site/names.js").then(async ({ search }) => {
              let typed;
              for (let to = 1; to <= query.length; to += 1) {
                typed = await search(query.slice(0, to));
              }
              await search("zzz");
              done([typed, await search(query)]);
            })""", query)
        want = sum(all(word in it for word in query.split()) for it in texts)
        cases.equal(f"access: {query!r} typed and asked", said[0] == said[1], True)
        cases.equal(f"access: how many are found for {query!r}", said[1]["count"], want)


def test_site_access(cases):
    with World() as world, Browser(world.base, (1100, 900)) as browser:
        contents(world)
        browser.go("/")
        first_view(cases, browser)
        key_press(cases, browser)
        found(cases, browser)
        broken(cases, browser)
        browser.go("/")
        browser.log_in("mona")
        look(cases, browser)
        menu(cases, browser)
        vendor(cases, browser)
        keyboard(cases, browser)
        motion(cases, browser)
        cases.equal("access: the console", browser.faults(), [])
