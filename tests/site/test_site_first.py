"""What is seen first: each item's page has its name in its first bytes, as nginx composes it, and
the application takes its place without a jump; and what is found without scripts."""
import html
import re

from http_server import ask_curl
from site_browser import Browser
from site_world import World, items_taken

# What nginx's language SSI, and HTML, could take for something else.
ODD = "A & B's \"x\" $path \\ --> <b> ${name} <!--# echo var='name' --> \u200b"
SPELT = ODD[:-1] + "[U+200B]"


def named(world):
    """Items that have no page of their own."""
    for path, name in (("PC/8086/7d8a", ODD), ("PC/8086/1237/1af41101", "Other machine"),
                       ("PS/1af4/0001", "Generic"), ("PD/01/fe", "Odd storage")):
        number = world.submit("alice", path, name)
        world.ask("/approve", {"num": number}, "sam")
    world.publish()


def page_of(world, path):
    """The status of a page, its title, its heading and the numbers above that, without scripts."""
    status, _, body = ask_curl("-k", "-H", "Accept: text/html", f"{world.base}/item/{path}")
    page = body.decode()
    found = [re.search(it, page, re.S) for it in (
        "<title>(.*?)</title>", '<h1 tabindex="-1"><bdi>(.*?)</bdi></h1>', "<pre>(.*?)</pre>")]
    texts = [html.unescape(re.sub("<[^>]*>", "", it[1])) if it else None for it in found]
    return status, *texts, re.findall('<li><a href="([^"]*)">', page)


def composed(cases, world):
    vendor, chip = "Intel Corporation", "440FX - 82441FX PMC [Natoma]"
    steps = ["/vendors", "/item/PC/8086"]
    cases.equal("first: a device", page_of(world, "PC/8086/7d8a"), (
        200, f"8086:7d8a {SPELT} · {vendor} · PCI ID registry", SPELT, f"\t7d8a  {SPELT}",
        [*steps, "/item/PC/8086/7d8a"]))
    cases.equal("first: a subsystem", page_of(world, "PC/8086/1237/1af41101"), (
        200, f"8086:1237 1af4:1101 Other machine · {chip} · {vendor} · PCI ID registry",
        "Other machine", "\t\t1af4 1101  Other machine",
        [*steps, "/item/PC/8086/1237", "/item/PC/8086/1237/1af41101"]))
    cases.equal("first: a generic subsystem", page_of(world, "PS/1af4/0001"), (
        200, "1af4:0001 Generic · Red Hat, Inc. · PCI ID registry", "Generic",
        "\t0001  Generic", ["/vendors", "/item/PC/1af4", "/item/PS/1af4/0001"]))
    cases.equal("first: a subclass", page_of(world, "PD/01/fe")[1:4], (
        "01fe Odd storage · Mass storage controller · PCI ID registry", "Odd storage",
        "\tfe  Odd storage"))
    page = ask_curl("-k", "-H", "Accept: text/html", f"{world.base}/item/PC/8086/7d8a")[2].decode()
    cases.equal("first: no markup of a name", ("<b>" in page, "<!--#" in page), (False, False))
    canonical = '<link rel="canonical" href="/item/PC/8086/7d8a">'
    cases.equal("first: its own address", page.count(canonical), 1)
    got = page_of(world, "PC/8086/ffff")[:3]
    cases.equal("first: what is not there", got, (404, "PCI ID registry", None))
    number = world.submit("alice", "PC/8086/7d8c", "Not yet published")
    world.ask("/approve", {"num": number}, "mona")
    got = page_of(world, "PC/8086/7d8c")[0], page_of(world, "PC/8086/7d8c")[2]
    cases.equal("first: what is not published yet", got, (200, None))


def found(world, query):
    """What the search page has for a query without scripts: its text, and where it leads."""
    status, _, body = ask_curl("-k", f"{world.base}/search?q={query}")
    page = re.search("<noscript>(.*?)</noscript>", body.decode(), re.S)[1].partition("word.</p>")[2]
    text = " ".join(html.unescape(re.sub("<[^>]*>", "", page)).split())
    return status, text, re.findall('<a href="([^"]*)">', page)


def sought(cases, world):
    """A number in any spelling, a line of lspci, and a whole word of whatever case."""
    chip, name = "/item/PC/8086/1237", "440FX - 82441FX PMC [Natoma]"
    for query in ("8086%3A1237", "8086:1237", "8086+1237", "%5B8086%3A1237%5D", "0x8086+0x1237",
                  "00%3A00.0+Host+bridge+%5B0600%5D%3A+Intel+440FX+%5B8086%3A1237%5D+(rev+02)"):
        cases.equal(f"first: a search for {query}", found(world, query), (
            200, f"8086:1237 {name} · Intel Corporation", [chip]))
    got = found(world, "8086%3A7D8A")
    cases.equal("first: in capitals", got, (
        200, f"8086:7d8a {SPELT} · Intel Corporation", ["/item/PC/8086/7d8a"]))
    got = found(world, "8086%3A0bad")
    cases.equal("first: a number without a name", got, (200, "8086:0bad has no name.", []))
    for query in ("natoma", "NaToMa", "%5Bnatoma%5D", "+natoma+chip"):
        cases.equal(f"first: a search for {query}", found(world, query), (
            200, f"8086:1237 {name} Found with the first word: 1.", [chip]))
    got = found(world, "8086")
    cases.equal("first: a vendor", got[2], ["/item/PC/8086"])
    cases.equal("first: a class", found(world, "06")[2][:1], ["/item/PD/06"])
    controllers = found(world, "controller")
    count = sum("controller" in re.findall(r"[^\W_]+", name.lower()) for _, name in items_taken())
    cases.equal("first: many", (controllers[1].rpartition("word: ")[2], len(controllers[2])), (
        f"{count}, the first 20 of them here.", 20))
    for query in ("nato", "%3Cb%3E%3C%21--%23", "", "%00", "%", "a" * 2_000, "%E2%82%AC"):
        status, text, links = found(world, query)
        cases.equal(f"first: nothing for {query[:20]}", (status, "none" in text or not text, links),
                    (200, True, []))


def without_scripts(cases, world, browser):
    """A visitor without scripts finds a device from the first page."""
    cdp = browser.driver.execute_cdp_cmd
    cdp("Emulation.setScriptExecutionDisabled", {"value": True})
    browser.driver.get(f"{world.base}/")
    browser.type("#q", "Natoma", browser.keys.ENTER)
    browser.wait(lambda: browser.all("noscript .items a"), "what is found")
    browser.one("noscript .items a").click()
    told = browser.wait(lambda: "440FX" in browser.one("h1").text, "its page")
    cases.equal("first: without scripts", told, True)
    cdp("Emulation.setScriptExecutionDisabled", {"value": False})


def unblocked(cases, browser):
    """What is read first waits for no other file."""
    waits = ("return performance.getEntriesByType('resource')"
             ".filter((it) => it.renderBlockingStatus === 'blocking').map((it) => it.name)")
    for path in ("/", "/item/PC/8086/1237/1af41101", "/item/PC/8086", "/search?q=natoma", "/help"):
        browser.go(path)
        styled = browser.js("return getComputedStyle(document.querySelector('header')).display")
        cases.equal(f"first: what {path} waits for", (browser.js(waits), styled), ([], "grid"))


def top_of(browser, selector):
    return browser.js("return document.querySelector(arguments[0])?.getBoundingClientRect().top",
                      selector)


def taken(cases, world, browser):
    """Where the name is before and after the application takes the page."""
    cdp = browser.driver.execute_cdp_cmd
    cdp("Network.enable", {})
    for path in ("PS/1af4/0001", "PC/8086/1237/1af41101"):
        cdp("Network.setBlockedURLs", {"urls": ["*.js*"]})
        browser.driver.get(f"{world.base}/item/{path}")
        before = top_of(browser, "h1"), top_of(browser, ".facts pre"), browser.driver.title
        cdp("Network.setBlockedURLs", {"urls": []})
        browser.go(f"/item/{path}")
        after = top_of(browser, "h1"), top_of(browser, ".facts pre"), browser.driver.title
        cases.equal(f"first: {path} keeps its title", before[2], after[2])
        far = [abs(one - other) for one, other in zip(before[:2], after[:2])]
        cases.equal(f"first: {path} does not jump: {far}", max(far) <= 4, True)


def test_site_first(cases):
    with World() as world, Browser(world.base) as browser:
        named(world)
        composed(cases, world)
        sought(cases, world)
        without_scripts(cases, world, browser)
        taken(cases, world, browser)
        unblocked(cases, browser)
        faults = [it for it in browser.faults() if "ERR_BLOCKED" not in it]
        cases.equal("first: the console", faults, [])
