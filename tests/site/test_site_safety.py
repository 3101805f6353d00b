"""Hostile names, notes, remarks and reasons stay text; text that deceives is marked; the policy of
the headers holds and reports nothing; without scripts the page leads to the texts of the API."""
import base64
import glob
import json
import os
import re
import subprocess

import program
from http_server import ask_curl
from site_browser import Browser
from site_world import SITE, World

MARKUP = """<img src=x onerror="document.title='owned'"><script>document.title='owned'</script>"""
MORE = "</textarea></title><svg onload=alert(1)> javascript:alert(1) & \"q\" 'p' ${1} {{2}}"
HOSTILE = f"{MARKUP} {MORE}"
# A text, and what is shown beside or in place of what deceives in it.
DECEIVING = {
    "\u0406ntel Corporation": "\u0406Cyrillicntel Corporation",
    "Int\u200bel": "IntU+200Bel",
    "Intel\u3164Corp": "IntelU+3164Corp",
    "Intel\u2800Corp": "IntelU+2800Corp",
    "Intel\u00a0Corp": "IntelU+00A0Corp",
    "Intel\U000e0041": "IntelU+E0041",
    "Intel\u202egnirts": "IntelU+202Egnirts",
    "Intel ": "Intelblank",
    "a\tb": "atabb",
    "Inte\u217c": "Inte\u217cU+217C",
    "Inte" + "\u0301" * 300 + "l": "Inte\u0301\u0301U+0301+298 marksl",
    "\uff29ntel": "\uff29U+FF29ntel",
    "Intel  Corp": "Intel  Corp",
    "\u00b5PD 2\u00b2 \u00fc Corp.\u2122": "\u00b5PD 2\u00b2 \u00fc Corp.\u2122",
}
PAGES = ("/", "/vendors", "/classes", "/item/PC/8086/1237", "/item/PC/8086", "/search?q=intel",
         "/recent", "/queue", "/decided", "/propose", "/propose?many=yes", "/mine", "/people",
         "/check", "/load", "/help")
COUNT = """
window.made = [];
new MutationObserver((all) => all.forEach((it) => it.addedNodes.forEach((node) => {
  if (/^(IMG|SCRIPT|SVG|IFRAME|OBJECT|STYLE|LINK)$/i.test(node.nodeName)) made.push(node.outerHTML);
}))).observe(document.body, { subtree: true, childList: true });
"""


def hostile(cases, world, browser):
    """Markup everywhere: as a name, note, comment, reason, search, file and address."""
    world.publish()
    number = world.submit("alice", "PC/8086/be01", HOSTILE, HOSTILE)
    other = world.submit("alice", "PC/8086/be02", HOSTILE, HOSTILE)
    world.ask("/comment", {"num": number, "text": HOSTILE}, "alice")
    world.ask("/reject", {"num": other, "reason": HOSTILE}, "root")
    world.ask("/approve", {"num": number}, "root")
    third = world.submit("alice", "PC/8086/be01", HOSTILE + "2", HOSTILE)
    world.publish()
    browser.go("/help")
    for path, selector in (
        (f"/proposals/{number}", "main"), (f"/proposals/{other}", "main"), ("/queue", ".queue"),
        ("/decided", "main"), ("/item/PC/8086/be01", "main"), ("/item/PC/8086", "main"),
        ("/recent", "main"), ("/propose?path=PC/8086/be01", ".about"),
        (f"/proposals/{third}", "main"),
    ):
        browser.go(path)
        browser.has("<img src=x onerror=", selector)
        made = browser.all("main img, main script, main svg, main iframe")
        title = browser.driver.title.startswith("owned")
        cases.equal(f"safety: markup is text on {path}", (made, title), ([], False))
    browser.go("/check")
    browser.js(COUNT)
    browser.put("#paste", f"8086  {HOSTILE}\n{HOSTILE}")
    browser.click("main form button.main")
    browser.has("line 2", ".result")
    browser.put("#paste", f"8086  {HOSTILE}\n")
    browser.click("main form button.main")
    browser.has("1 with another name", ".result")
    browser.put("#q", HOSTILE)
    browser.has("Nothing is found", "main")
    cases.equal("safety: markup makes no element", browser.js("return made"), [])
    address = "/search?q=%3Cimg%20src%3Dx%20onerror%3Dalert(1)%3E"
    cases.equal("safety: markup in an address", browser.go(address).has("<img src=x"), True)
    browser.go("/propose?many=yes&text=8086:beef%20%3Cimg%20src=x%3E")
    cases.equal("safety: markup in a pasted text", browser.all("main img"), [])


def deceiving(cases, world, browser):
    """Each text as a row of the queue shows it, and the letters that differ from before."""
    numbers = {text: world.submit("alice", f"PC/8086/de{at:02x}", text)
               for at, text in enumerate(DECEIVING)}
    browser.go("/queue")
    browser.all_rows(".queue > li", len(world.pending()))
    for text, number in numbers.items():
        row = f"a[href='/proposals/{number}']"
        got = browser.js("return document.querySelector(arguments[0]).closest('li')"
                         ".querySelector('.change ins').textContent", row)
        cases.equal(f"safety: {text!r} is shown", got, DECEIVING[text])
    blanks = browser.js("return getComputedStyle(document.querySelector('.change bdi')).whiteSpace")
    cases.equal("safety: blanks aren't folded", blanks, "pre-wrap")
    number = world.submit("alice", "PC/8086", "\u0406ntel Corporation")
    browser.go(f"/proposals/{number}")
    marked = browser.js("return [...document.querySelectorAll('.facts mark')]"
                        ".map((it) => it.innerText)")
    cases.equal("safety: what differs is marked", marked, ["I", "\u0406Cyrillic"])
    label = browser.driver.title
    cases.equal("safety: the title spells it too", "\u0406[Cyrillic]ntel" in label, True)
    wide(cases, world, browser)


def wide(cases, world, browser):
    """Marks upon marks make no page wider than a phone."""
    name = "".join(letter + "\u0301\u0323" * 40 for letter in "Zalgo!")
    number = world.submit("alice", "PC/8086/de80", name)
    browser.driver.execute_cdp_cmd("Emulation.setDeviceMetricsOverride", {
        "width": 320, "height": 640, "deviceScaleFactor": 1, "mobile": True})
    widths = [width_of(browser, "/queue")]
    world.ask("/approve", {"num": number}, "root")
    widths += [width_of(browser, it) for it in (f"/proposals/{number}", "/item/PC/8086/de80")]
    browser.driver.execute_cdp_cmd("Emulation.clearDeviceMetricsOverride", {})
    cases.equal("safety: marks upon marks", widths, [320] * 3)


def width_of(browser, path):
    browser.go(path)
    browser.has("+78 marks")
    return browser.js("return document.documentElement.scrollWidth")


def policy(cases, world, browser):
    """Nothing from another origin, nothing inline, and Trusted Types refuse markup."""
    for path in (*PAGES, "/nope"):
        status, _, _ = ask_curl("-k", "-H", "Accept: text/html", world.base + path)
        head = ask_curl("-k", "-I", "-X", "GET", "-H", "Accept: text/html", world.base + path)[2]
        strict = all(it in head for it in (
            b"default-src 'none'; script-src 'self'", b"require-trusted-types-for 'script'",
            b"frame-ancestors 'none'", b"nosniff"))
        cases.equal(f"safety: the policy of {path}", (strict, status), (True, 404 if path == "/nope"
                                                                       else 200))
    browser.go("/")
    # The policy itself is tried, so that a page that breaks it would be seen: each of these fails.
    for name, text in {
        "markup": "document.body.innerHTML = '<b>x</b>'",
        "an address of a script": "document.createElement('script').src = '/site/main.js'",
        "a worker": "new Worker('/site/names.worker.js')",
    }.items():
        got = browser.js(f"try {{ {text}; return 'done' }} catch (it) {{ return it.name }}")
        cases.equal(f"safety: the policy refuses {name}", got, "TypeError")
    faults = browser.faults()
    cases.equal("safety: and the console tells of it", len(faults) >= 3, True)
    browser.said = []
    for path in PAGES:
        browser.go(path)
        browser.js("return new Promise((go) => setTimeout(go, 200))")
        cases.equal(f"safety: the console on {path}", browser.faults(), [])
    loaded = browser.js("return performance.getEntriesByType('resource').map((it) => it.name)")
    foreign = [it for it in loaded if not it.startswith(browser.base)]
    cases.equal("safety: nothing from another origin", (foreign, len(loaded) > 5), ([], True))


def without_scripts(cases, world):
    """What a browser without scripts is led to is there."""
    world.publish()
    page = ask_curl("-k", "-H", "Accept: text/html", world.base + "/")[2].decode()
    text = page.partition("<noscript>")[2].partition("</noscript>")[0]
    links = [it.partition('"')[0].replace("&amp;", "&") for it in text.split('href="')[1:]]
    cases.equal("safety: links without scripts", len(links) >= 4, True)
    for it in links:
        cases.equal(f"safety: {it}", ask_curl("-k", world.base + it)[0], 200)
    inline = [it for it in ("style=", "onclick=", "<script>") if it in page]
    cases.equal("safety: nothing inline", inline, [])
    told = [ask_curl("-k", "-i", world.base + it)[2].decode() for it in ("/", "/", "/help")]
    allowed = [re.findall("'nonce-([0-9a-f]{32})'", it) for it in told]
    used = [re.findall('<style nonce="(.*?)">', it) for it in told]
    cases.equal("safety: but the styles, by a number of the response", used, allowed)
    cases.equal("safety: which is another one each time", len({it for it, in allowed}), 3)


def statuses(cases, world):
    """What is not there has status 404 and a page; whatever is or may be there has 200."""
    def got(*words):
        status, _, page = ask_curl("-k", "-H", "Accept: text/html", *words)
        return status, b"/site/main.js" in page

    for path, want in (("PC/8086/1237", 200), ("PC/8086/1237/1af41100", 200), ("PC/8086", 200),
                       ("PC/8086/fffe", 404), ("PC/8086/1237/00000000", 404), ("PS/8086/fffe", 404),
                       ("PD/01/fe", 404), ("PC/8086/12", 200), ("pc/10DE/FFFE", 200)):
        page = f"{world.base}/item/{path}"
        cases.equal(f"safety: the status of {path}", got(page), (want, True))
    # A body is no part of the question: the server would wait for it, and others for the server.
    page = f"{world.base}/item/PC/8086/fffe"
    for it in (("-d", "a=b"), ("-H", "Transfer-Encoding: chunked", "-d", "a=b")):
        told = got("--http1.1", "-X", "GET", *it, "-H", "X-Account: root", page)
        cases.equal(f"safety: a body, {it[1]}", told, (404, True))
    cases.equal("safety: the head alone", got("-I", page)[0], 404)
    world.spoiler.set("gone")
    cases.equal("safety: without an answer", got(page), (200, True))
    world.spoiler.set("pass")


def modules(cases):
    """The script of the site names all modules that it needs, so that they are fetched at once."""
    imports = re.compile(r'^(?:import |} from )(?:.* from )?"(\.[a-z_./]+)";$', re.M)

    def named_in(name):
        with open(os.path.join(SITE, name), encoding="utf-8") as file:
            found = imports.findall(file.read())
        return [os.path.normpath(os.path.join(os.path.dirname(name), it)) for it in found]

    named, needed = named_in("site.js"), set()
    left = ["site.js"]
    while left:
        found = {*named_in(left.pop())} - needed
        left += found
        needed |= found
    got = sorted(named), len(named) > 10, named_in("main.js")
    want = sorted(needed), True, []
    cases.equal("safety: what the scripts name", got, want)


def first_page(cases, browser):
    """The first page has at once what its script makes of it, in the frame of all pages."""
    def parts(name):
        with open(os.path.join(SITE, name), encoding="utf-8") as file:
            text = re.sub(r"\s+", " ", file.read()).replace("> <", "><").replace("&nbsp;", "\xa0")
        head, _, rest = text.partition('<main id="main" tabindex="-1">')
        inside, _, foot = rest.partition("</main>")
        return head, *inside.split("<noscript>"), foot

    head, static, without, foot = parts("start.html")
    frame = parts("index.html")
    heading = "<h1>PCI ID registry</h1>"
    cases.equal("safety: the frame of the first page", (head, heading + without, foot),
                (frame[0], frame[2], frame[3]))
    made = browser.driver.execute_async_script(
        "const [done] = arguments; import('/site/pages/home.js').then(async (it) => done("
        "(await it.default()).map((node) => node.outerHTML).join('')))")
    cases.equal("safety: what the first page has at once", static.replace("\xa0", "&nbsp;"), made)
    got = ask_curl("-k", "-H", "Accept: text/html", browser.base + "/")[2]
    cases.equal("safety: it is what is served", b'<p class="lead">' in got, True)


def refusals(cases, browser):
    """Each refusal that docs/REFUSALS.md lists has words of its own."""
    with open(os.path.join(program.TOP, "docs", "REFUSALS.md"), encoding="utf-8") as file:
        numbers = [int(it) for it in re.findall(r"^\| (\d+) \|", file.read(), re.M)]
    words = browser.driver.execute_async_script(
        "const [numbers, done] = arguments; import('/site/words.js').then((it) => done("
        "numbers.map((refused) => it.refusalWords({ refused, word: 'Word', line: 3, kind: 7 }))))",
        numbers)
    plain = {it for it in words if "(Word)" not in it}
    cases.equal("safety: each refusal in words", (len(plain), len(numbers) > 20),
                (len(numbers), True))


def secrets(cases, browser):
    """The password is in no storage, and no script reads the session; a cancelled log-in logs
    nobody in."""
    browser.go("/")
    browser.log_in("alice", stays=False)
    kept = browser.js("return JSON.stringify([{ ...localStorage }, { ...sessionStorage }])")
    encoded = base64.b64encode(b"alice:pw-alice").decode()
    found = [it for it in ("pw-alice", encoded) if it in kept]
    cases.equal("safety: the password isn't kept", found, [])
    cases.equal("safety: no script sees the session", browser.js("return document.cookie"), "")
    its = [it for it in browser.driver.get_cookies() if it["name"] == "__Host-pciids"]
    got = [(it["httpOnly"], it["secure"], it["sameSite"], it.get("expiry")) for it in its]
    cases.equal("safety: what the session is", got, [(True, True, "Strict", None)])
    browser.go("/help")
    browser.wait(lambda: browser.text("#own") == "alice", "a reload")
    browser.click("#log")
    browser.wait(lambda: not browser.driver.get_cookies(), "no cookie after a log-out")
    cases.equal("safety: logged out", browser.text("#log"), "Log in")
    browser.click("#log")
    browser.type("#log-name", "alice")
    browser.type("#log-password", "pw-alice")
    browser.js("document.querySelector('#dialog button.main').click();"
               "document.querySelector('#dialog button[type=button]').click()")
    browser.js("return new Promise((go) => setTimeout(go, 1500))")
    cases.equal("safety: cancelled in the middle", browser.text("#log"), "Log in")
    browser.click("#log")
    browser.type("#log-name", "alice")
    browser.type("#log-password", "wrong", browser.keys.ENTER)
    cases.equal("safety: a wrong password", browser.has("weren't accepted", "#dialog"), True)


def renewed(cases, world, browser):
    """Whose password is another one by now is logged out by a command, which isn't lost."""
    def password(text):
        for it in glob.glob(f"{world.folder}/join/sessions/alice.*"):
            os.remove(it)
        words = ["htpasswd", "-bB", "-C", "4", f"{world.folder}/accounts/passwords", "alice", text]
        subprocess.run(words, stderr=subprocess.DEVNULL, timeout=50, check=True)

    browser.go("/help").log_in("alice")
    browser.go("/propose?path=PC/8086/be10")
    browser.type("#name", "Under a new password")
    password("another")
    browser.click("form.propose button.main")
    told = browser.has("logged out by now: log in again. Nothing was done.", "form.propose")
    kept = browser.js("return document.getElementById('name').value")
    got = told, browser.text("#log"), kept, browser.owed()
    cases.equal("safety: a password that was changed", got,
                (True, "Log in", "Under a new password", []))
    password("pw-alice")
    browser.click("form.propose button.main")
    browser.enter("alice")
    browser.heading("Proposal ")
    cases.equal("safety: sent once it is known", len(world.pending("PC/8086/be10")), 1)


def test_site_safety(cases):
    with World() as world, Browser(world.base) as browser:
        hostile(cases, world, browser)
        cases.equal("safety: the console after markup", browser.faults(), [])
        deceiving(cases, world, browser)
        policy(cases, world, browser)
        without_scripts(cases, world)
        statuses(cases, world)
        secrets(cases, browser)
        browser.go("/")
        renewed(cases, world, browser)
        refusals(cases, browser)
        modules(cases)
        first_page(cases, browser)
