"""The site in Debian's Firefox, by its own Marionette protocol: Debian has no geckodriver. A
visitor finds a device, a contributor proposes a name once though its response was lost, and nothing
breaks the policy."""
import json
import os
import socket
import subprocess
import tempfile
import time

import program
from http_server import free_port
from site_world import World

PREFERENCES = """
user_pref("marionette.port", {port});
user_pref("browser.shell.checkDefaultBrowser", false);
user_pref("datareporting.policy.dataSubmissionEnabled", false);
user_pref("app.update.auto", false);
user_pref("network.captive-portal-service.enabled", false);
user_pref("network.connectivity-service.enabled", false);
user_pref("browser.safebrowsing.downloads.remote.enabled", false);
"""
# The longest that the test waits for the page or the browser, in seconds.
PATIENCE = 50
# What a page of another site or a breach of the policy would leave.
WATCH = """
window.breaches = [];
addEventListener("securitypolicyviolation", (it) => breaches.push(it.violatedDirective));
addEventListener("error", (it) => breaches.push(it.message));
"""


class Firefox:
    """Firefox without a head, and the commands of WebDriver that it takes over Marionette."""

    def __init__(self, base):
        self.base, self.port, self.count = base, free_port(), 0
        self.profile = tempfile.TemporaryDirectory()
        with open(os.path.join(self.profile.name, "user.js"), "w", encoding="utf-8") as file:
            file.write(PREFERENCES.format(port=self.port))
        words = ["firefox-esr", "--headless", "--marionette", "--no-remote", "--profile",
                 self.profile.name]
        quiet = {"stdout": subprocess.DEVNULL, "stderr": subprocess.DEVNULL}
        home = dict(os.environ, HOME=self.profile.name)
        self.process = subprocess.Popen(words, env=home, **quiet)
        self.link = self.connected()
        self.taken()
        self.call("WebDriver:NewSession", {"acceptInsecureCerts": True})

    def connected(self):
        end = time.monotonic() + PATIENCE
        while True:
            try:
                return socket.create_connection(("127.0.0.1", self.port), timeout=PATIENCE)
            except OSError:
                if time.monotonic() > end or self.process.poll() is not None:
                    raise
                time.sleep(0.1)

    def taken(self):
        """The next message: its length, a colon, and JSON."""
        length = b""
        while not length.endswith(b":"):
            length += self.piece(1)
        text = b""
        while len(text) < int(length[:-1]):
            text += self.piece(int(length[:-1]) - len(text))
        return json.loads(text)

    def piece(self, most):
        taken = self.link.recv(most)
        if not taken:
            raise EOFError("Firefox has ended")
        return taken

    def call(self, name, words=None):
        self.count += 1
        text = json.dumps([0, self.count, name, words or {}]).encode()
        self.link.sendall(b"%d:%s" % (len(text), text))
        _, _, fault, value = self.taken()
        if fault:
            raise RuntimeError(f"{name}: {fault['message']}")
        return value

    def js(self, text, *words):
        return self.call("WebDriver:ExecuteScript", {"script": text, "args": words})["value"]

    def go(self, path):
        self.call("WebDriver:Navigate", {"url": self.base + path})
        self.wait("document.body.classList.contains('ready')")
        self.js(WATCH)

    def wait(self, condition):
        """Waits until an expression holds."""
        end = time.monotonic() + PATIENCE
        while not self.js(f"return Boolean({condition})"):
            if time.monotonic() > end:
                text = self.js("return document.body.innerText")
                raise TimeoutError(f"waited in vain for {condition}; the page has: {text[-600:]}")
            time.sleep(0.05)
        return True

    def type(self, selector, text):
        found = self.call("WebDriver:FindElement", {"using": "css selector", "value": selector})
        self.call("WebDriver:ElementSendKeys", {"id": [*found["value"].values()][0], "text": text})

    def click(self, selector):
        time.sleep(0.6)
        found = self.call("WebDriver:FindElement", {"using": "css selector", "value": selector})
        self.call("WebDriver:ElementClick", {"id": [*found["value"].values()][0]})

    def close(self):
        self.link.close()
        self.process.terminate()
        self.process.wait(timeout=30)
        self.profile.cleanup()


def story(cases, world, firefox):
    firefox.go("/")
    firefox.type("#q", "8086:1237")
    firefox.wait("document.querySelector('#found li')?.innerText.includes('440FX')")
    firefox.type("#q", "\ue007")
    cases.equal("firefox: a visitor finds the device", firefox.wait(
        "document.querySelector('h1')?.innerText.includes('440FX')"), True)
    firefox.go("/propose?path=PC/8086/a090")
    firefox.wait("document.querySelector('.about').innerText.includes('no name yet')")
    firefox.type("#name", "By Firefox")
    world.spoiler.set("lose", left=2)
    firefox.click("form.propose button.main")
    firefox.type("#log-name", "alice")
    firefox.type("#log-password", "pw-alice\ue007")
    firefox.wait("document.querySelector('#owed').innerText.includes(\"isn't known yet\")")
    firefox.wait("document.querySelector('h1').innerText.startsWith('Proposal ')")
    told = [it["author"] for it in world.pending("PC/8086/a090")]
    cases.equal("firefox: lost twice, one proposal", told, ["alice"])
    owed = firefox.js("return Object.keys(localStorage).filter((it) => it.startsWith('owed:'))")
    cases.equal("firefox: nothing is owed", owed, [])
    cases.equal("firefox: no breach of the policy", firefox.js("return breaches"), [])
    firefox.js("try { document.body.innerHTML = '<b>x</b>' } catch { window.isRefused = true }")
    bold = firefox.js("return [document.querySelectorAll('body > b').length, window.isRefused]")
    cases.equal("firefox: Trusted Types refuse markup", bold, [0, True])


def dates(cases, world, firefox):
    """The pages of what changed, with their dates."""
    world.publish(time.time() - 3 * 86_400)
    number = world.submit("alice", "PC/8086/a091", "Known since yesterday")
    world.ask("/approve", {"num": number}, "mona")
    yesterday = time.time() - 86_400
    world.publish(yesterday)
    day = time.strftime("%Y-%m-%d", time.gmtime(yesterday))
    for path, text in (("/recent", "Known since yesterday"), (f"/recent/{day}", "1 added."),
                       (f"/recent?month={day[:7]}", "changed by proposals"),
                       ("/item/PC/8086/a091", "It has its name since yesterday"),
                       (f"/proposals/{number}", "by mona, yesterday"),
                       ("/decided?author=alice", "Follow it as a feed"), ("/", "yesterday")):
        firefox.go(path)
        it = f"document.querySelector('main').innerText.includes({json.dumps(text)})"
        cases.equal(f"firefox: {path}", firefox.wait(it), True)
        cases.equal(f"firefox: no breach on {path}", firefox.js("return breaches"), [])
    styled = "return getComputedStyle(document.querySelector('header')).display"
    cases.equal("firefox: the styles in the page", firefox.js(styled) != "block", True)


def test_site_firefox(cases):
    program.need("firefox-esr")
    with World() as world:
        firefox = Firefox(world.base)
        try:
            story(cases, world, firefox)
            dates(cases, world, firefox)
        finally:
            firefox.close()
