"""A browser without a head, as the tests of the site use it: Debian's chromium by its driver."""
import shutil
import sys
import time

import program

DEBIANS = "/usr/lib/python3/dist-packages"
# The longest that a test waits for a page, or the driver for the browser, in seconds. Most waits
# end much sooner; on a busy machine a page may need more than a person would bear.
PATIENCE = 50


def selenium():
    """The modules of python3-selenium, which Debian keeps for its own Python."""
    try:
        import selenium.webdriver
    except ImportError:
        sys.path.append(DEBIANS)
        try:
            import selenium.webdriver
        except ImportError as why:
            raise program.Skip("python3-selenium not installed") from why
    return sys.modules["selenium.webdriver"]


SWITCHES = ("--headless=new", "--no-sandbox", "--disable-gpu", "--disable-dev-shm-usage",
            "--ignore-certificate-errors", "--disable-extensions", "--no-first-run",
            "--disable-background-networking", "--force-color-profile=srgb")
# What a page may say in its console: browsers list there which requests the registry refused.
EXPECTED = ("the server responded with a status of", "net::ERR_")


# A decision is held for five seconds in which it can be taken back. Here most go out at once; where
# that is tried, a busy machine gets twice the time.
HELD = ("const later = setTimeout; setTimeout = (call, wait, ...words) =>"
        " later(call, wait === 5100 ? {} : wait, ...words);")


class Browser:
    """One person's browser. Unless it has grace, its decisions go out at once."""

    def __init__(self, base, size=(1100, 900), dark=False, has_grace=False):
        webdriver = selenium()
        from selenium.webdriver.chrome.service import Service
        from selenium.webdriver.common.keys import Keys
        from selenium.webdriver.remote.remote_connection import RemoteConnection
        RemoteConnection.set_timeout(PATIENCE + 5)
        options = webdriver.ChromeOptions()
        for it in (*SWITCHES, f"--window-size={size[0]},{size[1]}"):
            options.add_argument(it)
        if dark:
            options.add_argument("--blink-settings=preferredColorScheme=0")
        options.set_capability("goog:loggingPrefs", {"browser": "ALL"})
        options.binary_location = shutil.which("chromium")
        self.driver = webdriver.Chrome(service=Service(shutil.which("chromedriver")),
                                       options=options)
        self.driver.set_script_timeout(PATIENCE)
        self.driver.set_page_load_timeout(PATIENCE)
        held = HELD.format(10_200 if has_grace else 0)
        self.driver.execute_cdp_cmd("Page.addScriptToEvaluateOnNewDocument", {"source": held})
        self.base, self.keys = base, Keys
        self.said = []

    def __enter__(self):
        return self

    def __exit__(self, *_):
        self.driver.quit()

    def js(self, text, *words):
        return self.driver.execute_script(text, *words)

    def wait(self, condition, what, seconds=PATIENCE):
        """Waits until a condition holds, and returns what it gave."""
        end = time.monotonic() + seconds
        while True:
            try:
                if got := condition():
                    return got
            except Exception:  # an element that was replaced meanwhile
                pass
            if time.monotonic() > end:
                raise TimeoutError(f"waited in vain for {what}; the page has: {self.body()[-900:]}")
            time.sleep(0.03)

    def body(self):
        return self.js("return document.body.innerText")

    def go(self, path):
        """Loads an address anew."""
        self.driver.get(self.base + path)
        self.ready()
        return self

    def ready(self):
        self.wait(lambda: self.js("return document.body.classList.contains('ready')"), "the page")

    def all(self, selector):
        return self.driver.find_elements("css selector", selector)

    def one(self, selector):
        return self.wait(lambda: self.all(selector), selector)[0]

    def text(self, selector="main"):
        return self.js("return document.querySelector(arguments[0])?.innerText ?? ''", selector)

    def has(self, text, selector="main"):
        """Waits until a text is there."""
        self.wait(lambda: text in self.text(selector), f"{text!r} in {selector}")
        return True

    def heading(self, text):
        return self.has(text, "main h1")

    def click(self, selector):
        """Clicks as a person does: no sooner than a hand can have seen what is there."""
        self.one(selector)
        time.sleep(0.55)
        # Also what the bar at the foot of the window lies over.
        self.js("document.querySelector(arguments[0])?.scrollIntoView({ block: 'center' })",
                selector)
        self.wait(lambda: self.one(selector).click() or True, f"{selector} to be clicked")

    def stop_clock(self):
        """The clock that the page goes by stands still: what a person does within half a second is
        done within it also on a machine that takes longer for it."""
        self.js("window.clock = performance.now(); performance.now = () => window.clock")

    def let_pass(self, seconds):
        self.js("window.clock += arguments[0] * 1000", seconds)

    def start_clock(self):
        self.js("delete performance.now")

    def type(self, selector, *words):
        self.one(selector).send_keys(*words)

    def all_rows(self, selector, count):
        """Scrolls down until a list that grows has all its rows, and up again."""
        def goes_down():
            self.js("scrollTo(0, document.body.scrollHeight)")
            return len(self.all(selector)) == count
        self.wait(goes_down, f"{count} rows")
        self.js("scrollTo(0, 0)")

    def put(self, selector, text):
        """Puts a text into a box at once, as pasting does."""
        self.js("const it = document.querySelector(arguments[0]); it.focus();"
                "it.value = arguments[1];"
                "it.dispatchEvent(new Event('input', { bubbles: true }))", selector, text)
        return self

    def press(self, *keys):
        """Presses keys where the focus is."""
        for key in keys:
            self.driver.switch_to.active_element.send_keys(key)

    def tab(self):
        """Presses Tab, also where the focus is on a box for a file."""
        for kind in ("rawKeyDown", "keyUp"):
            self.driver.execute_cdp_cmd("Input.dispatchKeyEvent", {
                "type": kind, "key": "Tab", "code": "Tab", "windowsVirtualKeyCode": 9})

    def log_in(self, name, stays=True):
        self.click("#log")
        self.enter(name, stays)

    def enter(self, name, stays=True):
        """Fills in the window that asks for an account."""
        self.type("#log-name", name)
        self.type("#log-password", f"pw-{name}")
        if stays:
            self.one("#log-keep").click()
        self.type("#log-password", self.keys.ENTER)
        self.wait(lambda: self.text("#own") == name, f"{name} logged in")
        self.wait(lambda: not self.js("return document.getElementById('dialog').open"), "no window")

    def owed(self):
        """The entries of the outbox."""
        return self.js("return Object.keys(localStorage).filter((it) => it.startsWith('owed:'))")

    def faults(self):
        """What the console says that it should not: breaches of the policy, exceptions."""
        self.said += self.driver.get_log("browser")
        return [it["message"] for it in self.said if it["level"] in ("SEVERE", "WARNING")
                and not any(word in it["message"] for word in EXPECTED)]

    def save(self, path):
        self.driver.save_screenshot(path)
