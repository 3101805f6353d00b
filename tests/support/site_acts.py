"""A person at a browser, whose acts are counted. Their cost in seconds is that of the
keystroke-level model (Card, Moran and Newell): so much for a key, for moving the mouse to where it
is pressed, for pressing it, and for the thought before each act."""

KEY, POINT, PRESS, THINK = 0.28, 1.1, 0.2, 1.35
# What the browser itself sees a person do, on all pages together.
SEEN = """
for (const kind of ["pointerdown", "keydown"]) {
  addEventListener(kind, (event) => {
    if (event.isTrusted) sessionStorage[kind] = Number(sessionStorage[kind] ?? 0) + 1;
  }, true);
}
"""


class Person:
    def __init__(self, browser):
        self.browser, self.acts = browser, 0
        browser.driver.execute_cdp_cmd("Page.addScriptToEvaluateOnNewDocument", {"source": SEEN})

    def click(self, selector):
        self.browser.click(selector)
        self.acts += 1

    def press(self, *keys):
        """What is typed where the focus is, or keys that are pressed together."""
        self.browser.driver.switch_to.active_element.send_keys("".join(keys))
        self.acts += 1

    def choose(self, selector, words):
        """A line of a list that opens."""
        options = self.browser.one(selector).find_elements("css selector", "option")
        next(it for it in options if words in it.text).click()
        self.acts += 1

    def seen(self):
        """How often the mouse and keys were pressed."""
        return self.browser.js("return ['pointerdown', 'keydown'].map("
                               "(it) => Number(sessionStorage[it] ?? 0))")

    def seconds(self):
        presses, keys = self.seen()
        return presses * (POINT + PRESS) + keys * KEY + self.acts * THINK
