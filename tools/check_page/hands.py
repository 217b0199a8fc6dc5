"""What an owner does at the keyboard: keys, and things that are found by the name that a screen reader says."""
import base64
import contextlib
import re
import zlib

from browsers import Failed
from tool import waited

# What the page does takes at most this many seconds.
PATIENCE = 60
TABS_MAX = 150
DATE = re.compile(rb"D:\d{14}[^)]*")
KEYS = {"Tab": "\ue004", "Enter": "\ue007", "Backspace": "\ue003", "Space": " ", "Right": "\ue014", "Down": "\ue015", "Delete": "\ue017", "Control": "\ue009", "Shift": "\ue008"}


class Page:
    """The page in a browser's tab, and the hands at the keyboard."""

    def __init__(self, browser, url):
        self.browser, self.session, self.tab = browser, browser.session, browser.tab
        self.call("browsingContext.navigate", url=url, wait="complete")

    def call(self, method, /, **given):
        return self.session.call(method, context=self.tab, **given)

    def evaluate(self, expression):
        """Returns what an expression gives: a text, a number, a truth value or nothing."""
        found = self.session.call("script.evaluate", expression=expression, target={"context": self.tab}, awaitPromise=True)
        if found["type"] == "exception":
            raise Failed(f"{expression[:80]}: {found['exceptionDetails']['text']}")
        return found["result"].get("value")

    # ---- keys

    def keys(self, values):
        actions = [{"type": kind, "value": value} for value in values for kind in ("keyDown", "keyUp")]
        self.call("input.performActions", actions=[{"type": "key", "id": "keyboard", "actions": actions}])

    def press(self, *names):
        self.keys([KEYS[name] for name in names])

    def press_with(self, held, name):
        actions = [{"type": kind, "value": KEYS[key]} for kind, key in [("keyDown", held), ("keyDown", name), ("keyUp", name), ("keyUp", held)]]
        self.call("input.performActions", actions=[{"type": "key", "id": "keyboard", "actions": actions}])

    def type(self, text):
        self.keys(list(text))

    # ---- names

    def located(self, role, name):
        found = self.by_name({"role": role, "name": name})
        # Firefox has no role for a hidden field.
        return found if found or role != "textbox" else [node for node in self.by_name({"name": name}) if self.is_true("(it) => it.type === 'password'", node)]

    def by_name(self, value):
        return [node["sharedId"] for node in self.call("browsingContext.locateNodes", locator={"type": "accessibility", "value": value})["nodes"]]

    def is_true(self, script, node):
        arguments = [{"sharedId": node}]
        found = self.session.call("script.callFunction", functionDeclaration=script, arguments=arguments, target={"context": self.tab}, awaitPromise=False)
        return found["result"]["value"]

    def way_to(self, node):
        """Returns 0 if this has the focus, and else 1 if it comes after what has it, or -1."""
        return self.is_true("(it) => (document.activeElement === it ? 0 : document.activeElement.compareDocumentPosition(it) & 2 ? -1 : 1)", node)

    def has_focus(self, node):
        return self.is_true("(it) => document.activeElement === it", node)

    def node(self, role, name):
        """Waits until one thing with this role and name is there."""
        return self.wait(lambda: self.located(role, name), f"the {role} {name!r}")[0]

    def go_to(self, role, name):
        """Presses Tab, or Shift and Tab, until this has the focus. Beyond the page's end, Tab would leave the page."""
        node = self.node(role, name)
        for _ in range(TABS_MAX):
            way = self.way_to(node)
            if way == 0:
                return
            if way < 0:
                self.press_with("Shift", "Tab")
            else:
                self.press("Tab")
        raise Failed(f"Tab doesn't reach the {role} {name!r}")

    def push(self, name, to=""):
        """Presses a button, and waits for the screen with the title `to`, if that is given."""
        self.go_to("button", name)
        self.press("Enter")
        if to:
            self.wait_title(to)

    def click(self, name, more=()):
        """Presses a button with the mouse. Then it does what else is given."""
        press = [{"type": kind, "button": 0} for kind in ("pointerDown", "pointerUp")]
        node = self.node("button", name)
        self.is_true("(it) => { it.scrollIntoView({ block: 'nearest' }); return true; }", node)
        there = {"type": "pointerMove", "x": 0, "y": 0, "origin": {"type": "element", "element": {"sharedId": node}}}
        actions = [there, *press, *more]
        self.call("input.performActions", actions=[{"type": "pointer", "id": "mouse", "actions": actions}])

    def double_click(self, name):
        """Presses a button with the mouse, twice. Between the presses, what the first one calls for has time to come."""
        self.click(name, [{"type": "pause", "duration": 250}, *({"type": kind, "button": 0} for kind in ("pointerDown", "pointerUp"))])

    def tick(self, name):
        """Ticks a box, unless it is ticked."""
        self.go_to("checkbox", name)
        if not self.evaluate("document.activeElement.checked"):
            self.press("Space")

    def choose(self, name):
        """Takes a choice: Tab reaches the group, and the arrow keys the choice."""
        node = self.node("radio", name)
        for _ in range(TABS_MAX):
            if self.has_focus(node):
                self.press("Space")
                return
            role = self.evaluate("document.activeElement.getAttribute('role')")
            if role == "radio" and self.is_true("(it) => document.activeElement.closest('[role=radiogroup]') === it.closest('[role=radiogroup]')", node):
                self.press("Down")
            elif self.is_true("(it) => Boolean(document.activeElement.compareDocumentPosition(it) & 2)", node):
                self.press_with("Shift", "Tab")
            else:
                self.press("Tab")
        raise Failed(f"no key reaches the choice {name!r}")

    def fill(self, name, text, role="textbox"):
        self.go_to(role, name)
        self.type(text)

    def retype(self, name, text, role="textbox"):
        """Types a text in place of what a field has."""
        self.go_to(role, name)
        self.evaluate("document.activeElement.select()")
        if text:
            self.type(text)
        else:
            self.press("Backspace")

    def is_chosen(self, name):
        return self.is_true("(it) => it.getAttribute('aria-checked') === 'true'", self.node("radio", name))

    # ---- what is to be seen

    def text(self):
        return self.evaluate("document.getElementById('main').innerText")

    def title(self):
        return self.evaluate("document.querySelector('h1').textContent")

    def wait(self, is_there, what):
        """Waits until a function returns something, and returns that."""
        found = waited(is_there, PATIENCE)
        if not found:
            raise Failed(f"{what} doesn't come: {self.text()[:900]!r}")
        return found

    def wait_title(self, title):
        self.wait(lambda: self.title() == title, f"the screen {title!r}")

    def wait_text(self, *texts):
        for text in texts:
            self.wait(lambda: text in self.text(), f"the text {text!r}")
        bare = re.search(r"\(\d\d[:)]", self.text())
        if bare:
            raise Failed(f"a number that owners don't know is shown: {bare[0]}")

    def lacks(self, text, why="this is shown, and shouldn't be"):
        """Checks that a text isn't on the screen."""
        if text in self.text():
            raise Failed(f"{why}: {text!r}")

    def picture(self):
        """Returns a picture of the whole page, as PNG."""
        return base64.b64decode(self.call("browsingContext.captureScreenshot", origin="document")["data"])

    def printed(self):
        """Returns what the browser would print, as the parts of a PDF without its dates and its table of places, and the number of sheets."""
        pdf = base64.b64decode(self.call("browsingContext.print")["data"])
        parts = []
        for found in re.finditer(rb"(?<!end)stream\r?\n", pdf):
            # A table of places changes with the length of the packed date.
            if b"/XRef" in pdf[: found.start()].rpartition(b" obj")[2]:
                continue
            with contextlib.suppress(zlib.error):
                parts.append(DATE.sub(b"", zlib.decompressobj().decompress(pdf[found.end() :])))
        return parts, len(re.findall(rb"/Type\s*/Page\b", pdf + b"".join(parts)))

    def size(self, width, height, ratio=1):
        self.call("browsingContext.setViewport", viewport={"width": width, "height": height}, devicePixelRatio=ratio)

    def messages(self):
        """Returns what the page wrote to the console, and its errors."""
        return [event["params"].get("text") for event in self.session.events if event["method"] == "log.entryAdded"]
