"""The page in WebKit, the engine of Safari, by the classic WebDriver: Debian's MiniBrowser on a screen that nobody sees."""
import base64
import contextlib
import json
import os
import pathlib
import re
import shutil
import socket
import tempfile
import urllib.error
import urllib.request

import browsers
import choices
import journey
import tasks
from browsers import Failed
from hands import Page
from texts import say

# The bar of MiniBrowser is so wide.
NARROWEST = 447
# The name of a WebDriver's key for an element.
ELEMENT = "element-6066-11e4-a52e-4f735466cecf"
# Returns the elements with a role and a name, as a screen reader says it.
BY_NAME = """
const [role, name] = arguments;
const ROLES = {
  button: 'button:not([role])', radio: '[role=radio]', group: '[role=group]', checkbox: 'input[type=checkbox]', spinbutton: 'input[type=number]',
  textbox: 'input[type=text], input[type=password]',
};
const textOf = (ids) => ids.split(' ').map((id) => document.getElementById(id)?.textContent ?? '').join(' ');
const named = (it) => {
  if (it.hasAttribute('aria-label')) return it.getAttribute('aria-label');
  if (it.hasAttribute('aria-labelledby')) return textOf(it.getAttribute('aria-labelledby'));
  return it.labels?.length ? [...it.labels].map((label) => label.textContent).join(' ') : it.textContent;
};
return [...document.querySelectorAll(ROLES[role])].filter((it) => it.checkVisibility() && !it.closest('[aria-hidden=true]') && named(it).trim() === name);
"""


def missing():
    """Returns the Debian packages that the check needs, and that aren't installed."""
    programs = {"WebKitWebDriver": "webkit2gtk-driver", "Xvfb": "xvfb", "wasm-opt": "binaryen"}
    return [package for program, package in programs.items() if not shutil.which(program)]


class Driver:
    """A session of the classic WebDriver."""

    def __init__(self, port):
        self.address = f"http://127.0.0.1:{port}"
        options = {"binary": str(next(pathlib.Path("/usr/lib").glob("*/webkit2gtk-4.1/MiniBrowser"))), "args": ["--automation"]}
        wanted = {"capabilities": {"alwaysMatch": {"webkitgtk:browserOptions": options}}}
        self.session = browsers.connected(lambda: self.sent("POST", "/session", wanted))["sessionId"]

    def sent(self, method, path, body=None):
        data = json.dumps(body or {}).encode() if method == "POST" else None
        request = urllib.request.Request(self.address + path, data, {"Content-Type": "application/json"}, method=method)
        try:
            with browsers.DIRECT.open(request, timeout=browsers.PATIENCE) as answer:
                return json.load(answer)["value"]
        except urllib.error.HTTPError as error:
            raise Failed(f"WebKit, {path}: {json.load(error)['value']['message'][:300]}") from None

    def ask(self, method, path, body=None):
        return self.sent(method, f"/session/{self.session}{path}", body)


class WebKitPage(Page):
    """The page in WebKit. What an owner does is the same as in other browsers."""

    def __init__(self, driver, url):
        self.driver = driver
        driver.ask("POST", "/url", {"url": url})

    def script(self, text, *given):
        return self.driver.ask("POST", "/execute/sync", {"script": text, "args": list(given)})

    def evaluate(self, expression):
        # An expression, or statements with an expression after the last of them. The policy of the page allows no `eval`.
        before, last = re.fullmatch(r"(.*[;}])?([^;}]*)", expression.strip(), re.DOTALL).groups("")
        for head, value in [("", expression), (before, last)]:
            text = f"const done = arguments[arguments.length - 1]; (async () => {{ {head}\n; return ({value.strip() or 'null'}\n); }})().then(done, (error) => done(`failed: ${{error}}`));"
            try:
                return self.driver.ask("POST", "/execute/async", {"script": text, "args": []})
            except Failed as fault:
                if "Unexpected" not in str(fault) or value == last:
                    raise
        return None

    def call(self, method, /, **given):
        if method != "input.performActions":
            raise Failed(f"no check in WebKit does this: {method}")
        self.driver.ask("POST", "/actions", given)

    def located(self, role, name):
        return [it[ELEMENT] for it in self.script(BY_NAME, role, name)]

    def is_true(self, script, node):
        return self.script(f"return ({script})(arguments[0])", {ELEMENT: node})

    def picture(self):
        return base64.b64decode(self.driver.ask("GET", "/screenshot"))

    def size(self, width, height, ratio=1):
        """Gives the page this size. The bar of MiniBrowser keeps its window from being as narrow as a phone."""
        del ratio
        self.wait(lambda: self.takes(width, height), f"a window of {width} by {height}")

    def takes(self, width, height):
        """Asks for this size, and returns whether the page has it. It may come only after the answer."""
        self.driver.ask("POST", "/window/rect", {"width": width, "height": height})
        self.driver.ask("POST", "/window/rect", {"width": width, "height": height + height - self.evaluate("innerHeight")})
        return self.evaluate("[innerWidth, innerHeight]") == [max(width, NARROWEST), height]


def free_port():
    with socket.socket() as it:
        it.bind(("127.0.0.1", 0))
        return it.getsockname()[1]


@contextlib.contextmanager
def webkit():
    """Starts WebKit on a screen of its own, and ends both."""
    with tempfile.TemporaryDirectory(prefix="shamir-page-", ignore_cleanup_errors=True) as folder:
        home = pathlib.Path(folder)
        port, (reader, writer) = free_port(), os.pipe()
        screen = browsers.started(["Xvfb", "-displayfd", str(writer), "-screen", "0", "1400x1100x24"], home, passed=(writer,))
        os.close(writer)
        started = [screen]
        try:
            with os.fdopen(reader) as told:
                number = re.fullmatch(r"(\d+)\n", told.readline())
            if number is None:
                raise Failed("there is no screen for WebKit")
            more = {"DISPLAY": f":{number[1]}", "LIBGL_ALWAYS_SOFTWARE": "1", "WEBKIT_DISABLE_SANDBOX_THIS_IS_DANGEROUS": "1"}
            started.append(browsers.started(["WebKitWebDriver", f"--port={port}"], home, more))
            yield Driver(port)
        finally:
            for process in reversed(started):
                browsers.end(process)


CHECKS = [journey.check_steps, journey.check_plans, choices.check_phone, tasks.check_papers, tasks.check_recover, tasks.check_replace, tasks.check_damaged, tasks.check_make]


def check(url, see, checks=CHECKS):
    """Runs checks of tasks, in a narrow window too."""
    with webkit() as driver:
        page = WebKitPage(driver, url)
        page.wait_title(say("home.title"))
        for it in checks:
            it(page, lambda what: see(page, what))
