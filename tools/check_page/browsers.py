"""Starts Chromium and Firefox, and talks to both by WebDriver BiDi (https://www.w3.org/TR/webdriver-bidi/).

All files of a run lie in one folder, `workplace`. A check that is interrupted ends its browsers and removes that folder.
"""
import contextlib
import json
import os
import pathlib
import re
import shutil
import signal
import subprocess
import sys
import tempfile
import threading
import time
import urllib.request

from websocket import Closed, WebSocket

sys.path.insert(0, str(pathlib.Path(__file__).resolve().parent.parent))
from tool import Failed, waited  # noqa: E402

# A browser may take this many seconds to start, and for one answer.
PATIENCE = 60
NAMES = ["chromium", "firefox"]
# A proxy that the environment names can't reach this machine.
DIRECT = urllib.request.build_opener(urllib.request.ProxyHandler({}))
FIREFOX_PREFERENCES = {
    # Without this, a Firefox that is driven doesn't keep what one that isn't driven keeps.
    "remote.prefs.recommended": False,
    # Every 5 seconds, and not every 15, so that the check needn't wait as long.
    "browser.sessionstore.interval": 5000,
    "browser.shell.checkDefaultBrowser": False,
    "datareporting.policy.dataSubmissionEnabled": False,
    "toolkit.telemetry.reportingpolicy.firstRun": False,
    "browser.aboutwelcome.enabled": False,
    "app.update.enabled": False,
}


# The first process of each browser that runs, with the browser's home. It is in a session of its own (setsid) with its number.
running = {}
interrupted = threading.Event()


def missing(names):
    """Returns the Debian packages of the programs that these browsers and the page need, and that aren't installed."""
    programs = {"wasm-opt": "binaryen"}
    programs |= {"chromium": "chromium", "chromedriver": "chromium-driver"} if "chromium" in names else {}
    programs |= {"firefox": "firefox-esr"} if "firefox" in names else {}
    return [package for program, package in programs.items() if not shutil.which(program)]


class Session:
    """A connection to a browser with one tab."""

    def __init__(self, url):
        self.socket = WebSocket(url, PATIENCE)
        self.asked = 0
        self.events = []

    def call(self, method, /, **given):
        self.asked += 1
        self.socket.send(json.dumps({"id": self.asked, "method": method, "params": given}))
        while True:
            came = json.loads(self.socket.receive(PATIENCE))
            if came.get("id") == self.asked:
                if came["type"] == "error":
                    raise Failed(f"{method}: {came['error']}: {came['message']}")
                return came["result"]
            if came.get("type") == "event":
                self.events.append(came)


class Browser:
    """A browser with a profile folder of its own, and its one tab."""

    def __init__(self, name, process, session, profile):
        self.name, self.process, self.session, self.home = name, process, session, profile.parent
        self.session.call("session.subscribe", events=["log.entryAdded", "browsingContext.userPromptOpened"])
        # The focus of the first tab is in the bar of addresses, and that of a new one in the page.
        self.tab = self.session.call("browsingContext.create", type="tab")["context"]

    def force_colours(self):
        """Gives Chromium's tab forced colours, which no option of its start does."""
        inner = self.session.call("goog:cdp.getSession", context=self.tab)["session"]
        given = {"features": [{"name": "forced-colors", "value": "active"}]}
        self.session.call("goog:cdp.sendCommand", method="Emulation.setEmulatedMedia", params=given, session=inner)

    def kill(self):
        end(self.process)
        self.session.socket.close()

    def quit(self):
        """Ends the browser as its user does, so that it writes what it keeps."""
        with contextlib.suppress(Closed, Failed, OSError):
            self.session.call("browser.close" if self.name == "firefox" else "session.end")
        waited(lambda: self.name != "firefox" or self.process.poll() is not None, 15)
        time.sleep(0.5)
        self.kill()


def members(process):
    """Returns the processes of a browser: those of its session, and those that have its home, such as Chromium's crash handler."""
    found, home = [], running.get(process)
    for path in pathlib.Path("/proc").glob("[0-9]*/stat"):
        with contextlib.suppress(OSError):
            # The name of the program stands in brackets, and may have blanks. The fourth number after it is the session.
            state, _, _, number = path.read_text().rpartition(")")[2].split()[:4]
            own = home and f"\0HOME={home}\0".encode() in b"\0" + (path.parent / "environ").read_bytes()
            if (int(number) == process.pid or own) and state != "Z":
                found.append(int(path.parent.name))
    return found


def end(process):
    """Ends a browser and all its processes, at once."""
    deadline = time.monotonic() + 10
    while (left := members(process)) and time.monotonic() < deadline:
        for pid in left:
            with contextlib.suppress(ProcessLookupError):
                os.kill(pid, signal.SIGKILL)
        time.sleep(0.02)
    process.wait()
    running.pop(process, None)


@contextlib.contextmanager
def workplace():
    """Makes the folder in which the browsers and this check keep their files. An interrupted check removes it too."""
    # Chromium makes a socket below this folder, whose path can have 107 bytes.
    folder = tempfile.mkdtemp(prefix="shamir-page-", dir="/tmp" if len(tempfile.gettempdir()) > 20 else None)
    tempfile.tempdir = folder

    def clear():
        for process in list(running):
            end(process)
        shutil.rmtree(folder, ignore_errors=True)

    def stop(number, _):
        print("\nmake check-page: interrupted", file=sys.stderr, flush=True)
        interrupted.set()
        # Browsers are ended at any step of a part, so what the parts say from now on means nothing.
        sys.stdout = open(os.devnull, "w")
        clear()
        # Another thread may have been starting a browser.
        time.sleep(0.3)
        clear()
        os._exit(128 + number)

    for number in (signal.SIGINT, signal.SIGTERM, signal.SIGHUP):
        signal.signal(number, stop)
    try:
        yield
    finally:
        clear()
        tempfile.tempdir = None


def started(words, home, more=None, passed=()):
    """Starts a browser, whose home and whose other files are in the folder `home`: the user's own may be missing or closed. What it
    says goes to the file `said` there. `more` are further values of its environment, and `passed` the open files that it keeps."""
    if interrupted.is_set():
        raise Failed("the check is interrupted")
    own = {"HOME": str(home), "TMPDIR": str(home), "XDG_RUNTIME_DIR": str(home), "MOZ_CRASHREPORTER_DISABLE": "1"}
    environment = {name: value for name, value in os.environ.items() if not name.startswith("XDG_")} | own | (more or {})
    with open(home / "said", "wb") as said:
        process = subprocess.Popen(words, stdin=subprocess.DEVNULL, stdout=said, stderr=subprocess.DEVNULL, start_new_session=True, env=environment, pass_fds=passed)
    running[process] = home
    return process


def connected(make):
    """Calls `make` until it works."""
    deadline = time.monotonic() + PATIENCE
    while True:
        try:
            return make()
        except (OSError, Closed, LookupError):
            if time.monotonic() > deadline:
                raise
            time.sleep(0.1)


def told(file, pattern):
    """Returns the port that a browser tells in a file. Each chooses a free one, so that no two runs of the check have the same."""
    found = re.search(pattern, file.read_text())
    if found is None:
        raise LookupError(f"{file} tells no port")
    return int(found[1])


def start_chromium(profile, mode):
    driver = started(["chromedriver", "--port=0"], profile.parent)
    arguments = ["--headless=new", "--no-sandbox", "--disable-gpu", "--disable-dev-shm-usage", f"--user-data-dir={profile}", "--window-size=1200,900", "--no-first-run"]
    arguments += ["--force-dark-mode", "--blink-settings=preferredColorScheme=0"] if mode == "dark" else ["--blink-settings=preferredColorScheme=1"]
    options = {"binary": shutil.which("chromium"), "args": arguments}
    asked = {"capabilities": {"alwaysMatch": {"browserName": "chrome", "webSocketUrl": True, "goog:chromeOptions": options}}}

    def session():
        port = told(profile.parent / "said", r"started successfully on port (\d+)")
        request = urllib.request.Request(f"http://127.0.0.1:{port}/session", json.dumps(asked).encode(), {"Content-Type": "application/json"})
        with DIRECT.open(request, timeout=PATIENCE) as answer:
            return json.load(answer)["value"]["capabilities"]["webSocketUrl"]

    return driver, lambda: Session(connected(session))


def start_firefox(profile, mode):
    preferences = {**FIREFOX_PREFERENCES, "layout.css.prefers-color-scheme.content-override": 0 if mode == "dark" else 1}
    if mode == "forced":
        preferences |= {"browser.display.document_color_use": 2, "ui.useAccessibilityTheme": 1}
    lines = [f'user_pref("{name}", {json.dumps(value)});\n' for name, value in preferences.items()]
    (profile / "user.js").write_text("".join(lines))
    firefox = started(["firefox", "--headless", "--no-remote", "--profile", str(profile), "--remote-debugging-port", "0"], profile.parent)

    def port():
        return told(profile / "WebDriverBiDiServer.json", r'"ws_port": *(\d+)')

    def session():
        found = connected(lambda: Session(f"ws://127.0.0.1:{port()}/session"))
        found.call("session.new", capabilities={})
        return found

    return firefox, session


@contextlib.contextmanager
def browser(name, mode="light"):
    """Starts a browser with a fresh profile, in light, dark or forced colours, and ends it. The profile is removed."""
    with tempfile.TemporaryDirectory(prefix="shamir-page-", ignore_cleanup_errors=True) as folder:
        profile = pathlib.Path(folder) / "profile"
        profile.mkdir()
        start = {"chromium": start_chromium, "firefox": start_firefox}[name]
        process, session = start(profile, mode)
        try:
            made = Browser(name, process, session(), profile)
            if mode == "forced" and name == "chromium":
                made.force_colours()
            yield made
        finally:
            end(process)
