"""Tries each way out of the page that a policy should stop, to a server on this machine.

The same ways are tried from a page without a policy: each of them that reaches the server there must be stopped here.
"""
import http.server
import pathlib
import tempfile
import threading
import time

from browsers import Failed, browser
from hands import Page
from texts import say

CONTROL = "<!doctype html><title>control</title><body><h1>control</h1>"
# The certain ways of the control are awaited for at most this many seconds, and then those of the page for as long as they took, but at least
# this many.
MOST, LEAST = 60, 3
# How each way asks for the address U.
WAYS = {
    "fetch": "fetch(U, { mode: 'no-cors' }).catch(() => 0)",
    "request": "{ const it = new XMLHttpRequest(); it.open('GET', U); it.send(); }",
    "beacon": "navigator.sendBeacon(U, 'x')",
    "socket": "new WebSocket(U.replace('http', 'ws'))",
    "events": "new EventSource(U)",
    "image": "new Image().src = U",
    "background": "document.body.style.backgroundImage = `url(${U})`",
    "style": "add('link', { rel: 'stylesheet', href: U })",
    "rule": "add('style', { textContent: `@import url(${U});` })",
    "font": "new FontFace('x', `url(${U})`).load().catch(() => 0)",
    "script": "add('script', { src: U })",
    "inline": "add('script', { textContent: `fetch('${U}', { mode: 'no-cors' })` })",
    "handler": "add('p', {}).setAttribute('onclick', `fetch('${U}', { mode: 'no-cors' })`), document.body.lastChild.click()",
    "module": "import(U).catch(() => 0)",
    "frame": "add('iframe', { src: U })",
    "object": "add('object', { data: U })",
    "video": "add('video', { src: U }).load()",
    "prefetch": "add('link', { rel: 'prefetch', href: U })",
    "worker fetch": "inWorker(`fetch('${U}', { mode: 'no-cors' })`)",
    "worker script": "inWorker(`importScripts('${U}')`)",
    "worker request": "inWorker(`{ const it = new XMLHttpRequest(); it.open('GET', '${U}'); it.send(); }`)",
    "worker socket": "inWorker(`new WebSocket('${U}'.replace('http', 'ws'))`)",
    "form": "{ add('iframe', { name: 'sent' }); const it = add('form', { action: U, target: 'sent' }); it.submit(); }",
}
HELP = """
const add = (tag, its) => document.body.appendChild(Object.assign(document.createElement(tag), its));
const inWorker = (text) => new Worker(URL.createObjectURL(new Blob([text])));
"""
# Ways that both browsers have. If one doesn't reach the server from the control, the check itself is wrong.
CERTAIN = ["fetch", "request", "socket", "image", "style", "script", "frame", "worker fetch", "form"]


class Server:
    """A server that notes what it is asked for."""

    def __init__(self):
        asked = self.asked = set()

        class Noting(http.server.BaseHTTPRequestHandler):
            def do_GET(self):
                asked.add(self.path.split("?")[0])
                self.send_response(200)
                self.end_headers()

            do_POST = do_GET

            def log_message(self, *_):
                pass

        self.server = http.server.ThreadingHTTPServer(("127.0.0.1", 0), Noting)
        threading.Thread(target=self.server.serve_forever, daemon=True).start()

    def address(self, path):
        return f"http://127.0.0.1:{self.server.server_port}/{path}"


def tried(page, server, prefix, most):
    """Tries each way, and waits for the certain ones, at most so many seconds. Returns those that reached the server, and the seconds."""
    for number, code in enumerate(WAYS.values()):
        address = server.address(f"{prefix}/{number}")
        page.evaluate(f"(() => {{ {HELP} const U = '{address}'; try {{ {code}; }} catch {{}} return 0; }})()")
    begun = time.monotonic()
    while True:
        seconds = time.monotonic() - begun
        reached = {way for number, way in enumerate(WAYS) if f"/{prefix}/{number}" in server.asked}
        if seconds >= most or reached.issuperset(CERTAIN):
            return reached, seconds
        time.sleep(0.1)


def check(name, url):
    server = Server()
    with tempfile.TemporaryDirectory() as folder:
        control = pathlib.Path(folder) / "control.html"
        control.write_text(CONTROL)
        with browser(name) as it:
            reached, seconds = tried(Page(it, control.as_uri()), server, "control", MOST)
        missing = [way for way in CERTAIN if way not in reached]
        if missing:
            raise Failed(f"{name}: these ways don't work without a policy, so nothing is shown: {missing}")
        with browser(name) as it:
            page = Page(it, url)
            page.wait_title(say("home.title"))
            out, _ = tried(page, server, "page", max(LEAST, seconds))
    server.server.shutdown()
    if out:
        raise Failed(f"{name}: the policy lets these ways out: {sorted(out)}")
