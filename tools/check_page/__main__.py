"""Checks the page shamir.html in Chromium and in Firefox, and its tasks in WebKit.

    python3 tools/check_page [--browser NAME] [--page FILE] [--cases N] [--seed S] [--faults] [--no-pictures] [PART..]

PART is one of sources, tasks, journey, change, refusals, entry, astray, hasty, long, looks, agreement, privacy, ways and webkit; without one, all of them run.
`sources` also compares what the page decides with tools/decisions.json, and `agreement` compares N backups, 20 if it isn't given. The pictures
of each screen go to page/out, which takes time. `--faults` plants faults in copies of the sources instead, and checks that each is found. The
status is 1 if something fails.
If a browser, or what the page is built with, isn't installed, its parts are left out. A part that fails beside others, or under
`make`, is tried once more, with the same seed.
"""
import argparse
import functools
import pathlib
import random
import re
import sys
import threading

sys.dont_write_bytecode = True
sys.path.insert(0, str(pathlib.Path(__file__).resolve().parent))

import agreement  # noqa: E402
import astray  # noqa: E402
import browsers  # noqa: E402
import change  # noqa: E402
import choices  # noqa: E402
import decisions  # noqa: E402
import entry  # noqa: E402
import faults  # noqa: E402
import forms  # noqa: E402
import hasty  # noqa: E402
import journey  # noqa: E402
import long_drill  # noqa: E402
import looks  # noqa: E402
import privacy  # noqa: E402
import refusals  # noqa: E402
import second_thoughts  # noqa: E402
import sources  # noqa: E402
import steps  # noqa: E402
import tasks  # noqa: E402
import typists  # noqa: E402
import ways_out  # noqa: E402
import webkit  # noqa: E402
from hands import Page  # noqa: E402
from left_out import left_out  # noqa: E402
from parts import AT_ONCE, Part, all_pass, tried  # noqa: E402
from texts import ROOT, say  # noqa: E402

# Those that take longest begin first. `privacy` mostly waits.
PARTS = ["privacy", "change", "refusals", "tasks", "entry", "looks", "journey", "astray", "hasty", "long", "agreement", "ways", "webkit", "sources"]
PICTURES, pictures = ROOT / "page/out", threading.Event()
# The title, the address, the entries of the history, what is stored, and what was asked for.
KEPT = """
(async () => JSON.stringify([
  document.title, document.URL, history.length, document.cookie, Object.keys(localStorage), Object.keys(sessionStorage),
  await indexedDB.databases(), performance.getEntriesByType("resource").map((it) => it.name), window.name,
]))()
"""


def see(name, page, what):
    """Takes a picture of a screen, if pictures are wanted."""
    if pictures.is_set():
        PICTURES.mkdir(exist_ok=True)
        (PICTURES / f"{name}-{re.sub('[^a-z0-9]+', '-', what.lower())}.png").write_bytes(page.picture())


def in_browser(name, url, checks):
    """Runs checks of a page in one browser, which must leave no message, and nothing that the browser keeps."""
    with browsers.browser(name) as it:
        page = Page(it, url)
        page.wait_title(say("home.title"))
        before = page.evaluate(KEPT)
        for check in checks:
            check(page, functools.partial(see, name, page))
        if page.evaluate(KEPT) != before:
            raise browsers.Failed(f"what the page keeps, or what it asked for, changed from {before} to {page.evaluate(KEPT)}")
        if page.messages():
            raise browsers.Failed(f"the console has messages: {page.messages()}")


def parts_of(name, url, modules, cases, seed):
    """Returns each part of the check in this browser."""
    return {
        "tasks": lambda: in_browser(name, url, [*tasks.TASKS.values(), *forms.CHECKS]),
        "journey": lambda: in_browser(name, url, journey.CHECKS + second_thoughts.CHECKS),
        "change": lambda: in_browser(name, url, change.CHECKS),
        "refusals": lambda: in_browser(name, url, refusals.CHECKS),
        "entry": lambda: in_browser(name, url, entry.CHECKS + steps.CHECKS),
        "astray": lambda: in_browser(name, url, astray.CHECKS),
        "hasty": lambda: in_browser(name, url, hasty.CHECKS + choices.CHECKS + [typists.check]),
        "long": lambda: in_browser(name, url, long_drill.CHECKS),
        "looks": lambda: looks.check(name, url, functools.partial(see, name)),
        "agreement": lambda: in_browser(name, url, [lambda page, _: agreement.check(page, modules, cases, seed), lambda page, _: agreement.check_memory(page)]),
        "privacy": lambda: privacy.check(name, url, seed),
        "ways": lambda: ways_out.check(name, url),
    }


def check_sources():
    sources.check(ROOT / "page")
    sources.check_forms(ROOT / "page")
    sources.check_types(ROOT / "page")
    decisions.check()
    faults.check_places()


def checked(given):
    """Runs what was asked for, and returns whether all of it passed."""
    if given.faults:
        return tried(Part("chromium, faults", lambda: faults.check(ROOT / "shamir32.wasm")))
    modules = [ROOT / "shamir32.wasm", ROOT / "shamir.wasm"]
    url = given.page.resolve().as_uri()
    of_browsers = {name: parts_of(name, url, modules, given.cases, given.seed) for name in given.browser}
    of_browsers["page"] = {"webkit": lambda: webkit.check(url, functools.partial(see, "webkit"))}
    jobs = [Part(f"{name}, {part}", its[part], waits=True) for part in PARTS if part in given.parts for name, its in of_browsers.items() if part in its]
    if "sources" in given.parts:
        jobs.append(Part("page, sources", check_sources))
    print(f"the seed is {given.seed}", flush=True)
    return all_pass(jobs, AT_ONCE)


def main():
    parser = argparse.ArgumentParser(prog="tools/check_page")
    parser.add_argument("--browser", choices=browsers.NAMES, action="append")
    parser.add_argument("--page", type=pathlib.Path, default=ROOT / "shamir.html")
    parser.add_argument("--faults", action="store_true")
    parser.add_argument("--no-pictures", action="store_true")
    parser.add_argument("--cases", type=int, default=agreement.CASES)
    parser.add_argument("--seed", type=int, default=random.randrange(2**32))
    parser.add_argument("parts", nargs="*", metavar="PART", choices=[[], *PARTS])
    given = parser.parse_args()
    given.browser = given.browser or browsers.NAMES
    given.parts = given.parts or PARTS
    if not given.no_pictures:
        pictures.set()
    lacking = webkit.missing()
    if lacking and "webkit" in given.parts:
        left_out(f"these Debian packages aren't installed, so shamir.html isn't tried in WebKit: {', '.join(lacking)}")
        given.parts = [it for it in given.parts if it != "webkit"]
    missing = browsers.missing(given.browser)
    if missing and set(given.parts) - {"sources", "webkit"}:
        left_out(f"these Debian packages aren't installed, so shamir.html isn't tried: {', '.join(missing)}")
        given.parts = [it for it in given.parts if it in ("sources", "webkit")]
        if given.faults:
            return 0
    with browsers.workplace():
        return 0 if checked(given) else 1


if __name__ == "__main__":
    sys.exit(main())
