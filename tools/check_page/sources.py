"""Reads the sources of the page: what must not stand in them, since no policy of a browser stops it, and the table of texts."""
import json
import re
import shutil
import subprocess
import tempfile

from browsers import Failed
from left_out import left_out
from texts import ROOT, read

# What lets something out of the page, or keeps it in the browser. A policy doesn't stop all of these.
FORBIDDEN = [
    r"RTCPeerConnection", r"\blocation\b", r"\bopen\(", r"\bhref\b", r"\bsrc\b", r"<link", r"<iframe", r"<form", r"<object", r"<embed", r"refresh",
    r"\bfetch\b", r"XMLHttpRequest", r"WebSocket", r"EventSource", r"WebTransport", r"sendBeacon", r"importScripts", r"\bimport\(", r"\bServiceWorker",
    r"serviceWorker", r"SharedWorker", r"BroadcastChannel", r"localStorage", r"sessionStorage", r"indexedDB", r"\bcaches\b", r"cookie", r"\bhistory\b",
    r"clipboard\b", r"execCommand", r"innerHTML", r"outerHTML", r"insertAdjacentHTML", r"document\.write", r"\beval\b", r"\bFunction\(", r"\bconsole\b",
    r"https?:", r"\bnavigator\.(?!onLine\b)", r"\bnavigation\b", r"\bopener\b", r"\burl\(", r"@import", r"pushState|replaceState", r"\bshow(?:Save|Open|Directory)\w*Picker",
    r"\bdownload\b", r"preconnect|prefetch|prerender", r"speculationrules", r"\bsubmit\(", r"requestStorage", r"window\.name", r"\bNotification\b", r"createElement\((?!tag\))", r"setTimeout\(\s*[\"'`]",
]
# A field is made in one place, with the attributes that keep it out of the profile.
FIELDS = re.compile(r"""element\(\s*["'`](input|textarea|select|form|a|iframe|img|link|object|embed|script|style)["'`]""")
COMMENT = re.compile(r"(?s:/\*.*?\*/)|^\s*//.*$", re.MULTILINE)
ATTRIBUTES = ['autocomplete: "off"', 'autocapitalize: "off"', 'spellcheck: "false"', 'translate: "no"']
KEY = re.compile(r"""\bsay\(\s*["']([^"']+)["']""")


def modules(page):
    """Returns the sources that go into the page: its own, and those of bindings/js that these import."""
    found = [path.resolve() for path in sorted(page.glob("*.js"))]
    for path in found:
        imported = [(path.parent / name).resolve() for name in re.findall(r'^(?:import|export) \{[^}]*\} from "(\.[^"]+)";$', path.read_text(), re.MULTILINE)]
        found += [other for other in dict.fromkeys(imported) if other not in found]
    return [*found, page / "frame.html", page / "style.css"]


def check_forbidden(page):
    for path in modules(page):
        text = COMMENT.sub("", path.read_text())
        for name in FORBIDDEN:
            found = re.search(name, text)
            if found and not (path.name == "frame.html" and found[0] in ("refresh",)):
                line = text[: found.start()].count("\n") + 1
                raise Failed(f"{path.name} has {found[0]!r} (line {line} without comments), which could let something out or keep it")
        fields = FIELDS.findall(text)
        if fields != (["input"] if path.name == "dom.js" else []):
            raise Failed(f"{path.name} makes {fields} by itself")
    if len(re.findall("http-equiv", (page / "frame.html").read_text())) != 1:
        raise Failed("frame.html must have one http-equiv, its policy")
    if re.search(r"\sname=\"(?!viewport|referrer|color-scheme)", (page / "frame.html").read_text()):
        raise Failed("frame.html names something else than its meta elements")
    kept = (page / "dom.js").read_text()
    missing = [it for it in ATTRIBUTES if it not in kept]
    if missing:
        raise Failed(f"fields lack {', '.join(missing)}")


# What no text says: whoever is one paper short can still test guesses.
PROMISES = ["learns nothing", "learn nothing", "nobody can", "no one can"]

# All numbers have one format. 'One' is often no number.
NUMBER = re.compile(r"\b(two|three|four|five|six|seven|eight|nine|ten|twelve|twenty)\b", re.IGNORECASE)


def check_texts(page):
    table = read(page)
    wanted = {key for path in page.glob("*.js") for key in KEY.findall(path.read_text())}
    missing = sorted(wanted - set(table))
    if missing:
        raise Failed(f"the table of texts lacks {missing}")
    promised = [key for key, text in table.items() if any(it in text for it in PROMISES)]
    if promised:
        raise Failed(f"these texts promise what SECURITY.md doesn't: {promised}")
    spelt = [key for key, text in table.items() if NUMBER.search(text)]
    if spelt:
        raise Failed(f"these texts have a number in letters, and others have digits: {spelt}")
    doubled = re.findall(r'^  "([^"]+)":', (page / "texts.js").read_text(), re.MULTILINE)
    if len(doubled) != len(set(doubled)):
        raise Failed("the table of texts has a key twice")


# What looks like an address of the web: one that was free when the form was printed may belong to a thief when it is read.
ADDRESS = re.compile(r"(?i)https?:|www\.|\b[\w-]+\.(?!html\b)[a-z]{2,}\b")


def check_forms(page):
    """Checks that forms and the page for heirs send nobody to a website, and name the software."""
    table = read(page)
    addressed = [key for key, text in table.items() if key.startswith("blank.") and ADDRESS.search(text)]
    if addressed:
        raise Failed(f"these texts of forms have an address: {addressed}")
    nameless = [key for key in ("blank.heirs", "blank.heirs.one") if "the software shamir" not in table[key]]
    if nameless:
        raise Failed(f"these texts of forms don't name the software: {nameless}")
    if table["blank.website"] not in (ROOT / "docs/HEIRS.md").read_text():
        raise Failed("the page for heirs doesn't say that the words are for no website")


def check_types(page):
    """Checks the types of the sources, if tsc is here."""
    if not shutil.which("tsc"):
        return left_out("tsc isn't here, so the types of page/ aren't checked")
    options = {"checkJs": True, "allowJs": True, "noEmit": True, "strict": True, "target": "es2022", "module": "es2022", "moduleResolution": "node"}
    options |= {"lib": ["es2022", "dom", "dom.iterable"], "types": []}
    with tempfile.NamedTemporaryFile("w", suffix=".json") as file:
        json.dump({"compilerOptions": options, "files": [str(page / name) for name in ("main.js", "desk.js", "types.d.ts")]}, file)
        file.flush()
        done = subprocess.run(["tsc", "-p", file.name], capture_output=True, text=True)
    if done.returncode:
        raise Failed(f"types: {done.stdout}")
    return None


def check(page):
    check_forbidden(page)
    check_texts(page)
