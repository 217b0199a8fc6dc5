"""What a browser keeps of what is typed: its profile folder and its home are searched, packed files too.

A marker is a random word. It is typed into each kind of field of the page, and into a plain field of another page, which is the
control: if the marker of the control isn't found, the search is worth nothing, and the check fails.
"""
import base64
import os
import pathlib
import random
import string
import struct
import tempfile
import time
import zlib

from browsers import Failed, browser
from hands import Page
from samples import SOUND_PAPER
from tasks import begin, choose_wallet, clear, type_paper
from texts import say
from tool import waited

CONTROL = "<!doctype html><title>control</title><label>Plain <input type=text name=plain></label>"
# Chromium looks at the fields of a tab every 5 seconds, or every 20 if another tab is in front.
LOOKING, WRITING = 7, 60


def marker(source):
    return "".join(source.choice(string.ascii_lowercase) for _ in range(14))


def patterns(word):
    """Returns the forms in which a marker may stand in a file: whole or in halves, as UTF-8, UTF-16 or base64."""
    parts = [word, word[:8], word[-8:]]
    found = [form for part in parts for form in (part.encode(), part.encode("utf-16-le"))]
    for shift in range(3):
        coded = base64.b64encode(b"\0" * shift + word.encode())
        found.append(coded[(0, 2, 3)[shift] : -4])
    return found


def unpacked_lz4(data, size):
    """Unpacks one LZ4 block, the form in which Firefox packs the windows that it would restore."""
    out, at = bytearray(), 0
    while at < len(data):
        token = data[at]
        at += 1
        count = token >> 4
        while count >= 15 and (count - 15) % 255 == 0:
            count += data[at]
            at += 1
            if data[at - 1] != 255:
                break
        out += data[at : at + count]
        at += count
        if at >= len(data):
            break
        offset = data[at] | data[at + 1] << 8
        at += 2
        length = token & 15
        while length >= 15 and (length - 15) % 255 == 0:
            length += data[at]
            at += 1
            if data[at - 1] != 255:
                break
        for _ in range(length + 4):
            out.append(out[-offset])
    if len(out) != size:
        raise Failed(f"a file of the profile wasn't unpacked: {len(out)} bytes of {size}")
    return bytes(out)


def contents(path):
    """Returns the bytes of a file, and those that it packs."""
    try:
        data = path.read_bytes()
    except OSError:
        return []
    found = [data]
    if data[:8] == b"mozLz40\0":
        try:
            found.append(unpacked_lz4(data[12:], struct.unpack("<I", data[8:12])[0]))
        except (Failed, IndexError, struct.error):
            # Firefox writes a file under such a name, and gives it its own when it is whole.
            if path.suffix != ".tmp":
                raise
    if data[:2] == b"\x1f\x8b":
        try:
            found.append(zlib.decompressobj(31).decompress(data))
        except zlib.error:
            pass
    return found


def search(folder, markers):
    """Returns the names of the markers that stand in a file of the folder, with the file."""
    wanted = {name: patterns(word) for name, word in markers.items()}
    found = {}
    # The browser removes folders and files meanwhile. Unlike `rglob`, `os.walk` passes over a folder that has gone.
    for path in (pathlib.Path(there, name) for there, _, names in os.walk(folder) for name in names):
        if not path.is_file() or path.is_symlink():
            continue
        for data in contents(path):
            for name, forms in wanted.items():
                if name not in found and any(form in data for form in forms):
                    found[name] = str(path.relative_to(folder))
    return found


def typed_everywhere(page, source):
    """Types a marker into each kind of field of the page, and returns the markers."""
    markers = {kind: marker(source) for kind in ["word of a paper", "word of a damaged paper", "hidden passphrase", "shown passphrase", "digits", "digits again", "passphrase of a drill", "noted fingerprint"]}
    begin(page, "check")
    page.fill(say("entry.word", number=1), markers["word of a paper"])
    page.fill(say("entry.word", number=3), markers["word of a paper"])
    time.sleep(LOOKING)
    page.push(say("entry.empty"))
    type_paper(page, SOUND_PAPER)
    page.wait_text(say("collect.taken", name="0.0"))
    page.push(say("collect.end"))
    page.fill(say("passphrase.label"), markers["passphrase of a drill"])
    # The field takes eight letters, and the search looks for halves of a marker too.
    page.fill(say("noted.label"), markers["noted fingerprint"])
    time.sleep(LOOKING)
    clear(page)
    begin(page, "damaged")
    page.fill(say("entry.word", number=1), f"{markers['word of a damaged paper']}?")
    time.sleep(LOOKING)
    clear(page)
    begin(page, "make", "own")
    choose_wallet(page)
    page.fill(say("secret.digits"), markers["digits"])
    page.fill(say("secret.again"), markers["digits again"])
    page.fill(say("passphrase.label"), markers["hidden passphrase"])
    page.push(f"{say('show')}: {say('passphrase.again')}")
    page.evaluate("[...document.querySelectorAll('input')].find((it) => it.labels?.[0]?.textContent === " + repr(say("passphrase.again")) + ").focus()")
    page.type(markers["shown passphrase"])
    time.sleep(LOOKING)
    return markers


def check_browser(name, url, control_url, is_quit, source):
    with browser(name) as it:
        page = Page(it, url)
        page.wait_title(say("home.title"))
        markers = typed_everywhere(page, source)
        tab = it.session.call("browsingContext.create", type="tab")["context"]
        page.tab, plain = tab, marker(source)
        page.call("browsingContext.navigate", url=control_url, wait="complete")
        page.evaluate("document.querySelector('input').focus()")
        page.type(plain)
        page.press("Tab")
        waited(lambda: search(it.home, {"the control": plain}), WRITING, 1)
        time.sleep(LOOKING)
        found = search(it.home, markers | {"the control": plain})
        if is_quit:
            it.quit()
        else:
            it.kill()
        found |= search(it.home, markers | {"the control": plain})
    how = "quit" if is_quit else "killed"
    if found.pop("the control", None) is None:
        raise Failed(f"{name}, {how}: the search doesn't find what was typed into a plain field, so it shows nothing")
    if found:
        raise Failed(f"{name}, {how}: the browser's folders have what was typed: {found}")


def check(name, url, seed):
    source = random.Random(seed)
    with tempfile.TemporaryDirectory() as folder:
        control = pathlib.Path(folder) / "control.html"
        control.write_text(CONTROL)
        for is_quit in (True, False):
            check_browser(name, url, control.as_uri(), is_quit, source)
