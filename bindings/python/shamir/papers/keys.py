"""The keys of a line: what an arrow sends, or what the terminal itself answers, is several bytes, and one key here."""
from __future__ import annotations

import re
import time

from shamir.papers.terminal import LINE_FEED, RETURN, Terminal

ESCAPE = b"\x1b"
# The first byte after an Escape comes within this time, unless a slow line splits both. What is later than the other isn't of it.
JOINED_SECONDS, SPLIT_SECONDS = 0.05, 1.0
# This stands for a key that does nothing in a line, such as an arrow.
IDLE_KEY = -1
# What such a key sends after its Escape. What else comes is the terminal's: reports of a mouse, of the focus, of a place or a colour.
IDLE = re.compile(rb"\[[0-9;]*[A-HPQSZu]|\[(?!20[01]~)[0-9;]*~|\[\[.|O.+|[ -/]*[0-NP-Z`-~]", re.DOTALL)
# An answer that goes on up to its own end.
ANSWERS = b"]PX^_"
ANSWER_ENDS = b"\x07", b"\x1b\\"
MOUSE_BYTES = 3


def _goes_on(found: bytes) -> bool:
    """Whether a sequence isn't whole yet. `found` is what came after its Escape."""
    begin = found[:1]
    if not begin:
        return True
    if begin in ANSWERS:
        return not found.endswith(ANSWER_ENDS)
    if begin == b"[":
        if found[1:2] in (b"[", b"M"):
            return len(found) < 2 + (1 if found[1:2] == b"[" else MOUSE_BYTES)
        return len(found) == 1 or 0x20 <= found[-1] < 0x40
    if begin == b"O":
        return len(found) == 1 or found[-1] in b"0123456789;"
    return 0x20 <= found[-1] < 0x30


class Keys:
    """The keys of a terminal, as a line takes them."""

    def __init__(self, terminal: Terminal):
        self._terminal = terminal
        # When an Escape came that nothing followed at once.
        self._escaped = -SPLIT_SECONDS

    def next(self) -> int:
        """Returns the next byte that stands for itself, or IDLE_KEY. What the terminal answers is left out."""
        while True:
            key = bytes([self._terminal.key()])
            is_split = time.monotonic() - self._escaped < SPLIT_SECONDS and self._begins(key)
            self._escaped = -SPLIT_SECONDS
            if key != ESCAPE and not is_split:
                return key[0]
            found = self._rest(key if is_split else b"")
            if not found:
                self._escaped = time.monotonic()
            elif IDLE.fullmatch(found):
                return IDLE_KEY

    def _rest(self, found: bytes) -> bytes:
        """Reads a sequence to its end, and returns what comes after its Escape. The end of a line is no part of it."""
        while _goes_on(found) and self._terminal.is_typed(SPLIT_SECONDS if found else JOINED_SECONDS):
            key = self._terminal.key()
            if key in (LINE_FEED, RETURN):
                self._terminal.put_back(bytes([key]))
                break
            # Alt and an arrow can send two Escapes.
            found = b"" if not found and key == ESCAPE[0] else found + bytes([key])
        return found

    def _begins(self, key: bytes) -> bool:
        """Whether a key that came somewhat later than an Escape is the begin of what belongs to it. Letters are, if the next byte is as only
        a terminal sends it."""
        if key == b"[":
            return True
        if key not in (b"O", b"]", b"P") or not self._terminal.is_typed(JOINED_SECONDS):
            return False
        following = self._terminal.key()
        self._terminal.put_back(bytes([following]))
        return following in (b"ABCDFHMPQRSjklmnopqrstuvwxy" if key == b"O" else b"0123456789$+=>?")
