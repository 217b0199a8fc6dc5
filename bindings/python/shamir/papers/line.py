"""A line that is typed: shown or hidden, with Backspace, Ctrl-U and Ctrl-W, and words that complete themselves. In a
hidden line, a tab is a character. No key moves within a line.

Python's readline isn't used: it keeps copies of what is typed, reads the owner's settings, and can't be hidden by Ctrl-Z.
"""
from __future__ import annotations

import signal
import time
from typing import Callable, List, Optional

from shamir.papers.keys import IDLE_KEY, Keys
from shamir.papers.terminal import NO_KEY, UNSHOWN, Ended, Terminal

ENTER, TAB, SPACE = (10, 13), 9, 32
END_OF_INPUT, BACKSPACE, ERASE_LINE, ERASE_WORD = 4, (8, 127), 21, 23
LENGTH_MAX = 2000
SHOWN_MAX = 10
# A line with so many keys or more came from a machine, if each took less than this time.
QUICK_KEYS, QUICK_SECONDS = 6, 0.04

# Returns the words that begin with these letters.
Completer = Callable[[str], List[str]]


def wipe(buffer: bytearray) -> None:
    """Overwrites a buffer."""
    buffer[:] = bytes(len(buffer))


def first_key(terminal: Terminal) -> bytes:
    """Waits for Enter, which gives nothing, or for a key that may begin an answer."""
    keys = Keys(terminal)
    while True:
        key = keys.next()
        if key in ENTER:
            return b""
        if key == END_OF_INPUT:
            raise Ended(signal.SIGINT)
        if key >= SPACE and key not in BACKSPACE:
            return bytes([key])


class Line:
    """A line that is being typed. `prompt` stands before it, and is shorter than a row of the terminal. `begun` was typed before. `hint` is
    said once, if a key is pressed that does nothing here, such as an arrow."""

    def __init__(
        self, terminal: Terminal, prompt: str, complete: Optional[Completer] = None, is_hidden: bool = False, begun: bytes = b"", hint: str = ""
    ):
        self._terminal, self._keys, self._prompt, self._hint = terminal, Keys(terminal), prompt, hint
        self._complete, self._is_hidden = complete, is_hidden
        self._typed = bytearray(begun)
        self._is_asked = False
        # The place of the line among what the terminal shows.
        self._place = 0
        # Whether more was typed than a line can have.
        self.is_cut = False
        # Whether it came faster than hands type.
        self.is_quick = False

    def read(self) -> bytearray:
        """Returns what is typed, without its end. After Ended, it may be called again, and goes on."""
        if not self._is_asked:
            self._is_asked = True
            self._place = self._terminal.place
            self._terminal.write(self._prompt + ("" if self._is_hidden else _shown(self._typed)))
        count, begun = 0, time.monotonic()
        while True:
            key = self._keys.next()
            begun = begun if count else time.monotonic()
            count += 1
            if key in ENTER:
                self.is_quick = count > QUICK_KEYS and time.monotonic() - begun < count * QUICK_SECONDS
                self._end_word()
                self._terminal.write("\n")
                return self._typed
            self._take(key)

    def _take(self, key: int) -> None:
        if key == END_OF_INPUT:
            if not self._typed:
                raise Ended(signal.SIGINT)
        elif key in BACKSPACE:
            self._shorten(len(self._typed) - self._last_length())
        elif key == ERASE_LINE:
            self._shorten(0)
        elif key == ERASE_WORD:
            self._shorten(self._typed.rstrip(b" ").rfind(b" ") + 1)
        elif key == TAB and not self._is_hidden:
            self._offer()
        elif key == IDLE_KEY or (key < SPACE and key not in (TAB, NO_KEY)):
            self._tell_hint()
        elif key == NO_KEY:
            return
        elif len(self._typed) >= LENGTH_MAX:
            self.is_cut = True
        else:
            if key in b" ,":
                self._end_word()
            self._add(bytes([key]))

    def _add(self, more: bytes) -> None:
        self._typed += more
        if not self._is_hidden:
            self._terminal.write(_shown(more))

    def _last_length(self) -> int:
        """Returns how many bytes the last character has."""
        count = 1
        while count < len(self._typed) and self._typed[-count] & 0xC0 == 0x80:
            count += 1
        return min(count, len(self._typed))

    def _shorten(self, length: int) -> None:
        cut = len(self._typed) - length
        if cut <= 0:
            return
        self.is_cut = self.is_cut and length > 0
        before = len(self._prompt) + len(_shown(self._typed))
        kept = self._typed[:length]
        wipe(self._typed)
        self._typed = kept
        if self._is_hidden:
            return
        if self._terminal.is_plain:
            self._terminal.write("\b \b" * (before - len(self._prompt) - len(_shown(kept))))
            return
        up = (before - 1) // self._terminal.size.columns
        self._terminal.write_over(self._place, "\r" + (f"\x1b[{up}A" if up else "") + "\x1b[J", self._prompt + _shown(kept))

    def _tell_hint(self) -> None:
        hint, self._hint = self._hint, ""
        if hint:
            self._tell(hint)

    def _tell(self, text: str) -> None:
        """Shows a text, and then the line again."""
        self._terminal.write(f"\n{text}\n")
        self._place = self._terminal.place
        self._terminal.write(self._prompt + ("" if self._is_hidden else _shown(self._typed)))

    def _letters(self) -> str:
        """Returns the letters of the word that is being typed."""
        return self._typed.replace(b",", b" ").split(b" ")[-1].decode("utf-8", "replace").lower()

    def _found(self) -> List[str]:
        letters = self._letters()
        return self._complete(letters) if self._complete and letters.isalpha() else []

    def _end_word(self) -> None:
        """Completes the word that was typed, if only one word begins so."""
        found = self._found()
        if len(found) == 1:
            self._add(found[0][len(self._letters()) :].encode())

    def _offer(self) -> None:
        """Completes the word as far as all words agree that begin so, or shows them."""
        found, letters = self._found(), self._letters()
        if len(found) == 1:
            self._end_word()
            self._add(b" ")
        elif letters and not found:
            # In a paste, a tab may come after a number, a mark or a misspelled word.
            self._add(b" ")
        elif found:
            count = max(at for at in range(len(letters), len(min(found, key=len)) + 1) if len({word[:at] for word in found}) == 1)
            if count > len(letters):
                self._add(found[0][len(letters) : count].encode())
            else:
                more = " .." if len(found) > SHOWN_MAX else ""
                self._tell(" ".join(found[:SHOWN_MAX]) + more)


def _shown(data: bytes) -> str:
    """Returns what a terminal shows of these bytes: one sign for each character, and always the same for what isn't ASCII."""
    return "".join(chr(byte) if SPACE <= byte < 127 else UNSHOWN for byte in data if byte & 0xC0 != 0x80)
