"""The terminal: its modes, its alternate screen, its keys, and the signals that end or stop the program.

All that the program shows is on the alternate screen, so that the terminal's scrollback gets none of it. Where a terminal ignores that
screen, the program clears in a way that keeps less, and the scrollback too. The echo is off; the line editor shows what may be shown.
"""
from __future__ import annotations

import contextlib
import errno
import os
import re
import select
import signal
import termios
import time
from types import FrameType
from typing import Any, Iterator, List, Optional

from shamir.papers import echo

ENDING = (
    signal.SIGINT, signal.SIGTERM, signal.SIGHUP, signal.SIGQUIT, signal.SIGUSR1, signal.SIGUSR2, signal.SIGALRM, signal.SIGXCPU
)
SIZE_UNKNOWN = os.terminal_size((80, 24))

# This stands for a character that isn't shown as it is.
UNSHOWN = "*"
# What no key sends.
NO_KEY = 0
# Within this time after what was typed, only a paste has more.
PASTE_SECONDS = 0.05
# So many bytes of a paste are read: more than all papers of a backup have.
PASTE_MAX = 1 << 16
# What keys such as arrows send, and what the terminal itself answers.
SEQUENCE = re.compile(rb"\x1b+(\[\[.|\[M...|\[[0-?]*[ -/]*[@-~]?|O[0-9;]*.|[]PX^_][^\x07\x1b\r\n]*(?:\x07|\x1b\\)?|[ -/]*[0-~]?)", re.DOTALL)
RETURN, LINE_FEED = 13, 10

ENTER_SCREEN, LEAVE_SCREEN = "\x1b[?1049h", "\x1b[?1049l"
HOME = "\x1b[H"
CLEAR = "\x1b[0m\x1b[H\x1b[2J"
# This clears from the end of the screen to its begin. Where there is no alternate screen, the other way moves all of it into the scrollback.
CLEAR_BACKWARDS = "\x1b[0m\x1b[999;999H\x1b[1J\x1b[H"
# This clears what a terminal keeps of lines that left the screen, if it can.
CLEAR_KEPT = "\x1b[3J"
# A terminal answers this with the place of its cursor, within this time.
ASK_PLACE, ANSWER_SECONDS = "\x1b[6n", 0.5
PLACE = re.compile(rb"\x1b\[(\d+);(\d+)R")


class Ended(BaseException):
    """The owner, a signal or the end of the terminal ends the program. It is no Exception, so that nothing handles it as a fault."""

    def __init__(self, number: int):
        super().__init__(number)
        self.number = number


class Resized(Exception):
    """The terminal has another size now."""


class Terminal:
    """A terminal that shows what is written to it until it is closed.

    `is_plain` says that the terminal knows no control sequences, so that nothing can be cleared there.
    """

    def __init__(self, source: int, target: int, kind: str):
        self._source, self._target = source, target
        self.is_plain = kind in ("", "dumb", "unknown")
        self._is_console = kind.startswith("linux")
        self._saved = echo.restored(termios.tcgetattr(source))
        # Whether the program still writes, whether its screen is shown, and whether a signal has ended it already.
        self._is_open = self._is_shown = self._is_ending = False
        # A signal writes a byte here, so that one which comes just before a wait for a key ends that wait.
        self._woken, self._waking = os.pipe2(os.O_NONBLOCK | os.O_CLOEXEC)
        # What was written since the screen was cleared, to be written again after a stop.
        self._written: List[str] = []
        # Whether Ctrl-C ends only a wait for a key or for a work, so that the owner can be asked.
        self.is_held = False
        self._is_interrupted = False
        self._was_return = False
        # What was read ahead, and is typed next.
        self._ahead = bytearray()
        # Whether another size ends a wait for a key. If not, what was written is written again.
        self.tells_size = False
        self._is_resized = False
        # Whether the alternate screen is ignored, or None if the terminal doesn't tell, and whether the scrollback is cleared too.
        self.keeps_lines: Optional[bool] = None
        self._clears_kept = False

    def open(self) -> None:
        """Shows the alternate screen, and takes over the signals."""
        signal.set_wakeup_fd(self._waking, warn_on_full_buffer=False)
        for number in ENDING:
            signal.signal(number, self._end)
        signal.signal(signal.SIGTSTP, self._stop)
        signal.signal(signal.SIGCONT, self._go_on)
        signal.signal(signal.SIGWINCH, self._resize)
        self._is_open = True
        self._try_modes()
        if not self.is_plain:
            self.keeps_lines = self._ignores_screen()
        self._enter()

    def clear_kept(self) -> None:
        """From now on, clears the scrollback with the screen, if lines of the screen go there."""
        self._clears_kept = bool(self.keeps_lines)

    def close(self) -> None:
        """Clears the screen, leaves it, and restores the terminal's modes. What was typed and not read is dropped. If the program was
        stopped and not continued, the terminal is another program's."""
        self._is_ending = True
        for number in ENDING + (signal.SIGTSTP, signal.SIGCONT):
            signal.signal(number, signal.SIG_IGN)
        self._is_open = False
        if self._is_shown and self._is_ours():
            self._leave()
        self._written.clear()

    def _enter(self) -> None:
        """Shows the alternate screen, with what was written to it."""
        # What the shell shows may go to the scrollback, and what this program shows may not.
        clear, self._is_shown = self._clear if self._is_shown else CLEAR, True
        self._try_modes()
        if not self.is_plain:
            self._put(ENTER_SCREEN + clear)
        for text in self._written:
            self._put(text)

    @property
    def _clear(self) -> str:
        """What clears the screen that this program has shown."""
        return (CLEAR_BACKWARDS if self.keeps_lines else CLEAR) + (CLEAR_KEPT if self._clears_kept else "")

    def _ignores_screen(self) -> Optional[bool]:
        """Whether the terminal ignores the alternate screen, or None if it doesn't say where its cursor is. If there is that screen, the cursor
        is where it was before as soon as it is left."""
        self._put(f"{ASK_PLACE}\x1b[1;2H{ENTER_SCREEN}{HOME}{LEAVE_SCREEN}{ASK_PLACE}")
        deadline, answer = time.monotonic() + ANSWER_SECONDS, bytearray()
        while len(places := PLACE.findall(answer)) < 2 and self.is_typed(max(0, deadline - time.monotonic())):
            key = self.key(False)
            answer += b"" if key == NO_KEY else bytes([key])
        # What was typed meanwhile isn't lost.
        self.put_back(PLACE.sub(b"", answer))
        if places:
            self._put("\x1b[%d;%dH" % (*map(int, places[0]),))
        return None if len(places) < 2 else places[1] != (b"1", b"2")

    def _try_modes(self) -> None:
        try:
            self._set_modes()
        except termios.error:
            # The terminal is no longer there.
            raise Ended(signal.SIGHUP) from None

    def _set_modes(self) -> None:
        modes = termios.tcgetattr(self._source)
        modes[0] &= ~termios.ICRNL
        modes[3] &= ~(termios.ECHO | termios.ECHONL | termios.ICANON | termios.IEXTEN)
        modes[3] |= termios.ISIG
        modes[6] = [*modes[6]]
        # A read doesn't wait: Ctrl-C drops what was typed, also between the wait for a key and the read.
        modes[6][termios.VMIN], modes[6][termios.VTIME] = 0, 0
        self._set(termios.TCSADRAIN, modes)

    def _set(self, when: int, modes: List[Any]) -> None:
        """Sets modes, also if a signal comes meanwhile, such as the one that lets a program in the background go on."""
        while True:
            try:
                termios.tcsetattr(self._source, when, modes)
                return
            except termios.error as error:
                if error.args[0] != errno.EINTR:
                    raise

    def _is_ours(self) -> bool:
        """Whether the program isn't in the background, where the terminal is another program's."""
        try:
            return os.tcgetpgrp(self._source) == os.getpgrp()
        except OSError:
            return True

    def _leave(self) -> None:
        try:
            if self.is_plain:
                self._put("\n")
            else:
                self._put(self._clear + (CLEAR_KEPT if self._is_console else "") + LEAVE_SCREEN)
        finally:
            try:
                self._set(termios.TCSAFLUSH, self._saved)
            except termios.error:
                # The terminal is no longer there.
                pass
        self._is_shown = False

    def _end(self, number: int, frame: Optional[FrameType]) -> None:
        """Ends the program. A second signal changes nothing: it must not keep the terminal from being restored."""
        if self._is_ending:
            return
        if number != signal.SIGINT or not self.is_held:
            self._is_ending = True
            raise Ended(number)
        self._is_interrupted = True

    def heed_interrupt(self) -> None:
        """Raises Ended if the owner pressed Ctrl-C while that is held back."""
        if self._is_interrupted:
            self._is_interrupted = False
            raise Ended(signal.SIGINT)

    def _resize(self, number: int, frame: Optional[FrameType]) -> None:
        self._is_resized = True

    def _heed_size(self) -> None:
        """Shows the screen again if the terminal got another size, which may have cut it."""
        if not self._is_resized:
            return
        self._is_resized = False
        if self.tells_size:
            raise Resized
        if not self.is_plain:
            self._put("".join([self._clear, *self._written]))

    @contextlib.contextmanager
    def aside(self) -> Iterator[None]:
        """Clears the screen for something else, and then shows again what was there."""
        (written, self._written), size = (self._written, []), self.size
        self.clear()
        yield
        self.clear()
        self._written = written
        for text in written:
            self._put(text)
        self._note_size(size)

    def _note_size(self, before: os.terminal_size) -> None:
        """Ends a wait for a key if the terminal has another size than before."""
        if self.size != before:
            self._is_resized = True
            os.write(self._waking, b"\0")

    def _stop(self, number: int, frame: Optional[FrameType]) -> None:
        """Hides the screen, stops as the signal asks, and shows the screen again when the program goes on."""
        size = self.size
        self._leave()
        signal.signal(signal.SIGTSTP, signal.SIG_DFL)
        os.kill(os.getpid(), signal.SIGTSTP)
        signal.signal(signal.SIGTSTP, self._stop)
        self._enter()
        self._note_size(size)

    def _go_on(self, number: int, frame: Optional[FrameType]) -> None:
        """Shows the screen again after a stop that hid nothing (SIGSTOP), in which another program may have changed the modes."""
        if self._is_shown and not self._is_ending:
            self._enter()

    def _put(self, text: str) -> None:
        # A question mark has a meaning of its own, so it stands for no other character.
        data = "".join(it if it.isascii() else UNSHOWN for it in text).encode()
        try:
            while data:
                data = data[os.write(self._target, data) :]
        except OSError:
            if self._is_open:
                raise Ended(signal.SIGHUP) from None

    def write(self, text: str) -> None:
        self._written.append(text)
        self._put(text)

    @property
    def place(self) -> int:
        """The place of the next text among those that were written."""
        return len(self._written)

    def write_over(self, place: int, moves: str, text: str) -> None:
        """Writes a text over those from a place on, to the first of which `moves` lead. At another size, or after a stop, only the new text is
        written again."""
        del self._written[place:]
        self._written.append(text)
        self._put(moves + text)

    def clear(self) -> None:
        """Clears the screen. A plain terminal gets empty lines."""
        self._written.clear()
        self.write("\n" * self.size.lines if self.is_plain else self._clear)

    @property
    def size(self) -> os.terminal_size:
        try:
            size = os.get_terminal_size(self._target)
        except OSError:
            return SIZE_UNKNOWN
        return size if size.columns and size.lines else SIZE_UNKNOWN

    def key(self, waits: bool = True) -> int:
        """Returns the next byte that is typed, or NO_KEY if there is none and it isn't to wait. What a paste has from another system ends
        each line with a return and a line feed: then the line feed is no key."""
        typed = self._byte(waits)
        is_end = self._was_return and typed == LINE_FEED
        self._was_return = typed == RETURN
        return NO_KEY if is_end else typed

    def _byte(self, waits: bool = False) -> int:
        if self._ahead:
            return self._ahead.pop(0)
        while True:
            while waits and self._source not in select.select([self._source, self._woken], [], [])[0]:
                os.read(self._woken, 64)
                self.heed_interrupt()
                self._heed_size()
            try:
                typed = os.read(self._source, 1)
            except OSError:
                raise Ended(signal.SIGHUP) from None
            if typed:
                return typed[0]
            if self._is_gone():
                raise Ended(signal.SIGHUP)
            if not waits:
                return NO_KEY

    def _is_gone(self) -> bool:
        """Whether the terminal is no longer there."""
        waiting = select.poll()
        waiting.register(self._source, 0)
        return bool(waiting.poll(0))

    def is_typed(self, seconds: float) -> bool:
        """Whether something is typed within this time, apart from the rest of a line's end."""
        if not self._ahead and self._was_return and select.select([self._source], [], [], seconds)[0]:
            self._was_return = False
            typed = self._byte()
            self._ahead += b"" if typed in (LINE_FEED, NO_KEY) else bytes([typed])
        return bool(self._ahead) or bool(select.select([self._source], [], [], seconds)[0])

    def put_back(self, typed: bytes) -> None:
        """Lets what was read be typed next."""
        self._was_return = False
        self._ahead[:0] = typed

    def drop_typed(self) -> bool:
        """Drops what was typed and not read, such as the rest of a paste that the owner doesn't see, up to its end. Returns whether it
        was more than Enter and keys that move."""
        dropped = bytearray()
        if self.is_typed(0):
            self.pasted(dropped)
        is_more = bool(SEQUENCE.sub(b"", dropped).strip(b" \t\r\n\0"))
        dropped[:] = bytes(len(dropped))
        return is_more

    def pasted(self, into: bytearray, most: Optional[int] = None) -> bool:
        """Reads what is typed until nothing comes for a while, and adds it to a buffer, as many bytes as that may have. Returns whether
        there was more. The end of a line is a line feed."""
        is_more = False
        while self.is_typed(PASTE_SECONDS):
            key = self.key(False)
            if key != NO_KEY and (most is None or len(into) < most):
                into.append(LINE_FEED if key == RETURN else key)
            elif key != NO_KEY:
                is_more = True
        return is_more
