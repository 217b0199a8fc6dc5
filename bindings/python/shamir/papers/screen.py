"""What the screen shows: titles, paragraphs that fit its width, numbered words, and questions.

If more is shown than fits, the screen waits for Enter before the first lines leave it.
"""
from __future__ import annotations

import contextlib
import os
import signal
import textwrap
import threading
import time
from typing import Callable, Dict, Generic, Iterable, Iterator, List, Optional, Sequence, Tuple, TypeVar

from shamir.papers.line import Completer, Line, first_key, wipe
from shamir.papers.spelling import parts_of
from shamir.papers.terminal import PASTE_MAX, PASTE_SECONDS, SEQUENCE, Ended, Resized, Terminal
from shamir.papers.texts import said_time, say

T = TypeVar("T")

# 'good' says that something was compared with what the owner noted, and is equal, and nothing else.
STYLES = {"title": "1", "good": "32", "bad": "31", "strong": "1"}
SIGNS = {"good": "[ok] ", "bad": "[!] "}
WIDTH_MIN, WIDTH_MAX = 20, 76
COLUMNS_MAX = 4
STACK_BYTES = 1 << 20
# From this time on, the screen shows how long a work takes already.
SHOWN_AFTER = 1.0
# Where a question says so, this answer goes back to the question before.
BACK = "b"
# This key asks whether to stop a long work.
STOP = "s"
# A machine that types line after line has a shorter pause than this.
PAUSE_SECONDS = 1.25
# So many words or more may be of a paper.
KEPT_LEAST = 4


def wrapped(text: str, width: int) -> List[str]:
    """Returns the rows of a paragraph."""
    return textwrap.wrap(text, width, break_on_hyphens=False)


def _printable(read: bytes) -> str:
    """Returns what was pasted, without keys that move or erase."""
    text = SEQUENCE.sub(b"", read).decode("utf-8", "replace")
    return "".join(it if it == "\n" else " " if it.isspace() else it for it in text if it.isspace() or it.isprintable())


class Stopped(Exception):
    """The owner stopped a work."""


class Back(Exception):
    """The owner goes back to the question before."""


class Screen:
    def __init__(self, terminal: Terminal):
        self._terminal = terminal
        self._is_coloured = not terminal.is_plain and not os.environ.get("NO_COLOR")
        self._rows = 0
        self._notice = self._notice_style = ""
        # What was told since the last question, and must be seen.
        self._unseen: List[Tuple[str, str]] = []
        # What was typed where the screen was full: the begin of the next answer.
        self._begun = bytearray()
        # What would be lost if the owner ended now.
        self._held = ""
        # Whether papers are asked for, so that what may be one isn't dropped, and whether some wait to be read.
        self._keeps = self._is_kept = False
        # Until then, a machine that types line after line may go on.
        self._quick_until = 0.0

    @property
    def _width(self) -> int:
        return max(WIDTH_MIN, min(WIDTH_MAX, self._terminal.size.columns - 1))

    @property
    def is_plain(self) -> bool:
        """Whether nothing can be cleared."""
        return self._terminal.is_plain

    @property
    def is_held(self) -> bool:
        """Whether the owner is asked before the program ends."""
        return bool(self._held)

    def clear(self, title: str) -> None:
        """Clears the screen, and shows a title, and what was to be shown after it."""
        self._terminal.clear()
        self._rows = 0
        self.tell(title, "title")
        for told in self._unseen if title else []:
            self.tell(*told)
        if title and self._notice:
            self.tell(self._notice, self._notice_style)
            self._notice = ""

    def hold(self, text: str) -> None:
        """From now on, Ctrl-C and Ctrl-D say this, and ask before they end. An empty text lets them end at once."""
        self._held, self._terminal.is_held = text, bool(text)

    def _stay(self, by: Ended) -> None:
        """Asks whether to end, if something would be lost. If the owner stays, the screen is again as it was."""
        if by.number != signal.SIGINT or not self._held:
            raise by
        held, rows, begun, tells, keeps = self._held, self._rows, self._begun, self._terminal.tells_size, self._keeps
        # At this question, Ctrl-C ends at once.
        self.hold("")
        self._terminal.tells_size = self._keeps = False
        with self._terminal.aside():
            self._rows, self._begun = 0, bytearray()
            self.tell(say("end.title"), "title")
            self.tell(held)
            self.drop_typed()
            if self.agree(say("end.ask")):
                raise by
            # The owner may press the keys again as soon as the screen shows what it showed before.
            self.hold(held)
        self._rows, self._begun, self._terminal.tells_size, self._keeps = rows, begun, tells, keeps

    def _held_on(self, call: Callable[[], T]) -> T:
        """Returns what a call gives that waits for keys. If the owner wants to end, but stays, it is called again."""
        while True:
            try:
                return call()
            except Ended as by:
                self._stay(by)

    def tell_seen(self, text: str, style: str = "bad") -> None:
        """Shows a paragraph, and shows it again on the next screens until the owner was asked something."""
        self.tell(text, style)
        self._unseen.append((text, style))

    def tell_next(self, text: str, style: str = "") -> None:
        """Shows a paragraph on the next screen, after its title."""
        self._notice, self._notice_style = text, style

    def gap(self) -> None:
        self._line("", "")

    def tell(self, text: str, style: str = "") -> None:
        """Shows a paragraph, and an empty line after it. A sign tells the styles apart without their colours."""
        sign = SIGNS.get(style, "")
        rows = wrapped(text, self._width - len(sign))
        self.rows([(sign if not at else " " * len(sign)) + row for at, row in enumerate(rows)], style)
        self.gap()

    def item(self, text: str, mark: str = "- ") -> None:
        """Shows a paragraph that stands behind a mark."""
        first, *others = wrapped(text, self._width - len(mark)) or [""]
        self.rows([mark + first, *(" " * len(mark) + row for row in others)])

    def rows(self, rows: Iterable[str], style: str = "") -> None:
        for row in rows:
            self._line(row, style)

    def _line(self, text: str, style: str) -> None:
        if self._rows >= self._terminal.size.lines - 2:
            self._more()
        colour = STYLES.get(style, "") if self._is_coloured else ""
        self._terminal.write((f"\x1b[{colour}m{text}\x1b[0m" if colour else text) + "\n")
        self._rows += 1

    def words(self, words: Sequence[str]) -> None:
        """Shows words with their numbers, in columns that are read downwards."""
        cells = [f"{number:>3}. {word}" for number, word in enumerate(words, 1)]
        room = max(map(len, cells)) + 2
        columns = max(1, min(COLUMNS_MAX, self._width // room))
        height = -(-len(cells) // columns)
        if self._rows + height > self._terminal.size.lines - 4:
            # All words are to be seen at once.
            self._more(clears=True)
        self.rows("".join(cell.ljust(room) for cell in cells[row::height]).rstrip() for row in range(height))
        self.gap()

    def digits(self, parts: Sequence[str]) -> None:
        """Shows digits in parts, as many in a row as fit, up to four."""
        columns = max(1, min(COLUMNS_MAX, self._width // (max(map(len, parts)) + 1)))
        self.rows(" ".join(parts[at : at + columns]) for at in range(0, len(parts), columns))
        self.gap()

    def ask(self, prompt: str, complete: Optional[Completer] = None, has_back: bool = False, begun: str = "", is_hidden: bool = False) -> str:
        """Asks, and returns what is typed. `has_back` says that the owner may go back instead. `begun` stands in the line already."""
        self._begun = bytearray(begun.encode()) + self._begun
        typed = self._read(prompt, complete, is_hidden).decode("utf-8", "replace")
        if has_back and typed.strip().lower() == BACK:
            raise Back
        return typed

    def ask_hidden(self, prompt: str, has_back: bool = False, is_shown: bool = False) -> bytearray:
        """Asks, and returns what is typed in one line. The screen shows nothing of it, unless the owner wants to see it."""
        while True:
            typed = self._read(prompt, None, not is_shown)
            if not self.is_pasted(PASTE_SECONDS) or not self.drop_typed():
                break
            wipe(typed)
            self.tell(say("screen.lines"), "bad")
        if has_back and typed.strip().lower() == BACK.encode():
            raise Back
        return typed

    def _read(self, prompt: str, complete: Optional[Completer], is_hidden: bool, has_hint: bool = True) -> bytearray:
        *above, last = wrapped(prompt, self._width - 1) or [""]
        hint = "\n".join(wrapped(say("line.keys"), self._width)) if has_hint else ""
        while True:
            self.rows(above)
            begun, self._begun = self._begun, bytearray()
            line = Line(self._terminal, last + " ", complete, is_hidden, begun, hint)
            typed = self._held_on(line.read)
            self._note_quick(line.is_quick, bool(typed))
            self._rows = 0
            self._unseen.clear()
            if not line.is_cut:
                return typed
            wipe(typed)
            self.drop_typed()
            self.tell(say("screen.long"), "bad")

    def is_pasted(self, seconds: float) -> bool:
        """Whether more is typed within this time, as only a paste can be so soon."""
        return self._terminal.is_typed(seconds)

    def _note_quick(self, is_quick: bool, is_typed: bool = True) -> None:
        if is_quick or is_typed:
            self._quick_until = time.monotonic() + PAUSE_SECONDS if is_quick else 0.0

    def goes_on(self) -> bool:
        """Whether more comes soon after a line that came faster than hands type, or after an empty one that followed it."""
        return time.monotonic() < self._quick_until and self._terminal.is_typed(PAUSE_SECONDS)

    def pasted(self, most: int) -> Tuple[str, bool]:
        """Returns the rest of a paste, up to so many bytes, and whether there was more. Keys that move or erase are left out."""
        read = bytearray()
        is_cut = self._terminal.pasted(read, most)
        self._note_quick(True)
        text = _printable(read)
        wipe(read)
        return text, is_cut

    def ahead(self, most: int) -> str:
        """Returns the rest of a paste that is no longer than so many bytes, and leaves it to be read."""
        read = bytearray()
        if self._terminal.pasted(read, most):
            self.tell_seen(say("screen.dropped"))
        self._terminal.put_back(read)
        text = _printable(read)
        wipe(read)
        return text

    def choose(self, prompt: str, answers: Dict[str, T], default: Optional[str] = None, has_back: bool = False, is_hidden: bool = False) -> T:
        """Asks until one of the answers is given, or none if there is a default. A hidden answer doesn't show. If a paste comes in place of an
        answer, it is dropped as a whole, and not taken line by line. Where papers are asked for, it is read after the answer."""
        kept = ""
        try:
            while True:
                typed = self.ask(prompt, has_back=has_back, is_hidden=is_hidden).strip().lower() or default or ""
                if typed in answers:
                    return answers[typed]
                is_kept = self._keeps and len(parts_of(typed)) >= KEPT_LEAST
                if is_kept:
                    kept += f"{typed}\n{self.pasted(PASTE_MAX)[0]}"
                    self.tell(say("screen.kept"))
                elif self.is_pasted(PASTE_SECONDS):
                    self.drop_typed()
                told = [key or "Enter" for key in answers] + [BACK] * has_back
                self.tell(say("screen.answers", answers=", ".join(told)), "bad")
        finally:
            if kept:
                self._is_kept = True
                self._terminal.put_back(kept.encode())

    def agree(self, prompt: str, has_back: bool = False, is_hidden: bool = False) -> bool:
        """Asks for yes or no, until one of them is given. Where a secret may be typed by mistake, the answer is hidden."""
        how = say("screen.yes.back" if has_back else "screen.yes")
        return self.choose(f"{prompt} {how}", {"y": True, "yes": True, "n": False, "no": False}, has_back=has_back, is_hidden=is_hidden)

    def show_until(self, draw: Callable[[], bool]) -> None:
        """Calls what shows a screen until it returns that the owner goes on, and again if the terminal gets another size. What was to be
        shown after the title is shown each time."""
        notice = self._notice, self._notice_style
        is_done = False
        while not is_done:
            self._notice, self._notice_style = notice
            self._terminal.tells_size = True
            try:
                is_done = draw()
            except Resized:
                continue
            finally:
                self._terminal.tells_size = False

    def pause(self, prompt: str) -> bool:
        """Waits for Enter, and returns whether it came alone. If not, what came is dropped, and the owner is told."""
        self.drop_typed()
        typed = self._read(prompt, None, True, has_hint=False)
        is_alone = not typed.strip()
        wipe(typed)
        if not is_alone and not self.drop_typed():
            self.tell_seen(say("screen.dropped"))
        return is_alone

    def _more(self, clears: bool = False) -> None:
        """Waits until the owner has read what is shown, and takes the question for that away, or the whole screen. A key other than Enter
        goes on too, and is the first one of the answer to the question that follows."""
        kept = self._papers_ahead()
        is_dropped = self._terminal.drop_typed()
        if is_dropped:
            # The key that went on before was the first one of what is dropped.
            wipe(self._begun)
            self._begun = bytearray()
        self._terminal.write(say("screen.more") + " ")
        key = self._held_on(lambda: first_key(self._terminal))
        if kept:
            self._terminal.put_back(kept + key)
        else:
            self._begun += key
        self._terminal.write("\n" if self._terminal.is_plain else "\r\x1b[J")
        if clears:
            self._terminal.clear()
        self._rows = 0
        self._unseen.clear()
        if is_dropped:
            self.tell_seen(say("screen.dropped"))

    @contextlib.contextmanager
    def keeping(self) -> Iterator[None]:
        """Drops nothing that may be a paper, as long as papers are asked for."""
        self._keeps, self._is_kept = True, False
        try:
            yield
        finally:
            self._keeps = False

    def took_kept(self) -> bool:
        """Whether papers that came at another question wait to be read, since this was asked before."""
        is_kept, self._is_kept = self._is_kept, False
        return is_kept

    def _papers_ahead(self) -> bytes:
        """Takes what was typed and not read, if it may be a paper, or the begin of a line, and papers are asked for."""
        if not self._keeps or not self.is_pasted(0):
            return b""
        read = bytearray()
        if self._terminal.pasted(read, PASTE_MAX):
            self.tell_seen(say("screen.dropped"))
        whole = bytes(self._begun + read)
        text = _printable(whole)
        if not text.strip() or ("\n" in text and len(parts_of(text)) < KEPT_LEAST):
            self._terminal.put_back(read)
            return b""
        self._begun = bytearray()
        return whole

    def drop_typed(self) -> bool:
        """Drops what was typed and not read, such as the rest of a paste that the owner doesn't see. If it was more than Enter, says so,
        and returns True. Where papers are asked for, what may be one stays, to be read next."""
        kept = self._papers_ahead()
        if kept:
            self._terminal.put_back(kept)
            return False
        is_begun = bool(self._begun.strip())
        wipe(self._begun)
        self._begun = bytearray()
        is_dropped = self._terminal.drop_typed() or is_begun
        if is_dropped:
            self.tell_seen(say("screen.dropped"))
        return is_dropped

    def fault(self, text: str) -> None:
        """Says what is wrong with an answer. What was typed ahead is dropped, so that it answers no question that the owner hasn't
        seen."""
        self.drop_typed()
        self.tell(text, "bad")

    def work(self, call: Callable[[], T], progress: Callable[[], str] = lambda: "", is_stoppable: bool = False) -> T:
        """Returns what a call of the library gives, or raises its error. Meanwhile the screen shows the time that has passed.

        The call runs beside the owner's keys and signals. If the owner stops it, its result is dropped when it comes.
        """
        self.drop_typed()
        work: Work[T] = Work(call)
        begun, told = time.monotonic(), 0
        while not work.ended.wait(0.05):
            self._held_on(self._terminal.heed_interrupt)
            passed = time.monotonic() - begun
            if is_stoppable and self._terminal.is_typed(0):
                self._heed_key(work)
            if passed >= SHOWN_AFTER and int(passed) > told:
                told = int(passed)
                stop = say("work.stop") if is_stoppable else ""
                self._row(" ".join(filter(None, [say("work.passed", time=said_time(passed)), stop, progress()])))
        if told:
            self._row("")
        return work.result()

    def _heed_key(self, work: Work[T]) -> None:
        """Raises Stopped if the key is the one for it, and the owner means it. The work goes on meanwhile. Enter stops nothing, as it goes
        on elsewhere."""
        is_stop = chr(self._terminal.key(False)).lower() == STOP
        self._row("")
        self.drop_typed()
        if not is_stop:
            self.tell(say("work.key"))
        elif self.agree(say("work.sure")) and not work.ended.is_set():
            raise Stopped

    def _row(self, text: str) -> None:
        """Shows a text in the last row, in place of what it showed before."""
        width = self._width
        self._terminal.write("\r" + text[:width].ljust(width) + "\r")


class Work(Generic[T]):
    """A call that runs in a thread of its own. Its stack is twice as large as the library needs at most."""

    def __init__(self, call: Callable[[], T]):
        self.ended = threading.Event()
        self._results: List[T] = []
        self._errors: List[BaseException] = []
        threading.stack_size(STACK_BYTES)
        threading.Thread(target=self._run, args=[call], daemon=True).start()

    def _run(self, call: Callable[[], T]) -> None:
        try:
            self._results.append(call())
        except BaseException as error:
            self._errors.append(error)
        finally:
            self.ended.set()

    def result(self) -> T:
        if self._errors:
            raise self._errors.pop()
        return self._results.pop()
