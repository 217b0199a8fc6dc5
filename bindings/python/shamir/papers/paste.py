"""Papers that are pasted: all of a paste is read before anything is judged, and its lines are divided among papers."""
from __future__ import annotations

import itertools
from typing import Dict, List, Optional

import shamir
from shamir.papers.marks import Counting, judged
from shamir.papers.screen import Screen
from shamir.papers.spelling import HEADING, LEAST, MOST, parts_of, placed, read
from shamir.papers.terminal import PASTE_MAX, PASTE_SECONDS
from shamir.papers.texts import say

# So many runs of lines are tried, which takes a moment. A paste of papers needs far fewer.
TRIES_MAX = 20_000


class Pasted(Exception):
    """The owner pasted several papers. Each text has the lines of one."""

    def __init__(self, texts: List[str]):
        super().__init__()
        self.texts = texts


def ask_whole(screen: Screen, prompt: str, counting: Counting, has_back: bool = False) -> str:
    """Asks for a paper, and returns all lines that are pasted. What follows the last end of a line stands behind the question again. If a
    machine types line after line, at a pause, they are read up to the end of the last paper that is sound."""

    def ask(begun: str) -> str:
        return screen.ask(prompt, shamir.words, has_back, begun)

    text = ask("")
    while screen.is_pasted(PASTE_SECONDS) or (not _is_sound(text, counting) and screen.goes_on()):
        more, is_cut = screen.pasted(PASTE_MAX)
        *lines, last = more.split("\n")
        if is_cut:
            screen.tell_seen(say("paste.cut", end=" ".join(more.split()[-2:])))
        text = "\n".join([text, *lines, ask(last) if last else ""])
    return text


def _is_sound(text: str, counting: Counting) -> bool:
    """Whether a text is papers that are sound, and nothing else."""
    texts = papers_in(text, counting([]))
    return bool(texts) and all(judged(it, counting)[0] is not None for it in texts)


class _Lines:
    """The lines of a paste. `wanted` is how many words each paper has, if that is known."""

    def __init__(self, text: str, wanted: Optional[int]):
        self._lines, self._wanted = text.split("\n"), wanted
        self._parts = [parts_of(line) for line in self._lines]
        self._counts = [len(parts) for parts in self._parts]
        # How many words are in the lines before each one.
        self._before = [0, *itertools.accumulate(self._counts)]
        self._tries = TRIES_MAX
        self._known: Dict[str, Optional[str]] = {}
        self._is_known = [all(self._word(mark) for _, mark in parts) for parts in self._parts]

    def papers(self) -> List[str]:
        """Returns the text of each paper. A sound one ends with its last word, and another one before the next that is sound, or that
        begins by what its first line says."""
        found: List[str] = []
        at = 0
        while at < len(self._lines):
            end = self._end(at)
            text = "\n".join(self._lines[at:end]).strip()
            if any(self._counts[at:end]):
                found.append(text)
            at = end
        return found

    def _end(self, begin: int) -> int:
        """Returns the line after the paper that begins with a line."""
        sound = self._sound_end(begin)
        if sound is not None:
            return sound
        if self._counts[begin] == self._wanted:
            return begin + 1
        for at in range(begin + 1, len(self._lines)):
            if self._begins(begin, at) or (self._counts[at] and self._sound_end(at) is not None):
                return at
        return len(self._lines)

    def _sound_end(self, begin: int) -> Optional[int]:
        """Returns the line after the sound paper that begins with a line, or None if there is none."""
        count = 0
        for at in range(begin, len(self._lines)):
            count += self._counts[at]
            if count > MOST or not self._is_known[at]:
                return None
            if count >= LEAST and self._counts[at] and self._is_sound(begin, at + 1):
                return at + 1
        return None

    def _begins(self, begin: int, at: int) -> bool:
        """Whether a line begins another paper than the one that begins with the line `begin`."""
        before = self._before[at] - self._before[begin]
        if not before or not self._lines[at].strip():
            return False
        is_apart = before >= LEAST and not self._lines[at - 1].strip()
        is_first = bool(self._counts[at]) and self._parts[at][0][0] == 1
        is_whole = self._counts[at] >= LEAST and before + self._counts[at] > (self._wanted or 0)
        return is_apart or is_first or is_whole or bool(HEADING.search(self._lines[at].lower()))

    def _is_sound(self, begin: int, end: int) -> bool:
        """Whether lines are a sound paper. Once too many were tried, no others are."""
        if not self._tries:
            return False
        self._tries -= 1
        marks, misplaced = placed([], [part for parts in self._parts[begin:end] for part in parts])
        words = [self._word(mark) for mark in marks]
        if misplaced or not all(words):
            return False
        try:
            shamir.parse(" ".join(word or "" for word in words))
        except shamir.Refusal:
            return False
        return True

    def _word(self, mark: str) -> Optional[str]:
        """Returns the word that a mark stands for, or None."""
        if mark not in self._known:
            word = read(mark) if mark else None
            self._known[mark] = None if word is None or "?" in word else word
        return self._known[mark]


def papers_in(text: str, wanted: Optional[int]) -> List[str]:
    """Returns the text of each paper of a paste, in its order."""
    return _Lines(text, wanted).papers()
