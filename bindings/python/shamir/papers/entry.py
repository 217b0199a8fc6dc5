"""The entry of a paper: words that are typed or pasted in one line or several, until the library answers.

A word that isn't in the list is asked for again, and so is the word that the library says is wrong. Nothing is corrected unless it
is typed, and what was typed stays: what has no place stands again behind the question.
"""
from __future__ import annotations

from typing import Callable, Dict, List, Optional, Sequence

import shamir
from shamir.papers.desk import Paper, resembles
from shamir.papers.found import ask_paper
from shamir.papers.marks import FEW, MANY, Counting, judged, refused, said_count, said_unknown, unknown
from shamir.papers.paste import Pasted, ask_whole, papers_in
from shamir.papers.refusals import said_refusal, wrong_word
from shamir.papers.screen import Screen
from shamir.papers.spelling import DROP, LEAST, Part, continued, has_idle_number, numbers_of, parts_of, placed, read, said_empty
from shamir.papers.spelling import seems_bip39, taken_out
from shamir.papers.terminal import PASTE_MAX
from shamir.papers.texts import counted, say

# If more words than this part of them aren't in the list, they are of another list.
UNKNOWN_PART = 3
# From so many words on, that can be told.
TOLD_LEAST = 4
# So many words, such as a number and its word, are typed again sooner than they are changed.
SHORT = 2


class Begun(Exception):
    """The owner begins the paper again."""


class Entry:
    """Reads papers. `counting` tells how many words a paper has, as far as that is known. `task` has its own words for some refusals.
    `show` shows the paper again that is typed back, if it is one: then no question mark may stand for letters. `leave` takes the words of
    a paper that the owner begins again or leaves out. `takes_several` says that several papers may be pasted at once."""

    def __init__(
        self,
        screen: Screen,
        counting: Counting = unknown,
        task: str = "",
        show: Optional[Callable[[], None]] = None,
        leave: Callable[[List[str]], None] = lambda words: None,
        takes_several: bool = False,
    ):
        self._takes_several = takes_several
        self._screen, self._counting, self._task, self._show, self._leave = screen, counting, task, show, leave
        # What was typed so far, and by their numbers the words that a question mark has taken the place of.
        self._marks: List[str] = []
        self.replaced: Dict[int, str] = {}
        # Whether the owner was told that many words aren't in the list.
        self._is_told = False
        # Whether the owner was asked for words that follow, and typed some.
        self._is_continued = False

    def read(self, prompt: str, typed: str = "", has_back: bool = False) -> List[str]:
        """Returns the marks of a paper that the library found sound or can repair, or nothing if Enter alone is typed. An empty line of a
        paste is no Enter.

        If a paper is to be taken out, returns the sign for that with its name. `typed` was typed before, as an answer to this question.
        `has_back` says that the owner may go back instead. Raises Pasted if several papers are pasted at once, and may be.
        """
        while True:
            is_pasted = self._screen.is_pasted(0)
            text, typed = self._one_of(typed or ask_whole(self._screen, prompt, self._counting, has_back)), ""
            name = taken_out(text)
            if name is not None:
                return [DROP + name]
            parts, self._is_continued, self._is_told = parts_of(text), False, False
            self._marks, self.replaced = [], {}
            if not text.strip():
                if is_pasted or "\n" in text:
                    continue
                return []
            try:
                marks = self._placed([], parts)
                if marks:
                    return self._whole(marks)
                if not parts:
                    self._screen.fault(say("entry.wordless"))
            except Begun:
                self._dropped()

    def _dropped(self) -> None:
        """Takes note of what was typed of a paper that isn't taken."""
        self._screen.drop_typed()
        self._leave([mark for mark in self._marks if mark])
        self._marks = []

    def paper(self, marks: List[str]) -> Optional[Paper]:
        """Returns the paper of marks. If the owner doesn't take the words that were found, marks are changed. Returns None if the owner
        begins the paper again."""
        while marks:
            paper = ask_paper(self._screen, marks, self.replaced)
            if paper is not None:
                return paper
            marks = self.changed(marks)
        return None

    def changed(self, marks: List[str]) -> List[str]:
        """Returns marks of which the owner has typed some again, or nothing if the owner begins the paper again."""
        self._tell_typed(marks)
        self._screen.tell(say("entry.kept"))
        self._marks = marks
        try:
            return self._whole(self._again(marks, None))
        except Begun:
            self._dropped()
            return []

    def _one_of(self, text: str) -> str:
        """Returns the only paper that was typed or pasted, or the first of several. Raises Pasted if several may be taken."""
        texts = papers_in(text, self._counting([]))
        if len(texts) > 1:
            if self._takes_several:
                raise Pasted(texts)
            self._screen.tell_seen(say("paste.only", papers=counted(len(texts), "paper")))
        return texts[0] if texts else text

    def _ask(self, prompt: str, begun: str = "", has_back: bool = False) -> str:
        return self._screen.ask(prompt, shamir.words, has_back, begun)

    def _asked(self, prompt: str, begun: str = "", is_continued: bool = False) -> str:
        """Asks for a part of a paper. The owner may begin the paper again instead. `is_continued` says that words may follow."""
        text = self._ask(prompt, begun)
        # The sign may stand behind what was refused, and stands in the line again.
        if text.strip() == DROP or (begun and text.split()[-1:] == [DROP]):
            raise Begun
        if self._takes_several:
            self._heed_others(text, is_continued)
        return text

    def _heed_others(self, text: str, is_continued: bool) -> None:
        """If other papers are pasted where a part of this one is asked for, raises Pasted with this one and all that are pasted.
        `is_continued` says that this one may go on before them."""
        texts = papers_in(f"{text}\n{self._screen.ahead(PASTE_MAX)}", self._counting(self._marks))
        marks = [[mark for _, mark in parts_of(it)] for it in texts]
        if not any(self._is_other(it) and judged(text, self._counting)[0] is not None for text, it in zip(texts, marks)):
            return
        self._screen.pasted(PASTE_MAX)
        begun = " ".join(f"{number} {mark}" for number, mark in enumerate(self._marks, 1) if mark)
        if len(marks[0]) < LEAST and is_continued:
            texts[0] = f"{begun}\n{texts[0]}"
        elif self._is_other(marks[0]):
            texts.insert(0, begun)
        raise Pasted(texts)

    def _is_other(self, marks: Sequence[str]) -> bool:
        """Whether marks aren't the paper that is being typed."""
        return len(marks) < LEAST or not resembles(self._words(marks), self._words(self._marks))

    def _words(self, marks: Sequence[str]) -> List[str]:
        return [read(mark) or mark for mark in marks if mark]

    def _tell_other(self, parts: Sequence[Part]) -> None:
        """Takes note of the paper that was begun, and says that it isn't taken, if another one has taken its place."""
        if len(parts) >= LEAST and self._is_other([mark for _, mark in parts]):
            self._leave([mark for mark in self._marks if mark])
            self._screen.tell_seen(say("screen.dropped"))

    def _until_placed(self, prompt: str, change: Callable[[List[Part]], Optional[List[str]]], fault: str) -> List[str]:
        """Asks until what is typed has a place. What has none stands again behind the question if it is long. A paper that is typed back
        may be shown again."""
        begun = ""
        while True:
            text = self._asked(prompt, begun)
            if not text.strip() and self._show is not None:
                self._show()
                begun = ""
                continue
            parts = [(number, self._read(mark) or mark) for number, mark in parts_of(text)]
            changed = None if has_idle_number(text) else change(parts)
            if changed is not None:
                self._tell_other(parts)
                return changed
            begun = f"{text.rstrip()} " if len(text.split()) > SHORT else ""
            self._screen.fault(f"{fault} {say('entry.stays')}" if begun else fault)

    def _prompt(self, number: Optional[int] = None) -> str:
        """Returns the question for the word with this number, or for words that the owner names by their numbers."""
        if number is None:
            return say("entry.numbered" if self._show is None else "entry.numbered.back", sign=DROP)
        return say("entry.word" if self._show is None else "entry.word.back", number=number, sign=DROP)

    def _placed(self, marks: List[str], parts: Sequence[Part]) -> List[str]:
        """Returns marks with further ones in their places. If there are two for a place, it stays empty."""
        found, misplaced = placed(marks, parts)
        if misplaced:
            self._screen.drop_typed()
        for it in misplaced:
            self._screen.tell(say("entry.twice" if it.is_twice else "entry.beyond", number=it.number, words=", ".join(it.words)), "bad")
        return found

    def _whole(self, marks: List[str]) -> List[str]:
        """Asks for what is missing or wrong, until the library finds the whole sound or can repair it."""
        while True:
            marks = self._marks = self._spelled(marks)
            if "" in marks:
                marks = self._filled(marks)
                continue
            refusal, wanted = refused(marks), self._counting(marks)
            if refusal is None:
                return marks
            is_whole = wanted in (None, len(marks)) and refusal.code != shamir.Code.WORD_COUNT
            is_over = wanted is not None and len(marks) > wanted
            marks = self._corrected(marks, refusal) if is_whole else self._shortened(marks, wanted) if is_over else self._more(marks, wanted)

    def _filled(self, marks: List[str]) -> List[str]:
        """Asks for the words whose numbers were left out."""
        count = counted(len(marks) - marks.count(""), "word")
        text = self._asked(say("entry.gap", count=count, last=len(marks), numbers=said_empty(marks), sign=DROP))
        return self._placed(marks, parts_of(text))

    def _more(self, marks: List[str], wanted: Optional[int]) -> List[str]:
        """Asks for the words that follow. If there are none, the owner sees what was typed. If there may be too many, a number alone takes
        that word out. If all are taken out, the paper is begun again."""
        if not marks:
            raise Begun
        key = "entry.on.many" if not wanted and len(marks) > FEW else "entry.on"
        text = self._asked(say(key, typed=said_count(len(marks), wanted), number=len(marks) + 1, sign=DROP), is_continued=True)
        parts, numbers = parts_of(text), numbers_of(text)
        if numbers and key == "entry.on.many":
            return self._without(marks, numbers)
        if not parts:
            self._tell_typed(marks)
            self._screen.tell(say("entry.compare", sign=DROP))
        self._is_continued = True
        return self._placed(marks, parts)

    def _shortened(self, marks: List[str], wanted: Optional[int]) -> List[str]:
        """Asks which words are too many. As many words as a paper has take the place of all."""
        self._tell_typed(marks)
        self._screen.fault(said_count(len(marks), wanted))
        while True:
            text = self._asked(say("entry.over", sign=DROP))
            parts = parts_of(text)
            if len(parts) == wanted:
                self._tell_other(parts)
                return self._anew(parts)
            shorter = self._without(marks, numbers_of(text))
            if len(shorter) < len(marks):
                return shorter
            self._screen.fault(say("entry.over.numbers", count=len(marks)))

    def _without(self, marks: Sequence[str], numbers: Sequence[int]) -> List[str]:
        """Returns marks without those that have these numbers. Those after them get other numbers."""
        kept = [number for number in range(1, len(marks) + 1) if number not in numbers]
        self.replaced = {at: self.replaced[number] for at, number in enumerate(kept, 1) if number in self.replaced}
        return [marks[number - 1] for number in kept]

    def _anew(self, parts: Sequence[Part]) -> List[str]:
        """Returns marks that take the place of all that was typed."""
        self.replaced = {}
        return self._placed([], parts)

    def _tell_typed(self, marks: List[str]) -> None:
        self._screen.tell(say("entry.typed"))
        self._screen.words(marks)

    def _spelled(self, marks: List[str]) -> List[str]:
        """Returns the words that marks stand for. Each that stands for none is asked for again, and nothing else."""
        if "" not in marks:
            self._tell_standard(marks)
        while True:
            found = [self._read(mark) for mark in marks]
            marks = [mark if word is None else word for mark, word in zip(marks, found)]
            if None not in found:
                return marks
            marks = self._mended(marks, found.index(None) + 1)

    def _tell_standard(self, marks: List[str]) -> None:
        """Says if marks are likely to be of a BIP-39 backup."""
        is_other = [self._read(mark) for mark in marks].count(None) * UNKNOWN_PART > len(marks)
        if seems_bip39(marks):
            self._screen.fault(say("entry.bip39", count=len(marks)))
            if is_other:
                raise Begun
        elif is_other and len(marks) >= TOLD_LEAST and self._show is None and not self._is_told:
            self._is_told = True
            self._screen.tell(say("entry.other_list"), "bad")

    def _read(self, mark: str) -> Optional[str]:
        """Returns the word of a mark, or None if it stands for none. A place that is still empty stays so."""
        if not mark:
            return mark
        return None if "?" in mark and self._show is not None else read(mark)

    def _mended(self, marks: List[str], number: int) -> List[str]:
        """Asks for a word again that isn't one. Words that follow are taken too if they contradict none that was typed."""
        self._marks = marks
        self._screen.fault(said_unknown(number, marks[number - 1], self._show is not None))
        mended = self._until_placed(self._prompt(number), lambda parts: continued(marks, number, parts), say("entry.one", number=number))
        self._note_replaced(marks, dict(enumerate(mended[:number], 1)))
        return mended

    def _note_replaced(self, marks: Sequence[str], new: Dict[int, str]) -> None:
        """Takes note of the words that question marks take the place of."""
        self.replaced |= {number: marks[number - 1] for number, mark in new.items() if mark.endswith("?") and marks[number - 1].isalpha()}

    def _corrected(self, marks: List[str], refusal: shamir.Refusal) -> List[str]:
        """Says what is wrong, and asks for the words that are. The owner may also type words that follow, or begin again."""
        self._tell_typed(marks)
        self._screen.fault(said_refusal(refusal, self._task))
        if refusal.code in (shamir.Code.BAD_PADDING, shamir.Code.GROUP_THRESHOLD):
            raise Begun
        if refusal.code == shamir.Code.BAD_CHECKSUM:
            count = len(marks)
            if count != self._counting(marks):
                self._screen.tell(say("entry.longer", count=count) if count in (FEW, MANY) else said_count(count, None))
            if self._is_continued:
                self._screen.tell(say("entry.left_out", sign=DROP))
        return self._again(marks, wrong_word(refusal))

    def _again(self, marks: List[str], place: Optional[int]) -> List[str]:
        """Asks for words again that are wrong: for the one at a place, or for those that the owner names by their numbers."""
        return self._until_placed(self._prompt(place), lambda parts: self._changed(marks, parts, place), say("entry.numbers", count=len(marks)))

    def _changed(self, marks: List[str], parts: List[Part], place: Optional[int]) -> Optional[List[str]]:
        """Returns the marks with what was typed in its place, or None if it has no place. As many words as there are take the place of
        all."""
        if place and len(parts) == 1:
            parts = [(parts[0][0] or place, parts[0][1])]
        numbers, count = [number for number, _ in parts], len(marks)
        if parts and all(number and number <= count for number in numbers) and len(set(numbers)) == len(numbers):
            new = {number: mark for number, mark in parts if number}
            self._note_replaced(marks, new)
            return [new.get(number, mark) for number, mark in enumerate(marks, 1)]
        if len(parts) == count:
            return self._anew(parts)
        if parts and count != self._counting(marks) and numbers[0] in (None, count + 1) and all(self._read(mark) for _, mark in parts):
            return self._placed(marks, parts)
        return None
