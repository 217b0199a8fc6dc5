"""What was typed or pasted, as words; and words of the list that look like another word."""
from __future__ import annotations

import re
from dataclasses import dataclass, field
from typing import Dict, Iterator, List, Optional, Sequence, Tuple

import shamir

# A BIP-39 backup most often has one of these numbers of words.
BIP39_COUNTS = (12, 24)
# At least one of so many of its words isn't in the list, unlike those of half a paper that is typed with a slip.
BIP39_PART = 4
NEAREST_MAX = 3
# A word is named for another one if at most this part of its letters differs.
DIFFERENT_MOST = 0.4
DROP = "-"
TAKEN_OUT = re.compile(r"-\s*(\d+\.\d+)")
# What stands above or before the words of a paper. 'paper' is a word of the list too.
HEADING = re.compile(r"slip-?0*39|paper\s+\d+\.\d+|\b(?:1[0-5]|\d)\.(?:1[0-5]|\d)\b(?!\.\w)")
# No paper has more words, and none has fewer.
MOST, LEAST = 110, 20

# A longer text is no word, and a longer number no place.
PIECE_MAX = 20

# The number that stands before a word, or None, and the word, or a mark with a question mark.
Part = Tuple[Optional[int], str]


@dataclass(frozen=True)
class Misplaced:
    """Words that have no place: several have one number, or no word of a paper has that number."""

    number: int
    words: Tuple[str, ...] = field(repr=False)

    @property
    def is_twice(self) -> bool:
        return 1 <= self.number <= MOST


def parts_of(text: str) -> List[Part]:
    """Returns the words of a text in small letters, and the marks with a question mark, each with the number before it. A heading is
    left out. A line that stands for a word, or for the end of one, is a question mark."""
    return list(_parts(re.split(r"[^\w?]+", HEADING.sub(" ", text.lower()))))


def _parts(pieces: Sequence[str]) -> Iterator[Part]:
    number: Optional[int] = None
    for piece in pieces:
        word = piece.lstrip("0123456789")
        digits = piece[: len(piece) - len(word)]
        number = int(digits.lstrip("0")[:PIECE_MAX] or "0") if digits else number
        if word:
            yield number, re.sub(r"[?_]+$", "?", word[:PIECE_MAX])
            number = None


def placed(marks: Sequence[str], parts: Sequence[Part]) -> Tuple[List[str], List[Misplaced]]:
    """Returns marks with further ones at the places that their numbers name, and those that have no place. An empty text stands at a place
    that is still empty, or for which there is more than one. A mark without a number comes after the one before it, and the first of all
    to the first empty place."""
    found = {number: mark for number, mark in enumerate(marks, 1) if mark}
    misplaced: Dict[int, List[str]] = {}
    number = next(at for at in range(len(found) + 1) if at + 1 not in found)
    for given, mark in parts:
        number = number + 1 if given is None else given
        is_beyond = not 1 <= number <= MOST and (given is not None or number - 1 in misplaced)
        if is_beyond or number in misplaced:
            misplaced.setdefault(number, []).append(mark)
        elif found.setdefault(number, mark) != mark:
            misplaced[number] = [found.pop(number), mark]
    return _row(found), [Misplaced(number, tuple(words)) for number, words in misplaced.items()]


def continued(marks: Sequence[str], number: int, parts: Sequence[Part]) -> Optional[List[str]]:
    """Returns marks with what was typed where one is asked for: the word with that number, and perhaps words that follow, at places that
    are empty or have the same word. If nothing was typed, or it contradicts another word, returns None. As many words as a whole paper has
    take the place of all."""
    if len(parts) == len(marks) >= LEAST:
        return placed([], parts)[0]
    found = {at: mark for at, mark in enumerate(marks, 1) if mark and at != number}
    at = number - 1
    for given, mark in parts:
        at = at + 1 if given is None else given
        if not 1 <= at <= MOST or found.setdefault(at, mark) != mark:
            return None
    return _row(found) if parts else None


def _row(found: Dict[int, str]) -> List[str]:
    return [found.get(at, "") for at in range(1, max(found, default=0) + 1)]


def numbers_of(text: str) -> List[int]:
    """Returns the numbers of a text that has nothing else, and else none."""
    pieces = [piece for piece in re.split(r"[\s,.]+", text) if piece]
    return [int(piece) for piece in pieces] if all(piece.isdecimal() and piece.isascii() for piece in pieces) else []


def has_idle_number(text: str) -> bool:
    """Whether a number of a text stands before no word, apart from a heading."""
    return re.search(r"\b\d+(?!\w)[^\w?]*(\d|$)", HEADING.sub(" ", text.lower())) is not None


def said_empty(marks: Sequence[str]) -> str:
    """Returns the numbers of the places that are still empty, such as '2 to 5, 7'."""
    runs: List[List[int]] = []
    for number in (at for at, mark in enumerate(marks, 1) if not mark):
        if runs and runs[-1][-1] == number - 1:
            runs[-1].append(number)
        else:
            runs.append([number])
    return ", ".join(str(run[0]) if len(run) == 1 else f"{run[0]}, {run[1]}" if len(run) == 2 else f"{run[0]} to {run[-1]}" for run in runs)


def taken_out(text: str) -> Optional[str]:
    """Returns the name of the paper that a text such as '-0.1' takes out, or None."""
    found = TAKEN_OUT.fullmatch(text.strip())
    return found[1] if found else None


def read(mark: str) -> Optional[str]:
    """Returns the word that a mark stands for, or the mark if its letters stand for some words. If it is neither, returns None."""
    if mark.endswith("?"):
        return mark if shamir.words(mark[:-1]) else None
    found = shamir.words(mark)
    return mark if mark in found else found[0] if len(found) == 1 else None


def nearest(word: str) -> List[str]:
    """Returns words of the list that look like a word that isn't in it, the nearest first. They are named, and never taken."""
    letters = word.replace("?", "")
    if not letters:
        return []
    rows = sorted((_far(letters, it), it) for it in shamir.words(""))
    alike = [it for far, it in rows if far <= DIFFERENT_MOST * len(letters)]
    return (alike or shamir.words(letters[:3]))[:NEAREST_MAX]


def _far(letters: str, word: str) -> float:
    """Returns how far letters are from a word. Four letters identify a word, so one that was cut short is near to those that begin so."""
    return min(distance(letters, word), distance(letters, word[: len(letters)]) + 0.5)


def distance(one: str, other: str) -> int:
    """Returns how many letters must be added, left out, changed or exchanged with their neighbour to turn one word into the other."""
    rows: List[List[int]] = [[*range(len(other) + 1)]]
    for i, letter in enumerate(one, 1):
        row = [i]
        for j, its in enumerate(other, 1):
            least = min(rows[-1][j] + 1, row[-1] + 1, rows[-1][j - 1] + (letter != its))
            is_exchanged = i > 1 and j > 1 and letter == other[j - 2] and one[i - 2] == its
            row.append(min(least, rows[-2][j - 2] + 1) if is_exchanged else least)
        rows.append(row)
    return rows[-1][-1]


def seems_bip39(marks: Sequence[str]) -> bool:
    """Whether marks are likely to be a BIP-39 backup."""
    return len(marks) in BIP39_COUNTS and sum(read(mark) is None for mark in marks) * BIP39_PART >= len(marks)
