"""Marks, which are words or stand for some: whether they are a paper, why not, and how many a paper has."""
from __future__ import annotations

from typing import Callable, List, Optional, Sequence, Tuple

import shamir
from shamir.papers.desk import Paper, paper_of
from shamir.papers.refusals import said_refusal
from shamir.papers.spelling import nearest, parts_of, placed, read
from shamir.papers.texts import counted, say

# Most papers have one of these numbers of words.
FEW, MANY = 20, 33
# So many words are named of those that begin with some letters.
NAMED_MAX = 8

# Returns how many words a paper has that begins with these marks, or None if that isn't known.
Counting = Callable[[Sequence[str]], Optional[int]]


def unknown(marks: Sequence[str]) -> Optional[int]:
    """Returns how many words a paper has, before anything is known of it."""
    return None


def refused(marks: Sequence[str]) -> Optional[shamir.Refusal]:
    """Returns why the library refuses marks, or None. If the checksum is wrong, it says where the wrong word is, if it can tell."""
    try:
        shamir.repair(" ".join(marks))
    except shamir.Refusal as refusal:
        return refusal
    return None


def judged(text: str, counting: Counting) -> Tuple[Optional[Paper], str]:
    """Returns the paper that a text is, or why it is none that is sound."""
    marks, misplaced = placed([], parts_of(text))
    if misplaced:
        first = misplaced[0]
        return None, say("paste.gap" if first.is_twice else "entry.beyond", number=first.number, words=", ".join(first.words))
    words: List[str] = []
    for number, mark in enumerate(marks, 1):
        word = read(mark) if mark else None
        if word is None:
            return None, said_unknown(number, mark) if mark else say("paste.gap", number=number)
        words.append(word)
    refusal, wanted = refused(words), counting(words)
    if refusal is not None:
        is_count = refusal.code == shamir.Code.WORD_COUNT or wanted not in (None, len(words))
        return None, said_count(len(words), wanted) if is_count else said_refusal(refusal)
    return (None, say("paste.open")) if "?" in " ".join(words) else (paper_of(" ".join(words)), "")


def said_unknown(number: int, mark: str, is_whole: bool = False) -> str:
    """Says why a mark stands for no word, and what it may be. `is_whole` says that no question mark may stand for letters."""
    if "?" in mark:
        return say("entry.mark.none" if is_whole else "entry.mark", number=number, word=mark)
    several = shamir.words(mark)
    if several:
        return say("entry.several", number=number, word=mark, nearest=", ".join(several[:NAMED_MAX]))
    near = nearest(mark)
    return say("entry.unknown", number=number, word=mark, nearest=f" ({', '.join(near)}?)" if near else "")


def said_count(count: int, wanted: Optional[int]) -> str:
    """Says how many words are typed, how many a paper has, and how many are missing or too many. `wanted` is how many this one has, if
    that is known."""
    typed = counted(count, "word")
    if wanted:
        words = counted(wanted, "word")
        if count > wanted:
            return say("entry.count.over", count=typed, words=words, excess=counted(count - wanted, "excess"))
        return say("entry.count.wanted", count=count, words=words, missing=counted(wanted - count, "missing"))
    if count < FEW:
        return say("entry.count.few", count=typed, few=FEW, many=MANY, missing=counted(FEW - count, "missing"), others=MANY - count)
    if count < MANY:
        return say("entry.count.between", count=typed, few=FEW, many=MANY, excess=counted(count - FEW, "excess"), missing=counted(MANY - count, "missing"))
    return say("entry.count.beyond", count=typed, few=FEW, many=MANY, excess=counted(count - MANY, "excess"))
