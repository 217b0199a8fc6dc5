"""Words that the library found for those that can't be read: how they are shown, and whether the owner takes them."""
from __future__ import annotations

import dataclasses
from typing import List, Mapping, Optional, Sequence

import shamir
from shamir.papers.desk import Paper, paper_of
from shamir.papers.screen import Screen
from shamir.papers.texts import counted, say


def ask_paper(screen: Screen, marks: List[str], typed: Mapping[int, str] = {}) -> Optional[Paper]:
    """Returns the paper of marks. If words were left open, the owner says whether those that were found are right; if not, None. `typed`
    has the words that the owner had typed before at open places."""
    line = " ".join(marks)
    if "?" not in line:
        return paper_of(line)
    fits = possible(screen, [repaired(fit) for fit in shamir.repair(line)])
    if not fits:
        return None
    screen.tell(say("entry.fits"))
    for number, fit in enumerate(fits, 1):
        if len(fits) > 1:
            screen.tell(say("damaged.which", number=number, name=fit.name))
        show_found(screen, fit, marks, typed)
    tell_limits(screen, marks)
    tell_miswritten(screen, fits, marks, typed)
    if len(fits) == 1:
        return fits[0] if screen.agree(say("damaged.sure", name=fits[0].name)) else None
    return screen.choose(say("entry.take.which"), {"0": None, "1": fits[0], "2": fits[1]})


def tell_miswritten(screen: Screen, fits: Sequence[Paper], marks: Sequence[str], typed: Mapping[int, str]) -> None:
    """Says what it means if the paper says what was typed before at an open place, and another word was found there."""
    if any(marks[number - 1].endswith("?") and fit.words[number - 1] != word for fit in fits for number, word in typed.items()):
        screen.tell(say("entry.miswritten"))


def possible(screen: Screen, fits: Sequence[Paper]) -> List[Paper]:
    """Returns the papers that a backup can have. If there are none, says of each that no backup has it."""
    found = [fit for fit in fits if fit.is_possible]
    for fit in [] if found else fits:
        screen.tell(say("damaged.impossible", name=fit.name, groups=counted(fit.group_count, "group")), "bad")
    return found


def repaired(fit: str) -> Paper:
    """Reads a paper that the library repaired."""
    return dataclasses.replace(paper_of(fit), is_repaired=True)


def opened(marks: Sequence[str]) -> int:
    """Returns how many words are open: their marks stand for more than one word."""
    return sum(mark.endswith("?") and len(shamir.words(mark[:-1])) > 1 for mark in marks)


def tell_limits(screen: Screen, marks: Sequence[str]) -> None:
    """Says what isn't noticed if so many words are open."""
    count = opened(marks)
    if count:
        screen.tell(say("damaged.limits", case=say(f"damaged.limits.{count}")))


def show_found(screen: Screen, fit: Paper, marks: Sequence[str], typed: Mapping[int, str] = {}) -> None:
    """Shows the words of a paper where they differ from what was typed, and what else was typed there before."""
    found = [(number, word) for number, (word, mark) in enumerate(zip(fit.words, marks), 1) if word != mark]
    for number, word in found:
        before = f" {say('entry.place.typed', word=typed[number])}" if typed.get(number, word) != word else ""
        screen.item(f"{say('entry.place', number=number)}: {word}{before}")
    screen.gap()
