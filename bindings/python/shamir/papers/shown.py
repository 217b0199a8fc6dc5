"""A paper on the screen, to be written down, and typed back from what was written."""
from __future__ import annotations

import dataclasses
from dataclasses import dataclass
from typing import Sequence

from shamir.papers.desk import Desk, Paper, fit, is_same
from shamir.papers.entry import Entry
from shamir.papers.plan import Plan, said_takes
from shamir.papers.screen import Screen
from shamir.papers.spelling import DROP
from shamir.papers.texts import say


@dataclass(frozen=True)
class Shown:
    """A paper to be written down, what it takes to be of use, and which of the papers it is."""

    paper: Paper
    takes: str
    place: str = ""

    def title(self, key: str) -> str:
        return say(key, name=self.paper.name) + (f" ({self.place})" if self.place else "")


def show_paper(screen: Screen, shown: Shown) -> None:
    """Shows a paper until the owner has written it down, and clears it. Words that are typed too early clear nothing."""
    fault = ""

    def draw() -> bool:
        nonlocal fault
        screen.clear(shown.title("paper.title"))
        if fault:
            screen.tell(fault, "bad")
        screen.tell(shown.takes)
        screen.tell(say("paper.how", name=shown.paper.name))
        screen.words(shown.paper.words)
        is_alone = screen.pause(say("new.write.plain" if screen.is_plain else "new.write"))
        fault = "" if is_alone else say("new.write.alone")
        return is_alone

    # In a terminal of another size, the words are laid out anew.
    screen.show_until(draw)
    screen.clear("")


def type_back(screen: Screen, desk: Desk, shown: Shown) -> None:
    """Lets the owner type a paper back until it is right, and see it again meanwhile. Then it is one of those that were typed."""
    paper, count = shown.paper, len(shown.paper.words)

    def begin() -> None:
        screen.clear(shown.title("back.title"))
        screen.tell(say("back.how"))

    def show_again() -> None:
        show_paper(screen, shown)
        begin()

    begin()
    screen.tell(say("entry.how.whole"))
    entry = Entry(screen, lambda marks: count, "back", show_again)
    while True:
        marks = entry.read(say("back.ask", name=paper.name))
        if not marks:
            show_again()
            continue
        if marks[0].startswith(DROP):
            screen.tell(say("entry.wordless"), "bad")
            continue
        typed = entry.paper(marks)
        if typed is not None and _is_right(screen, paper, typed):
            desk.add(dataclasses.replace(typed, is_repaired=paper.is_repaired, is_answered=paper.is_answered, is_rewritten=True))
            screen.tell_next(say("back.same", name=paper.name))
            return


def _is_right(screen: Screen, paper: Paper, typed: Paper) -> bool:
    """Whether a paper is the one that was shown. If it isn't, says so."""
    if is_same(paper, typed):
        return True
    screen.drop_typed()
    is_foreign = typed.id != paper.id or typed.name == paper.name or not fit(paper, typed)
    screen.tell(say("back.foreign" if is_foreign else "back.other", name=paper.name, typed=typed.name), "bad")
    return False


def write_and_type_back(screen: Screen, desk: Desk, paper: Paper, takes: str) -> None:
    """Shows a paper, and lets the owner type it back until it is right."""
    shown = Shown(paper, takes)
    show_paper(screen, shown)
    type_back(screen, desk, shown)


def write_all(screen: Screen, desk: Desk, plan: Plan, papers: Sequence[Paper]) -> None:
    """Shows the papers of a new backup one after the other, and then lets the owner type each back."""
    count = len(papers)
    shown = [Shown(paper, said_takes(plan, paper.name), say("paper.place", number=number, count=count)) for number, paper in enumerate(papers, 1)]
    for it in shown:
        show_paper(screen, it)
    screen.clear(say("back.begin.title"))
    screen.tell(say("back.begin"))
    screen.pause(say("screen.next"))
    for it in shown:
        type_back(screen, desk, it)
    shown.clear()
