"""The task 'repair': the library finds the words of a damaged paper that can't be read, or says where words may be wrong."""
from __future__ import annotations

from typing import List, Mapping, Optional, Tuple

import shamir
from shamir.papers.check import collect_and_check
from shamir.papers.desk import Desk, Paper, paper_of
from shamir.papers.entry import Entry
from shamir.papers.found import opened, possible, repaired, show_found, tell_limits, tell_miswritten
from shamir.papers.plan import said_takes_alone
from shamir.papers.screen import Screen
from shamir.papers.shown import write_and_type_back
from shamir.papers.spelling import DROP
from shamir.papers.texts import say


def read_damaged(screen: Screen, desk: Desk) -> None:
    """Reads a damaged paper. The owner may then write it anew, type it back, and check it together with other papers."""
    paper = _ask_damaged(screen)
    if paper is None:
        return
    desk.written = "repaired"
    screen.hold(say("end.repaired"))
    write_and_type_back(screen, desk, paper, said_takes_alone(paper))
    collect_and_check(screen, desk, say("damaged.check.title"), say("damaged.check.intro"), say("damaged.drill"), say("damaged.too_few"))


def _ask_damaged(screen: Screen) -> Optional[Paper]:
    """Lets the owner type what can be read. Returns the paper to be written anew, or None to end."""
    while True:
        screen.hold("")
        screen.clear(say("damaged.title"))
        screen.tell(say("damaged.intro"))
        screen.item(say("damaged.letters"))
        screen.item(say("damaged.nothing"))
        screen.gap()
        screen.tell(say("damaged.first"))
        entry = Entry(screen, task="damaged")
        marks = entry.read(say("damaged.ask"), has_back=True)
        chosen, fits = _choose(screen, entry, [] if marks and marks[0].startswith(DROP) else marks)
        if chosen != "again":
            return None if chosen == "end" else fits[int(chosen)]


def _choose(screen: Screen, entry: Entry, marks: List[str]) -> Tuple[str, List[Paper]]:
    """Shows the papers that fit marks, until the owner changes no more words. Returns what the owner chose, and these papers."""
    while marks:
        line = " ".join(marks)
        screen.hold(say("end.typed"))
        fits = possible(screen, [repaired(fit) for fit in shamir.repair(line)]) if "?" in line else [paper_of(line)]
        chosen = _tell(screen, fits, marks, entry.replaced)
        if chosen != "change":
            return chosen, fits
        marks = entry.changed(marks)
    return "again", []


def _tell(screen: Screen, fits: List[Paper], marks: List[str], typed: Mapping[int, str]) -> str:
    """Shows the papers that fit, and what was typed before at open places. Returns the place of the one to be written anew, or 'change', 'again' or 'end'."""
    is_two = len(fits) > 1
    if not fits:
        return screen.choose(say("damaged.menu.none"), {"c": "change", "t": "again", "e": "end"})
    screen.tell(say("damaged.two") if is_two else say("damaged.one", name=fits[0].name), "strong")
    if is_two:
        screen.tell(say("damaged.two.why"))
        screen.tell(say("damaged.two.which"))
    for number, fit in enumerate(fits, 1):
        if is_two:
            screen.tell(say("damaged.which", number=number, name=fit.name), "strong")
        show_found(screen, fit, marks, typed)
    is_open = opened(marks) > 0
    if is_open:
        screen.tell(say("damaged.compare"))
        tell_limits(screen, marks)
        tell_miswritten(screen, fits, marks, typed)
    else:
        screen.tell(say("damaged.whole"))
    screen.tell(say("damaged.next"))
    # Enter alone is no answer, so that nothing that was found is lost by it.
    answers = {**({"1": "0", "2": "1"} if is_two else {"w": "0"}), "c": "change", "t": "again", "e": "end"}
    while True:
        chosen = screen.choose(say("damaged.menu.two" if is_two else "damaged.menu"), answers)
        if not is_open or not chosen.isdecimal() or screen.agree(say("damaged.sure", name=fits[int(chosen)].name)):
            return chosen
