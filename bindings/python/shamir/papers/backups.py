"""Papers of several backups: which backup each is of, and which one the task is about."""
from __future__ import annotations

from typing import Dict, Optional

from shamir.papers.desk import Desk, Paper
from shamir.papers.screen import Back, Screen
from shamir.papers.spelling import DROP
from shamir.papers.standing import show_status
from shamir.papers.texts import one_or_many, say


def label(desk: Desk, paper: Paper) -> str:
    """Returns the name of a paper, and how the papers of its backup begin if papers of several backups are here."""
    return say("backup.paper", name=paper.name, begin=paper.opening) if len(desk.backups) > 1 else paper.name


def show_typed(screen: Screen, desk: Desk, task: str) -> None:
    """Shows what is complete and what is missing of each backup of which papers are here, and says why there are several."""
    backups, unsure = desk.backups, desk.unsure
    if len(backups) > 1:
        screen.tell(say("collect.apart", count=len(backups)), "bad")
        if unsure:
            names = ", ".join(label(desk, paper) for paper in unsure)
            screen.tell(say(f"collect.unsure.{one_or_many(unsure)}", names=names), "bad")
            screen.tell(say("entry.drop", sign=DROP, name=unsure[-1].name))
    for papers in backups.values():
        if len(backups) > 1:
            screen.tell(f"{say('status.backup', begin=papers[0].opening)}:", "strong")
        show_status(screen, papers, task)


def ask_backup(screen: Screen, desk: Desk, title: str, task: str) -> bool:
    """Asks which backup the task is about, if papers of several are here. Returns False if the owner goes back to the papers."""
    backups = desk.backups
    if len(backups) < 2:
        return True
    screen.clear(title)
    screen.tell(say("backup.which"))
    for number, papers in enumerate(backups.values(), 1):
        names = ", ".join(paper.name for paper in papers)
        screen.item(f"{say('status.backup', begin=papers[0].opening)}: {names}", f"{number}  ")
    screen.gap()
    try:
        desk.choose(screen.choose(say("backup.choose"), {str(number): id for number, id in enumerate(backups, 1)}, has_back=True))
    except Back:
        screen.clear(title)
        show_typed(screen, desk, task)
        return False
    return True


def ask_named(screen: Screen, desk: Desk, name: str) -> Optional[Paper]:
    """Returns the paper with a name, or None if there is none. If papers of several backups have that name, asks which one is meant: then
    None says that none of them is."""
    found = desk.named(name)
    if len(found) < 2:
        return found[0] if found else None
    for number, paper in enumerate(found, 1):
        screen.item(label(desk, paper), f"{number}  ")
    screen.gap()
    answers: Dict[str, Optional[Paper]] = {"0": None, **{str(number): paper for number, paper in enumerate(found, 1)}}
    return screen.choose(say("entry.drop.which", name=name), answers)
