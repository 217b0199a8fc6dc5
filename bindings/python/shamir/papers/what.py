"""The task 'what': one paper says what it is, without a passphrase and without other papers. Nothing of it is kept."""
from __future__ import annotations

from typing import Iterator, Optional

from shamir.papers.desk import Desk, Paper
from shamir.papers.entry import Entry
from shamir.papers.plan import said_takes_alone
from shamir.papers.screen import Back, Screen
from shamir.papers.spelling import DROP
from shamir.papers.texts import counted, say


def tell_paper(screen: Screen, desk: Desk) -> None:
    """Says of one paper after the other what it is, until the owner ends."""
    while True:
        screen.clear(say("what.title"))
        screen.tell(say("what.intro"))
        screen.tell(say("entry.how"))
        paper = _ask_paper(screen)
        screen.clear(say("what.found", name=paper.name))
        screen.tell(say("what.repaired" if paper.is_repaired else "what.sound", name=paper.name), "bad" if paper.is_repaired else "")
        if not paper.is_possible:
            screen.tell(say("what.impossible", name=paper.name, groups=counted(paper.group_count, "group")), "bad")
        for text in _said(paper):
            screen.item(text)
        screen.gap()
        screen.tell(say("what.passphrase"))
        # Nothing of the paper is kept while the next one is asked for.
        del paper
        try:
            screen.choose(say("what.next"), {"e": None}, has_back=True)
            return
        except Back:
            continue


def _ask_paper(screen: Screen) -> Paper:
    entry = Entry(screen)
    paper: Optional[Paper] = None
    while paper is None:
        marks = entry.read(say("what.ask"), has_back=True)
        if not marks:
            screen.tell(say("collect.none"), "bad")
        elif marks[0].startswith(DROP):
            screen.tell(say("entry.wordless"), "bad")
        else:
            paper = entry.paper(marks)
    return paper


def _said(paper: Paper) -> Iterator[str]:
    """Says what a paper says of itself, and which others are needed besides it."""
    first, second = paper.words[:2]
    yield say("what.backup", first=first, second=second)
    yield said_takes_alone(paper)
    yield said_others(paper)
    yield say("what.flag" if paper.is_extendable else "what.flag.none")
    yield say("what.exponent", exponent=paper.exponent)
    yield say("what.secret", bytes=paper.secret_bytes)


def said_others(paper: Paper) -> str:
    """Says which other papers are needed besides this one."""
    papers, groups = counted(paper.member_threshold - 1, "paper"), counted(paper.group_threshold - 1, "whole")
    if paper.member_threshold == 1:
        return say("what.others.none") if paper.group_threshold == 1 else say("what.others.groups", groups=groups)
    if paper.group_threshold > 1:
        return say("what.others.both", papers=papers, group=paper.group, groups=groups)
    if paper.group_count == 1:
        return say("what.others.papers", papers=papers)
    return say("what.others.group", papers=papers, group=paper.group)
