"""The papers that are typed, one after the other, and what they are together."""
from __future__ import annotations

from typing import List, Optional

import shamir
from shamir.papers.backups import ask_backup, ask_named, label, show_typed
from shamir.papers.desk import Desk, Paper, paper_of
from shamir.papers.entry import Entry
from shamir.papers.judged import Judged, begin, judge_all, tell_judged
from shamir.papers.paste import Pasted, ask_whole, papers_in
from shamir.papers.refusals import said_foreign
from shamir.papers.screen import Screen
from shamir.papers.spelling import DROP, parts_of
from shamir.papers.standing import show_status
from shamir.papers.texts import counted, one_or_many, say


def collect(screen: Screen, desk: Desk, title: str, intro: str, task: str = "", typed: str = "") -> None:
    """Lets the owner type papers, beside those that are here already, until Enter alone is typed, and says of which backup the task is if
    papers of several are here. `task` has its own words for what is complete. `typed` is what the owner has typed of the next paper."""
    if desk.typed and not screen.is_held:
        screen.hold(say("end.typed"))
    screen.clear(title)
    screen.tell(intro)
    with screen.keeping():
        _collect(screen, desk, title, task, typed)


def _collect(screen: Screen, desk: Desk, title: str, task: str, typed: str) -> None:
    """Lets the owner type papers until no more come."""
    entry = Entry(screen, desk.word_count, leave=desk.leave_out, takes_several=True)
    if desk.papers:
        screen.tell(f"{say('collect.found')}:")
        for here in desk.typed:
            screen.item(said_row(desk, here))
        screen.tell(say("entry.drop", sign=DROP, name=desk.typed[0].name))
        show_typed(screen, desk, task)
    else:
        screen.tell(say("entry.how"))
    # Papers that were pasted and aren't taken yet.
    left: List[str] = []
    while True:
        if not typed and left:
            typed = left.pop(0)
            screen.clear(title)
            screen.tell(say("paste.now", begin=begin(typed)))
        try:
            is_more = _collect_one(screen, desk, title, entry, task, typed)
        except Pasted as pasted:
            left += _take_pasted(screen, desk, title, pasted.texts, task)
            is_more = True
        if not is_more and not left and ask_backup(screen, desk, title, task) and not screen.took_kept():
            return
        typed = ""


def said_row(desk: Desk, paper: Paper) -> str:
    """Says what a paper is that is here."""
    return say("collect.row.repaired" if paper.is_doubtful else "collect.row", name=label(desk, paper), words=len(paper.words))


def _collect_one(screen: Screen, desk: Desk, title: str, entry: Entry, task: str, typed: str) -> bool:
    """Lets the owner type a paper, or take one out. Returns whether the owner goes on with that."""
    prompt = say("entry.paper" if desk.papers else "entry.paper.first", number=len(desk.typed) + 1)
    marks = entry.read(prompt, typed, has_back=not desk.papers)
    if marks and marks[0].startswith(DROP):
        _drop(screen, desk, marks[0][len(DROP) :], task)
    elif marks:
        paper = entry.paper(marks)
        if paper is not None:
            _take(screen, desk, title, paper, task)
    elif desk.papers:
        return False
    else:
        screen.tell(say("collect.none"), "bad")
    return True


def _take_pasted(screen: Screen, desk: Desk, title: str, texts: List[str], task: str) -> List[str]:
    """Takes the papers of a paste that are right, and says what is taken and what isn't, also of those that come while the owner reads that.
    Returns the texts of those that the owner can mend."""
    found = Judged()
    while True:
        judge_all(desk, texts, found)
        if desk.papers and not screen.is_held:
            screen.hold(say("end.typed"))
        screen.clear(title)
        tell_judged(screen, desk, found)
        if desk.papers:
            show_typed(screen, desk, task)
        more = ask_whole(screen, say("paste.mend"), desk.word_count) if found.left else ""
        if not more.strip():
            return found.left
        texts = papers_in(more, desk.word_count([]))


def _take(screen: Screen, desk: Desk, title: str, paper: Paper, task: str) -> None:
    """Takes a paper, clears its words, and says what is complete; or says why it doesn't belong to the others of its backup. A paper of
    another backup is kept apart, unless most likely a word of it was found wrongly."""
    doubtful, is_apart = [it.name for it in desk.doubtful(paper)], desk.is_apart(paper)
    try:
        if is_apart and paper.is_repaired:
            return _refuse(screen, desk, paper, say("refused.repaired.apart"), doubtful)
        is_new = desk.add(paper)
    except shamir.Refusal as refusal:
        return _refuse(screen, desk, paper, said_foreign(refusal, doubtful, paper.is_repaired), doubtful)
    if not screen.is_held:
        screen.hold(say("end.typed"))
    screen.clear(title)
    if is_new and not paper.is_repaired:
        key = "collect.taken.apart" if is_apart else "collect.taken.of" if desk.others else "collect.taken"
        screen.tell(say(key, name=paper.name, begin=paper.opening))
    elif is_new:
        screen.tell(said_row(desk, paper), "bad")
    else:
        screen.tell(say("collect.repeated", name=label(desk, paper)))
    if not paper.is_possible:
        screen.tell(say("what.impossible", name=paper.name, groups=counted(paper.group_count, "group")), "bad")
    show_typed(screen, desk, task)


def _refuse(screen: Screen, desk: Desk, paper: Paper, why: str, doubtful: List[str]) -> None:
    """Says why a paper isn't taken, and how to take one out that is here if that may be wrong."""
    # A word that was found may be wrong, so such a paper isn't sound.
    desk.leave_out([*paper.words[:-1], "?"] if paper.is_repaired else paper.words)
    screen.fault(why)
    if doubtful or not paper.is_repaired:
        screen.tell(say("entry.drop", sign=DROP, name=(doubtful or [desk.backups[paper.id][-1].name])[-1]))


def _drop(screen: Screen, desk: Desk, name: str, task: str) -> None:
    paper = ask_named(screen, desk, name)
    if paper is not None:
        told = say("collect.dropped", name=label(desk, paper))
        desk.drop(paper)
        if not desk.typed and not desk.written:
            screen.hold("")
        screen.tell(told)
    elif not desk.named(name):
        screen.tell(say("entry.drop.none", name=name), "bad")
    if desk.papers:
        show_typed(screen, desk, task)


def tell_damaged(screen: Screen, desk: Desk) -> None:
    """Reminds the owner of the papers that are still to be written anew."""
    names = desk.damaged
    if names:
        screen.tell(say(f"damaged.anew.{one_or_many(names)}", names=", ".join(names)), "strong")


def tell_left_out(screen: Screen, desk: Desk) -> None:
    """Reminds the owner of the papers that were begun, and that aren't among the others."""
    for papers in desk.others:
        apart = ", ".join(paper.name for paper in papers)
        screen.tell(say(f"left.backup.{one_or_many(papers)}", names=apart, begin=papers[0].opening))
    left = desk.left_out
    names = [name for name in map(_name_of, left) if name]
    if len(names) < len(left):
        screen.tell(counted(len(left) - len(names), "left"), "bad")
    if names:
        screen.tell(say(f"left.sound.{one_or_many(names)}", names=", ".join(names)))


def _name_of(line: str) -> str:
    """Returns the name of a paper, or nothing if it isn't sound."""
    try:
        return paper_of(line).name
    except shamir.Refusal:
        return ""


def ask_for_more(screen: Screen, desk: Desk, title: str, told: str, task: str = "") -> Optional[str]:
    """Says that the papers aren't enough, and what is missing. Returns what the owner has typed of the next paper, or None to end."""
    screen.clear(title)
    sound = [paper.name for paper in desk.papers if not paper.is_doubtful]
    if sound:
        screen.tell(say("check.sound", papers=counted(len(sound), "paper"), names=", ".join(sound)))
    for paper in desk.papers:
        if paper.is_doubtful:
            screen.tell(said_row(desk, paper), "bad")
    screen.tell(told)
    show_status(screen, desk.papers, task)
    tell_left_out(screen, desk)
    tell_damaged(screen, desk)
    return _ask_more(screen, desk)


def _ask_more(screen: Screen, desk: Desk) -> Optional[str]:
    """Asks whether to end or to type more. Papers that are typed here are the next ones."""
    words = shamir.words("")
    while True:
        typed = ask_whole(screen, say("more.papers"), desk.word_count).strip()
        if typed.lower() == "e":
            return None
        parts = parts_of(typed)
        if not typed or len(parts) > 1 or any(mark in words for _, mark in parts):
            return typed
        screen.fault(say("screen.answers", answers="Enter, e"))
