"""Papers that were pasted at once: which of them are taken, and why the others aren't."""
from __future__ import annotations

from dataclasses import dataclass, field
from typing import List, Tuple

import shamir
from shamir.papers.desk import BEGUN_LEAST, Desk, Paper
from shamir.papers.marks import judged
from shamir.papers.refusals import said_foreign
from shamir.papers.screen import Screen
from shamir.papers.spelling import parts_of
from shamir.papers.texts import counted, say

# So many words tell one paper from another.
BEGIN_WORDS = 4


@dataclass
class Judged:
    """The papers that are taken, and those that were here already; the begin of each other one, and why it isn't taken; and the texts of
    those that the owner can mend."""

    taken: List[Paper] = field(default_factory=list)
    repeated: List[Paper] = field(default_factory=list)
    faults: List[Tuple[str, str]] = field(default_factory=list)
    left: List[str] = field(default_factory=list)


def begin(text: str) -> str:
    """Returns the first words of a paper."""
    return " ".join(word for _, word in parts_of(text)[:BEGIN_WORDS])


def judge_all(desk: Desk, texts: List[str], found: Judged) -> None:
    """Takes each paper that is sound, and that the library doesn't refuse beside the others, and adds what is found."""
    for text in texts:
        why = _fault_of(desk, text, found)
        if why:
            found.faults.append((begin(text), why))


def _fault_of(desk: Desk, text: str, found: Judged) -> str:
    """Takes a paper, or returns why it isn't taken. A few words are no paper to be mended."""
    words = [word for _, word in parts_of(text)]
    paper, why = judged(text, desk.word_count)
    if paper is None:
        desk.leave_out(words)
        found.left += [text] if len(words) >= BEGUN_LEAST else []
        return why
    doubtful = [it.name for it in desk.doubtful(paper)]
    try:
        (found.taken if desk.add(paper) else found.repeated).append(paper)
        return ""
    except shamir.Refusal as refusal:
        desk.leave_out(paper.words)
        return said_foreign(refusal, doubtful)


def tell_judged(screen: Screen, desk: Desk, found: Judged) -> None:
    """Says what is taken, of which backup it is if papers of several are here, and what isn't taken."""
    rows = [("paste.taken", "paste.taken.backup", found.taken), ("paste.repeated", "paste.repeated.backup", found.repeated)]
    for only, several, papers in rows:
        for here in desk.backups.values():
            names = [paper.name for paper in papers if paper.id == here[0].id]
            if names:
                screen.tell(say(several if desk.others else only, names=", ".join(names), begin=here[0].opening))
    for paper in found.taken:
        if not paper.is_possible:
            screen.tell(say("what.impossible", name=paper.name, groups=counted(paper.group_count, "group")), "bad")
    if not found.taken and not found.repeated:
        screen.tell(say("paste.none"), "bad")
    for first, why in found.faults:
        screen.tell(say("paste.left", begin=first, why=why), "bad")
