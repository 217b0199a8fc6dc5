"""The task 'check': papers are typed, and every quorum among them is tried."""
from __future__ import annotations

import dataclasses
from typing import List, Optional

from shamir.papers.collect import ask_for_more, collect, tell_damaged, tell_left_out
from shamir.papers.desk import Desk, Paper
from shamir.papers.drill import Verdict, run_drill, tell_verdict
from shamir.papers.questions import ask_passphrase
from shamir.papers.screen import Back, Screen
from shamir.papers.texts import one_or_many, say
from shamir.papers.which import untried

NEXT = {"good": "good", "same": "unnoted", "stopped": "again", "other": "again", "none": "again", "some": "papers", "several": "papers"}

# With these results, the words that were found in a damaged paper may be wrong, so it isn't the time to write them down.
FAULTY = ("other", "none", "some", "several")


def check_papers(screen: Screen, desk: Desk) -> None:
    collect_and_check(screen, desk, say("check.title"), say("check.intro"), say("check.drill"), say("check.too_few"))


def collect_and_check(screen: Screen, desk: Desk, title: str, intro: str, drill: str, too_few: str) -> None:
    """Lets the owner type papers, and drills, until the owner is content. `drill` is the title of the drill, and `too_few` says what too
    few papers show."""
    typed: Optional[str] = ""
    while typed is not None:
        collect(screen, desk, title, intro, "check", typed)
        if desk.status().enough:
            typed = "" if drill_with_passphrase(screen, desk, drill) == "p" else None
        else:
            # Words that were found can be wrong, although the checksum finds nothing.
            told = say("damaged.too_few") if any(it.is_doubtful for it in desk.papers) else too_few
            typed = ask_for_more(screen, desk, say("check.done.few"), told)


def drill_with_passphrase(screen: Screen, desk: Desk, title: str) -> str:
    """Asks for the passphrase and the noted fingerprint, and drills. Returns 'p' if the owner wants to go back to the papers, and
    'e' to end."""
    while True:
        screen.clear(title)
        try:
            noted = ask_passphrase(screen, desk)
        except Back:
            return "p"
        screen.gap()
        try:
            verdict = run_drill(screen, desk, noted)
        finally:
            desk.forget_passphrase()
        answer = _tell(screen, desk, verdict, noted)
        if answer != "t":
            return answer


def _tell(screen: Screen, desk: Desk, verdict: Verdict, noted: str) -> str:
    """Says what a drill found, and what to do. Returns what the owner wants then."""
    # Without a noted fingerprint, no result is known to be good.
    result = "same" if verdict.result == "good" and not noted else verdict.result
    screen.tell(say(f"check.done.{_kind(desk, verdict, result)}"), "strong")
    answered = [paper for paper in desk.papers if paper.is_answered]
    # Nothing that rests on the owner's answer is called right.
    good = "" if answered else "good"
    _tell_names(screen, "replace.lone", answered, "bad")
    for paper in _doubted(desk, verdict, result):
        screen.tell(say("damaged.doubt", names=paper.name), "bad")
    if result in ("good", "same"):
        more = untried(desk.status(), desk.papers[0].group_count)
        verdict = dataclasses.replace(verdict, sentences=[" ".join([*verdict.sentences, *more])])
    tell_verdict(screen, verdict, good if result == "good" else "")
    _tell_tried(screen, desk, verdict)
    if result in ("other", "none"):
        again = say("check.again" if verdict.has_passphrase else "check.again.none")
        screen.tell(f"{again} {say(f'check.{result}')}")
    elif result != "good":
        screen.tell(say("noted.first" if result == "same" else f"check.{result}"))
    _tell_repaired(screen, desk, verdict, result, good)
    _tell_written(screen, desk, verdict, result, good)
    if result not in FAULTY:
        tell_damaged(screen, desk)
    if _is_proved(desk, verdict, result):
        screen.hold("")
        desk.written = ""
    if result == "good":
        desk.prove(verdict.names)
    return ask_next(screen, NEXT[result])


def _doubted(desk: Desk, verdict: Verdict, result: str) -> List[Paper]:
    """Returns the paper whose words were found, if it alone gave another secret than the noted one, or one that isn't known: inside one paper,
    nothing is compared."""
    is_alone = len(verdict.names) == 1 and result in ("other", "same")
    return [paper for paper in desk.papers if is_alone and paper.is_doubtful and paper.name in verdict.names]


def _tell_repaired(screen: Screen, desk: Desk, verdict: Verdict, result: str, good: str) -> None:
    """Says what a drill shows of the papers of which words were found and not read. `good` is the style of what is right."""
    repaired = [paper for paper in desk.papers if paper.is_doubtful]
    tried = [paper for paper in repaired if paper.name in verdict.names]
    right = tried if result == "good" else []
    # A quorum that wasn't tried may be right.
    if result in ("none", "some") and not verdict.part:
        _tell_names(screen, "damaged.suspect", [paper for paper in tried if paper.name not in verdict.right], "strong")
    _tell_names(screen, "damaged.right", [paper for paper in right if paper.is_rewritten], good)
    if len(right) < len(repaired) or (desk.written == "repaired" and not _is_proved(desk, verdict, result)):
        screen.tell(say("damaged.keep"), "strong")


def _tell_written(screen: Screen, desk: Desk, verdict: Verdict, result: str, good: str) -> None:
    """Says what a drill shows of papers that were written again from others. Only the noted fingerprint shows that they work. `good` is the
    style of what is right."""
    again = [paper for paper in desk.papers if paper.is_rewritten and not paper.is_repaired and paper.name in verdict.names]
    written = [paper for paper in again if not paper.is_answered]
    if result == "good":
        _tell_names(screen, "replace.right", written, good)
    elif result == "same":
        _tell_names(screen, "replace.tried", written, "")


def _is_proved(desk: Desk, verdict: Verdict, result: str) -> bool:
    """Whether a drill shows that all words of damaged papers are right. A paper that was written anew may have been taken out."""
    repaired = [paper for paper in desk.papers if paper.is_doubtful]
    is_there = not desk.written or any(paper.is_rewritten and paper.name in verdict.names for paper in desk.papers)
    return result == "good" and is_there and all(paper.name in verdict.names for paper in repaired)


def _tell_names(screen: Screen, key: str, papers: List[Paper], style: str) -> None:
    if papers:
        screen.tell(say(f"{key}.{one_or_many(papers)}", names=", ".join(paper.name for paper in papers)), style)


def _kind(desk: Desk, verdict: Verdict, result: str) -> str:
    """Returns what the heading of a result says. A good one isn't all if a paper rests on an answer, or if papers were left out, or can't
    be read in full."""
    if _doubted(desk, verdict, result):
        return "doubt"
    if result in ("good", "same") and any(paper.is_answered for paper in desk.papers):
        return "answered"
    if result == "same" and len(verdict.names) == 1:
        return "one"
    if result == "good":
        is_whole = all(paper.name in verdict.names for paper in desk.papers)
        is_written = any(it.is_rewritten and not it.is_repaired for it in desk.papers)
        return "left_out" if desk.left_out or desk.others or not is_whole else "damaged" if desk.damaged else "written" if is_written else result
    return "other.none" if result == "other" and not verdict.has_passphrase else result


def _tell_tried(screen: Screen, desk: Desk, verdict: Verdict) -> None:
    """Names the papers that were tried, and those that are in no quorum, and says how many were left out."""
    if verdict.names:
        names = [name for group in desk.status().groups for name in group.names]
        screen.tell(say("verdict.papers", names=", ".join(name for name in names if name in verdict.names)))
        others = [name for name in names if name not in verdict.names]
        if others and verdict.result != "stopped":
            screen.tell(say("verdict.papers.none", names=", ".join(others)))
    tell_left_out(screen, desk)


def ask_next(screen: Screen, likely: str) -> str:
    """Asks whether to end ('e'), to try again with the same papers ('t'), or to go back to the papers ('p'). A good result needs no
    second try. Enter alone is no answer, so that none that was pressed too often takes a result away."""
    return screen.choose(say(f"next.{likely}"), {it: it for it in ("ep" if likely == "good" else "etp")})
