"""The task 'replace': papers that were destroyed are computed from the others, written down, typed back and drilled."""
from __future__ import annotations

import dataclasses
from typing import Optional, Union

import shamir
from shamir.papers.change import change_plan
from shamir.papers.check import drill_with_passphrase
from shamir.papers.collect import ask_for_more, collect
from shamir.papers.desk import Desk, Paper
from shamir.papers.plan import Plan, said_takes_alone
from shamir.papers.refusals import said_refusal
from shamir.papers.screen import Back, Screen
from shamir.papers.shown import write_and_type_back
from shamir.papers.texts import one_or_many, say
from shamir.papers.which import ask_which


def replace_paper(screen: Screen, desk: Desk) -> None:
    """Replaces papers. The owner may go back to the tasks, or from the missing paper to the papers."""
    while True:
        screen.clear(say("replace.title"))
        screen.tell(say("replace.why"))
        for number, key in enumerate(["replace.destroyed", "replace.other"], 1):
            screen.item(f"{say(key)}. {say(f'{key}.hint')}", f"{number}  ")
        screen.gap()
        if not screen.choose(say("replace.how"), {"1": False, "2": True}, has_back=True):
            return _replace_destroyed(screen, desk)
        try:
            return _advise(screen, desk)
        except Back:
            continue


def _replace_destroyed(screen: Screen, desk: Desk) -> None:
    typed: Optional[str] = ""
    while typed is not None:
        is_untried = any(it.is_rewritten for it in desk.papers) and not desk.status().enough
        collect(screen, desk, say("replace.title"), say("replace.intro"), "replace", typed)
        if is_untried and desk.status().enough:
            typed = _drill(screen, desk)
        elif not _may_determine(desk.status()):
            told = say("replace.none_yet.only" if desk.papers[0].group_count == 1 else "replace.none_yet")
            typed = ask_for_more(screen, desk, say("replace.few"), told, "replace")
        else:
            typed = "" if _write(screen, desk) else _drill(screen, desk)


def _may_determine(status: shamir.Status) -> bool:
    """Whether papers may determine a missing one, whatever the plan is: they are enough, or a group of several is complete."""
    return status.enough or any(1 < group.threshold <= len(group.names) for group in status.groups)


def _advise(screen: Screen, desk: Desk) -> None:
    """Says that new papers are the right answer if somebody else may have a paper. The owner may make them at once, or go back."""
    screen.clear(say("replace.new.title"))
    screen.tell(say("replace.new.change"))
    screen.tell(say("replace.new.move"))
    if screen.choose(say("replace.new.choose"), {"c": True, "e": False}, has_back=True):
        change_plan(screen, desk)


def _write(screen: Screen, desk: Desk) -> bool:
    """Lets the owner write missing papers, as many as are wanted. Returns whether the owner wants to go back to the papers."""
    fault = ""
    while True:
        try:
            wanted = ask_which(screen, desk, fault)
        except Back:
            return True
        if wanted is None:
            return False
        paper = _computed(desk, *wanted)
        fault = paper if isinstance(paper, str) else ""
        if not isinstance(paper, str):
            desk.written = "replaced"
            screen.hold(say("end.replaced"))
            # Nobody may know how many papers there were, so what is said of a paper doesn't count them.
            write_and_type_back(screen, desk, paper, said_takes_alone(paper))


def _computed(desk: Desk, name: str, plan: Plan) -> Union[Paper, str]:
    """Returns a missing paper, or says why it can't be written."""
    try:
        paper = desk.reissue(plan.text, name)
    except shamir.Refusal as refusal:
        if refusal.code != shamir.Code.UNDETERMINED:
            return said_refusal(refusal)
        return f"{say('which.untold', name=name)} {said_refusal(refusal, _task_of(plan))}"
    # No other paper of such a group is here.
    return dataclasses.replace(paper, is_answered=paper.member_threshold == 1)


def _task_of(plan: Plan) -> str:
    """Returns whose words say what a paper takes that can't be written: of one group, of groups that are all needed, or of others."""
    return "only" if len(plan.groups) == 1 else "all" if plan.needed == len(plan.groups) else ""


def _drill(screen: Screen, desk: Desk) -> Optional[str]:
    """Drills with all papers that were typed, if they are enough. Returns what the owner has typed of the next paper, or None to end."""
    if desk.status().enough:
        return "" if drill_with_passphrase(screen, desk, say("replace.drill")) == "p" else None
    is_written = any(it.is_rewritten for it in desk.papers)
    names = [it.name for it in desk.papers if it.is_answered]
    rests = [say(f"replace.lone.{one_or_many(names)}", names=", ".join(names))] if names else []
    told = " ".join([*rests, say("replace.too_few")])
    return ask_for_more(screen, desk, say("replace.done" if is_written and desk.written else "replace.few"), told)
