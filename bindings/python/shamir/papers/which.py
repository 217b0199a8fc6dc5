"""The question which paper is missing, by its name. It asks for no number of papers: a paper has the same words in all plans of its backup
that have it."""
from __future__ import annotations

import re
from typing import Iterator, List, Optional, Tuple

import shamir
from shamir.papers.desk import Desk
from shamir.papers.plan import Plan
from shamir.papers.screen import Screen
from shamir.papers.texts import counted, one_or_many, say

MEMBERS_MAX = 16
# The name of a paper. If there is only one group, the number of the paper in it is enough.
NAME = re.compile(r"(?:(\d{1,4})\s*\.\s*)?(\d{1,4})")
# What the owner wants in place of a paper.
DRILL = "d"


def _candidates(status: shamir.Status, count: int) -> Iterator[Tuple[str, str]]:
    """Yields the names that are likely to be missing, each with the key of why it is."""
    found = {group.group: group for group in status.groups}
    for number in range(count):
        group = found.get(number)
        if group is None:
            yield f"{number}.0", "which.of_group"
        elif group.threshold > 1:
            here = {int(name.split(".")[1]) for name in group.names}
            last = max(here)
            for member in sorted({*range(min(last + 2, MEMBERS_MAX))} - here):
                yield f"{number}.{member}", "which.between" if member < last else "which.after"


def untried(status: shamir.Status, count: int) -> List[str]:
    """Says what wasn't typed, and so not tried. Papers are known that come before others of their group, and groups of which none is here.
    There may be others after them."""
    missing = list(_candidates(status, count))
    papers = [name for name, why in missing if why == "which.between"]
    groups = [name.split(".")[0] for name, why in missing if why == "which.of_group"]
    told = [("verdict.untried", papers), ("verdict.untried.group", groups)]
    said = [say(f"{key}.{one_or_many(names)}", names=", ".join(names)) for key, names in told if names]
    return [*said, *[say("verdict.untried.others")] * any(why == "which.after" for _, why in missing)]


def ask_which(screen: Screen, desk: Desk, fault: str) -> Optional[Tuple[str, Plan]]:
    """Asks which paper is missing. Returns its name and a plan that has it and each paper that is here, or None for the drill. `fault` says
    why the one that was named before can't be written. The owner may go back to the papers."""
    status, count = desk.status(), desk.papers[0].group_count
    offered = list(_candidates(status, count))
    screen.clear(say("replace.which"))
    if fault:
        screen.tell(fault, "bad")
    if not offered:
        names = [paper.name for paper in desk.papers if paper.is_answered]
        screen.tell(say(f"replace.none.answered.{one_or_many(names)}", names=", ".join(names)) if names else say("replace.none"))
        return screen.choose(say("replace.choose.none"), {DRILL: None}, has_back=True)
    screen.tell(say("which.intro"))
    screen.tell(say("which.another" if any(it.is_rewritten for it in desk.papers) else "which.legend"), "strong")
    for name, key in offered:
        screen.item(say(key, group=name.split(".")[0]), f"{name:>4}  ")
    screen.gap()
    return _ask_name(screen, desk, status, count)


def _ask_name(screen: Screen, desk: Desk, status: shamir.Status, count: int) -> Optional[Tuple[str, Plan]]:
    """Asks for the name until a paper can have it that isn't here."""
    while True:
        typed = screen.ask(say("replace.choose" if count > 1 else "replace.choose.only"), has_back=True).strip().lower()
        if typed == DRILL:
            return None
        found, wrong = NAME.fullmatch(typed), _fault_of(typed, status, count)
        if found is None or wrong:
            screen.fault(wrong)
            continue
        group, member = int(found[1] or 0), int(found[2])
        needed = 0 if any(it.group == group for it in status.groups) else _ask_needed(screen, group)
        return f"{group}.{member}", _plan_with(desk, status, group, needed)


def _fault_of(typed: str, status: shamir.Status, count: int) -> str:
    """Returns why what was typed isn't the name of a missing paper, or nothing."""
    found = NAME.fullmatch(typed)
    if found is None or int(found[2]) >= MEMBERS_MAX or (found[1] is None and count > 1):
        return say("which.name.wrong")
    group, name = int(found[1] or 0), f"{int(found[1] or 0)}.{int(found[2])}"
    if group >= count:
        return say("which.beyond", groups=counted(count, "group"))
    here = next((it for it in status.groups if it.group == group), None)
    if here is None:
        return ""
    return say("which.here", name=name) if name in here.names else say("which.only", group=group) if here.threshold == 1 else ""


def _ask_needed(screen: Screen, group: int) -> int:
    """Asks how many papers a group needs of which none is here. The owner may go back to the papers."""
    screen.tell(say("which.needed.hint"))
    while True:
        typed = screen.ask(say("which.ask.needed", group=group), has_back=True).strip()
        if typed.isdecimal() and 1 <= int(typed) <= MEMBERS_MAX:
            return int(typed)
        screen.fault(say("which.needed.wrong"))


def _plan_with(desk: Desk, status: shamir.Status, wanted: int, needed: int) -> Plan:
    """Returns a plan that has a paper of a group. A group has as many papers as there can be, since no paper says how many there are.
    `needed` is how many papers the group needs, if none of them is here."""
    thresholds = {wanted: needed} | {group.group: group.threshold for group in status.groups}
    groups = [thresholds.get(number, 1) for number in range(desk.papers[0].group_count)]
    return Plan(desk.papers[0].group_threshold, tuple((it, 1 if it == 1 else MEMBERS_MAX) for it in groups))
