"""A plan: how many groups are needed, and of each group how many members it has and needs.

The library decides which plans are right. This reads the text of a plan that it took, and says it in words.
"""
from __future__ import annotations

import re
from dataclasses import dataclass
from typing import Iterator, List, Tuple

from shamir.papers.desk import Paper
from shamir.papers.texts import counted, one_or_many, say

Group = Tuple[int, int]


@dataclass(frozen=True)
class Plan:
    """The number of groups that are needed, and of each group how many members it needs and has."""

    needed: int
    groups: Tuple[Group, ...]

    @property
    def text(self) -> str:
        parts = [f"{needed}of{members}" for needed, members in self.groups]
        return parts[0] if len(parts) == 1 and self.needed == 1 else f"{self.needed}/{','.join(parts)}"

    @property
    def names(self) -> List[str]:
        return [f"{group}.{member}" for group, (_, members) in enumerate(self.groups) for member in range(members)]


def plain_plan(typed: str) -> str:
    """Returns a plan as the library reads it, if an owner typed it in another form: 2 of 3, 2-of-3 or 2OF3."""
    return re.sub(r"-?of-?", "of", re.sub(r"\s", "", typed.lower()))


def plan_of(text: str) -> Plan:
    """Reads the text of a plan that the library took."""
    head, _, rest = text.rpartition("/")
    numbers = [int(number) for number in re.findall(r"\d+", rest)]
    return Plan(int(head or 1), tuple(zip(numbers[::2], numbers[1::2])))


def _members(needed: int, members: int) -> str:
    if members == 1:
        return say("plan.only")
    return say("plan.each", members=members) if needed == members else say("plan.any", needed=needed, members=members)


def said_plan(plan: Plan) -> str:
    """Says what recovers the secret."""
    return " ".join([_head(plan), *_groups(plan)])


def noted_plan(plan: Plan) -> str:
    """Says what to note of a plan: what recovers the secret, and the plan's text."""
    said = said_plan(plan)
    return say("make.note", said=said[0].lower() + said[1:-1], plan=plan.text)


def _head(plan: Plan) -> str:
    if len(plan.groups) == 1:
        [(needed, members)] = plan.groups
        if members == 1:
            return say("plan.sentence.one")
        which = "any" if needed < members else "both" if members == 2 else "each"
        return say(f"plan.sentence.{which}", needed=needed, members=members)
    count = len(plan.groups)
    which = ("both_groups" if count == 2 else "all_groups") if plan.needed == count else "one_group" if plan.needed == 1 else "groups"
    return say(f"plan.sentence.{which}", needed=plan.needed, count=count)


def _groups(plan: Plan) -> Iterator[str]:
    if len(plan.groups) > 1:
        said = (say("plan.group", group=at, members=_members(*group)) for at, group in enumerate(plan.groups))
        yield "; ".join(said) + "."


def said_dangers(plan: Plan) -> str:
    """Says which papers may not be lost, and which are the whole secret. If there are none, says nothing."""
    single = _singles(plan) if plan.needed == 1 else []
    found = [say(f"plan.found.{one_or_many(single)}", names=", ".join(f"{at}.0" for at in single))] if single else []
    return " ".join([*_losses(plan), *found])


def said_singles(plan: Plan) -> str:
    """Says of which groups one paper is enough, if that isn't the whole secret. If there are none, says nothing."""
    single = _singles(plan)
    return say(f"plan.found.group.{one_or_many(single)}", groups=", ".join(map(str, single))) if single and plan.needed > 1 else ""


def _losses(plan: Plan) -> Iterator[str]:
    """Says without which papers nothing recovers the secret: each of a group that needs all of its papers, if each group is needed."""
    if plan.needed < len(plan.groups):
        return
    alone = [f"{at}.0" for at, (_, members) in enumerate(plan.groups) if members == 1]
    if alone:
        yield say(f"plan.lost.{one_or_many(alone)}", names=", ".join(alone))
    for at, (needed, members) in enumerate(plan.groups):
        if needed == members > 1:
            yield say("plan.lost.any" if len(plan.groups) == 1 else "plan.lost.group", group=at)


def _singles(plan: Plan) -> List[int]:
    """Returns the groups of which one paper is enough."""
    return [at for at, (needed, _) in enumerate(plan.groups) if needed == 1]


def survived(plan: Plan) -> Tuple[int, int]:
    """Returns how many papers may be lost, whichever they are, so that the others are enough, and stolen, so that a thief hasn't enough."""
    lost = sum(sorted(members - needed + 1 for needed, members in plan.groups)[: len(plan.groups) - plan.needed + 1]) - 1
    return lost, sum(sorted(needed for needed, _ in plan.groups)[: plan.needed]) - 1


def said_survives(plan: Plan) -> str:
    """Says how many papers may be lost or stolen."""
    lost, stolen = survived(plan)
    return " ".join([*_survived("lost.safe", lost), *_survived("stolen.safe", stolen)])


def _survived(key: str, count: int) -> Iterator[str]:
    if count:
        yield say(f"{key}.one" if count == 1 else f"{key}.many", n=count)


def said_takes(plan: Plan, name: str) -> str:
    """Says what a paper of a plan takes to be of use."""
    if len(plan.groups) == 1:
        return said_plan(plan)
    group = int(name.split(".")[0])
    return _use(group, plan.groups[group][0], plan.needed)


def said_takes_alone(paper: Paper) -> str:
    """Says what a paper takes to be of use, as far as the paper itself says so."""
    if paper.group_count > 1:
        return _use(paper.group, paper.member_threshold, paper.group_threshold)
    return say("plan.sentence.one") if paper.member_threshold == 1 else say("takes.papers", needed=paper.member_threshold)


def _use(group: int, needed: int, groups: int) -> str:
    own = say("takes.alone", group=group) if needed == 1 else say("takes.members", needed=needed, group=group)
    return own if groups == 1 else f"{own} {say('takes.groups', groups=counted(groups, 'group'))}"
