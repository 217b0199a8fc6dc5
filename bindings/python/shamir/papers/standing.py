"""What papers of one backup are together: what is complete, and what is missing."""
from __future__ import annotations

from typing import Iterator, Sequence

import shamir
from shamir.papers.desk import Paper
from shamir.papers.screen import Screen
from shamir.papers.texts import counted, say


def show_status(screen: Screen, papers: Sequence[Paper], task: str = "") -> None:
    """Shows what is complete and what is missing, group by group."""
    status, count = shamir.status(paper.line for paper in papers), papers[0].group_count
    for row in _rows(status, count):
        screen.item(row)
    screen.tell(said_whole(status, count, task), "strong" if status.enough else "")


def _rows(status: shamir.Status, count: int) -> Iterator[str]:
    found = {group.group: group for group in status.groups}
    # A paper can be of a group beyond those that it says there are.
    numbers = sorted({*range(count), *found})
    for group in numbers:
        told = _group(found[group], len(numbers) == 1) if group in found else say("status.none")
        yield say("status.line", group=say("status.only") if len(numbers) == 1 else say("status.group", group=group), told=told)


def _group(group: shamir.GroupStatus, is_only: bool) -> str:
    """Says how a group stands. `is_only` says that the backup has no other."""
    missing = group.threshold - len(group.names)
    more = say("status.missing", more=counted(missing, "paper")) if missing > 0 else say("status.complete.only" if is_only else "status.complete")
    return f"{say('status.here', names=', '.join(group.names))} {more}"


def said_whole(status: shamir.Status, count: int, task: str = "") -> str:
    """Says whether the papers are enough. An owner whose backup has one group needn't know of groups."""
    if count == 1 and task == "replace" and status.groups[0].threshold > 1:
        return _said_only(status, "replace.enough", "replace.not_enough")
    # A backup of one paper has no others to be typed.
    if status.enough and task == "check" and (count > 1 or status.groups[0].threshold > 1):
        return say("status.enough.check")
    if status.enough or count == 1:
        return _said_only(status, "status.enough", "status.not_enough")
    return say("status.not_enough", needed=counted(status.required, "whole"), here=status.complete)


def _said_only(status: shamir.Status, enough: str, not_enough: str) -> str:
    group = status.groups[0]
    return say(enough if status.enough else not_enough, needed=counted(group.threshold, "paper"), here=len(group.names))
