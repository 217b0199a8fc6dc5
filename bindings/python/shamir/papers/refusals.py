"""What a refusal of the library means to an owner, and what to do."""
from __future__ import annotations

from typing import Optional, Sequence

import shamir
from shamir.papers.texts import counted, has_text, one_or_many, say


def said_refusal(refusal: shamir.Refusal, task: str = "") -> str:
    """Says a refusal in words."""
    code, (first, second) = int(refusal.code), refusal.details
    name = f"refused.{code}{_form(refusal)}"
    key = next(key for key in (f"{task}.{name}", name, "refused.other") if has_text(key))
    is_undetermined = code == shamir.Code.UNDETERMINED
    return _undetermined(first, second, task) if is_undetermined else say(key, first=first, second=second, text=refusal.text)


def _form(refusal: shamir.Refusal) -> str:
    """Returns what the details change in the text of a refusal."""
    return ".groups" if refusal.code == shamir.Code.DIGEST_MISMATCH and refusal.details[0] == shamir.OF_GROUPS else ""


def said_foreign(refusal: shamir.Refusal, repaired: Sequence[str], is_repaired: bool = False) -> str:
    """Says why a paper doesn't belong to the others. If words of it or of some of them were found and not read, most likely these are
    wrong."""
    if is_repaired:
        return say("refused.repaired.new")
    if repaired:
        return say(f"refused.repaired.{one_or_many(repaired)}", names=", ".join(repaired))
    return said_refusal(refusal)


def _undetermined(first: int, second: int, task: str) -> str:
    """Says what a paper that isn't determined takes: papers of its group, or complete groups besides it and one paper fewer. A group's
    only paper takes complete groups alone. If each group is needed, which is the task 'all', only papers of its group give it."""
    members, threshold, groups, required = (second >> bits & 0xFF for bits in (24, 16, 8, 0))
    missing = threshold - members
    lost = "all.refused.66.lost" if threshold == 1 else "all.refused.66"
    other = "refused.66.only" if threshold == 1 else "refused.66.fewer" if missing > 1 else "refused.66"
    key = {"only": "only.refused.66", "all": lost}.get(task, other)
    more, fewer, whole = counted(missing, "paper"), counted(missing - 1, "paper"), counted(required, "whole")
    return say(key, group=first >> 8, more=more, fewer=fewer, whole=whole, groups=min(groups, required))


def wrong_word(refusal: shamir.Refusal) -> Optional[int]:
    """Returns the number of the word that is wrong if only one is, or None if the library names none."""
    return refusal.details[0] if refusal.code == shamir.Code.WRONG_WORD else None
