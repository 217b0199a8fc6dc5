"""Which quorums are tried if there are too many, and what a drill's outcomes say together."""
from __future__ import annotations

import itertools
from collections import Counter
from dataclasses import dataclass
from typing import Iterator, List, Optional, Sequence, Tuple

import shamir

# A drill tries every quorum of papers that have at most this many.
TRIED_WHOLE = 100_000
# The library counts up to this number.
COUNTED_MOST = 2**64 - 1
# Of more quorums, a drill tries this many, and one more for each paper.
TRIED_FIRST = 1_000


@dataclass(frozen=True)
class Tried:
    """What a quorum gave: a fingerprint, or whether it is the expected one, or the group whose papers don't belong together."""

    names: Tuple[str, ...]
    fingerprint: Optional[str]
    mismatch: Optional[int]
    expected: Optional[bool] = None


def gives(tried: Tried, fingerprint: str) -> bool:
    """Whether a quorum gave the expected secret, or, if none was expected, the one with this fingerprint."""
    return tried.fingerprint == fingerprint if tried.expected is None else tried.expected


def complete(status: shamir.Status) -> List[shamir.GroupStatus]:
    return [group for group in status.groups if len(group.names) >= group.threshold]


def quorums_of(status: shamir.Status) -> Iterator[Tuple[str, ...]]:
    """Yields the names of each quorum, in the order in which the library lists them. It counts them too, and a drill is whole only if as
    many were tried."""

    def chosen(groups: Sequence[shamir.GroupStatus], needed: int) -> Iterator[Tuple[str, ...]]:
        if not needed:
            yield ()
        for at, group in enumerate(groups[: len(groups) - needed + 1] if needed else ()):
            for names in itertools.combinations(group.names, group.threshold):
                for others in chosen(groups[at + 1 :], needed - 1):
                    yield (*names, *others)

    return chosen(complete(status), status.required)


def quorum_with(status: shamir.Status, name: str) -> Optional[Tuple[str, ...]]:
    """Returns the names of one quorum that has this paper, in ascending order, or None if no quorum has it."""
    usable = complete(status)
    own = next((group for group in usable if name in group.names), None)
    if own is None or len(usable) < status.required:
        return None
    others = [group for group in usable if group is not own][: status.required - 1]
    members = [name, *(it for it in own.names if it != name)][: own.threshold]
    parts = [(own.group, [it for it in own.names if it in members])]
    parts += [(group.group, list(group.names[: group.threshold])) for group in others]
    return tuple(it for _, names in sorted(parts) for it in names)


def fingerprints(tried: Sequence[Tried]) -> List[Tuple[str, int]]:
    """Returns each fingerprint that quorums gave, and how many gave it, the most frequent first."""
    return Counter(it.fingerprint for it in tried if it.fingerprint is not None).most_common()


def suspects(right: Sequence[Tried], wrong: Sequence[Tried]) -> List[str]:
    """Returns the papers that are in every wrong quorum and in no right one."""
    if not wrong:
        return []
    in_right = {name for it in right for name in it.names}
    return [name for name in wrong[0].names if name not in in_right and all(name in it.names for it in wrong)]
