"""What a task has of papers, secrets and passphrases, and what it asks the library about them."""
from __future__ import annotations

import ctypes
import dataclasses
from dataclasses import dataclass, field
from typing import Dict, List, Optional, Sequence, Tuple

import shamir
from shamir.papers.line import wipe
from shamir.papers.spelling import read
from shamir.papers.trial import Trial

# From so many words on, what was typed is a paper that was begun.
BEGUN_LEAST = 10
# So many words begin all papers of a backup. They hold its identifier, the flag and the exponent.
OPENING_WORDS = 2
# So many letters identify a word of the list.
IDENTIFYING = 4


@dataclass(frozen=True)
class Paper:
    """A paper that the library found sound: its words, and what they say of the backup. `is_repaired` says that the library found some
    of the words, `is_proved` that a drill has shown that these are right, and `is_rewritten` that the owner has written the paper anew
    since then. `is_answered` says that its group needs one paper, as only the owner said."""

    line: str = field(repr=False)
    name: str
    id: int
    group: int
    exponent: int
    secret_bytes: int
    group_count: int
    group_threshold: int
    member_threshold: int
    is_extendable: bool = False
    is_repaired: bool = False
    is_proved: bool = False
    is_rewritten: bool = False
    is_answered: bool = False

    @property
    def is_possible(self) -> bool:
        """Whether a backup can have this paper: its group is one of the groups that it says the backup has."""
        return self.group < self.group_count

    @property
    def is_doubtful(self) -> bool:
        """Whether words were found, and nothing shows yet that they are right."""
        return self.is_repaired and not self.is_proved

    @property
    def words(self) -> List[str]:
        return self.line.split()

    @property
    def opening(self) -> str:
        """The words with which all papers of its backup begin."""
        return " ".join(self.words[:OPENING_WORDS])


def paper_of(line: str) -> Paper:
    """Reads a paper, or raises the library's refusal."""
    share = shamir.parse(line)
    name = f"{share.group_index}.{share.member_index}"
    counts = share.group_count, share.group_threshold, share.member_threshold
    return Paper(line, name, share.id, share.group_index, share.exponent, len(share.value), *counts, is_extendable=share.extendable)


def is_same(one: Paper, other: Paper) -> bool:
    """Whether two papers spell the same share, as the library judges it."""
    try:
        return shamir.judge([one.line], other.line).again
    except shamir.Refusal:
        return False


def resembles(one: Sequence[str], other: Sequence[str]) -> bool:
    """Whether two rows of words are most likely of one paper: they have most words in common. Most papers of one backup share only the
    first words. A word may be cut to the letters that identify it."""
    its, others = ({word[:IDENTIFYING] for word in words} for words in (one, other))
    return 2 * len(its & others) > min(len(its), len(others))


def drawn(count: int) -> bytearray:
    """Returns random bytes of the system."""
    found = bytearray(count)
    buffer = (ctypes.c_char * count).from_buffer(found)
    given = ctypes.CDLL(None, use_errno=True).getrandom(buffer, ctypes.c_size_t(count), ctypes.c_uint(0))
    if given != count:
        raise OSError(ctypes.get_errno(), "the system gives no random bytes")
    return found


class Desk:
    """The papers that were typed, in the order of typing, the papers to be shown, and the passphrase. Papers of several backups are kept
    apart by their identifiers, and `papers` are those of one of them, which the task is about."""

    def __init__(self) -> None:
        # The papers of all backups, and the identifier of the one that the task is about: that of the paper that was typed last, or the
        # one that the owner chose.
        self._kept: List[Paper] = []
        self._id = -1
        self.passphrase = bytearray()
        # The words of papers that were begun, and that weren't taken.
        self._left: List[List[str]] = []
        # The papers that were written anew. One that is taken out and typed once more is still such a paper.
        self._anew: List[Paper] = []
        # What the papers are that were shown to be written: 'unfinished' (of a new backup), 'changing' (in place of old ones),
        # 'made', 'replaced' or 'repaired'.
        self.written = ""

    def clear(self) -> None:
        """Drops the papers, and overwrites the passphrase."""
        wipe(self.passphrase)
        self.passphrase = bytearray()
        self._kept = []
        self._left = []
        self._anew = []

    def set_passphrase(self, passphrase: bytearray) -> None:
        wipe(self.passphrase)
        self.passphrase = passphrase

    def forget_passphrase(self) -> None:
        self.set_passphrase(bytearray())

    @property
    def typed(self) -> List[Paper]:
        """The papers of all backups."""
        return [*self._kept]

    @property
    def backups(self) -> Dict[int, List[Paper]]:
        """The papers of each backup by its identifier, in the order in which the backups came."""
        return {id: [paper for paper in self._kept if paper.id == id] for id in dict.fromkeys(paper.id for paper in self._kept)}

    @property
    def papers(self) -> List[Paper]:
        return [paper for paper in self._kept if paper.id == self._id]

    @property
    def others(self) -> List[List[Paper]]:
        """The papers of each other backup, which the task isn't about."""
        return [papers for id, papers in self.backups.items() if id != self._id]

    @property
    def lines(self) -> List[str]:
        return [paper.line for paper in self.papers]

    def choose(self, id: int) -> None:
        """From now on, the task is about the backup with this identifier."""
        self._id = id

    def word_count(self, marks: Sequence[str]) -> Optional[int]:
        """Returns how many words a paper has that begins with these marks. Those of a backup that is here have as many as its others. Before
        the marks say of which backup it is, all papers here must have as many; else, returns None."""
        counts = {paper.opening: len(paper.words) for paper in self._kept}
        opening = [read(mark) or "?" for mark in marks[:OPENING_WORDS] if mark]
        if len(opening) == OPENING_WORDS and "?" not in "".join(opening):
            return counts.get(" ".join(opening))
        return next(iter(counts.values())) if len({*counts.values()}) == 1 else None

    def is_apart(self, paper: Paper) -> bool:
        """Whether papers are here, and none of the backup of this one."""
        return bool(self._kept) and paper.id not in self.backups

    @property
    def unsure(self) -> List[Paper]:
        """The only paper of each backup that has but one, if it wasn't read in full. A word that was found may make it another backup."""
        return [paper for [paper, *others] in self.backups.values() if paper.is_doubtful and not others]

    def doubtful(self, paper: Paper) -> List[Paper]:
        """Returns the papers here that a paper doesn't fit, if words of each of them were found: they may be wrong."""
        if self.is_apart(paper):
            return self.unsure
        others = [it for it in self.backups.get(paper.id, []) if not fit(it, paper)]
        return others if all(it.is_doubtful for it in others) else []

    def add(self, paper: Paper) -> bool:
        """Takes a paper, or raises the library's refusal of one that doesn't belong to the others of its backup. Returns whether it is a new
        one. One that is read in full takes the place of the same one of which words were found."""
        found = shamir.judge([it.line for it in self._kept], paper.line)
        paper = next((it for it in self._anew if is_same(paper, it)), paper)
        if paper.is_rewritten:
            self._anew = [*self._anew, paper]
        self._id = paper.id
        self._left = [it for it in self._left if not resembles(it, paper.words)]
        if found.again:
            self._kept = [_read_again(it, paper) if (it.id, it.name) == (paper.id, paper.name) else it for it in self._kept]
            return False
        self._kept.append(paper)
        return True

    def named(self, name: str) -> List[Paper]:
        """Returns the papers with a name, one at most of each backup."""
        return [paper for paper in self._kept if paper.name == name]

    def drop(self, paper: Paper) -> None:
        """Puts a paper away again."""
        self._kept = [it for it in self._kept if it is not paper]
        if self._kept and not self.papers:
            self._id = self._kept[-1].id

    def prove(self, names: Sequence[str]) -> None:
        """Takes note that these papers of the backup are right, as a drill has shown."""
        right = [it for it in self.papers if it.name in names]

        def proved(paper: Paper) -> Paper:
            return dataclasses.replace(paper, is_proved=True) if any(is_same(paper, it) for it in right) else paper

        self._kept, self._anew = [*map(proved, self._kept)], [*map(proved, self._anew)]

    def leave_out(self, words: Sequence[str]) -> None:
        """Takes note of a paper that was begun, and that isn't taken. A few words are no paper."""
        if len(words) >= BEGUN_LEAST:
            self._left = [*(it for it in self._left if not resembles(it, words)), [*words]]

    @property
    def left_out(self) -> List[str]:
        """Returns the lines of the papers that were begun, and aren't here."""
        return [" ".join(words) for words in self._left if not any(resembles(words, paper.words) for paper in self._kept)]

    @property
    def damaged(self) -> List[str]:
        """Returns the names of the papers that can't be read in full, and aren't written anew yet."""
        return [paper.name for paper in self.papers if paper.is_repaired and not paper.is_rewritten]

    def status(self) -> shamir.Status:
        return shamir.status(self.lines)

    def quorums(self) -> int:
        """Returns how many quorums the papers have, or 2**64 - 1 if they have more."""
        return shamir.quorums(self.lines)

    def make(self, plan: str, secret: bytearray, exponent: int, extendable: bool) -> Tuple[List[Paper], str]:
        """Makes a backup. Returns its papers, and the fingerprint of the secret. If papers are here, the new ones have another identifier,
        so that nobody takes both for one backup."""
        while True:
            lines = shamir.create(plan, secret, passphrase=self.passphrase, exponent=exponent, extendable=extendable)
            papers = [paper_of(line) for line in lines]
            if papers[0].id not in self.backups:
                return papers, shamir.fingerprint(secret)

    def resplit(self, plan: str) -> List[Paper]:
        """Makes the papers of another plan for the same secrets, one for each passphrase. Their identifier is another one."""
        while True:
            papers = [paper_of(line) for line in shamir.resplit(plan, self.lines)]
            if papers[0].id not in self.backups:
                return papers

    def reissue(self, plan: str, name: str) -> Paper:
        return paper_of(shamir.reissue(plan, name, self.lines)[0])

    def recover(self) -> bytearray:
        return bytearray(shamir.recover(self.lines, passphrase=self.passphrase))

    def trial(self, expect: str) -> Trial:
        """Returns a trial of the papers' quorums. `expect` is the fingerprint that is expected, or empty."""
        return Trial({paper.name: paper.line for paper in self.papers}, self.passphrase, expect)


def fit(one: Paper, other: Paper) -> bool:
    """Whether two papers of one identifier can be of one backup."""
    try:
        shamir.judge([one.line], other.line)
    except shamir.Refusal:
        return False
    return True


def _read_again(here: Paper, paper: Paper) -> Paper:
    """Returns a paper that is here after the same one was typed again. One that was written anew stays such a paper."""
    return here if here.is_rewritten else dataclasses.replace(here, is_repaired=here.is_repaired and paper.is_repaired)


def derivation_seconds(measured: float, exponent: int, secret_bytes: int) -> float:
    """Returns how long one recovery takes, if 10,000 iterations of the key derivation take `measured` seconds."""
    return measured * 2.0**exponent * (2 if secret_bytes > 64 else 1)
