"""What each quorum gives, one after the other, so that the owner sees how far a drill is, and keeps what was tried if it is stopped.

Where one recovery takes long, the library undoes the cipher of each encrypted secret round by round, and of each only once. Elsewhere
it lists the quorums itself.
"""
from __future__ import annotations

import threading
import time
from typing import Dict, Iterable, Iterator, List, Optional, Sequence, Tuple

import shamir
from shamir.papers.quorums import TRIED_FIRST, Tried, quorum_with, quorums_of

# If a recovery takes longer, quorums are tried one by one.
SLOW_SECONDS = 0.1
ROUNDS = 4
# A part of a listing has so many quorums at least, and more if it takes less time.
PART_LEAST, PART_SECONDS = 16, 0.2


class Trial:
    """The quorums of papers, by their names. `expect` is the fingerprint that is expected, or empty. `outcomes` has those that were tried,
    and `rounds` says how many rounds of the cipher are undone of the next one."""

    def __init__(self, papers: Dict[str, str], passphrase: bytearray, expect: str):
        self._papers, self._passphrase, self._expect = papers, passphrase, expect
        self.outcomes: List[Tried] = []
        self.rounds = 0
        # The fingerprint of each secret, by its encrypted secret.
        self._found: Dict[bytes, str] = {}
        self._is_stopped = threading.Event()

    def stop(self) -> None:
        """Ends what goes on, as soon as a round or a quorum ends."""
        self._is_stopped.set()

    def run(self, is_whole: bool, is_slow: bool) -> None:
        """Tries every quorum, or, if it isn't to be whole, the first ones, and one with each paper that none of these has."""
        status = shamir.status(self._papers.values())
        self._add(self._one_by_one(quorums_of(status)) if is_slow else self._listed(list(self._papers)), None if is_whole else TRIED_FIRST)
        known = {it.names for it in self.outcomes}
        for name in [name for group in status.groups for name in group.names if not is_whole]:
            names = quorum_with(status, name)
            if names is not None and names not in known:
                known.add(names)
                self._add(self._one_by_one([names]) if is_slow else self._listed(names), None)

    def _add(self, outcomes: Iterator[Tried], most: Optional[int]) -> None:
        while not self._is_stopped.is_set() and (most is None or len(self.outcomes) < most):
            found = next(outcomes, None)
            if found is None:
                return
            self.outcomes.append(found)

    def _listed(self, names: Sequence[str]) -> Iterator[Tried]:
        """Yields what the quorums of papers give, as the library lists them, in parts. Each part derives keys anew, so parts grow, unless they
        take so long that the owner waits for them."""
        data, key = shamir._joined([self._papers[name] for name in names]), bytes(self._passphrase)
        expect, count = self._expect or None, PART_LEAST
        form, cursor, is_more = shamir._form(expect is None, expect), None, True
        while is_more:
            begun = time.monotonic()
            listing = shamir._listed(data, key, cursor, count, form, expect)
            seconds = time.monotonic() - begun
            count = min(2 * count, shamir._LIMIT_MAX) if seconds < PART_SECONDS else max(PART_LEAST, count // 2)
            cursor, is_more = listing.cursor, listing.cursor is not None
            for it in (shamir._outcome(line, form) for line in listing.outcomes.splitlines()):
                yield Tried(tuple(it.names.split("+")), it.fingerprint, it.mismatch, it.expected)

    def _one_by_one(self, quorums: Iterable[Tuple[str, ...]]) -> Iterator[Tried]:
        """Yields the same, quorum by quorum."""
        for names in quorums:
            try:
                kept = shamir.encrypted([self._papers[name] for name in names])
            except shamir.Refusal as refusal:
                if refusal.code != shamir.Code.DIGEST_MISMATCH:
                    raise
                yield Tried(names, None, refusal.details[0])
                continue
            found = self._found.get(bytes(kept.value)) or self._decrypted(kept)
            if found is None:
                return
            self._found[bytes(kept.value)] = found
            yield Tried(names, None, None, found == self._expect) if self._expect else Tried(names, found, None)

    def _decrypted(self, kept: shamir.EncryptedSecret) -> Optional[str]:
        """Returns the fingerprint of a secret, or None if the trial was stopped."""
        found = None
        for done, secret in enumerate(shamir.decrypt_rounds(kept, passphrase=self._passphrase), 1):
            if self._is_stopped.is_set():
                return None
            self.rounds = done % ROUNDS
            found = None if secret is None else shamir.fingerprint(secret)
        return found
