"""The two calls of python-shamir-mnemonic, the reference implementation of SLIP-0039, by the library libshamir.

A program that uses them changes one line of imports:

    >>> from shamir.mnemonic import MnemonicError, combine_mnemonics, generate_mnemonics
    >>> groups = generate_mnemonics(1, [(2, 3)], bytes(range(16)), b"TREZOR")
    >>> combine_mnemonics(groups[0][1:], b"TREZOR") == bytes(range(16))
    True

The calls have the arguments, the defaults and the results of the reference. They raise `MnemonicError` if mnemonics are
refused, and `ValueError` if another argument is refused. docs/LIBRARY.md of the repository says what differs from the
reference.
"""
from __future__ import annotations

import operator
import secrets
from itertools import islice
from typing import Iterable, List, Tuple

import shamir
from shamir import Data, Text

__all__ = ["MnemonicError", "combine_mnemonics", "generate_mnemonics"]


class MnemonicError(Exception):
    """Mnemonics are refused. The `__cause__` is the `shamir.Refusal`, which has the code. If one mnemonic is at fault, its `line`
    is the position of this mnemonic, counted from 1.
    """


def generate_mnemonics(
    group_threshold: int,
    groups: Iterable[Tuple[int, int]],
    master_secret: Data,
    passphrase: Text = b"",
    extendable: bool = True,
    iteration_exponent: int = 1,
) -> List[List[str]]:
    """Create a backup of a secret, and return a list of mnemonics for each group.

    `groups` has a pair for each group: its member threshold, and its number of members. There are 1 to 16 groups, each of 1
    to 16 members. A member threshold may be 1 only if the group has one member. `master_secret` has an even number of bytes,
    16 to 128. `passphrase` consists of printable ASCII. `iteration_exponent` is from 0 to 15. The random bytes come from
    `secrets`.

    Raises ValueError if one of these is refused. If the library refuses it, the `__cause__` is the `shamir.Refusal`.
    """
    members = [(operator.index(threshold), operator.index(count)) for threshold, count in groups]
    plan = f"{operator.index(group_threshold)}/{','.join(f'{threshold}of{count}' for threshold, count in members)}"
    secret = shamir._data(master_secret, "master_secret")
    try:
        random = secrets.token_bytes(shamir.random_needed(plan, len(secret)))
        lines = shamir.create(plan, secret, passphrase=passphrase, exponent=iteration_exponent, extendable=extendable, random=random)
    except (shamir.Refusal, OverflowError) as refused:
        _check_memory(refused)
        raise ValueError(str(refused)) from refused
    made = iter(lines)
    return [list(islice(made, count)) for _, count in members]


def combine_mnemonics(mnemonics: Iterable[str], passphrase: Text = b"") -> bytes:
    """Recover the secret from mnemonics of a backup, in any order.

    Mnemonics beyond a quorum are accepted, and the first quorum is used, in the order of `shamir.drill`. A wrong passphrase
    isn't detected: it gives another secret.

    Raises MnemonicError if mnemonics are refused or incomplete, and ValueError if the passphrase is refused.
    """
    lines = [_line(mnemonic) for mnemonic in mnemonics]
    try:
        for number, line in enumerate(lines, 1):
            _check(number, line)
        return shamir.recover(lines, passphrase=passphrase)
    except shamir.Refusal as refused:
        _check_memory(refused)
        kind = ValueError if refused.code == shamir.Code.PASSPHRASE else MnemonicError
        raise kind(str(refused)) from refused


def _check_memory(refused: Exception) -> None:
    """Raise MemoryError if the library had no memory. No argument is at fault then."""
    if isinstance(refused, shamir.Refusal) and refused.code == shamir.Code.NO_MEMORY:
        raise MemoryError(refused.text) from None


def _check(number: int, line: bytes) -> None:
    """Raise a Refusal with this number of a line if it is no mnemonic. `recover` skips blank lines and comments."""
    try:
        shamir.parse(line)
    except shamir.Refusal as refused:
        raise shamir.Refusal(refused.code, number, refused.details, refused.text) from None


def _line(mnemonic: str) -> bytes:
    """Return a mnemonic in UTF-8. A line feed may end it. The library refuses another line feed in it, and lone surrogates."""
    if not isinstance(mnemonic, str):
        raise TypeError(f"a mnemonic isn't a str, but of type {type(mnemonic).__name__}")
    return str.encode(mnemonic, "utf-8", "surrogatepass")
