"""A backup, its secrets, and the forms in which memory can hold them."""
import importlib
import random
import re
from dataclasses import dataclass, replace
from typing import Any, Dict, Iterable, Iterator, List, Optional, Tuple

plain: Any = importlib.import_module("plain")

PASSPHRASE = b"correct horse battery"
WINDOW = 8
RUN = 3
# The words of a mnemonic's header hold the identifier and the plan, and nothing secret. Their indices are small, so other numbers in
# memory can be the same.
HEADER_WORDS = 4
# Bytes with fewer than eight zeros in a row. Nothing that is looked for is in others, except up to seven zeros at its beginning.
# A range of bytes is found faster than all bytes but one.
FILLED = re.compile(rb"[\1-\xff](?:\0{0,7}[\1-\xff])*")


@dataclass(frozen=True)
class Backup:
    """A backup by a plan, with the exponent 0, and the backup into which it is split anew, if it is."""

    plan: str
    secret: bytes
    random: bytes
    shares: List[Dict[str, Any]]
    anew: Optional["Backup"] = None

    @property
    def mnemonics(self) -> List[bytes]:
        return [plain.mnemonic(share).encode() for share in self.shares]

    def lines(self, *names: str) -> bytes:
        """Returns the mnemonics with these names, or all."""
        taken = [f"{share['group']}.{share['member']}" for share in self.shares]
        return b"".join(line + b"\n" for name, line in zip(taken, self.mnemonics) if name in names or not names)


def created(plan: str, length: int, extendable: bool = False) -> Backup:
    draw = random.Random(f"{plan} {length}")
    secret = draw.randbytes(length)
    given = draw.randbytes(plain.random_needed(plain.parse_plan(plan), length))
    return Backup(plan, secret, given, plain.new_backup(plan, secret, PASSPHRASE, extendable, given))


def split_anew(plan: str, new_plan: str, length: int) -> Backup:
    """Returns an extendable backup, with that into which it is split anew by another plan."""
    old = created(plan, length, True)
    given = random.Random(f"{new_plan} anew {length}").randbytes(plain.random_needed(plain.parse_plan(new_plan), length))
    return replace(old, anew=Backup(new_plan, old.secret, given, plain.resplit(plain.parse_plan(new_plan), old.lines(), given)))


def texts_between(backup: Backup) -> Iterator[bytes]:
    """Yields what the rounds 3 to 1 leave of the encrypted secret."""
    text = plain.encrypt(backup.secret, PASSPHRASE, backup.shares[0])
    for number in (3, 2, 1):
        text = plain.decrypt_round(text, number, PASSPHRASE, backup.shares[0])
        yield text


def values(backup: Backup) -> Iterator[Tuple[str, bytes]]:
    """Yields what is secret in a backup, each with its name."""
    yield "the secret", backup.secret
    yield "the encrypted secret", plain.encrypt(backup.secret, PASSPHRASE, backup.shares[0])
    for text in texts_between(backup):
        yield "a text between two rounds", text
    yield "the passphrase", PASSPHRASE
    yield "random bytes", backup.random
    members: Dict[int, List[Tuple[int, bytes]]] = {}
    for share in backup.shares:
        yield "the value of a share", share["value"]
        members.setdefault(share["group"], []).append((share["member"], share["value"]))
    for share in backup.shares:
        threshold = share["member_threshold"]
        yield "a group share", plain.combine(threshold, members[share["group"]][:threshold])


def forms(value: bytes) -> Iterator[bytes]:
    """Yields a value as its bytes, as its digits, and as the words of 32 bits into which SHA-256 takes it, at each alignment."""
    yield value
    yield value.hex().encode()
    for begin in range(4):
        whole = value[begin : len(value) - (len(value) - begin) % 4]
        yield b"".join(whole[at : at + 4][::-1] for at in range(0, len(whole), 4))


def runs(mnemonic: bytes) -> Iterator[bytes]:
    """Yields three words in a row that hold a part of the value, as text, as rows of eight bytes, and as indices of 32 and 64 bits. Of
    indices of 16 bits it takes four, since a search compares at least WINDOW bytes.
    """
    words = mnemonic.split(b" ")
    for at in range(HEADER_WORDS, len(words) - RUN + 1):
        three = words[at : at + RUN]
        yield b" ".join(three)
        for filler in (b" ", b"\0"):
            yield b"".join(word.ljust(8, filler) for word in three)
        for size in (2, 4, 8):
            yield b"".join(plain.INDEX[word].to_bytes(size, "little") for word in words[at : at + max(RUN, WINDOW // size)])


def windows(form: bytes) -> Iterator[bytes]:
    """Yields any WINDOW bytes in a row, or all if there are no more."""
    for at in range(max(1, len(form) - WINDOW + 1)):
        yield form[at : at + WINDOW]


def needles_of(backup: Backup) -> Iterator[Tuple[bytes, str]]:
    """Yields what a search looks for of a backup, with its name."""
    for name, value in values(backup):
        for form in forms(value):
            for window in windows(form):
                yield window, name
    for mnemonic in backup.mnemonics:
        for run in runs(mnemonic):
            yield run, "words of a mnemonic"
    if backup.anew:
        yield from needles_of(backup.anew)


class Needles:
    """What a search looks for: by its first bytes, each whole text and its name."""

    def __init__(self, needles: Iterable[Tuple[bytes, str]]) -> None:
        self._found: Dict[bytes, List[Tuple[bytes, str]]] = {}
        for text, name in needles:
            same = self._found.setdefault(text[:WINDOW], [])
            if (text, name) not in same:
                same.append((text, name))

    def within(self, memory: bytes) -> Iterator[Tuple[int, str]]:
        """Yields where something secret begins in memory, and what it is."""
        for stretch in FILLED.finditer(memory):
            for at in range(max(0, stretch.start() - WINDOW + 1), stretch.end()):
                for text, name in self._found.get(memory[at : at + WINDOW], []):
                    if memory.startswith(text, at):
                        yield at, name
