"""The calls that are made: with good ends, and with each kind of refusal."""
from dataclasses import dataclass
from typing import Any, Dict, Iterator, List, Union

from backups import PASSPHRASE, Backup, created, plain, split_anew, texts_between

PLAN = "2/2of3,1of1,3of5"
NEW_PLAN = "2/1of1,3of4"
LENGTHS = [16, 18, 32, 128]
MANY = ",".join(["16of16"] * 16)
ROOM = 253440
# These calls get something secret.
CALLS = ["parse", "create", "recover", "encrypted", "decrypt", "drill", "status", "judge", "quorums", "reissue", "resplit", "repair"]
CALLS += ["fingerprint", "words", "create_from_encrypted", "decrypt_round"]

Argument = Union[bytes, str, int]


@dataclass(frozen=True)
class Case:
    """A call with its arguments and the room for its output, and the code that it must answer."""

    call: str
    code: int
    arguments: List[Argument]


def with_fields(share: Dict[str, Any], **fields: Any) -> bytes:
    """Returns the mnemonic of a share in which some fields are others."""
    line: str = plain.mnemonic({**share, **fields})
    return line.encode()


def other_value(share: Dict[str, Any]) -> bytes:
    return with_fields(plain.flipped(share, 1))


def wrong_word(line: bytes, place: int) -> bytes:
    """Returns a mnemonic with another word at a place."""
    words = line.split(b" ")
    words[place] = b"academic" if words[place] != b"academic" else b"acid"
    return b" ".join(words)


def creations(backup: Backup) -> Iterator[Case]:
    secret, given = backup.secret, backup.random
    for code, plan, told, passphrase, exponent, drawn, room in [
        (0, backup.plan, secret, PASSPHRASE, 0, given, ROOM),
        (1, backup.plan, secret, PASSPHRASE, 0, given, 100),
        (2, backup.plan, secret, PASSPHRASE, 16, given, ROOM),
        (31, "2of", secret, PASSPHRASE, 0, given, ROOM),
        (41, backup.plan, secret, PASSPHRASE + b"\x07", 0, given, ROOM),
        (42, backup.plan, secret + b"\1", PASSPHRASE, 0, given, ROOM),
        (43, backup.plan, secret, PASSPHRASE, 0, given[1:], ROOM),
    ]:
        yield Case("create", code, [plan, told, passphrase, exponent, 0, drawn, room])


def refused_lines(backup: Backup) -> Iterator[Case]:
    """Yields lines that recover, drill, status and quorums refuse, as cases of status."""
    first = backup.shares[0]
    good = backup.lines("0.0")
    for code, line in [
        (11, good[:-1] + b"x"),
        (12, b" ".join(good.split(b" ")[:15])),
        (13, wrong_word(good[:-1], 12)),
        (21, with_fields(backup.shares[1], id=first["id"] ^ 1)),
        (27, with_fields(backup.shares[1], member_threshold=4)),
        (28, other_value(first)),
        (71, good[:-1] + 1024 * b" "),
    ]:
        yield Case("status", code, [good + line, ROOM])


def readings(backup: Backup) -> Iterator[Case]:
    """Yields what recover, drill, status and quorums do with lines."""
    fingerprint = plain.told(backup.secret, True).strip()
    enough, lines = backup.lines("0.0", "0.2", "1.0"), backup.lines()
    mixed = backup.lines("0.0", "1.0") + other_value(backup.shares[1])
    high = with_fields(backup.shares[3], exponent=1, group_threshold=1)
    for code, given, passphrase, most, expected, room in [
        (0, enough, PASSPHRASE, 15, "", 128),
        (0, lines, PASSPHRASE, 15, fingerprint, 128),
        (1, enough, PASSPHRASE, 15, "", len(backup.secret) - 1),
        (3, high, PASSPHRASE, 0, "", 128),
        (29, b"", PASSPHRASE, 15, "", 128),
        (30, backup.lines("0.1", "1.0"), PASSPHRASE, 15, "", 128),
        (41, enough, PASSPHRASE + b"\x07", 15, "", 128),
        (44, enough, PASSPHRASE, 15, "x", 128),
        (51, mixed, PASSPHRASE, 15, "", 128),
        (52, enough, PASSPHRASE, 15, "00000000", 128),
    ]:
        yield Case("recover", code, [given, passphrase, most, expected, room])
    for code, given, most, after, limit, form, expected, room in [
        (0, lines, 15, "", 9, 0, "", ROOM),
        (0, lines, 15, "0.0+0.1+1.0", 9, 1, "", ROOM),
        (0, lines, 15, "", 9, 2, fingerprint, ROOM),
        (0, mixed, 15, "", 9, 0, "", ROOM),
        (1, lines, 15, "", 9, 0, "", 40),
        (2, lines, 15, "", 0, 0, "", ROOM),
        (3, high, 0, "", 9, 0, "", ROOM),
        (29, b"", 15, "", 9, 0, "", ROOM),
        (30, backup.lines("0.1", "1.0"), 15, "", 9, 0, "", ROOM),
        (44, lines, 15, "", 9, 2, "x", ROOM),
        (61, lines, 15, "0.", 9, 0, "", ROOM),
        (62, lines, 15, "0.1", 9, 0, "", ROOM),
    ]:
        yield Case("drill", code, [given, PASSPHRASE, most, after, limit, form, expected, room])
    yield Case("drill", 41, [lines, PASSPHRASE + b"\x07", 15, "", 9, 0, "", ROOM])
    for code, given, room in [(0, lines, ROOM), (1, lines, 10), (29, b"", ROOM)]:
        yield Case("status", code, [given, room])
    for code, given in [(0, lines), (0, backup.lines("0.0")), (29, b"")]:
        yield Case("quorums", code, [given, 0])
    good, other = backup.mnemonics[0], with_fields(backup.shares[1], id=backup.shares[0]["id"] ^ 1)
    for code, given, line, room in [
        (0, lines, good, ROOM),
        (0, other + b"\n" + backup.lines("0.2", "1.0"), good, ROOM),
        (1, lines, good, 10),
        (13, lines, wrong_word(good, 9), ROOM),
        (15, lines, with_fields(backup.shares[0], group_threshold=4), ROOM),
        (28, lines, other_value(backup.shares[0]), ROOM),
    ]:
        yield Case("judge", code, [given, line, room])
    for case in refused_lines(backup):
        yield case
        if case.code != 21:
            yield Case("judge", case.code, [case.arguments[0], good, ROOM])
        yield Case("quorums", case.code, [case.arguments[0], 0])
        yield Case("recover", case.code, [case.arguments[0], PASSPHRASE, 15, "", 128])
        yield Case("drill", case.code, [case.arguments[0], PASSPHRASE, 15, "", 9, 0, "", ROOM])


def encryptions(backup: Backup) -> Iterator[Case]:
    """Yields what encrypted does with lines, and decrypt and decrypt_round with an encrypted secret."""
    enough, first = backup.lines("0.0", "0.2", "1.0"), backup.shares[0]
    mixed = backup.lines("0.0", "1.0") + other_value(backup.shares[1])
    for code, lines, room in [
        (0, enough, 128),
        (1, enough, len(backup.secret) - 1),
        (13, wrong_word(enough, 9), 128),
        (29, b"", 128),
        (30, backup.lines("0.1", "1.0"), 128),
        (51, mixed, 128),
    ]:
        yield Case("encrypted", code, [lines, room])
    value, fingerprint = plain.encrypt(backup.secret, PASSPHRASE, first), plain.told(backup.secret, True).strip()
    for code, exponent, given, passphrase, expected, room in [
        (0, 0, value, PASSPHRASE, "", 128),
        (0, 0, value, PASSPHRASE, fingerprint, 128),
        (1, 0, value, PASSPHRASE, "", len(value) - 1),
        (2, 16, value, PASSPHRASE, "", 128),
        (41, 0, value, PASSPHRASE + b"\x07", "", 128),
        (42, 0, value + b"\1", PASSPHRASE, "", 128),
        (44, 0, value, PASSPHRASE, "x", 128),
        (52, 0, value, PASSPHRASE, "00000000", 128),
    ]:
        yield Case("decrypt", code, [first["id"], first["extendable"], exponent, given, passphrase, expected, room])
    for code, number, given, passphrase, room in [
        *((0, number, text, PASSPHRASE, 128) for number, text in zip((3, 2, 1, 0), [value, *texts_between(backup)])),
        (1, 3, value, PASSPHRASE, len(value) - 1),
        (2, 4, value, PASSPHRASE, 128),
        (41, 3, value, PASSPHRASE + b"\x07", 128),
        (42, 3, value + b"\1", PASSPHRASE, 128),
    ]:
        yield Case("decrypt_round", code, [first["id"], first["extendable"], 0, number, given, passphrase, room])


def reissues(backup: Backup) -> Iterator[Case]:
    others = backup.lines("0.0", "0.1", "1.0", "2.0", "2.1", "2.3")
    mixed = backup.lines("0.0") + other_value(backup.shares[1])
    for code, plan, names, lines, room in [
        (0, backup.plan, "0.2+2.4", others, ROOM),
        (0, backup.plan, "2.4", backup.lines("0.0", "0.1", "1.0", "2.0", "2.1"), ROOM),
        (1, backup.plan, "0.2+2.4", others, 100),
        (13, backup.plan, "0.2", wrong_word(others, 9), ROOM),
        (29, backup.plan, "0.2", b"", ROOM),
        (31, "2of", "0.2", others, ROOM),
        (51, backup.plan, "0.2", mixed, ROOM),
        (63, backup.plan, "0.", others, ROOM),
        (64, backup.plan, "9.9", others, ROOM),
        (65, "2of3", "0.2", others, ROOM),
        (66, backup.plan, "0.2", backup.lines("0.0", "2.0"), ROOM),
    ]:
        yield Case("reissue", code, [plan, names, lines, room])


def resplits(backup: Backup) -> Iterator[Case]:
    """Yields what resplit does with the lines of an extendable backup."""
    assert backup.anew
    new, lines = backup.anew, backup.lines("0.0", "0.2", "1.0")
    mixed = backup.lines("0.0", "1.0") + other_value(backup.shares[1])
    fixed = with_fields(backup.shares[3], extendable=0, group_threshold=1)
    same = backup.random[:2] + new.random[2:]
    for code, plan, given, drawn, room in [
        (0, new.plan, lines, new.random, ROOM),
        (1, new.plan, lines, new.random, 100),
        (13, new.plan, wrong_word(lines, 9), new.random, ROOM),
        (29, new.plan, b"", new.random, ROOM),
        (30, new.plan, backup.lines("0.1", "1.0"), new.random, ROOM),
        (31, "2of", lines, new.random, ROOM),
        (43, new.plan, lines, new.random[1:], ROOM),
        (51, new.plan, mixed, new.random, ROOM),
        (67, new.plan, fixed, new.random, ROOM),
        (68, new.plan, lines, same, ROOM),
    ]:
        yield Case("resplit", code, [plan, given, drawn, room])


def from_encrypted(backup: Backup) -> Iterator[Case]:
    """Yields what create_from_encrypted does with the encrypted secret of an extendable backup."""
    assert backup.anew
    new, first = backup.anew, backup.shares[0]
    value = plain.encrypt(backup.secret, PASSPHRASE, first)
    same = backup.random[:2] + new.random[2:]
    for code, plan, extendable, given, drawn, room in [
        (0, new.plan, 1, value, new.random, ROOM),
        (1, new.plan, 1, value, new.random, 100),
        (2, new.plan, 2, value, new.random, ROOM),
        (31, "2of", 1, value, new.random, ROOM),
        (42, new.plan, 1, value + b"\1", new.random, ROOM),
        (43, new.plan, 1, value, new.random[1:], ROOM),
        (67, new.plan, 0, value, new.random, ROOM),
        (68, new.plan, 1, value, same, ROOM),
    ]:
        yield Case("create_from_encrypted", code, [plan, first["id"], extendable, first["exponent"], given, drawn, room])


def lines_alone(backup: Backup) -> Iterator[Case]:
    """Yields the calls of one line, and those of one secret."""
    line = backup.mnemonics[0]
    words = line.split(b" ")
    one_lost, lost = (b" ".join(words[:5] + count * [b"?"] + words[5 + count :]) for count in (1, 3))
    short = b" ".join(words[:15])
    for code, given, room in [
        (0, line, 128), (1, line, 15), (11, line + b"x", 128), (12, short, 128), (13, wrong_word(line, 7), 128)
    ]:
        yield Case("parse", code, [given, room])
    yield Case("parse", 15, [with_fields(backup.shares[0], group_threshold=4), 128])
    two_wrong = wrong_word(wrong_word(line, 7), 9)
    for code, given, room in [
        (0, lost, ROOM), (0, line, ROOM), (1, lost, 100), (11, line + b"x", ROOM), (12, short, ROOM),
        (13, two_wrong, ROOM), (19, lost.replace(words[9], b"?", 1), ROOM), (17, wrong_word(one_lost, 9), ROOM),
        (18, wrong_word(line, 7), ROOM),
    ]:
        yield Case("repair", code, [given, room])
    for code, secret, room in [(0, backup.secret, 8), (1, backup.secret, 7), (42, backup.secret + b"\1", 8)]:
        yield Case("fingerprint", code, [secret, room])
    for code, letters, room in [(0, words[0], ROOM), (0, words[1][:2], ROOM), (1, words[0], 3)]:
        yield Case("words", code, [letters, room])


def greatest(backup: Backup) -> Iterator[Case]:
    """Yields the calls with the most groups and members."""
    lines = backup.lines()
    yield Case("create", 0, [backup.plan, backup.secret, PASSPHRASE, 0, 0, backup.random, ROOM])
    yield Case("recover", 0, [lines, PASSPHRASE, 15, "", 128])
    yield Case("encrypted", 0, [lines, 128])
    yield Case("drill", 0, [lines, PASSPHRASE, 15, "", 2, 0, "", ROOM])
    yield Case("status", 0, [lines, ROOM])
    yield Case("quorums", 0, [lines, 0])
    yield Case("judge", 0, [lines, backup.mnemonics[-1], ROOM])
    yield Case("judge", 0, [lines[: lines.rindex(b"\n", 0, -1) + 1], backup.mnemonics[-1], ROOM])
    yield Case("reissue", 0, [backup.plan, "15.15", lines[: lines.rindex(b"\n", 0, -1) + 1], ROOM])


def all_cases() -> Iterator[tuple[Backup, List[Case]]]:
    for length in LENGTHS:
        backup = created(PLAN, length)
        yield backup, [case for cases in (creations, readings, encryptions, reissues, lines_alone) for case in cases(backup)]
        backup = split_anew(PLAN, NEW_PLAN, length)
        yield backup, [*resplits(backup), *from_encrypted(backup)]
    backup = created(f"15/{MANY}", 128)
    yield backup, list(greatest(backup))
    backup = split_anew(f"15/{MANY}", f"16/{MANY}", 128)
    assert backup.anew
    new, first = backup.anew, backup.shares[0]
    value = plain.encrypt(backup.secret, PASSPHRASE, first)
    yield backup, [
        Case("resplit", 0, [new.plan, backup.lines(), new.random, ROOM]),
        Case("create_from_encrypted", 0, [new.plan, first["id"], 1, first["exponent"], value, new.random, ROOM]),
    ]
