"""The largest calls of the library: over backups of 256 mnemonics, with the longest secret."""
import functools
import importlib
from typing import Any, Callable, Iterator, List, Sequence, Tuple

import driver
import shamir_h
import worked
from worked import DIGITS, DONE, KEY, done, wanted

plain: Any = importlib.import_module("plain")

# Of the mnemonics of these plans, all are needed, all except one, and those of fifteen groups. The last has more quorums than can be counted.
ALL, ALL_BUT_ONE = ("16/" + ",".join([first] + ["16of16"] * 15) for first in ["16of16", "15of16"])
FIFTEEN_GROUPS = "15/" + ",".join(["16of16"] * 16)
PAIRS = "16/" + ",".join(["2of16"] * 16)
NAMES = plain.written([(group, member) for group in range(16) for member in range(16)])
SECRET, MOST = bytes(range(plain.MAX_SECRET_BYTES)), 2**32 - 1
# They repair this line. Two mnemonics fit it, each of the maximum length: 110 words of eight letters.
TWO_FIT = (
    "diminish ? decrease pipeline adequate ? ordinary ? briefing decrease election facility forecast envelope building "
    "quantity teammate capacity duckling symbolic aircraft purchase transfer priority terminal duration academic criminal "
    "suitable reaction priority evidence database ordinary swimming decrease training violence boundary terminal equation "
    "disaster database solution identify username judicial invasion decision petition cultural cylinder database spelling "
    "resident equation detailed language election reaction military military disaster domestic receiver training champion "
    "predator category solution exercise junction reaction peaceful snapshot tendency surprise identify sprinkle capacity "
    "deadline darkness bracelet purchase decorate estimate pregnant elevator petition military negative transfer scramble "
    "category receiver pleasure magazine mortgage detailed scramble aluminum document multiple fragment traveler gasoline "
    "adequate moisture birthday sidewalk"
)

# The name of a call, its arguments, and the line that the driver must write, or its beginning.
Call = Tuple[str, Sequence[Any], str]
# Gives what the command `shamir` prints for its words and its input.
Printed = Callable[[List[str], bytes], str]


def drawn(plan: str, step: int = 7) -> bytes:
    return bytes((step * i + 3) % 256 for i in range(plain.random_needed(plain.parse_plan(plan), len(SECRET))))


def created(plan: str, printed: Printed, *more: str) -> bytes:
    return printed(["create", plan, "--master-secret", SECRET.hex(), "--passphrase", KEY, *more], drawn(plan)).encode()


def fields_of(line: bytes) -> List[int]:
    share = plain.parse(line)
    return [share[name] for name in plain.FIELDS]


def of_plan(plan: str, flag: int, printed: Printed) -> Iterator[Call]:
    """Yields the calls that create a backup, read each of its mnemonics, recover it, and drill it in parts of one quorum."""
    given, backup = drawn(plan), created(plan, printed, *["--extendable"] * flag)
    lines = backup.splitlines()
    yield "random_needed", [plan, len(SECRET)], wanted(done(len(given), 0))
    yield "create", [plan, SECRET, KEY, 0, flag, given], wanted(done(len(lines), 0), backup)
    for line in lines:
        yield "parse", [line], wanted(DONE, plain.parse(line)["value"], fields=fields_of(line))
    yield "recover", [backup, KEY, 15, None], wanted(DONE, SECRET)
    first, numbers = plain.parse(lines[0]), fields_of(lines[0])[:3]
    value = plain.encrypt(SECRET, KEY.encode(), first)
    yield "encrypted", [backup], wanted(DONE, value, fields=numbers)
    yield "decrypt", [*numbers, value, KEY, None], wanted(DONE, SECRET)
    for number in (3, 2, 1, 0):
        undone = plain.decrypt_round(value, number, KEY.encode(), first)
        yield "decrypt_round", [*numbers, number, value, KEY], wanted(DONE, undone)
        value = undone
    after, last = "", ""
    while last != "end\n":
        part = printed(["drill", "--limit", "1", "--passphrase", KEY, *([f"--after={after}"] if after else [])], backup)
        quorum, last = part.splitlines(True)
        yield "drill", [backup, KEY, 15, after, MOST, DIGITS, None], wanted(done(1, len(quorum)), part.encode())
        after = last.strip().removeprefix("more after ")


def of_fifteen_groups(printed: Printed) -> Iterator[Call]:
    """Yields the calls that count mnemonics, judge one beside them, compute some again, and tell the fingerprint."""
    backup = created(FIFTEEN_GROUPS, printed)
    *others, last = backup.splitlines(True)
    rest, status = b"".join(others), printed(["status"], backup).encode()
    yield "status", [backup], wanted(done(16, 15), status)
    for lines, again in [(backup, 1), (rest, 0)]:
        yield "judge", [lines, last.strip()], wanted(done(16, 15), status, fields=[*fields_of(last.strip()), again])
    yield "reissue", [FIFTEEN_GROUPS, NAMES, backup], wanted(DONE, backup)
    yield "reissue", [FIFTEEN_GROUPS, "15.15", rest], wanted(DONE, last)
    told = printed(["recover", "--fingerprint", "--passphrase", KEY], backup).strip().encode()
    yield "fingerprint", [SECRET], wanted(DONE, told)


def of_splits(printed: Printed) -> Iterator[Call]:
    """Yields the calls that split a backup anew, from its mnemonics and from its encrypted secret."""
    for plan in (FIFTEEN_GROUPS, ALL):
        lines, given = created(plan, printed, "--extendable"), drawn(ALL, 5)
        anew = plain.lines(plain.resplit(plain.parse_plan(ALL), lines, given)).encode()
        yield "resplit", [ALL, lines, given], wanted(done(256, 0), anew)
        first = plain.parse(lines.splitlines()[0])
        yield "create_from_encrypted", [ALL, first["id"], 1, 0, plain.encrypt(SECRET, KEY.encode(), first), given], wanted(done(256, 0), anew)


def of_pairs(printed: Printed) -> Iterator[Call]:
    """Yields calls over groups of which two members are needed. A drill lists as many quorums as the output has room for."""
    backup = created(PAIRS, printed)
    two_of_each = b"".join(line for number, line in enumerate(backup.splitlines(True)) if number % 16 < 2)
    firsts = [(group, member) for group in range(16) for member in range(2)]
    names = [plain.written([*firsts[:-1], (15, member)]) for member in range(1, 7)]
    listing = "".join(f"{it} {SECRET.hex()}\n" for it in names)
    yield "drill", [backup, KEY, 15, None, MOST, DIGITS, None], wanted(done(6, len(listing)), f"{listing}more after {names[-1]}\n".encode())
    yield "quorums", [backup], wanted(done(2**64 - 1, 0))
    yield "reissue", [PAIRS, NAMES, two_of_each], wanted(DONE, backup)


def of_no_backup() -> Iterator[Call]:
    yield "words", [""], wanted(DONE, "".join(word + "\n" for word in plain.WORDS).encode())
    fitting = plain.repair(TWO_FIT.encode())
    yield "repair", [TWO_FIT], wanted(done(len(fitting), 0), "".join(line + "\n" for line in fitting).encode())
    yield "repair", ["document" + fitting[0][len("document") :]], wanted(worked.Answer(shamir_h.CODES["WRONG_WORD"], "", first=1))
    # The texts of all codes with the largest details. Their beginning says that they are given.
    for code in range(100):
        for first, second in [(2**64 - 1, 2**64 - 1), (2**8 - 1, 2**8 - 1), (2**16 - 1, 2**32 - 1)]:
            yield "text", [code, 0, 0, first, second, 0], "0 0 0 0 0 "
    yield "version", [], wanted(DONE, shamir_h.VERSION.encode())


def calls(printed: Printed) -> Iterator[Call]:
    for plan, flag in [(ALL, 0), (ALL, 1), (ALL_BUT_ONE, 0)]:
        yield from of_plan(plan, flag, printed)
    yield from of_fifteen_groups(printed)
    yield from of_splits(printed)
    yield from of_pairs(printed)
    yield from of_no_backup()


def by_plain(words: List[str], data: bytes) -> str:
    return str(plain.answer(words, data)[0])


@functools.cache
def made(printed: Printed) -> List[driver.Made]:
    """Returns the lines of the calls, each with room of the length that the header names, and what the driver must write."""
    return [(driver.line(call, given, shamir_h.ENOUGH.get(call, 0)), right) for call, given, right in calls(printed)]


def touched(program: str, printed: Printed = by_plain) -> int:
    """Makes the calls on a stack of the size that the header names, and compares the answers. Returns how many bytes of it they touch."""
    [count] = driver.check([program], made(printed), "stack")
    return int(count)
