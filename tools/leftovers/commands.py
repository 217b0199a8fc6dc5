"""The runs of the program: each command, with good ends, with each kind of refusal, with devices that fail, at a terminal, and with too
small a stack.
"""
import signal
from dataclasses import dataclass, replace
from typing import Dict, Iterator, List, Tuple

import cases
from backups import PASSPHRASE, Backup
from devices import How

# These numbers are of the library alone: a buffer, a limit or an exponent.
OF_A_CALL = [1, 2, 3]
READ_FAILED, WRITE_FAILED = 72, 73
MOST = 1024
# A word that begins so stands for a file with the rest as its bytes.
IN_FILE = "FILE:"
CUT_OFF, FULL = How(is_cut=True), How(is_full=True)
UNKNOWN_WORD, RANDOM_LENGTH = 13, 43
# The most random bytes that a backup takes. The program reads at most one more.
MOST_RANDOM = 32574
# Each command of the native program needs less of the stack than this, and its `main` takes more before it reads anything.
SHORT = 376 << 10
# Linux gives this much of the stack before a program begins, whatever the limit. As plain C, the program needs no more.
GIVEN = 128 << 10


@dataclass(frozen=True)
class Run:
    """A run of the program, the number of its refusal, or 0, and its status. Where that is 0, a command may also find that not all is
    well, and end with 1."""

    words: List[str]
    given: bytes
    code: int = 0
    status: int = 0
    how: How = How()

    @property
    def name(self) -> str:
        return f"shamir {self.words[0]}{self.how.told}, with the code {self.code} and the status {self.status}"

    @property
    def is_sound(self) -> bool:
        """Says whether nothing is refused, and each device works."""
        return not self.code and not self.status

    @property
    def has_files(self) -> bool:
        return any(word.startswith(IN_FILE) for word in self.words)


def in_file(data: bytes) -> str:
    """Returns the word for a file with these bytes."""
    return IN_FILE + data.decode("latin-1")


def placed(option: str, value: bytes, is_line: bool) -> Tuple[List[str], bytes]:
    """Returns the words for a value in a file or in a line of the input, and this line."""
    if is_line:
        return [f"--{option}-file", "-"], value + b"\n"
    return [f"--{option}-file", in_file(value + b"\n")], b""


def creation(plan: str, secret: bytes, passphrase: bytes, drawn: bytes, is_line: bool, code: int, status: int) -> Run:
    """Returns a creation. `secret` is its digits."""
    first, line = placed("master-secret", secret, is_line)
    second, line_after = placed("passphrase", passphrase, is_line)
    return Run(["create", plan, *first, *second], line + line_after + drawn, code, status)


def split_anew(plan: str, lines: bytes, random_file: str, code: int = 0, status: int = 0, how: How = How()) -> Run:
    return Run(["resplit", plan, "--random-file", random_file], lines, code, status, how)


def text(given: cases.Argument) -> str:
    return given.decode() if isinstance(given, bytes) else str(given)


def raw(given: cases.Argument) -> bytes:
    return given if isinstance(given, bytes) else str(given).encode()


def like(case: cases.Case, is_line: bool) -> Iterator[Run]:
    """Yields the run that does what a call of the library does, if there is one."""
    it = case.arguments
    if case.code in OF_A_CALL:
        return
    status = 1 if case.code else 0
    if case.call == "create":
        yield creation(text(it[0]), raw(it[1]).hex().encode(), raw(it[2]), raw(it[5]), is_line, case.code, status)
    elif case.call == "recover":
        words, line = placed("passphrase", raw(it[1]), is_line)
        expected = [f"--expect={text(it[3])}"] if it[3] else []
        yield Run(["recover", *words, *expected], line + raw(it[0]), case.code, status)
    elif case.call == "drill":
        words, line = placed("passphrase", raw(it[1]), is_line)
        after = [f"--after={text(it[3])}"] if it[3] else []
        forms: Dict[cases.Argument, List[str]] = {0: [], 1: ["--fingerprint"], 2: [f"--expect={text(it[6])}"]}
        yield Run(["drill", *words, *after, f"--limit={text(it[4])}", *forms[it[5]]], line + raw(it[0]), case.code, status)
    elif is_line:
        return
    elif case.call == "reissue":
        yield Run(["reissue", text(it[0]), text(it[1])], raw(it[2]), case.code, status)
    elif case.call == "resplit":
        yield split_anew(text(it[0]), raw(it[1]), in_file(raw(it[2])), case.code, status)
    elif case.call in ("status", "repair", "parse"):
        yield Run([{"parse": "show"}.get(case.call, case.call)], raw(it[0]), case.code, status)


def failures(backup: Backup, is_line: bool) -> Iterator[Run]:
    """Yields runs whose values can't be taken, and runs whose devices fail."""
    digits, drawn, lines = backup.secret.hex().encode(), backup.random, backup.lines()
    for secret, passphrase in [
        (digits[:-1] + b"g", PASSPHRASE),
        (digits[:-1], PASSPHRASE),
        (digits + MOST * b"0", PASSPHRASE),
        (digits, PASSPHRASE + MOST * b"x"),
    ]:
        yield creation(backup.plan, secret, passphrase, drawn, is_line, 0, 2)
    words, line = placed("passphrase", PASSPHRASE, is_line)
    first, line_before = placed("master-secret", digits, is_line)
    create = ["create", backup.plan, *first, *words]
    yield Run(["create", backup.plan, *first, "--passphrase-file", "none"], line_before + drawn, status=3)
    yield Run(create, line_before + line + drawn[:-1], READ_FAILED, 3, CUT_OFF)
    yield Run(create, line_before + line + drawn, WRITE_FAILED, 3, FULL)
    for command in ("recover", "drill"):
        yield Run([command, *words], line + lines, READ_FAILED, 3, CUT_OFF)
        yield Run([command, *words], line + lines, WRITE_FAILED, 3, FULL)
    for plain in (["show"], ["status"], ["repair"], ["reissue", backup.plan, "0.1"]):
        if not is_line:
            yield Run(plain, lines, READ_FAILED, 3, CUT_OFF)
            yield Run(plain, lines, WRITE_FAILED, 3, FULL)
    for refused in (["--help"], ["recover", *words, "--help"], ["recover", *words, "--limit=1"], ["no"]):
        yield Run(refused, line + lines, status=0 if "--help" in refused else 2)


def failures_of_a_split(old: Backup, new: Backup) -> Iterator[Run]:
    """Yields runs of `resplit` whose devices or whose file of random bytes fail, and one whose file has more than is read of it."""
    lines, drawn = old.lines(), in_file(new.random)
    yield split_anew(new.plan, lines, drawn, READ_FAILED, 3, CUT_OFF)
    yield split_anew(new.plan, lines, drawn, WRITE_FAILED, 3, FULL)
    yield split_anew(new.plan, lines, "none", status=3)
    yield split_anew(new.plan, lines, in_file(new.random + bytes(MOST_RANDOM)), RANDOM_LENGTH, 1)


def at_terminals(runs: List[Run]) -> Iterator[Run]:
    """Yields these runs at a terminal: all of them typed, and the sound ones and one kind of refusal also with their output shown.
    `create` takes no random bytes that are typed, and `resplit` always has a file of them.
    """
    for run in runs:
        is_creation, is_split = (run.words[0] == command for command in ("create", "resplit"))
        if run.has_files and not is_split or run.how.is_cut or is_creation and not run.is_sound:
            continue
        typed = replace(run, status=2 if is_creation else run.status, how=replace(run.how, is_typed=True))
        yield typed
        if run.is_sound or run.code == UNKNOWN_WORD:
            yield replace(typed, how=How(is_typed=True, is_shown=True))
            yield replace(run, how=How(is_shown=True))


def with_little_stack(runs: List[Run], is_plain_c: bool) -> Iterator[Run]:
    """Yields the sound runs with so small a stack that a signal ends them before they have read anything. As plain C, the program ends as
    well with what it is given at the least."""
    for run in runs:
        if run.is_sound and is_plain_c:
            yield replace(run, how=replace(run.how, stack=GIVEN))
        elif run.is_sound:
            yield replace(run, status=-signal.SIGSEGV, how=How(stack=SHORT))


def greatest(backup: Backup, made: List[cases.Case]) -> Iterator[Run]:
    """Yields the runs with the most groups and members."""
    for case in made:
        yield from like(case, False)
    yield Run(["show"], backup.lines())
    yield Run(["repair"], backup.lines())


def all_runs(is_plain_c: bool) -> Iterator[Tuple[Backup, List[Run]]]:
    for backup, made in cases.all_cases():
        if backup.plan == cases.PLAN:
            runs = [run for case in made for is_line in (False, True) for run in like(case, is_line)]
            if backup.anew:
                runs += failures_of_a_split(backup, backup.anew)
            else:
                runs += [run for is_line in (False, True) for run in failures(backup, is_line)]
            yield backup, [*runs, *at_terminals(runs), *with_little_stack(runs, is_plain_c)]
        else:
            yield backup, list(greatest(backup, made))
