"""SLIP-0039 backups of a master secret, by the library libshamir.

    >>> import os, shamir
    >>> secret = os.urandom(16)
    >>> mnemonics = shamir.create("2of3", secret, passphrase="TREZOR")
    >>> shamir.recover(mnemonics[1:], passphrase="TREZOR") == secret
    True

A backup consists of mnemonics, which are lines of words. Each mnemonic is a member of a group. Groups and members are
numbered from 0, and the name of a mnemonic has both numbers: 0.2 is member 2 of group 0. Names are ordered by group,
and then by member, as numbers: 0.2 comes before 0.10.

A group is complete if the number of its members at hand is at least its member threshold. Mnemonics are enough if the
number of complete groups is at least the group threshold. A quorum is a minimal set of mnemonics that is enough.

A mnemonic has a value. The values of the members of a group combine to a group share, and the group shares combine to
the encrypted secret. A digest is four bytes by which the library usually detects values that don't belong together.

Each function passes its arguments to the library, and raises `Refusal` if the library refuses them. A text is a str,
which is encoded as UTF-8, or an object with the buffer protocol. Secrets and random bytes are objects with the buffer
protocol. Anything else raises TypeError. A str with a lone surrogate, which UTF-8 can't encode, raises ValueError, and
so does an object whose memory is no longer there, such as a released memoryview or a closed mmap. A number that doesn't
fit the C type raises OverflowError. No exception's text holds a secret, a passphrase or a word of a mnemonic.

The module loads the library that the environment variable SHAMIR_LIBRARY names. Without the variable it loads
libshamir.so in the folder of this package, where `make lib` puts it, or else portable.so there, which is compiled from the
library as plain C, or else the system's libshamir.so.1. If the library isn't there, lacks a call, or has another first
version number than the package, it raises ImportError.

Calls share no data, so any number of threads can make calls at once. A call uses at most 512 KiB of stack. A call in a
thread with a smaller `threading.stack_size` can crash the program; 1,048,576 is enough for every call. The library
clears the stack of each call that gets a secret, and the package the buffer of its output. It doesn't clear what Python
keeps: the arguments, their copies, the random bytes that it draws, and the results. `recover_into`, `encrypted_into` and
`decrypt_into` leave nothing secret but in the buffers of their caller, who can clear a bytearray. `Papers` keeps mnemonics in
bytearrays, and clears them. A drill with fingerprints, or with an expected one, gets no secret from the library.
"""
from __future__ import annotations

import array
import ctypes
import enum
import itertools
import mmap
import operator
import os
import pathlib
from dataclasses import dataclass, field
from typing import Any, Callable, Dict, Generator, Iterable, List, Optional, Tuple, Union, cast

__all__ = ["ClearableLines", "Code", "Data", "EXPONENT_MAX", "EncryptedSecret", "GroupStatus", "Judgement", "Lines", "OF_GROUPS", "Outcome", "Papers"]
__all__ += ["Recovered", "Refusal", "SECRET_BYTES_MAX", "Share", "ShareFields", "Status", "Text"]
__all__ += ["create", "create_from_encrypted", "decrypt", "decrypt_into", "decrypt_round", "decrypt_rounds", "drill", "encrypted", "encrypted_into"]
__all__ += ["fingerprint", "judge"]
__all__ += ["library_version", "parse", "quorums", "random_needed", "recover", "recover_into", "reissue", "repair", "resplit", "status", "words"]

__version__ = "1.0.0"

# Objects with the buffer protocol. Every object that memoryview accepts can be passed; these are the types that a type checker
# knows.
Data = Union[bytes, bytearray, memoryview, "array.array[Any]", mmap.mmap]
Text = Union[str, Data]
# One text of lines, or an iterable of lines. A line of an iterable may end with a line feed.
Lines = Union[Text, Iterable[Text]]
# The same without a str, which can't be cleared.
ClearableLines = Union[Data, Iterable[Data]]

# The maximum length of a secret, and of the value of a mnemonic.
SECRET_BYTES_MAX = 128

# These buffer lengths are always enough. Their names are those of shamir.h.
_MNEMONICS_BYTES_MAX = 253440
_STATUS_BYTES_MAX = 1638
_FINGERPRINT_BYTES_MAX = 8
_WORDS_BYTES_MAX = 7231
_REPAIRED_BYTES_MAX = 1980
_TEXT_BYTES_MAX = 64

# The maximum iteration exponent.
EXPONENT_MAX = 15

# In the `mismatch` of an outcome and the details of Code.DIGEST_MISMATCH, this number stands for the digest of the group
# shares, to which the members of the groups combine.
OF_GROUPS = 16

# The forms in which a drill tells secrets: their digits, their fingerprints, or whether one is expected.
_FORM_DIGITS = 0
_FORM_FINGERPRINTS = 1
_FORM_EXPECTED = 2

# `resplit` and `create_from_encrypted` draw random bytes so often at most. One draw in 32,768 gives the identifier of the old backup.
_DRAWS = 10
_DRILL_ROOM = 1 << 16
_LIMIT_MAX = (1 << 32) - 1
# `Papers.recover` tries so many quorums at most.
_QUORUMS_TRIED = 1 << 16
_MORE = b"more after "


class Code(enum.IntEnum):
    """The codes of an answer. Their names are those of shamir.h, without SHAMIR_ or SHAMIR_E_.

    `Refusal.text` says in words what a code means. Here, what stands after "first" and "second" is the two numbers of
    `Refusal.details`; others are 0. Groups and members are numbered from 0.

    DONE (0): the call succeeded
    TOO_SHORT (1): the output buffer is too short; first: the number of bytes needed
    OUT_OF_RANGE (2): a number is out of range
    HIGH_EXPONENT (3): the exponent of the mnemonics is above `max_exponent`; first: this exponent
    NO_MEMORY (4): no memory is left for the call. Only the library as plain C gives this
    UNKNOWN_WORD (11): a word isn't in the word list; first: which word of the line it is, from 1
    WORD_COUNT (12): a mnemonic can't have this number of words; first: the number of words
    BAD_CHECKSUM (13): the checksum is wrong
    BAD_PADDING (14): a padding bit isn't 0
    GROUP_THRESHOLD (15): the group threshold is above the group count
    NO_MNEMONIC (17): no mnemonic fits a line of marks
    WRONG_WORD (18): the checksum is wrong; first: the position of the wrong word, if only one is wrong
    UNREADABLE_WORDS (19): more than three places of a line are open; first: how many are
    OTHER_IDENTIFIER (21): the identifier differs from that of earlier lines
    OTHER_EXTENDABLE (22): the extendable flag differs from that of earlier lines
    OTHER_EXPONENT (23): the iteration exponent differs from that of earlier lines
    OTHER_GROUP_THRESHOLD (24): the group threshold differs from that of earlier lines
    OTHER_GROUP_COUNT (25): the group count differs from that of earlier lines
    OTHER_LENGTH (26): the length of the value differs from that of earlier lines
    OTHER_MEMBER_THRESHOLD (27): the group has another member threshold in earlier lines; first: the group
    CONFLICTING_SHARE (28): this name has another value in an earlier line; first: the group, second: the member
    NO_SHARES (29): no line holds a mnemonic
    INCOMPLETE (30): too few groups are complete; first: how many are, second: the group threshold
    BAD_PLAN (31): the text isn't a plan
    PLAN_GROUPS (32): the plan has more than 16 groups, or fewer than its group threshold
    PLAN_MEMBERS (33): a group has more than 16 members, or fewer than its threshold; first: the group
    ONE_OF_MANY (34): a group has several members and the member threshold 1; first: the group
    PASSPHRASE (41): a byte of the passphrase isn't printable ASCII; first: which byte it is, from 1
    SECRET_LENGTH (42): a secret can't have this number of bytes; first: the number of bytes
    RANDOM_LENGTH (43): the number of random bytes is wrong; first: the number of bytes needed
    BAD_FINGERPRINT (44): the expected fingerprint isn't eight hexadecimal digits
    DIGEST_MISMATCH (51): a digest doesn't match; first: the group, or OF_GROUPS for the group shares
    OTHER_SECRET (52): the secret has another fingerprint than the expected one
    BAD_CURSOR (61): the cursor isn't a list of names
    NOT_A_QUORUM (62): the cursor doesn't name a quorum of these mnemonics
    BAD_NAMES (63): the text isn't a list of names
    NOT_IN_PLAN (64): a name isn't in the plan; first: the group, second: the member
    OTHER_PLAN (65): a mnemonic can't belong to a backup of this plan
    UNDETERMINED (66): a mnemonic isn't determined; first: 256 * group + member, second: its four bytes are the
        members at hand, the member threshold, the other complete groups, and the group threshold
    NOT_EXTENDABLE (67): the mnemonics don't have the extendable flag, so they can't be split anew
    SAME_IDENTIFIER (68): the random bytes give the identifier that the mnemonics have
    LINE_TOO_LONG (71): a line has more than 1,024 bytes
    """

    DONE = 0
    TOO_SHORT = 1
    OUT_OF_RANGE = 2
    HIGH_EXPONENT = 3
    NO_MEMORY = 4
    UNKNOWN_WORD = 11
    WORD_COUNT = 12
    BAD_CHECKSUM = 13
    BAD_PADDING = 14
    GROUP_THRESHOLD = 15
    NO_MNEMONIC = 17
    WRONG_WORD = 18
    UNREADABLE_WORDS = 19
    OTHER_IDENTIFIER = 21
    OTHER_EXTENDABLE = 22
    OTHER_EXPONENT = 23
    OTHER_GROUP_THRESHOLD = 24
    OTHER_GROUP_COUNT = 25
    OTHER_LENGTH = 26
    OTHER_MEMBER_THRESHOLD = 27
    CONFLICTING_SHARE = 28
    NO_SHARES = 29
    INCOMPLETE = 30
    BAD_PLAN = 31
    PLAN_GROUPS = 32
    PLAN_MEMBERS = 33
    ONE_OF_MANY = 34
    PASSPHRASE = 41
    SECRET_LENGTH = 42
    RANDOM_LENGTH = 43
    BAD_FINGERPRINT = 44
    DIGEST_MISMATCH = 51
    OTHER_SECRET = 52
    BAD_CURSOR = 61
    NOT_A_QUORUM = 62
    BAD_NAMES = 63
    NOT_IN_PLAN = 64
    OTHER_PLAN = 65
    UNDETERMINED = 66
    NOT_EXTENDABLE = 67
    SAME_IDENTIFIER = 68
    LINE_TOO_LONG = 71


class _Answer(ctypes.Structure):
    code: int
    mismatches: int
    line: int
    first: int
    second: int
    written: int
    _fields_ = [
        ("code", ctypes.c_uint32),
        ("mismatches", ctypes.c_uint32),
        ("line", ctypes.c_uint64),
        ("first", ctypes.c_uint64),
        ("second", ctypes.c_uint64),
        ("written", ctypes.c_uint64),
    ]


class _Share(ctypes.Structure):
    _fields_ = [
        ("id", ctypes.c_uint16),
        ("extendable", ctypes.c_uint8),
        ("exponent", ctypes.c_uint8),
        ("group_index", ctypes.c_uint8),
        ("group_threshold", ctypes.c_uint8),
        ("group_count", ctypes.c_uint8),
        ("member_index", ctypes.c_uint8),
        ("member_threshold", ctypes.c_uint8),
    ]


class _Judgement(ctypes.Structure):
    share: _Share
    again: int
    _fields_ = [("share", _Share), ("again", ctypes.c_uint8)]


class _Parameters(ctypes.Structure):
    id: int
    extendable: int
    exponent: int
    _fields_ = [("id", ctypes.c_uint16), ("extendable", ctypes.c_uint8), ("exponent", ctypes.c_uint8)]


_SLICE = [ctypes.c_char_p, ctypes.c_size_t]
_ROOM = [ctypes.c_void_p, ctypes.c_size_t]
_Call = Callable[[Any, int], Any]


def _loaded() -> ctypes.CDLL:
    beside = (pathlib.Path(__file__).parent / name for name in ("libshamir.so", "portable.so"))
    name = os.environ.get("SHAMIR_LIBRARY") or next((str(path) for path in beside if path.exists()), "libshamir.so.1")
    try:
        library = _declared(ctypes.CDLL(name))
    except (OSError, AttributeError) as error:
        raise ImportError(f"the library of this package isn't there, or is another one: {error}", name=__name__) from error
    version = _version_of(library)
    if version.partition(".")[0] != __version__.partition(".")[0]:
        raise ImportError(f"{name} has version {version}, and this package needs version {__version__.partition('.')[0]}", name=__name__)
    return library


def _version_of(library: ctypes.CDLL) -> str:
    buffer = ctypes.create_string_buffer(_TEXT_BYTES_MAX)
    written = library.shamir_version(buffer, _TEXT_BYTES_MAX).written
    return buffer.raw[:written].decode("ascii", "replace")


def _declared(library: ctypes.CDLL) -> ctypes.CDLL:
    """Declare the types of the library's calls."""
    for name, arguments in [
        ("shamir_parse", _SLICE + [ctypes.POINTER(_Share)] + _ROOM),
        ("shamir_random_needed", _SLICE + [ctypes.c_size_t]),
        ("shamir_create", _SLICE * 3 + [ctypes.c_uint32] * 2 + _SLICE + _ROOM),
        ("shamir_recover", _SLICE * 2 + [ctypes.c_uint32] + _SLICE + _ROOM),
        ("shamir_encrypted", _SLICE + [ctypes.POINTER(_Parameters)] + _ROOM),
        ("shamir_decrypt", [ctypes.POINTER(_Parameters)] + _SLICE * 3 + _ROOM),
        ("shamir_decrypt_round", [ctypes.POINTER(_Parameters), ctypes.c_uint8] + _SLICE * 2 + _ROOM),
        ("shamir_drill", _SLICE * 2 + [ctypes.c_uint32] + _SLICE + [ctypes.c_uint32] * 2 + _SLICE + _ROOM),
        ("shamir_status", _SLICE + _ROOM),
        ("shamir_judge", _SLICE * 2 + [ctypes.POINTER(_Judgement)] + _ROOM),
        ("shamir_quorums", _SLICE),
        ("shamir_reissue", _SLICE * 3 + _ROOM),
        ("shamir_resplit", _SLICE * 3 + _ROOM),
        ("shamir_create_from_encrypted", _SLICE + [ctypes.POINTER(_Parameters)] + _SLICE * 2 + _ROOM),
        ("shamir_repair", _SLICE + _ROOM),
        ("shamir_fingerprint", _SLICE + _ROOM),
        ("shamir_words", _SLICE + _ROOM),
        ("shamir_text", [ctypes.POINTER(_Answer)] + _ROOM),
        ("shamir_version", _ROOM),
    ]:
        function = getattr(library, name)
        function.argtypes, function.restype = arguments, _Answer
    library.shamir_wipe.argtypes, library.shamir_wipe.restype = _ROOM, None
    return library


_library = _loaded()


# The names of the details of a refusal, by its code: of the first, and of the second if there is one.
_DETAILS: Dict[int, Tuple[str, ...]] = {
    Code.TOO_SHORT: ("needed",),
    Code.HIGH_EXPONENT: ("exponent",),
    Code.UNKNOWN_WORD: ("word",),
    Code.WORD_COUNT: ("words",),
    Code.WRONG_WORD: ("word",),
    Code.UNREADABLE_WORDS: ("open",),
    Code.OTHER_MEMBER_THRESHOLD: ("group",),
    Code.CONFLICTING_SHARE: ("group", "member"),
    Code.INCOMPLETE: ("complete", "required"),
    Code.PLAN_MEMBERS: ("group",),
    Code.ONE_OF_MANY: ("group",),
    Code.PASSPHRASE: ("byte",),
    Code.SECRET_LENGTH: ("bytes",),
    Code.RANDOM_LENGTH: ("needed",),
    Code.DIGEST_MISMATCH: ("group",),
    Code.NOT_IN_PLAN: ("group", "member"),
}


class Refusal(Exception):
    """The library refuses the arguments of a call.

    `code` is the cause, and `text` says it in words. The code is a member of `Code`, or an int if a later library gives a
    code that this version of the package doesn't know. `line` is the number of the refused line, counted from 1, or
    None. `details` are two numbers, and `Code` says for each code what they mean.

    These fields have the details by their names. Each is None if the code doesn't have it.

    needed: how many bytes are needed (1, 43)
    exponent: the exponent of the mnemonics (3)
    word: which word of the line it is, counted from 1 (11, 18)
    words: the number of words (12)
    open: how many places of a line are open (19)
    group, member: the name of a mnemonic (28, 64, 66); or the group alone (27, 33, 34, 51; for 51 it can be OF_GROUPS)
    complete, required: how many groups are complete, and the group threshold (30)
    byte: which byte of the passphrase it is, counted from 1 (41)
    bytes: the number of bytes (42)
    members, member_threshold, groups, group_threshold: how many members of the group are at hand and how many are needed, and how
        many other groups are complete and how many are needed (66)
    """

    needed: Optional[int] = None
    exponent: Optional[int] = None
    word: Optional[int] = None
    words: Optional[int] = None
    open: Optional[int] = None
    group: Optional[int] = None
    member: Optional[int] = None
    complete: Optional[int] = None
    required: Optional[int] = None
    byte: Optional[int] = None
    bytes: Optional[int] = None
    members: Optional[int] = None
    member_threshold: Optional[int] = None
    groups: Optional[int] = None
    group_threshold: Optional[int] = None

    def __init__(self, code: Union[Code, int], line: Optional[int], details: Tuple[int, int], text: str):
        super().__init__(code, line, details, text)
        self.code, self.line, self.details, self.text = code, line, details, text
        for name, detail in zip(_DETAILS.get(code, ()), details):
            setattr(self, name, detail)
        if code == Code.UNDETERMINED:
            self.group, self.member = divmod(details[0], 256)
            self.members, self.member_threshold, self.groups, self.group_threshold = details[1].to_bytes(8, "big")[4:]

    def __str__(self) -> str:
        place = f"line {self.line}: " if self.line else ""
        return f"{place}{int(self.code)} {self.text}"


@dataclass(frozen=True)
class ShareFields:
    """The fields of a mnemonic, without its value. Groups and members are numbered from 0."""

    id: int
    extendable: bool
    exponent: int
    group_index: int
    group_threshold: int
    group_count: int
    member_index: int
    member_threshold: int


@dataclass(frozen=True)
class Share(ShareFields):
    """The fields and the value of a mnemonic.

    Groups and members are numbered from 0. `value` is as secret as the mnemonic, and the repr leaves it out.
    """

    value: bytes = field(repr=False)


@dataclass(frozen=True)
class EncryptedSecret:
    """The encrypted secret of a backup, and the parameters that decrypt it together with the passphrase.

    `id` is the identifier of the backup, 0 to 32767, and `exponent` the iteration exponent, 0 to 15. `value` is as long as the
    secret. Whoever has it can test guesses of the passphrase, and without a passphrase it is as secret as the secret itself. The
    repr leaves it out. It is a bytes object, or what `encrypted_into` wrote, as a memoryview.
    """

    id: int
    extendable: bool
    exponent: int
    value: Union[bytes, memoryview] = field(repr=False)


@dataclass(frozen=True)
class Outcome:
    """What one quorum of a drill recovers.

    `names` are the names of its mnemonics, such as `0.0+0.2+1.0`, and `secret` is what it recovers. In a drill that is
    asked for fingerprints, `fingerprint` is the fingerprint of the secret, and `secret` is None. In a drill that expects a
    fingerprint, `expected` says whether the secret has it, and `secret` is None. In other drills these two are None. If a digest
    doesn't match, all three are None, and `mismatch` is the lowest group whose digest doesn't match, or OF_GROUPS for the digest
    of the group shares. Otherwise `mismatch` is None. The repr leaves out the secret and the fingerprint.
    """

    names: str
    secret: Optional[bytes] = field(repr=False)
    mismatch: Optional[int] = None
    fingerprint: Optional[str] = field(default=None, repr=False)
    expected: Optional[bool] = None


@dataclass(frozen=True)
class GroupStatus:
    """A group that has members among the mnemonics: its number, its member threshold, and the names of these members."""

    group: int
    threshold: int
    names: Tuple[str, ...]

    def __str__(self) -> str:
        return f"group {self.group} members {len(self.names)} of {self.threshold} {'+'.join(self.names)}"


@dataclass(frozen=True)
class Status:
    """The number of complete groups, the group threshold, and each group that has members among the mnemonics.

    `str` gives what the command status prints, without the last line feed.
    """

    complete: int
    required: int
    groups: Tuple[GroupStatus, ...]

    def __str__(self) -> str:
        return "\n".join([f"groups {self.complete} of {self.required}", *map(str, self.groups)])

    @property
    def enough(self) -> bool:
        """Whether the mnemonics have a quorum. If they do, `recover` doesn't refuse them as incomplete."""
        return self.complete >= self.required


@dataclass(frozen=True)
class Judgement:
    """What a mnemonic is beside others: its fields, whether its share is `again` among them, and the status of its backup with it.

    `str` gives that of the status, after a line `again` if the share is among them.
    """

    share: ShareFields
    again: bool
    status: Status

    def __str__(self) -> str:
        return f"again\n{self.status}" if self.again else str(self.status)


def _view(data: Data, name: str, wanted: str = "an object with the buffer protocol") -> memoryview:
    """Return a view of what an argument of this name holds.

    Raise TypeError if the object lacks the buffer protocol, and ValueError if its memory is no longer there.
    """
    try:
        return memoryview(data)
    except TypeError:
        raise TypeError(f"{name} isn't {wanted}, but of type {type(data).__name__}") from None
    except ValueError:
        raise ValueError(f"the memory of {name} is no longer there") from None


def _data(data: Data, name: str) -> bytes:
    """Return the bytes that the object really holds, even if a subclass reports another length."""
    return _view(data, name).tobytes()


def _bytes(text: Text, name: str) -> bytes:
    return _encoded(text, name) if isinstance(text, str) else _view(text, name, "a text").tobytes()


def _encoded(text: str, name: str) -> bytes:
    """Return a str in UTF-8, or raise ValueError if a lone surrogate is in it.

    A strict `str.encode` would raise a UnicodeEncodeError, which holds the text. Here nothing raises one, so none is the context
    of the ValueError either.
    """
    data = str.encode(text, "utf-8", "surrogatepass")
    if data != str.encode(text, "utf-8", "ignore"):
        raise ValueError(f"{name} has a lone surrogate, which UTF-8 can't encode")
    return data


def _slice(data: bytes) -> Tuple[bytes, int]:
    return data, len(data)


def _number(number: int, kind: Any, name: str) -> int:
    """Return the number, or raise OverflowError if it doesn't fit this C type. ctypes would truncate it silently."""
    try:
        whole, bits = operator.index(number), 8 * ctypes.sizeof(kind)
    except TypeError:
        raise TypeError(f"{name} isn't a whole number, but of type {type(number).__name__}") from None
    if not 0 <= whole < 1 << bits:
        # The number itself can have so many digits that Python refuses to print them.
        raise OverflowError(f"{name} isn't from 0 to 2**{bits} - 1")
    return whole


def _flag(flag: bool, name: str) -> int:
    if not isinstance(flag, bool):
        raise TypeError(f"{name} isn't True or False, but of type {type(flag).__name__}")
    return int(flag)


def _code(number: int) -> Union[Code, int]:
    """Return the member of `Code` with this number, or the number itself if there is none."""
    return next((code for code in Code if code == number), number)


def _checked(answer: _Answer) -> _Answer:
    if answer.code:
        room = ctypes.create_string_buffer(_TEXT_BYTES_MAX)
        told = _library.shamir_text(ctypes.byref(answer), room, _TEXT_BYTES_MAX)
        text = "no memory for the text" if told.code else room.raw[: told.written].decode()
        raise Refusal(_code(answer.code), answer.line or None, (answer.first, answer.second), text)
    return answer


def _answered(call: _Call, room: int) -> Tuple[bytes, _Answer]:
    """Return what a call writes into a buffer of this length, and its answer.

    The buffer is cleared, also if a signal such as Ctrl-C came during the call: its handler runs when the call returns, and may
    raise an exception.
    """
    buffer = ctypes.create_string_buffer(room)
    try:
        answer = _checked(call(buffer, room))
        return ctypes.string_at(buffer, answer.written), answer
    finally:
        _library.shamir_wipe(buffer, room)


def _filled(call: _Call, room: int) -> bytes:
    return _answered(call, room)[0]


def _bare(line: bytes) -> bytes:
    """Return a line without the line feed that may end it. The library takes none."""
    return line[:-1] if line.endswith(b"\n") else line


def _one_line(line: bytes, name: str) -> bytes:
    """Return a line of a list without its line feed, or raise ValueError if another line feed is in it."""
    line = _bare(line)
    if b"\n" in line:
        raise ValueError(f"{name} holds a line feed, so it is several lines")
    return line


def _is_one_text(lines: Union[Lines, ClearableLines]) -> bool:
    if isinstance(lines, str):
        return True
    try:
        memoryview(lines)  # type: ignore[arg-type]
    except TypeError:
        return False
    except ValueError:
        # Whoever reads it says that its memory is no longer there.
        return True
    return True


def _numbered(lines: Union[Lines, ClearableLines]) -> Iterable[Tuple[str, Any]]:
    """Return the lines of a list, each with what an error calls it."""
    try:
        all_lines = iter(cast(Iterable[Any], lines))
    except TypeError:
        raise TypeError(f"lines isn't a text or an iterable of lines, but of type {type(lines).__name__}") from None
    return ((f"line {number} of the list", line) for number, line in enumerate(all_lines, 1))


def _joined(lines: Lines) -> bytes:
    if _is_one_text(lines):
        return _bytes(cast(Text, lines), "lines")
    return b"\n".join(_one_line(_bytes(line, name), name) for name, line in _numbered(lines))


class _Copies:
    """Copies of arguments, for calls that leave nothing behind. They are cleared when the block ends, also if it raises."""

    def __init__(self) -> None:
        self._kept: List[Any] = []

    def __enter__(self) -> _Copies:
        return self

    def __exit__(self, *_: object) -> None:
        for copy in self._kept:
            _library.shamir_wipe(copy, len(copy))

    def room(self, length: int) -> Any:
        """Return a buffer of this length."""
        self._kept.append(ctypes.create_string_buffer(length))
        return self._kept[-1]

    def joined(self, parts: List[memoryview]) -> Tuple[Any, int]:
        """Return a copy of these parts with a line feed between them, and its length. It passes through no other object."""
        length = sum(part.nbytes for part in parts) + len(parts) - 1
        copy = self.room(length)
        room, at = memoryview(copy).cast("B"), 0
        for number, part in enumerate(parts):
            if number:
                room[at - 1] = ord("\n")
            # A view without bytes, or one with gaps, can't be cast. Python would copy gaps at once through memory that it doesn't clear.
            for piece in [part] if part.c_contiguous else (part[it : it + 1] for it in range(len(part))):
                room[at : at + piece.nbytes] = piece.cast("B") if piece.nbytes else b""
                at += piece.nbytes
            at += 1
        return copy, length

    def data(self, data: Data, name: str) -> Tuple[Any, int]:
        return self.joined([_view(data, name)])

    def line(self, line: Text, name: str) -> Tuple[Any, int]:
        """Return a copy of a line, and its length without the line feed that may end it, as `_bare` returns it."""
        copy, length = self.joined([_view(_encoded(line, name) if isinstance(line, str) else line, name, "a text")])
        return copy, length - (copy[length - 1 : length] == b"\n")

    def lines(self, lines: ClearableLines) -> Tuple[Any, int]:
        if _is_one_text(lines):
            return self.data(cast(Data, lines), "lines")
        # Each line is copied before the next one is asked for: an iterator may use its buffer again.
        parts = [self._one_line(line, name) for name, line in _numbered(lines)]
        return self.joined(parts) if parts else self.data(b"", "lines")

    def _one_line(self, line: Data, name: str) -> memoryview:
        """Return a line of a list as `_one_line` does, in a copy that is cleared."""
        _view(line, name)
        copy, length = self.line(line, name)
        # A view without bytes can't be cast.
        view = memoryview(copy).cast("B")[:length] if length else memoryview(b"")
        if ord("\n") in view:
            raise ValueError(f"{name} holds a line feed, so it is several lines")
        return view


def _room(room: bytearray) -> Tuple[Any, int]:
    """Return a bytearray as the output of a call, which gets its address."""
    length = _view(room, "room").nbytes
    return (ctypes.c_char * length).from_buffer(room), length


def library_version() -> str:
    """Return the version of the library. `__version__` is the version of the package."""
    return _filled(_library.shamir_version, _TEXT_BYTES_MAX).decode()


def parse(mnemonic: Text) -> Share:
    """Read one mnemonic, which is a line, and return its fields and its value. A line feed may end it.

    >>> shamir.parse(mnemonics[2]).member_index
    2

    Raises `Refusal` with one of the codes 11 to 15.
    """
    fields, line = _Share(), _bare(_bytes(mnemonic, "mnemonic"))
    value = _filled(lambda out, room: _library.shamir_parse(*_slice(line), ctypes.byref(fields), out, room), SECRET_BYTES_MAX)
    return Share(**_share_fields(fields), value=value)


def _share_fields(share: _Share) -> Dict[str, Any]:
    found = {name: getattr(share, name) for name, *_ in _Share._fields_}
    return {**found, "extendable": bool(found["extendable"])}


def random_needed(plan: Text, secret_bytes: int) -> int:
    """Return how many random bytes `create` takes for a plan and a secret of `secret_bytes` bytes.

    >>> shamir.random_needed("2of3", 16)
    14

    Raises `Refusal` with one of the codes 31 to 34, or 42.
    """
    return _checked(_library.shamir_random_needed(*_slice(_bytes(plan, "plan")), _number(secret_bytes, ctypes.c_size_t, "secret_bytes"))).first


def create(
    plan: Text, secret: Data, *, passphrase: Text = b"", exponent: int = 1, extendable: bool = True, random: Optional[Data] = None
) -> List[str]:
    """Create a backup of a secret, and return its mnemonics in the order of groups and members.

    `plan` is TofN for one group, or GT/T1ofN1,T2ofN2,.. for up to 16 groups. GT is the group threshold, each T is the
    member threshold of a group, and each N is its number of members. Each number is from 1 to 16. T may be 1 only if N
    is 1. `secret` has an even number of bytes, 16 to 128. `passphrase` is an additional secret of printable ASCII, which
    `recover` needs too. `extendable` sets the extendable flag, which leaves the backup's identifier out of the
    encryption.

    `exponent` is the iteration exponent, 0 to 15. The call takes 10,000 * 2^exponent iterations of PBKDF2, and twice as
    many for a secret of more than 64 bytes.

    The defaults are those of python-shamir-mnemonic, the reference implementation of the standard. Leave the extendable flag
    out if a wallet that has to read the backup may not know it. Without a passphrase, the exponent protects nothing.

    `random` has exactly as many bytes as `random_needed` gives. They must be unpredictable, and no other backup may use
    them. If `random` is None, they come from `os.urandom`.

    Raises `Refusal` with one of the codes 2, 31 to 34, or 41 to 43.
    """
    text, key, whole = _bytes(plan, "plan"), _bytes(passphrase, "passphrase"), _data(secret, "secret")
    options = _number(exponent, ctypes.c_uint32, "exponent"), _flag(extendable, "extendable")
    drawn = _random_for(text, len(whole)) if random is None else _data(random, "random")
    given = _slice(text) + _slice(whole) + _slice(key) + options + _slice(drawn)
    return _filled(lambda out, room: _library.shamir_create(*given, out, room), _MNEMONICS_BYTES_MAX).decode().splitlines()


def _random_for(plan: bytes, secret_bytes: int) -> bytes:
    """Return as many random bytes as a backup takes, or none if the library refuses the plan or the length."""
    needed = _library.shamir_random_needed(*_slice(plan), secret_bytes)
    if needed.code == Code.NO_MEMORY:
        _checked(needed)
    return b"" if needed.code else os.urandom(needed.first)


def _expected(expect: Optional[Text]) -> bytes:
    """Return the digits of a fingerprint, or nothing for None.

    For the library no digits mean that nothing is compared. An empty `expect` isn't a fingerprint here: a hyphen, which the
    library refuses, takes its place.
    """
    return b"" if expect is None else _bytes(expect, "expect") or b"-"


def recover(
    lines: Lines, *, passphrase: Text = b"", max_exponent: int = EXPONENT_MAX, expect: Optional[Text] = None
) -> bytes:
    """Recover the secret from the first quorum of mnemonics, in the order of `drill`.

    The call doesn't try mnemonics beyond that quorum.

    `lines` is one text of lines, or an iterable of lines. Each line is a mnemonic, or a comment, or blank. A comment
    starts with #, after any spaces, tabs and carriage returns. A line has at most 1,024 bytes without its line feed,
    even if it is a comment. A line of an iterable may end with a line feed; another line feed in it raises ValueError.

    `expect` is the fingerprint that the secret should have: eight hexadecimal digits, in lower or upper case. An empty one is
    refused (44), and a secret with another fingerprint too (52). If `expect` is None, a wrong passphrase isn't detected: it
    gives another secret.

    The exponent of the mnemonics determines how long the call takes: 10,000 * 2^exponent iterations of PBKDF2, and
    twice as many for a secret of more than 64 bytes. With the exponent 15 these take minutes. If the mnemonics have a
    quorum, an exponent above `max_exponent` is refused before any iteration (3).

    Raises `Refusal` with one of the codes 3, 11 to 15, 21 to 30, 41, 44, 51, 52 or 71.
    """
    options = _slice(_bytes(passphrase, "passphrase")) + (_number(max_exponent, ctypes.c_uint32, "max_exponent"),) + _slice(_expected(expect))
    given = _slice(_joined(lines)) + options
    return _filled(lambda out, room: _library.shamir_recover(*given, out, room), SECRET_BYTES_MAX)


def encrypted(lines: Lines) -> EncryptedSecret:
    """Combine the first quorum of mnemonics, in the order of `drill`, to the encrypted secret, and return it with its parameters.

    >>> kept = shamir.encrypted(mnemonics[1:])
    >>> shamir.decrypt(kept, passphrase="TREZOR") == secret
    True

    `lines` is as for `recover`, which gives what `decrypt` gives of the result. The call needs no passphrase, and makes no
    iterations. So a program can keep the encrypted secret in place of the mnemonics, and ask for the passphrase each time.

    Raises `Refusal` with one of the codes 11 to 15, 21 to 30, 51 or 71.
    """
    given, found = _slice(_joined(lines)), _Parameters()
    value = _filled(lambda out, room: _library.shamir_encrypted(*given, ctypes.byref(found), out, room), SECRET_BYTES_MAX)
    return EncryptedSecret(found.id, bool(found.extendable), found.exponent, value)


def recover_into(
    room: bytearray, lines: ClearableLines, *, passphrase: Data = b"", max_exponent: int = EXPONENT_MAX, expect: Optional[Text] = None
) -> int:
    """Recover the secret as `recover` does, write it to the start of a bytearray, and return its length.

    >>> room = bytearray(shamir.SECRET_BYTES_MAX)
    >>> length = shamir.recover_into(room, lines, passphrase=passphrase)
    >>> room[:] = bytes(len(room))

    The call leaves no copy of the secret, of the lines or of the passphrase behind. Give the two as bytearrays, and clear all three
    after use, as the last line of the example does. Don't change the length of such a bytearray, as this can leave its old
    memory behind. A str can't be cleared, so it raises TypeError.

    Raises `Refusal` as `recover` does, and with the code 1 if the bytearray is too short. Then it is unchanged.
    """
    with _Copies() as own:
        options = own.data(passphrase, "passphrase") + (_number(max_exponent, ctypes.c_uint32, "max_exponent"),) + _slice(_expected(expect))
        return _checked(_library.shamir_recover(*own.lines(lines), *options, *_room(room))).written


def encrypted_into(room: bytearray, lines: ClearableLines) -> EncryptedSecret:
    """Combine mnemonics as `encrypted` does, and write the encrypted secret to the start of a bytearray.

    The value of the result is a view of the bytearray, whose length can't be changed as long as the view is there. The call leaves no copy
    behind, as `recover_into`.

    Raises `Refusal` as `encrypted` does, and with the code 1 if the bytearray is too short. Then it is unchanged.
    """
    found = _Parameters()
    with _Copies() as own:
        answer = _checked(_library.shamir_encrypted(*own.lines(lines), ctypes.byref(found), *_room(room)))
    return EncryptedSecret(found.id, bool(found.extendable), found.exponent, memoryview(room)[: answer.written])


def decrypt(secret: EncryptedSecret, *, passphrase: Text = b"", expect: Optional[Text] = None) -> bytes:
    """Decrypt what `encrypted` gave, and return the secret.

    `passphrase` and `expect` are as for `recover`. The call takes the iterations of `recover`, and no `max_exponent`: the exponent is
    a field of the encrypted secret.

    Raises `Refusal` with one of the codes 2 (a field is out of range), 41, 42, 44 or 52.
    """
    parameters = _parameters(secret)
    given = _slice(_data(secret.value, "secret.value")) + _slice(_bytes(passphrase, "passphrase")) + _slice(_expected(expect))
    return _filled(lambda out, room: _library.shamir_decrypt(ctypes.byref(parameters), *given, out, room), SECRET_BYTES_MAX)


def decrypt_into(room: bytearray, secret: EncryptedSecret, *, passphrase: Data = b"", expect: Optional[Text] = None) -> int:
    """Decrypt what `encrypted` or `encrypted_into` gave as `decrypt` does, write the secret to the start of a bytearray, and return
    its length.

    The call leaves no copy behind, as `recover_into`.

    Raises `Refusal` as `decrypt` does, and with the code 1 if the bytearray is too short. Then it is unchanged.
    """
    parameters = _parameters(secret)
    with _Copies() as own:
        given = own.data(secret.value, "secret.value") + own.data(passphrase, "passphrase") + _slice(_expected(expect))
        return _checked(_library.shamir_decrypt(ctypes.byref(parameters), *given, *_room(room))).written


def decrypt_round(secret: EncryptedSecret, round: int, *, passphrase: Text = b"") -> bytes:
    """Undo one of the four rounds of the cipher, and return the text.

    The rounds 3, 2, 1 and 0, in this order and each with the text of the one before as the value, give the secret that `decrypt` gives.
    Each takes a quarter of its iterations. `decrypt_rounds` makes the four calls, and clears the texts between them.

    Raises `Refusal` with one of the codes 2 (a field is out of range, or the round is above 3), 41 or 42.
    """
    parameters, number = _parameters(secret), _number(round, ctypes.c_uint8, "round")
    given = _slice(_data(secret.value, "secret.value")) + _slice(_bytes(passphrase, "passphrase"))
    return _filled(lambda out, room: _library.shamir_decrypt_round(ctypes.byref(parameters), number, *given, out, room), SECRET_BYTES_MAX)


def decrypt_rounds(secret: EncryptedSecret, *, passphrase: Text = b"") -> Generator[Optional[bytes], None, None]:
    """Decrypt what `encrypted` gave round by round, so that a program can show how far it is, and stop.

    >>> kept = shamir.encrypted(mnemonics[1:])
    >>> for undone, found in enumerate(shamir.decrypt_rounds(kept, passphrase="TREZOR"), 1):
    ...     print(f"{undone} of 4")
    1 of 4
    2 of 4
    3 of 4
    4 of 4
    >>> found == secret
    True

    The generator yields None after each of the first three rounds, and then the secret. When it ends or is closed, it clears its copies of
    what it got, except of a str, and the texts between the rounds. No fingerprint is compared: compare that of the secret.

    Raises `Refusal` as `decrypt_round` does, at the first `next`.
    """
    parameters = _parameters(secret)
    with _Copies() as own:
        data = _encoded(passphrase, "passphrase") if isinstance(passphrase, str) else passphrase
        text, key = own.data(secret.value, "secret.value"), own.data(data, "passphrase")
        for number in (3, 2, 1, 0):
            room = own.room(SECRET_BYTES_MAX)
            given = (*text, *key, room, SECRET_BYTES_MAX)
            text = room, _checked(_library.shamir_decrypt_round(ctypes.byref(parameters), number, *given)).written
            yield None if number else ctypes.string_at(*text)


def _parameters(secret: EncryptedSecret) -> _Parameters:
    if not isinstance(secret, EncryptedSecret):
        raise TypeError(f"secret isn't an EncryptedSecret, but of type {type(secret).__name__}")
    return _Parameters(
        _number(secret.id, ctypes.c_uint16, "secret.id"),
        _flag(secret.extendable, "secret.extendable"),
        _number(secret.exponent, ctypes.c_uint8, "secret.exponent"),
    )


def drill(
    lines: Lines,
    *,
    passphrase: Text = b"",
    after: Optional[Text] = None,
    max_exponent: int = EXPONENT_MAX,
    fingerprints: bool = False,
    expect: Optional[Text] = None,
) -> Generator[Outcome, None, None]:
    """Yield what each quorum of mnemonics recovers, in ascending order of their names.

    >>> for outcome in shamir.drill(mnemonics, passphrase="TREZOR"):
    ...     print(outcome.names, outcome.secret == secret)
    0.0+0.1 True
    0.0+0.2 True
    0.1+0.2 True

    `lines`, `passphrase` and `max_exponent` are as for `recover`. If `after` is None, the drill starts with the first
    quorum. If it names a quorum, the drill starts with the next one. An empty `after` is refused (61). The library
    computes the outcomes in parts. Each part has as many outcomes as fit into 64 KiB of output.

    With `fingerprints=True`, each outcome has the fingerprint of the secret in place of the secret, and no secret leaves the
    library. So a check of mnemonics needs no copy of the secret. With `expect`, which is as for `recover`, each outcome says
    whether the secret has this fingerprint, in `expected`, and no secret leaves the library either. Both together raise
    ValueError.

    A digest mismatch is no refusal here. The generator looks at its arguments only at the first `next`, which then
    raises any refusal. Only 4 (no memory, as plain C) can come later.

    Raises `Refusal` with one of the codes 3, 11 to 15, 21 to 30, 41, 44, 61, 62 or 71.
    """
    data, key = _joined(lines), _bytes(passphrase, "passphrase")
    form = _form(fingerprints, expect)
    expect = None if expect is None else _bytes(expect, "expect")
    listing = _listed(data, key, after, _LIMIT_MAX, form, expect, max_exponent)
    while True:
        yield from (_outcome(line, form) for line in listing.outcomes.splitlines())
        if listing.cursor is None:
            return
        listing = _listed(data, key, listing.cursor, _LIMIT_MAX, form, expect, max_exponent)


@dataclass(frozen=True, repr=False)
class _Listing:
    """A part of a drill: the lines of its outcomes, its last line, and the cursor of the next part if there is one.

    `quorums` is the number of outcomes, and `mismatches` counts those with a digest mismatch or another secret than the expected one.
    """

    outcomes: bytes
    last: bytes
    cursor: Optional[bytes]
    quorums: int
    mismatches: int


def _listed(
    data: bytes, key: bytes, after: Optional[Text], limit: int, form: int, expect: Optional[Text], max_exponent: int = EXPONENT_MAX
) -> _Listing:
    """Return the part of a drill after a quorum. It has at most `limit` quorums, and as many as fit into 64 KiB of output."""
    # For the library an empty cursor is the start. An empty `after` isn't a cursor here: a plus sign, which the library
    # refuses as a cursor, takes its place.
    cursor = b"" if after is None else _bytes(after, "after") or b"+"
    options = _slice(key) + (_number(max_exponent, ctypes.c_uint32, "max_exponent"),) + _slice(cursor)
    given = _slice(data) + options + (limit, form) + _slice(_expected(expect))
    text, answer = _answered(lambda out, room: _library.shamir_drill(*given, out, room), _DRILL_ROOM)
    # The answer says where the last line begins.
    outcomes, last = text[: answer.second], text[answer.second :]
    following = last[len(_MORE) :].rstrip(b"\n") if last.startswith(_MORE) else None
    return _Listing(outcomes, last, following, answer.first, answer.mismatches)


def _form(fingerprints: bool, expect: Optional[Text]) -> int:
    if _flag(fingerprints, "fingerprints") and expect is not None:
        raise ValueError("expect and fingerprints can't be given together")
    return _FORM_FINGERPRINTS if fingerprints else _FORM_DIGITS if expect is None else _FORM_EXPECTED


def _outcome(line: bytes, form: int) -> Outcome:
    """Read a line of a drill.

    After the names it has the digits of the secret or its fingerprint, or `as expected`, or `other secret`, or more words, the
    last of which is a group or `groups`.
    """
    names, *found = line.decode().split(" ")
    if len(found) == 1:
        return Outcome(names, None, fingerprint=found[0]) if form == _FORM_FINGERPRINTS else Outcome(names, bytes.fromhex(found[0]))
    if len(found) == 2:
        return Outcome(names, None, expected=found == ["as", "expected"])
    return Outcome(names, None, OF_GROUPS if found[-1] == "groups" else int(found[-1]))


def status(lines: Lines) -> Status:
    """Return how many members of each group are among mnemonics, and whether the mnemonics are enough for `recover`.

    >>> shamir.status(mnemonics[:1]).enough
    False

    `lines` is as for `recover`. A repeated mnemonic counts once. The call needs no passphrase, and decrypts nothing. If
    the mnemonics have no quorum, the call raises no `Refusal` for that.

    Raises `Refusal` with one of the codes 11 to 15, 21 to 29 or 71.
    """
    given = _slice(_joined(lines))
    return _status(_filled(lambda out, room: _library.shamir_status(*given, out, room), _STATUS_BYTES_MAX))


def _status(text: bytes) -> Status:
    first, *groups = text.decode().splitlines()
    _, complete, _, required = first.split(" ")
    return Status(int(complete), int(required), tuple(map(_group_status, groups)))


def _group_status(line: str) -> GroupStatus:
    """Read a line `group G members N of T NAMES`."""
    _, group, _, _, _, threshold, names = line.split(" ")
    return GroupStatus(int(group), int(threshold), tuple(names.split("+")))


def judge(lines: Lines, mnemonic: Text) -> Judgement:
    """Judge a mnemonic beside those that came before it: whether it can be taken, whether it is there already, and what its backup
    has with it.

    >>> found = shamir.judge(mnemonics[:1], mnemonics[1])
    >>> found.again, found.status.enough
    (False, True)

    `lines` is as for `recover`, but its mnemonics may be of several backups. Those with the same identifier are taken for those of one
    backup. `mnemonic` is as for `parse`. The status is that of the lines with its identifier, and of itself. If the mnemonic is
    refused, the refusal has no `line`. `Papers` keeps the lines.

    The call leaves no copy of what it gets behind, except of a str.

    Raises `Refusal` with one of the codes 11 to 15, 22 to 28, or 71.
    """
    found = _Judgement()
    with _Copies() as own:
        given = own.lines(_clearable(lines)) + own.line(mnemonic, "mnemonic")
        text = _filled(lambda out, room: _library.shamir_judge(*given, ctypes.byref(found), out, room), _STATUS_BYTES_MAX)
    return Judgement(ShareFields(**_share_fields(found.share)), bool(found.again), _status(text))


def _clearable(lines: Lines) -> ClearableLines:
    """Return lines without a str among them. What isn't a str isn't copied."""
    if _is_one_text(lines):
        return _encoded(lines, "lines") if isinstance(lines, str) else cast(Data, lines)
    return (_encoded(line, name) if isinstance(line, str) else line for name, line in _numbered(lines))


@dataclass(frozen=True)
class Recovered:
    """What `Papers.recover` gives: the secret, and what the recovery shows of the papers.

    If the first quorum is right, no other one is tried, and nothing is shown. Otherwise `failed` are the names of the quorums of
    which a digest doesn't match, such as `0.0+0.1`. `doubtful` are the names of the papers that are in a quorum that failed, and in
    none that is right: the wrong ones are among them. The repr leaves out the secret.
    """

    secret: bytes = field(repr=False)
    failed: Tuple[str, ...] = ()
    doubtful: Tuple[str, ...] = ()


@dataclass(frozen=True, repr=False)
class _Paper:
    id: int
    name: str
    line: bytearray


class Papers:
    """Mnemonics as they come, one after the other, of one backup or of several. The library decides about each.

    >>> papers = shamir.Papers()
    >>> for mnemonic in mnemonics[:2]:
    ...     print(papers.add_and_tell(mnemonic))
    groups 0 of 1
    group 0 members 1 of 2 0.0
    groups 1 of 1
    group 0 members 2 of 2 0.0+0.1
    >>> papers.enough, papers.recover(passphrase="TREZOR").secret == secret
    (True, True)

    If the first papers are of another backup than the rest, they stay apart from it. The lines are bytearrays, which `clear` and the
    end of a `with` block clear. A str that is added can't be cleared.
    """

    def __init__(self) -> None:
        self._kept: List[_Paper] = []
        # The identifier of the mnemonic that came last, and whether its backup has enough.
        self._last: Optional[int] = None
        self._enough = False

    def __enter__(self) -> Papers:
        return self

    def __exit__(self, *_: object) -> None:
        self.clear()

    def add(self, mnemonic: Text) -> Judgement:
        """Judge a mnemonic beside all that are here, as `judge` does, and keep it unless it is here already.

        It is kept in lower-case words with single spaces. If it is refused, `Refusal` is raised, and nothing is kept.
        """
        found = judge((paper.line for paper in self._kept), mnemonic)
        share = found.share
        if not found.again:
            self._kept.append(_Paper(share.id, f"{share.group_index}.{share.member_index}", _respelled(mnemonic)))
        self._last, self._enough = share.id, found.status.enough
        return found

    def remove(self, id: int, name: Text) -> bool:
        """Take out the mnemonic with this name, such as `0.1`, in the backup with an identifier, clear it, and return whether it was here.

        So a forged one can make room for the right one, which is refused with 28 beside it.
        """
        wanted = _number(id, ctypes.c_uint16, "id"), _bytes(name, "name").decode("utf-8", "replace")
        left = [paper for paper in self._kept if (paper.id, paper.name) != wanted]
        lines = [paper.line for paper in left if paper.id == self._last]
        is_enough = bool(lines) and _has_quorum(lines)
        taken_out = [paper for paper in self._kept if (paper.id, paper.name) == wanted]
        self._kept, self._enough = left, is_enough
        for paper in taken_out:
            _library.shamir_wipe(*_room(paper.line))
        return bool(taken_out)

    def add_and_tell(self, mnemonic: Text) -> str:
        """Do as `add`, and return the text of the judgement, or of the refusal, which isn't raised."""
        try:
            return str(self.add(mnemonic))
        except Refusal as refusal:
            return str(refusal)

    @property
    def enough(self) -> bool:
        """Whether the backup of the mnemonic that came last has enough for `recover`. A mnemonic that is refused changes nothing."""
        return self._enough

    def recover(self, *, passphrase: Text = b"", max_exponent: int = EXPONENT_MAX, expect: Optional[Text] = None) -> Recovered:
        """Recover the secret of the backup of the mnemonic that came last, and return what that shows of its papers.

        If a digest of the first quorum doesn't match, the other quorums are tried too, but at most 65,536, and the secret is that of the
        first whose digests match. So one wrong paper doesn't hide what the others give. If none matches, the refusal is that of the
        first quorum (51). Otherwise this raises what the function `recover` raises.

        Like that function, it leaves copies of the mnemonics behind. `recover_into` of `lines` leaves none.
        """
        papers = [paper for paper in self._kept if paper.id == self._last]
        lines = [paper.line for paper in papers]
        try:
            return Recovered(recover(lines, passphrase=passphrase, max_exponent=max_exponent, expect=expect))
        except Refusal as refusal:
            if refusal.code != Code.DIGEST_MISMATCH:
                raise
            first = refusal
        tried = drill(lines, passphrase=passphrase, max_exponent=max_exponent, fingerprints=True)
        outcomes = list(itertools.islice(tried, _QUORUMS_TRIED))
        failed, right = ([it.names.split("+") for it in outcomes if (it.mismatch is not None) == is_failed] for is_failed in (True, False))
        if not right:
            raise first
        chosen = [paper.line for paper in papers if paper.name in right[0]]
        secret = recover(chosen, passphrase=passphrase, max_exponent=max_exponent, expect=expect)
        doubtful = set(itertools.chain(*failed)).difference(*right)
        in_order = sorted(doubtful, key=lambda name: [int(number) for number in name.split(".")])
        return Recovered(secret, tuple(map("+".join, failed)), tuple(in_order))

    @property
    def ids(self) -> List[int]:
        """The identifiers of the backups, in the order in which they came."""
        return list(dict.fromkeys(paper.id for paper in self._kept))

    def lines(self, id: int) -> List[bytearray]:
        """Return the mnemonics of the backup with an identifier, as they came. The calls that take lines take them. They are the
        object's own: `clear` clears them."""
        return [paper.line for paper in self._kept if paper.id == id]

    def clear(self) -> None:
        """Clear all lines, and forget them."""
        for paper in self._kept:
            _library.shamir_wipe(*_room(paper.line))
        self._kept, self._last, self._enough = [], None, False


def _has_quorum(lines: List[bytearray]) -> bool:
    """Return whether mnemonics of one backup have a quorum. No copy of them is left."""
    with _Copies() as own:
        return _checked(_library.shamir_quorums(*own.lines(lines))).first > 0


def _respelled(mnemonic: Text) -> bytearray:
    """Return a mnemonic as the library writes it, in a bytearray of its own. No other copy is left."""
    with _Copies() as own:
        room = own.room(_REPAIRED_BYTES_MAX)
        answer = _checked(_library.shamir_repair(*own.line(mnemonic, "mnemonic"), room, _REPAIRED_BYTES_MAX))
        return bytearray(memoryview(room)[: answer.written - 1])


def quorums(lines: Lines) -> int:
    """Return how many quorums mnemonics have, or 2**64 - 1 if they have more.

    >>> shamir.quorums(mnemonics)
    3

    `lines` is as for `recover`. A repeated mnemonic counts once. The call needs no passphrase, and decrypts nothing. The
    number is that of the outcomes of `drill` without `after`. If the mnemonics have no quorum, it is 0.

    Raises `Refusal` with one of the codes 11 to 15, 21 to 29 or 71.
    """
    return _checked(_library.shamir_quorums(*_slice(_joined(lines)))).first


def reissue(plan: Text, names: Text, lines: Lines) -> List[str]:
    """Compute lost mnemonics of a backup from other mnemonics of it, and return them in the order of `names`.

    >>> shamir.reissue("2of3", "0.0", mnemonics[1:]) == mnemonics[:1]
    True

    `plan` is the text of the plan of the backup, or of that plan with more members in some groups. The added members
    are new members of this backup. `names` are the names of the wanted mnemonics, each once and in ascending order,
    joined by plus signs, such as `0.1+2.0`. `lines` is as for `recover`. The call needs no passphrase, and decrypts
    nothing.

    This call is for mnemonics that were destroyed. If somebody else may have a lost mnemonic, create a new backup. If
    that person may have a quorum, use a new secret too.

    Raises `Refusal` with one of the codes 11 to 15, 21 to 29, 31 to 34, 51, 63 to 66 or 71.
    """
    given = _slice(_bytes(plan, "plan")) + _slice(_bytes(names, "names")) + _slice(_joined(lines))
    return _filled(lambda out, room: _library.shamir_reissue(*given, out, room), _MNEMONICS_BYTES_MAX).decode().splitlines()


def resplit(plan: Text, lines: Lines, *, random: Optional[Data] = None) -> List[str]:
    """Split the encrypted secret of an extendable backup anew, by another plan, and return the mnemonics of this new backup.

    >>> new = shamir.resplit("3of5", mnemonics[1:])
    >>> shamir.recover(new[2:], passphrase="TREZOR") == secret
    True

    `plan` is the plan of the new backup, as for `create`. `lines` are mnemonics of the old backup that are enough, as for
    `recover`. The call needs no passphrase, and decrypts nothing. The new backup has the extendable flag and the exponent of the
    old one. With each passphrase, it gives the secret that the old one gives with it.

    `random` has exactly as many bytes as `create` takes for this plan and a secret as long as the value of a mnemonic. They must
    be unpredictable, and no other backup may use them. The first two give the new identifier, which mustn't be the old one (68).
    If `random` is None, they come from `os.urandom`, and others are drawn if they give the old identifier.

    The old mnemonics go on giving the secret until they are destroyed. If somebody may have a quorum of them, use a new secret
    too.

    Raises `Refusal` with one of the codes 11 to 15, 21 to 34, 43, 51, 67, 68 or 71.
    """
    return _split(_library.shamir_resplit, _slice(_bytes(plan, "plan")) + _slice(_joined(lines)), random)


def create_from_encrypted(plan: Text, secret: EncryptedSecret, *, random: Optional[Data] = None) -> List[str]:
    """Create a backup of the encrypted secret of an extendable backup, by a plan, and return its mnemonics.

    >>> new = shamir.create_from_encrypted("3of5", shamir.encrypted(mnemonics[1:]))
    >>> shamir.recover(new[2:], passphrase="TREZOR") == secret
    True

    `secret` is what `encrypted` gave. The call needs no passphrase, and decrypts nothing. With each passphrase, the new backup gives
    what `decrypt` gives. `encrypted` and this call after it give what `resplit` gives. `random` is as for `resplit`.

    Raises `Refusal` with one of the codes 2 (a field is out of range), 31 to 34, 42, 43, 67 or 68.
    """
    given = _slice(_bytes(plan, "plan")) + (ctypes.byref(_parameters(secret)),) + _slice(_data(secret.value, "secret.value"))
    return _split(_library.shamir_create_from_encrypted, given, random)


def _split(call: Callable[..., _Answer], given: Tuple[Any, ...], random: Optional[Data]) -> List[str]:
    return _split_anew(call, given, _data(random, "random")) if random is not None else _drawn_split(call, given)


def _split_anew(call: Callable[..., _Answer], given: Tuple[Any, ...], random: bytes) -> List[str]:
    arguments = given + _slice(random)
    return _filled(lambda out, room: call(*arguments, out, room), _MNEMONICS_BYTES_MAX).decode().splitlines()


def _drawn_split(call: Callable[..., _Answer], given: Tuple[Any, ...]) -> List[str]:
    """Split an encrypted secret with drawn bytes. The library says how many it takes if it gets none, unless it refuses something else."""
    needed = call(*given, None, 0, None, 0)
    if needed.code == Code.NO_MEMORY:
        _checked(needed)
    count = needed.first if needed.code == Code.RANDOM_LENGTH else 0
    for _ in range(_DRAWS - 1):
        try:
            return _split_anew(call, given, os.urandom(count))
        except Refusal as refusal:
            if refusal.code != Code.SAME_IDENTIFIER:
                raise
    return _split_anew(call, given, os.urandom(count))


def repair(line: Text) -> List[str]:
    """Return the mnemonics that fit a line of which some words can't be read, in ascending order of their words' indices.

    >>> shamir.repair(" ".join(["?", *mnemonics[0].split()[1:]])) == mnemonics[:1]
    True

    The line is a list of marks, separated as words are. A word of the word list stands for itself. Letters followed by
    one `?` stand for every word that begins with them, and `?` alone stands for any word. A place is open if its mark
    stands for more than one word. At most two mnemonics fit, and two only if the second word is open.

    Each open place uses up one of the three words of the checksum. With three open places, a wrong word elsewhere isn't
    always found, and the answer may be another mnemonic. So compare the answer with all that can be read.

    Raises `Refusal` with one of the codes 11 to 15 or 17 to 19. For Code.WRONG_WORD the first detail is the position of
    the wrong word, counted from 1, if just one word is wrong.
    """
    given = _slice(_bare(_bytes(line, "line")))
    return _filled(lambda out, room: _library.shamir_repair(*given, out, room), _REPAIRED_BYTES_MAX).decode().splitlines()


def fingerprint(secret: Data) -> str:
    """Return the fingerprint of a secret, by which its owner can recognise the secret without seeing it.

    >>> shamir.fingerprint(bytes(range(16)))
    '2282bae5'

    It is the first four bytes of the HMAC-SHA256 of the secret with the key `shamir fingerprint`, in eight lower-case
    hexadecimal digits. Whoever has it can test guesses of the secret with it.

    Raises `Refusal` with the code 42.
    """
    given = _slice(_data(secret, "secret"))
    return _filled(lambda out, room: _library.shamir_fingerprint(*given, out, room), _FINGERPRINT_BYTES_MAX).decode()


def words(letters: Text) -> List[str]:
    """Return the words of the word list that begin with these letters, in the order of the list.

    >>> shamir.words("aca")
    ['academic']

    Upper-case letters count as lower-case ones. No word begins with any other character. Without letters, all 1,024 words are
    returned.
    """
    given = _slice(_bytes(letters, "letters"))
    return _filled(lambda out, room: _library.shamir_words(*given, out, room), _WORDS_BYTES_MAX).decode().splitlines()
