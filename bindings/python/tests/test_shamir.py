"""Tests how the calls read and answer in Python. tools/library compares the worked examples of all languages. Run these tests with `python3 -m unittest discover -s bindings/python/tests`."""
import array
import ast
import ctypes
import dataclasses
import hashlib
import inspect
import itertools
import mmap
import os
import pathlib
import pydoc
import re
import signal
import subprocess
import sys
import threading
import traceback
import unittest
from unittest import mock

sys.path.insert(0, str(pathlib.Path(__file__).resolve().parent.parent))

import shamir  # noqa: E402

SECRET = bytes.fromhex("bb54aac4b89dc868ba37d9cc21b2cece")
ONE = "duckling enlarge academic academic agency result length solution fridge kidney coal piece deal husband erode duke ajar critical decision keyboard"
TWO = [
    "shadow pistol academic always adequate wildlife fancy gross oasis cylinder mustang wrist rescue view short owner flip making coding armed",
    "shadow pistol academic acid actress prayer class unknown daughter sweater depict flip twice unkind craft early superior advocate guest smoking",
]
FIVE = [
    "academic aluminum acrobat leaf buyer drink heat negative damage union purchase photo inmate training amazing yield bucket wrote mule cluster",
    "academic aluminum acrobat lily august piece column laser headset unusual blimp nuclear sweater criminal credit eyebrow trouble silent axis skin",
    "academic aluminum acrobat lungs dive behavior mobile ting perfect ultimate weapon join paper involve clinic acrobat jerky preach gross usual",
    "academic aluminum beard leader chest elite grant group club deploy increase divorce puny cylinder romp frequent crush ruler erode bucket",
    "academic aluminum ceramic leader cylinder decorate mobile devote echo finger program firm starting dwarf grumpy harvest enforce raisin sprinkle phantom",
]
PLAN = "2/2of3,1of1,1of1"
# MISMATCHED has two members of one group, and MISMATCHED_GROUPS has members of two groups. Their digests don't match.
# Another program made them.
MISMATCHED = [
    "academic academic academic acid disease prepare husky home result arcade lunar cover shame email oven tension nylon carpet prospect hand",
    "academic academic academic agency dragon mineral broken simple lips custody flame cylinder ending prune party scout beaver enlarge glasses bundle",
]
MISMATCHED_GROUPS = [
    "academic academic acrobat easy disease prepare husky home result arcade lunar cover shame email oven tension nylon lawsuit smear antenna",
    "academic academic beard easy dragon mineral broken simple lips custody flame cylinder ending prune party scout beaver presence thank adapt",
]
# Members 0 and 2 of group 0 and member 0 of group 1 of the backup of FIVE, each with another first byte of its value. Another
# program made them.
FORGED = [
    "academic aluminum acrobat leaf civil drink heat negative damage union purchase photo inmate training amazing yield bucket lend glance junk",
    "academic aluminum acrobat lungs alcohol behavior mobile ting perfect ultimate weapon join paper involve clinic acrobat jerky pencil username device",
    "academic aluminum beard leader campus elite grant group club deploy increase divorce puny cylinder romp frequent crush reward rich email",
]
# This would be member 3 of group 0 of the backup of FIVE, if PLAN gave that group four members. Another program made it.
FOURTH = "academic aluminum acrobat marathon crisis luxury step activity teammate unfair fumes endorse always ranked alto problem mailman ounce teacher bumpy"
# EXTENDABLE is a published vector. With the random bytes 0 to 25, SPLIT_ANEW is the backup by PLAN into which it is split anew. Another
# program made that.
EXTENDABLE = [
    "enemy favorite academic acid cowboy phrase havoc level response walnut budget painting inside trash adjust froth kitchen learn tidy punish",
    "enemy favorite academic always academic sniff script carpet romp kind promise scatter center unfair training emphasis evening belong fake enforce",
]
SPLIT_ANEW = [
    "academic apart acrobat leaf diploma profile wireless fluff owner greatest romp tricycle window alarm disease mason argue junior briefing squeeze",
    "academic apart acrobat lily campus welcome capture military elegant fiction beaver duration manual remember decision umbrella true evidence huge sharp",
    "academic apart acrobat lungs clay airport debut stilt together alpha glance element fangs glimpse crowd exclude lunar axle spend diagnose",
    "academic apart beard leader crowd envelope aquatic reject sister loyalty sunlight replace health frequent level crazy bundle document ticket birthday",
    "academic apart ceramic leader alien hamster grasp strike jacket install artwork sidewalk sack fridge venture security method hairy ruin universe",
]
# Another program computed these encrypted secrets of ONE, TWO, FIVE and EXTENDABLE.
ENCRYPTED = [
    (ONE, shamir.EncryptedSecret(7945, False, 0, bytes.fromhex("11bc609d21747c49ba78c0701293e417")), SECRET),
    (TWO, shamir.EncryptedSecret(25653, False, 2, bytes.fromhex("cdc017fddc829e791b1371780be0605a")), bytes.fromhex("b43ceb7e57a0ea8766221624d01b0864")),
    (FIVE, shamir.EncryptedSecret(1, False, 0, bytes.fromhex("ae3283670d8226e104447ff0a4a32f69")), SECRET),
    (EXTENDABLE, shamir.EncryptedSecret(9066, True, 0, bytes.fromhex("644c905b0c4da21692f06fff3ed8b3e1")), bytes.fromhex("48b1a4b80b8c209ad42c33672bdaa428")),
]
# The texts that the rounds 3 to 1 leave of the last two. hashlib.pbkdf2_hmac computed them.
UNDONE = [
    ["04447ff0a4a32f695ba74e3c43bc2c75", "5ba74e3c43bc2c757b3377e2884ece1f", "7b3377e2884ece1fba37d9cc21b2cece"],
    ["92f06fff3ed8b3e1cbed64bd59fb2d4e", "cbed64bd59fb2d4eff09ffde7df70e2f", "ff09ffde7df70e2fd42c33672bdaa428"],
]
ROOT = pathlib.Path(__file__).resolve().parents[3]
HEADER = ROOT / "include" / "shamir.h"
PACKAGE = pathlib.Path(shamir.__file__).resolve().parent


# This program reads a passphrase and lines into bytearrays, makes a call, and clears all bytearrays. Its source has no secret.
LEFT = """
import os, shamir
passphrase, lines, room, other = bytearray(12), bytearray(284), bytearray(128), bytearray(128)
for part in (passphrase, lines):
    os.readv(0, [part])
{call}
for part in (passphrase, lines, room, other):
    part[:] = bytes(len(part))
os.write(1, b"done\\n")
os.read(0, 1)
"""
LEFT_PAPERS = """
with memoryview(lines) as view, shamir.Papers() as papers:
    for line in (view[:138], view[139:]):
        papers.add(line)
    shamir.recover_into(room, papers.lines(9066), passphrase=passphrase)
    for name in ("0.0", "0.2"):
        assert papers.remove(9066, name)
"""
LEFT_SECRET = shamir.recover(EXTENDABLE, passphrase="TREZORTREZOR")


def memory_of(process):
    """Returns the memory of a process that it can write."""
    found = []
    with open(f"/proc/{process}/maps") as maps, open(f"/proc/{process}/mem", "rb", 0) as memory:
        for low, high in re.findall(r"^([0-9a-f]+)-([0-9a-f]+) rw", maps.read(), re.MULTILINE):
            memory.seek(int(low, 16))
            found.append(memory.read(int(high, 16) - int(low, 16)))
    return b"".join(found)


class LongBytes(bytes):
    """Bytes that claim to be 128 bytes long, whatever they hold."""

    def __len__(self):
        return 128

    def __iter__(self):
        return iter([0] * 128)

    def __bytes__(self):
        return b"other"


class NoBytes(bytes):
    def __len__(self):
        return 0


class LongArray(bytearray):
    __len__, __iter__ = LongBytes.__len__, LongBytes.__iter__


class LongNumbers(array.array):
    __len__, __iter__ = LongBytes.__len__, LongBytes.__iter__


class LongMap(mmap.mmap):
    __len__ = LongBytes.__len__


class OddText(str):
    """A text that claims to be long, and to have another encoding."""

    def __len__(self):
        return 128

    def encode(self, *_):
        return LongBytes(b"other")


def mapped(kind, data):
    memory = kind(-1, len(data))
    memory[:] = data
    return memory


def odd(data):
    """Returns the same bytes in buffers of many types. Some of them report a wrong length or other contents."""
    types = [LongBytes, NoBytes, LongArray, lambda it: LongNumbers("B", it), lambda it: mapped(LongMap, it)]
    types += [bytes, bytearray, memoryview, lambda it: array.array("H", it), lambda it: mapped(mmap.mmap, it)]
    return [kind(data) for kind in types + [lambda it: memoryview(it[::-1])[::-1]]]


class Calls(unittest.TestCase):
    def refused(self, code, line, details, call, *arguments, **options):
        with self.assertRaises(shamir.Refusal) as raised:
            call(*arguments, **options)
        found = raised.exception
        self.assertEqual((found.code, found.line, found.details), (code, line, details))

    def test_parse(self):
        value = bytes.fromhex("11bc609d21747c49ba78c0701293e417")
        self.assertEqual(shamir.parse(ONE), shamir.Share(7945, False, 0, 0, 1, 1, 0, 1, value))
        with self.assertRaisesRegex(shamir.Refusal, "^line 2: 11 unknown word 1$"):
            shamir.recover("\nx")

    def test_create(self):
        self.assertEqual(shamir.create(PLAN, SECRET, passphrase="TREZOR", exponent=0, extendable=False, random=bytes(range(26))), FIVE)
        defaults = shamir.parse(shamir.create("1of1", SECRET)[0])
        self.assertEqual((defaults.exponent, defaults.extendable), (1, True), "those of the reference implementation")
        self.assertEqual(shamir.recover(shamir.create("10of16", bytes(range(128)))[6:]), bytes(range(128)))

    def test_encrypted(self):
        kept = ENCRYPTED[2][1]
        for lines in ("\n".join(FIVE[3:]).encode(), ["# a note", *FIVE[::-1]]):
            self.assertEqual(shamir.encrypted(lines), kept)
        self.assertEqual(repr(kept), "EncryptedSecret(id=1, extendable=False, exponent=0)")

    def test_decrypt(self):
        kept = ENCRYPTED[0][1]
        for noted in ["df41d8fe", b"df41d8fe", None]:
            self.assertEqual(shamir.decrypt(kept, passphrase="TREZOR", expect=noted), SECRET)
        for value in odd(kept.value):
            self.assertEqual(shamir.decrypt(dataclasses.replace(kept, value=value), passphrase="TREZOR"), SECRET)

    def test_what_decrypt_refuses(self):
        kept = ENCRYPTED[0][1]
        self.refused(44, None, (0, 0), shamir.decrypt, kept, expect="")
        for field, number in [("id", 65536), ("id", -1), ("exponent", 256), ("exponent", -1)]:
            self.assertRaises(OverflowError, shamir.decrypt, dataclasses.replace(kept, **{field: number}))
        for changed in [{"id": 1.0}, {"extendable": 1}, {"exponent": None}, {"value": kept.value.hex()}, {"value": list(kept.value)}]:
            self.assertRaises(TypeError, shamir.decrypt, dataclasses.replace(kept, **changed))
        # A share has the same fields and more.
        for other in (shamir.parse(ONE), kept.value, ONE, None):
            self.assertRaises(TypeError, shamir.decrypt, other)
        self.assertRaises(TypeError, lambda: shamir.decrypt(kept, "TREZOR"))

    def test_decrypt_rounds(self):
        for (_, kept, secret), (undone, *_) in zip(ENCRYPTED[2:], UNDONE):
            for value in odd(kept.value):
                self.assertEqual(shamir.decrypt_round(dataclasses.replace(kept, value=value), 3, passphrase="TREZOR").hex(), undone)
            for key in ("TREZOR", bytearray(b"TREZOR")):
                self.assertEqual(list(shamir.decrypt_rounds(kept, passphrase=key)), [None, None, None, secret])
            self.assertEqual(list(shamir.decrypt_rounds(kept))[3], shamir.decrypt(kept))

    def test_decrypt_rounds_clears(self):
        """A generator that is closed has cleared its copies and the texts between the rounds."""
        made = []

        class Copies(shamir._Copies):
            def room(self, length):
                made.append(super().room(length))
                return made[-1]

        with mock.patch.object(shamir, "_Copies", Copies):
            for count in (1, 2, 3, 4):
                made.clear()
                rounds = shamir.decrypt_rounds(ENCRYPTED[2][1], passphrase=b"TREZOR")
                for undone in [*map(bytes.fromhex, UNDONE[0]), SECRET][:count]:
                    next(rounds)
                    self.assertEqual(made[-1].raw, undone.ljust(128, b"\0"))
                rounds.close()
                self.assertEqual([copy.raw for copy in made], [bytes(len(copy)) for copy in made])
                self.assertEqual(len(made), count + 2)

    def test_what_decrypt_round_refuses(self):
        kept = ENCRYPTED[0][1]
        self.refused(42, None, (15, 0), list, shamir.decrypt_rounds(dataclasses.replace(kept, value=bytes(15))))
        for number in (256, -1):
            self.assertRaises(OverflowError, shamir.decrypt_round, kept, number)
        for number in (3.0, "3", None):
            self.assertRaises(TypeError, shamir.decrypt_round, kept, number)
        for other in (shamir.parse(ONE), kept.value, None):
            self.assertRaises(TypeError, shamir.decrypt_round, other, 3)
            self.assertRaises(TypeError, list, shamir.decrypt_rounds(other))
        self.assertRaises(TypeError, lambda: shamir.decrypt_round(kept, 3, "TREZOR"))

    def test_into(self):
        """What is written into a bytearray is what the other calls give, and the bytes after it are unchanged."""
        for lines, kept, secret in ENCRYPTED:
            given, room = [lines.encode()] if isinstance(lines, str) else [bytearray(line, "ascii") + b"\n" for line in lines], bytearray(b"x" * 40)
            length = shamir.recover_into(room, given, passphrase=bytearray(b"TREZOR"))
            self.assertEqual((length, room), (len(secret), secret + b"x" * (40 - len(secret))))
            found, other = shamir.encrypted_into(room, b"\n".join(given)), bytearray(128)
            self.assertEqual((found, room[: len(secret)]), (kept, kept.value))
            self.assertEqual(other[: shamir.decrypt_into(other, found, passphrase=memoryview(b"TREZOR"))], secret)
            room[:] = bytes(40)
            self.assertEqual(bytes(found.value), bytes(len(secret)))
        for value in odd(ENCRYPTED[0][1].value):
            shamir.decrypt_into(other, dataclasses.replace(ENCRYPTED[0][1], value=value), passphrase=b"TREZOR")
            self.assertEqual(other[:16], SECRET)

    def test_what_into_refuses(self):
        """Refusals leave the bytearray as it was. A text and a room that can't be written raise TypeError."""
        kept, room, line = ENCRYPTED[0][1], bytearray(b"x" * 15), bytearray(ONE, "ascii")
        self.refused(1, None, (16, 0), shamir.recover_into, room, line, passphrase=b"TREZOR", expect="df41d8fe")
        self.refused(1, None, (16, 0), shamir.encrypted_into, room, [line])
        self.refused(1, None, (16, 0), shamir.decrypt_into, room, kept)
        self.refused(52, None, (0, 0), shamir.recover_into, room, line, passphrase=b"TREZOR", expect="df41d8ff")
        self.refused(44, None, (0, 0), shamir.decrypt_into, room, kept, expect="")
        self.refused(3, None, (2, 0), shamir.recover_into, room, [line.encode() for line in TWO], max_exponent=1)
        self.refused(29, None, (0, 0), shamir.encrypted_into, room, [])
        self.refused(11, 2, (1, 0), shamir.recover_into, room, [line, b"x\n"])
        self.refused(2, None, (0, 0), shamir.decrypt_into, room, dataclasses.replace(kept, id=32768))
        for call in [
            lambda: shamir.recover_into(room, ONE),
            lambda: shamir.recover_into(room, [ONE]),
            lambda: shamir.recover_into(room, line, passphrase="TREZOR"),
            lambda: shamir.recover_into(bytes(16), line),
            lambda: shamir.encrypted_into(None, line),
            lambda: shamir.decrypt_into(room, kept.value),
            lambda: shamir.decrypt_into(room, dataclasses.replace(kept, value="")),
        ]:
            self.assertRaises(TypeError, call)
        self.assertRaisesRegex(ValueError, "^line 2 of the list holds a line feed", shamir.recover_into, room, [line, b"a\nb"])
        self.assertEqual(room, b"x" * 15)

    @unittest.skipUnless(hasattr(os, "geteuid") and os.path.exists("/proc/self/mem"), "/proc isn't here")
    def test_into_leaves_nothing(self):
        """Another process looks for the secret, the passphrase and a mnemonic in the memory of one that cleared its bytearrays."""
        for call, left in [
            ("shamir.recover_into(room, lines, passphrase=passphrase)", False),
            ("view = memoryview(lines); shamir.decrypt_into(room, shamir.encrypted_into(other, [view[:138], view[139:]]), passphrase=passphrase)", False),
            (LEFT_PAPERS, False),
            ("rounds = shamir.decrypt_rounds(shamir.encrypted_into(other, lines), passphrase=passphrase); next(rounds); next(rounds); rounds.close()", False),
            ("kept = shamir.recover(lines, passphrase=passphrase)", True),
        ]:
            run = [sys.executable, "-B", "-c", LEFT.format(call=call)]
            with subprocess.Popen(run, cwd=PACKAGE.parent, stdin=subprocess.PIPE, stdout=subprocess.PIPE) as child:
                child.stdin.write(b"TREZORTREZOR" + "\n".join(EXTENDABLE).encode())
                child.stdin.flush()
                self.assertEqual(child.stdout.read(5), b"done\n")
                try:
                    memory = memory_of(child.pid)
                except PermissionError:
                    self.skipTest("the memory of another process can't be read here")
                finally:
                    child.kill()
            found = [what in memory for what in (LEFT_SECRET, b"TREZORTREZOR", EXTENDABLE[0][30:80].encode(), EXTENDABLE[1][30:80].encode())]
            self.assertEqual(any(found), left, (call, found))

    def test_drill(self):
        names = ["0.0+0.1+1.0", "0.0+0.1+2.0", "0.0+0.2+1.0", "0.0+0.2+2.0", "0.1+0.2+1.0", "0.1+0.2+2.0", "1.0+2.0"]
        listed = [shamir.Outcome(it, SECRET) for it in names]
        self.assertEqual(list(shamir.drill(FIVE, passphrase="TREZOR")), listed)
        self.assertEqual(list(shamir.drill(FIVE[::-1], passphrase="TREZOR", after=names[4])), listed[5:])
        self.assertEqual(list(shamir.drill(FIVE, passphrase="TREZOR", after=names[6])), [])
        for room in [68, 113, 200]:
            with mock.patch.object(shamir, "_DRILL_ROOM", room):
                self.assertEqual(list(shamir.drill(FIVE, passphrase="TREZOR")), listed)

    def test_fingerprints(self):
        """A drill that is asked for fingerprints gives these in place of the secrets, in one part or in several."""
        names = ["0.0+0.1+1.0", "0.0+0.1+2.0", "0.0+0.2+1.0", "0.0+0.2+2.0", "0.1+0.2+1.0", "0.1+0.2+2.0", "1.0+2.0"]
        listed = [shamir.Outcome(it, None, None, "df41d8fe") for it in names]
        for room in [44, 65, 100, 1 << 16]:
            with mock.patch.object(shamir, "_DRILL_ROOM", room):
                self.assertEqual(list(shamir.drill(FIVE, passphrase="TREZOR", fingerprints=True)), listed)
        self.assertEqual(list(shamir.drill(FIVE, passphrase="TREZOR", after=names[4], fingerprints=True)), listed[5:])
        self.assertEqual(list(shamir.drill(MISMATCHED, fingerprints=True)), list(shamir.drill(MISMATCHED)))
        self.assertEqual(list(shamir.drill(FIVE, passphrase="TREZOR", fingerprints=False))[0], shamir.Outcome(names[0], SECRET))
        self.assertEqual(repr(listed[6]), "Outcome(names='1.0+2.0', mismatch=None, expected=None)")
        for flag in (1, "yes", None):
            self.assertRaises(TypeError, next, shamir.drill(FIVE, fingerprints=flag))

    def test_expected(self):
        """With the fingerprint that the secret should have, `recover` refuses another secret, and a drill says what it finds."""
        for noted in ["df41d8fe", b"df41d8fe", OddText("df41d8fe"), None]:
            self.assertEqual(shamir.recover(FIVE, passphrase="TREZOR", expect=noted), SECRET)
        self.assertEqual([outcome.expected for outcome in shamir.drill(FIVE, passphrase="TREZOR", expect="df41d8ff")], [False] * 7)
        names = [outcome.names for outcome in shamir.drill(FIVE)]
        listed = [shamir.Outcome(it, None, expected=True) for it in names]
        for room in [47, 70, 120, 1 << 16]:
            with mock.patch.object(shamir, "_DRILL_ROOM", room):
                self.assertEqual(list(shamir.drill(FIVE, passphrase="TREZOR", expect="DF41D8FE")), listed)
        self.assertEqual(list(shamir.drill(FIVE, passphrase="TREZOR", after=names[4], expect="df41d8fe")), listed[5:])
        self.assertEqual(list(shamir.drill(MISMATCHED, expect="df41d8fe")), list(shamir.drill(MISMATCHED)))
        self.assertEqual(repr(listed[6]), "Outcome(names='1.0+2.0', mismatch=None, expected=True)")

    def test_bad_fingerprints(self):
        """An empty text is no fingerprint, and isn't taken for one that was left out."""
        for noted in ["", b"", b"\xff" * 8, OddText()]:
            self.refused(44, None, (0, 0), shamir.recover, "x", expect=noted)
            self.refused(44, None, (0, 0), next, shamir.drill("x", expect=noted))
        for other in [3745634558, ["df41d8fe"]]:
            self.assertRaises(TypeError, shamir.recover, FIVE, expect=other)
            self.assertRaises(TypeError, next, shamir.drill(FIVE, expect=other))
        for noted in ["df41d8fe", ""]:
            with self.assertRaisesRegex(ValueError, "^expect and fingerprints can't be given together$"):
                next(shamir.drill(FIVE, fingerprints=True, expect=noted))

    def test_no_secret_leaves(self):
        """A drill that is asked for fingerprints, or expects one, asks the library for no digits of a secret."""
        with mock.patch.object(shamir._library, "shamir_drill", wraps=shamir._library.shamir_drill) as calls:
            list(shamir.drill(FIVE, passphrase="TREZOR", fingerprints=True))
            list(shamir.drill(FIVE, passphrase="TREZOR", expect="df41d8fe"))
        self.assertEqual([call.args[8] for call in calls.call_args_list], [1, 2])

    def test_repair(self):
        for line in [ONE.upper(), ONE.encode(), OddText(ONE)]:
            self.assertEqual(shamir.repair(line), [ONE])
        begins, *_ = ONE.partition(" academic")
        self.assertEqual(shamir.repair(ONE.replace(f"{begins} academic", "? ? ?")), [ONE, ONE.replace(f"{begins} academic", "therapy heat device")])
        with self.assertRaises(shamir.Refusal) as refused:
            shamir.repair(ONE.replace("length", "lend"))
        self.assertEqual((refused.exception.code, refused.exception.line, refused.exception.details), (shamir.Code.WRONG_WORD, None, (7, 0)))
        self.assertRaises(TypeError, shamir.repair, None)

    def test_words(self):
        """The digest is that of the word list that SLIP-0039 publishes."""
        whole = shamir.words("")
        digest = hashlib.sha256("".join(word + "\n" for word in whole).encode()).hexdigest()
        self.assertEqual((len(whole), digest), (1024, "bcc4555340332d169718aed8bf31dd9d5248cb7da6e5d355140ef4f1e601eec3"))
        for letters in ["academic", "ACAD", b"acad", bytearray(b"aCa"), OddText("aca")]:
            self.assertEqual(shamir.words(letters), ["academic"])
        self.assertRaises(TypeError, shamir.words, None)

    def test_mismatches(self):
        self.assertEqual(list(shamir.drill(MISMATCHED)), [shamir.Outcome("0.0+0.1", None, 0)])
        self.assertEqual(list(shamir.drill(MISMATCHED_GROUPS)), [shamir.Outcome("0.0+1.0", None, shamir.OF_GROUPS)])

    def test_reissue(self):
        self.assertEqual(shamir.reissue(PLAN, "0.0+0.1", FIVE[2:]), FIVE[:2])
        self.assertEqual(shamir.reissue(b"2/2of4,1of1,1of1", bytearray(b"0.3"), "\n".join(FIVE[:2])), [FOURTH])

    def test_resplit(self):
        counting = bytes(range(26))
        for plan, lines in [(PLAN, EXTENDABLE), (PLAN.encode(), "\n".join(EXTENDABLE).encode()), (PLAN, [EXTENDABLE[1] + "\n", "# a note", *EXTENDABLE])]:
            self.assertEqual(shamir.resplit(plan, lines, random=bytearray(counting)), SPLIT_ANEW)

    def test_resplit_draws(self):
        """Random bytes are drawn anew for each backup, and others if they give the identifier of the old one."""
        self.assertEqual(len({tuple(shamir.resplit("2of3", EXTENDABLE)) for _ in range(3)}), 3)
        same, counting = b"\x23\x6a" + bytes(24), bytes(range(26))
        for draws in ([counting], [same, counting], [same] * 9 + [counting]):
            with mock.patch.object(os, "urandom", side_effect=draws) as drawn:
                self.assertEqual(shamir.resplit(PLAN, EXTENDABLE), SPLIT_ANEW)
            self.assertEqual(drawn.mock_calls, [mock.call(26)] * len(draws))
        with mock.patch.object(os, "urandom", return_value=same) as drawn:
            self.refused(68, None, (0, 0), shamir.resplit, PLAN, EXTENDABLE)
        self.assertEqual(drawn.call_count, 10)

    def test_create_from_encrypted(self):
        kept = ENCRYPTED[3][1]
        counting = bytes(range(26))
        self.assertEqual(shamir.create_from_encrypted(PLAN, kept, random=counting), SPLIT_ANEW)
        room = bytearray(16)
        viewed = shamir.encrypted_into(room, "\n".join(EXTENDABLE).encode())
        self.assertEqual(shamir.create_from_encrypted(PLAN.encode(), viewed, random=bytearray(counting)), SPLIT_ANEW)
        self.assertRaises(TypeError, shamir.create_from_encrypted, PLAN, shamir.parse(ONE))
        self.assertRaises(OverflowError, shamir.create_from_encrypted, PLAN, dataclasses.replace(kept, id=65536))

    def test_create_from_encrypted_draws(self):
        kept = ENCRYPTED[3][1]
        same, counting = b"\x23\x6a" + bytes(24), bytes(range(26))
        for draws in ([counting], [same, counting], [same] * 9 + [counting]):
            with mock.patch.object(os, "urandom", side_effect=draws) as drawn:
                self.assertEqual(shamir.create_from_encrypted(PLAN, kept), SPLIT_ANEW)
            self.assertEqual(drawn.mock_calls, [mock.call(26)] * len(draws))
        with mock.patch.object(os, "urandom", return_value=same) as drawn:
            self.refused(68, None, (0, 0), shamir.create_from_encrypted, PLAN, kept)
        self.assertEqual(drawn.call_count, 10)

    def test_status(self):
        found = shamir.status([FIVE[4], FIVE[2], FIVE[0], FIVE[2]])
        group = shamir.GroupStatus(0, 2, ("0.0", "0.2"))
        self.assertEqual(found, shamir.Status(2, 2, (group, shamir.GroupStatus(2, 1, ("2.0",)))))
        self.assertTrue(found.enough)
        self.assertFalse(shamir.status(TWO[:1]).enough)

    def test_quorums(self):
        most = "16/" + ",".join(["8of16"] * 16)
        made = shamir.create(most, bytes(16), random=bytes(shamir.random_needed(most, 16)))
        self.assertEqual(shamir.quorums(made), 2**64 - 1)

    def test_fingerprint(self):
        for secret in odd(SECRET):
            self.assertEqual(shamir.fingerprint(secret), "df41d8fe")
        for other in [SECRET.hex(), list(SECRET), 16, None]:
            self.assertRaises(TypeError, shamir.fingerprint, other)

    def test_version(self):
        self.assertEqual(shamir.library_version(), shamir.__version__)

    def test_parts(self):
        """A drill in two parts lists what the whole drill does. The first part has room for four and a half quorums."""
        whole = list(shamir.drill(FIVE, passphrase="TREZOR"))
        with mock.patch.object(shamir, "_DRILL_ROOM", 4 * 45 + 30):
            parts = shamir.drill(FIVE, passphrase="TREZOR")
            first = [next(parts) for _ in range(4)]
        self.assertEqual(first + list(shamir.drill(FIVE, passphrase="TREZOR", after=first[-1].names)), whole)

    def test_first_cause(self):
        """With random bytes of its own, create refuses the same inputs as with given ones, and with the same codes."""
        for random in (None, b""):
            self.refused(41, None, (2, 0), shamir.create, "2of3", bytes(15), passphrase="a\x07", random=random)
            self.refused(2, None, (0, 0), shamir.create, "1", SECRET, exponent=16, random=random)
            self.refused(31, None, (0, 0), shamir.create, "1", b"", passphrase="a\x07", random=random)
            self.refused(42, None, (0, 0), shamir.create, "1of1", b"", random=random)

    def test_numbers(self):
        """A number that ctypes would truncate is refused before the call."""
        for call in [
            lambda: shamir.create("1of1", SECRET, exponent=2**32 + 2),
            lambda: shamir.create("1of1", SECRET, exponent=-1),
            lambda: shamir.random_needed("1of1", 2**64 + 16),
            lambda: shamir.random_needed("1of1", -16),
            lambda: shamir.recover(ONE, max_exponent=2**32),
            lambda: next(shamir.drill(ONE, max_exponent=-1)),
        ]:
            self.assertRaises(OverflowError, call)
        self.assertRaises(TypeError, shamir.recover, ONE, max_exponent=None)
        self.refused(2, None, (0, 0), shamir.create, "1of1", SECRET, exponent=2**32 - 1)
        self.refused(42, None, (2**64 - 1, 0), shamir.random_needed, "1of1", 2**64 - 1)
        self.assertRaises(TypeError, shamir.create, "1of1", SECRET, exponent=1.0)
        flags = [shamir.parse(shamir.create("1of1", SECRET, extendable=flag)[0]).extendable for flag in (False, True)]
        self.assertEqual(flags, [False, True])

    def test_interrupted(self):
        """The output is cleared, although a handler raises an exception when a signal comes during the call."""
        rooms = []

        def interrupt(*given):
            answer = recover(*given)
            rooms.append(given[-2])
            self.assertEqual(bytes(given[-2])[: answer.written], SECRET)
            signal.raise_signal(signal.SIGINT)
            return answer

        recover = shamir._library.shamir_recover
        # A background job of a shell ignores the signal.
        self.addCleanup(signal.signal, signal.SIGINT, signal.signal(signal.SIGINT, signal.default_int_handler))
        with mock.patch.object(shamir._library, "shamir_recover", interrupt):
            self.assertRaises(KeyboardInterrupt, shamir.recover, FIVE, passphrase="TREZOR")
        self.assertEqual([bytes(room) for room in rooms], [bytes(shamir.SECRET_BYTES_MAX)])

    def test_long_numbers(self):
        """A number that is too long to be printed raises an OverflowError too, and the message doesn't have the number."""
        for number in (10**5000, -(10**5000), 2**64 + 987654321):
            for name, bits, call in [
                ("exponent", 32, lambda: shamir.create("1of1", SECRET, exponent=number)),
                ("secret_bytes", 64, lambda: shamir.random_needed("1of1", number)),
                ("max_exponent", 32, lambda: shamir.recover(ONE, max_exponent=number)),
                ("max_exponent", 32, lambda: next(shamir.drill(ONE, max_exponent=number))),
            ]:
                with self.assertRaisesRegex(OverflowError, rf"^{name} isn't from 0 to 2\*\*{bits} - 1$"):
                    call()

    def test_names_of_arguments(self):
        """An error of an argument names it, and says of which type it is, and not what it holds."""
        kept, gone = ENCRYPTED[0][1], memoryview(SECRET)
        gone.release()
        other, text, data = "but of type int", "isn't a text", "isn't an object with the buffer protocol"
        for told, kind, call in [
            (f"mnemonic {text}, {other}", TypeError, lambda: shamir.parse(7)),
            (f"mnemonic {text}, {other}", TypeError, lambda: shamir.judge([], 7)),
            ("id isn't a whole number, but of type str", TypeError, lambda: shamir.Papers().remove("7945", "0.0")),
            (f"name {text}, {other}", TypeError, lambda: shamir.Papers().remove(7945, 7)),
            (f"line {text}, {other}", TypeError, lambda: shamir.repair(7)),
            (f"letters {text}, {other}", TypeError, lambda: shamir.words(7)),
            (f"plan {text}, {other}", TypeError, lambda: shamir.random_needed(7, 16)),
            (f"secret {data}, but of type str", TypeError, lambda: shamir.create("1of1", SECRET.hex())),
            (f"passphrase {text}, {other}", TypeError, lambda: shamir.create("1of1", SECRET, passphrase=7)),
            (f"random {data}, {other}", TypeError, lambda: shamir.create("1of1", SECRET, random=7)),
            ("exponent isn't a whole number, but of type str", TypeError, lambda: shamir.create("1of1", SECRET, exponent="7")),
            (f"extendable isn't True or False, {other}", TypeError, lambda: shamir.create("1of1", SECRET, extendable=1)),
            (f"lines isn't a text or an iterable of lines, {other}", TypeError, lambda: shamir.recover(7)),
            (f"lines isn't a text or an iterable of lines, {other}", TypeError, lambda: shamir.judge(7, ONE)),
            (f"lines isn't a text or an iterable of lines, {other}", TypeError, lambda: shamir.recover_into(bytearray(16), 7)),
            (f"line 2 of the list {text}, {other}", TypeError, lambda: shamir.recover([ONE, 7])),
            (f"line 2 of the list {data}, but of type str", TypeError, lambda: shamir.recover_into(bytearray(16), [ONE.encode(), ONE])),
            (f"passphrase {text}, but of type NoneType", TypeError, lambda: shamir.recover(ONE, passphrase=None)),
            (f"passphrase {data}, but of type str", TypeError, lambda: shamir.recover_into(bytearray(16), ONE.encode(), passphrase="a")),
            (f"room {data}, {other}", TypeError, lambda: shamir.recover_into(7, ONE.encode())),
            (f"expect {text}, {other}", TypeError, lambda: shamir.recover(ONE, expect=7)),
            (f"after {text}, {other}", TypeError, lambda: next(shamir.drill(ONE, after=7))),
            (f"fingerprints isn't True or False, {other}", TypeError, lambda: next(shamir.drill(ONE, fingerprints=1))),
            (f"names {text}, {other}", TypeError, lambda: shamir.reissue(PLAN, 7, FIVE)),
            ("secret isn't an EncryptedSecret, but of type bytes", TypeError, lambda: shamir.decrypt(SECRET)),
            (f"secret.value {data}, {other}", TypeError, lambda: shamir.decrypt(dataclasses.replace(kept, value=7))),
            ("secret.id isn't a whole number, but of type str", TypeError, lambda: shamir.decrypt(dataclasses.replace(kept, id="7"))),
            (f"secret.extendable isn't True or False, {other}", TypeError, lambda: shamir.decrypt(dataclasses.replace(kept, extendable=1))),
            ("round isn't from 0 to 2**8 - 1", OverflowError, lambda: shamir.decrypt_round(kept, 256)),
            ("the memory of secret is no longer there", ValueError, lambda: shamir.fingerprint(gone)),
            ("the memory of lines is no longer there", ValueError, lambda: shamir.recover(gone)),
            ("line 1 of the list holds a line feed, so it is several lines", ValueError, lambda: shamir.recover([f"{ONE}\n{ONE}"])),
            ("line 1 of the list holds a line feed, so it is several lines", ValueError, lambda: shamir.judge([f"{ONE}\n{ONE}"], ONE)),
            ("plan has a lone surrogate, which UTF-8 can't encode", ValueError, lambda: shamir.random_needed("\ud800", 16)),
        ]:
            with self.assertRaises(kind) as raised:
                call()
            self.assertEqual(str(raised.exception), told)

    def test_public_names(self):
        """`__all__` has each public name of the module, and help shows no other."""
        source = ast.parse(pathlib.Path(shamir.__file__).read_text(encoding="utf-8"))
        defined = {it.name for it in source.body if isinstance(it, (ast.ClassDef, ast.FunctionDef))}
        targets = [it.targets[0] if isinstance(it, ast.Assign) else it.target for it in source.body if isinstance(it, (ast.Assign, ast.AnnAssign))]
        defined |= {it.id for it in targets if isinstance(it, ast.Name)}
        self.assertEqual(sorted(shamir.__all__), sorted(name for name in defined if not name.startswith("_")))
        shown = pydoc.render_doc(shamir, renderer=pydoc.plaintext)
        self.assertEqual(re.findall(r"^ +(?:class )?(_[a-zA-Z]\w*)\b", shown, re.MULTILINE), [])
        self.assertIn("class Recovered", shown)

    def test_released(self):
        """A buffer whose memory is no longer there raises a ValueError."""
        released, closed = memoryview(SECRET), mmap.mmap(-1, 16)
        released.release()
        closed.close()
        for gone in (released, closed):
            for call in [
                lambda: shamir.fingerprint(gone),
                lambda: shamir.create("1of1", gone),
                lambda: shamir.create("1of1", SECRET, random=gone),
                lambda: shamir.recover(ONE, passphrase=gone),
                lambda: shamir.decrypt(dataclasses.replace(ENCRYPTED[0][1], value=gone)),
                lambda: shamir.decrypt_round(dataclasses.replace(ENCRYPTED[0][1], value=gone), 3),
                lambda: next(shamir.decrypt_rounds(ENCRYPTED[0][1], passphrase=gone)),
                lambda: shamir.recover(gone),
                lambda: shamir.recover([ONE, gone]),
                lambda: shamir.parse(gone),
                lambda: next(shamir.drill(ONE, after=gone)),
                lambda: shamir.recover(ONE, expect=gone),
                lambda: next(shamir.drill(ONE, expect=gone)),
            ]:
                self.assertRaises(ValueError, call)

    def test_surrogates(self):
        """A text with a lone surrogate raises a ValueError. Neither this error nor its context or its cause has the text."""
        for bad in ["hunter2\udc80", "\ud800 hunter2", OddText("hunter2\udfff")]:
            for call in [
                lambda: shamir.create("2of3", SECRET, passphrase=bad),
                lambda: shamir.create(bad, SECRET),
                lambda: shamir.random_needed(bad, 16),
                lambda: shamir.parse(bad),
                lambda: shamir.recover(bad),
                lambda: shamir.recover([ONE, bad]),
                lambda: shamir.recover(ONE, passphrase=bad),
                lambda: next(shamir.drill(bad)),
                lambda: next(shamir.drill(ONE, passphrase=bad)),
                lambda: next(shamir.drill(ONE, after=bad)),
                lambda: shamir.words(bad),
                lambda: shamir.repair(bad),
                lambda: shamir.status(bad),
                lambda: shamir.status([bad]),
                lambda: shamir.reissue(bad, "0.0", FIVE),
                lambda: shamir.reissue(PLAN, bad, FIVE),
                lambda: shamir.reissue(PLAN, "0.0", [bad]),
                lambda: shamir.resplit(bad, FIVE),
                lambda: shamir.resplit(PLAN, [bad]),
                lambda: shamir.create_from_encrypted(bad, ENCRYPTED[0][1]),
                lambda: shamir.encrypted(bad),
                lambda: shamir.decrypt(ENCRYPTED[0][1], passphrase=bad),
                lambda: shamir.decrypt_round(ENCRYPTED[0][1], 3, passphrase=bad),
                lambda: next(shamir.decrypt_rounds(ENCRYPTED[0][1], passphrase=bad)),
            ]:
                with self.assertRaises(ValueError) as raised:
                    call()
                self.assertIs(type(raised.exception), ValueError)
                self.assertEqual((raised.exception.__context__, raised.exception.__cause__), (None, None))
                self.assertNotIn("hunter2", repr(raised.exception) + "".join(traceback.format_exception_only(ValueError, raised.exception)))
        self.assertEqual(shamir.recover(ONE, passphrase="TREZOR"), SECRET)
        self.refused(41, None, (1, 0), shamir.recover, ONE, passphrase="\U0001f511")

    def test_unknown_code(self):
        """A code that this version doesn't know stays a Refusal. Its code is an int then."""
        known, unknown = shamir.Code.BAD_CHECKSUM, max(shamir.Code) + 1
        for code in (known, unknown):
            answer = shamir._Answer(code=code, line=2, first=3, second=4)
            with mock.patch.object(shamir._library, "shamir_recover", return_value=answer):
                with self.assertRaises(shamir.Refusal) as raised:
                    shamir.recover(ONE)
            refusal = raised.exception
            self.assertEqual((refusal.code, refusal.line, refusal.details), (code, 2, (3, 4)))
            self.assertEqual(isinstance(refusal.code, shamir.Code), code is known)
        self.assertEqual(str(refusal), f"line 2: {unknown} unknown answer")

    def test_generator(self):
        """A drill is a generator, and its annotation says so."""
        drill = shamir.drill(FIVE, passphrase="TREZOR")
        self.assertTrue(inspect.isgenerator(drill))
        self.assertEqual(len(list(itertools.islice(drill, 2))), 2)
        drill.close()
        self.assertEqual(list(drill), [])
        self.assertEqual(inspect.signature(shamir.drill).return_annotation, "Generator[Outcome, None, None]")

    def test_types(self):
        """A text is a str or a buffer, and a secret is a buffer. Anything else raises TypeError."""
        text = "\n".join(FIVE)
        ended = [line + "\n" for line in FIVE]
        for lines in [text, bytearray(text.encode()), memoryview(text.encode()), map(str.encode, FIVE), map(bytearray, map(str.encode, FIVE)), ended]:
            self.assertEqual(shamir.recover(lines, passphrase=bytearray(b"TREZOR")), SECRET)
        self.refused(11, 2, (1, 0), shamir.recover, [ended[0], "x\n"])
        self.assertEqual(shamir.parse(memoryview(ONE.encode())), shamir.parse(ONE))
        lent = [bytearray(SECRET), memoryview(SECRET), array.array("B", SECRET)]
        made = [shamir.create(PLAN, secret, passphrase="TREZOR", exponent=0, extendable=False, random=bytearray(range(26))) for secret in lent]
        self.assertEqual(made, [FIVE] * 3)
        for call in [
            lambda: shamir.recover(FIVE, passphrase=6),
            lambda: shamir.recover(FIVE, passphrase=None),
            lambda: shamir.recover(6),
            lambda: shamir.recover([6]),
            lambda: shamir.parse(20),
            lambda: shamir.parse([ONE]),
            lambda: shamir.create(PLAN, SECRET.hex()),
            lambda: shamir.create(PLAN, 16),
            lambda: shamir.create(PLAN, SECRET, random=26),
            lambda: shamir.create(PLAN, list(SECRET)),
            lambda: shamir.recover(SECRET[0]),
            lambda: next(shamir.drill(FIVE, after=0)),
        ]:
            self.assertRaises(TypeError, call)

    def test_held(self):
        """The real contents of a buffer or a text are used, whatever its class says about them."""
        given, key, plan = bytes(range(26)), b"TREZOR", PLAN.encode()
        text = "\n".join(FIVE).encode()
        text += b"\n" * (len(text) % 2)
        for secret, passphrase, random in zip(odd(SECRET), odd(key), odd(given)):
            self.assertEqual(shamir.create(PLAN, secret, passphrase=passphrase, exponent=0, extendable=False, random=random), FIVE)
        for name in odd(plan) + [OddText(PLAN)]:
            self.assertEqual(shamir.random_needed(name, 16), 26)
        for line in odd(ONE.encode() + b" " * (len(ONE) % 2)) + [OddText(ONE)]:
            self.assertEqual(shamir.parse(line), shamir.parse(ONE))
            self.assertEqual(shamir.recover([line], passphrase=OddText("TREZOR")), SECRET)
        for lines in odd(text) + [OddText(text.decode())]:
            self.assertEqual(shamir.recover(lines, passphrase=b"TREZOR"), SECRET)
            self.assertEqual(len(list(shamir.drill(lines, after=OddText("0.0+0.2+2.0")))), 3)
        with self.assertRaisesRegex(shamir.Refusal, "^42 secret of 2 bytes$"):
            shamir.create("1of1", LongBytes(bytes(2)), random=b"ab")

    def test_options(self):
        """Options must be given by name, and a flag must be a bool."""
        for call in [
            lambda: shamir.create("1of1", SECRET, "TREZOR"),
            lambda: shamir.recover(FIVE, "TREZOR"),
            lambda: shamir.drill(FIVE, "TREZOR"),
            lambda: shamir.create("1of1", SECRET, extendable=1),
            lambda: shamir.create("1of1", SECRET, extendable=None),
            lambda: shamir.create("1of1", SECRET, extendable="no"),
        ]:
            self.assertRaises(TypeError, call)

    def test_lines(self):
        """An item of a list is one line, so that the lines after it are counted right."""
        self.assertEqual(shamir.recover(line for line in ["", "# a note\n", *FIVE, "\n"]), shamir.recover(FIVE))
        self.refused(13, 3, (0, 0), shamir.recover, ["\n", "", ONE.replace("keyboard", "kidney") + "\n"])
        for lines in [["\n".join(FIVE)], [ONE, b"a\nb\n"], ["\n\n"]]:
            with self.assertRaisesRegex(ValueError, f"^line {len(lines)} of the list holds a line feed"):
                shamir.recover(lines)

    def test_outcome(self):
        """An outcome has a secret or a mismatch, and its repr doesn't show the secret."""
        [sound], [unsound] = shamir.drill(TWO, passphrase="TREZOR"), shamir.drill(MISMATCHED)
        self.assertEqual((sound.names, len(sound.secret), sound.mismatch), ("0.0+0.2", 16, None))
        self.assertEqual((unsound.names, unsound.secret, unsound.mismatch), ("0.0+0.1", None, 0))
        self.assertEqual(repr(sound), "Outcome(names='0.0+0.2', mismatch=None, expected=None)")

    def test_after(self):
        """With `after=None`, a drill starts at the first quorum. An empty text is a bad cursor."""
        self.assertEqual(len(list(shamir.drill(FIVE, after=None))), 7)
        for empty in ["", b"", OddText()]:
            self.refused(61, None, (0, 0), list, shamir.drill(FIVE, after=empty))

    def test_threads(self):
        """Calls can run in several threads at once, with the size of stack that docs/LIBRARY.md names."""
        found = []
        before = threading.stack_size(1048576)
        self.addCleanup(threading.stack_size, before)
        threads = [threading.Thread(target=lambda: found.append(list(shamir.drill(FIVE, passphrase="TREZOR")))) for _ in range(3)]
        for act in (threading.Thread.start, threading.Thread.join):
            for thread in threads:
                act(thread)
        self.assertEqual(found, [[shamir.Outcome(it.names, SECRET) for it in found[0]]] * 3)

    def test_code(self):
        with self.assertRaises(shamir.Refusal) as raised:
            shamir.parse("")
        self.assertIs(raised.exception.code, shamir.Code.WORD_COUNT)
        self.assertEqual(str(raised.exception), "12 0 words make no share")

    def test_no_library(self):
        """Without its library, or with another one, the package raises an ImportError that says so."""
        libc = pathlib.Path("/proc/self/maps").read_text()
        libc = re.search(r"/\S*/libc\S*so\S*$", libc, re.MULTILINE)[0]
        for name, told in [("/nowhere/libshamir.so", "/nowhere/libshamir.so: "), (libc, "shamir_parse")]:
            done = subprocess.run(
                [sys.executable, "-B", "-c", "import shamir"], cwd=PACKAGE.parent, env={**os.environ, "SHAMIR_LIBRARY": name}, capture_output=True, text=True
            )
            self.assertEqual(done.returncode, 1)
            self.assertRegex(done.stderr.splitlines()[-1], "^ImportError: .*" + re.escape(told))

    def test_one_call(self):
        """One call creates each backup, however long it is, so that its key is derived only once."""
        with mock.patch.object(shamir._library, "shamir_create", wraps=shamir._library.shamir_create) as calls:
            lines = shamir.create("16/" + ",".join(["16of16"] * 16), bytes(128))
        self.assertEqual((len(lines), calls.call_count), (256, 1))

    def test_share_is_not_shown(self):
        share = shamir.parse(ONE)
        self.assertNotIn("value", repr(share))
        self.assertNotEqual(share, shamir.parse(TWO[0]))

    def test_drill_begins_at_next(self):
        drill = shamir.drill(TWO[:1])
        self.refused(30, None, (0, 1), next, drill)

    def test_stored(self):
        """The encrypted secret of an extendable backup is stored as one mnemonic. Only the identifier is another one."""
        kept = shamir.encrypted(EXTENDABLE)
        [stored] = shamir.create_from_encrypted("1of1", kept)
        again = shamir.encrypted(stored + "\n")
        self.assertEqual(again, dataclasses.replace(ENCRYPTED[3][1], id=again.id))
        self.assertNotEqual(again.id, kept.id)
        self.assertEqual(shamir.decrypt(again, passphrase="TREZOR"), ENCRYPTED[3][2])

    def test_line_feed(self):
        """A line feed may end one mnemonic, and no other place has one. A carriage return before it is a space."""
        spelled = ONE.replace(" keyboard", " ?")
        for given in [ONE + "\n", ONE + "\r\n", ONE.encode() + b"\n", bytearray(ONE.encode() + b"\n")]:
            self.assertEqual(shamir.parse(given), shamir.parse(ONE))
            self.assertEqual(shamir.judge([], given), shamir.judge([], ONE))
            self.assertEqual(shamir.repair(given), [ONE])
        self.assertEqual(shamir.repair(spelled + "\n"), [ONE])
        for call in [shamir.parse, shamir.repair, lambda line: shamir.judge([], line)]:
            self.refused(11, None, (20, 0), call, ONE + "\n\n")
            self.refused(11, None, (1, 0), call, "\n" + ONE)
            self.refused(12, None, (0, 0), call, "\n")
            self.refused(12, None, (0, 0), call, b"")
        self.refused(11, None, (20, 0), shamir.parse, ONE + "\0")
        self.assertEqual(shamir.parse("\t" + ONE.upper().replace(" ", " \t ") + "\r"), shamir.parse(ONE))

    @unittest.skipUnless(HEADER.exists(), "the header isn't here")
    def test_sizes(self):
        sizes = dict(re.findall(r"^#define SHAMIR_(\w+) (\d+)$", HEADER.read_text(), re.MULTILINE))
        names = ["MNEMONICS_BYTES_MAX", "STATUS_BYTES_MAX", "FINGERPRINT_BYTES_MAX", "WORDS_BYTES_MAX", "TEXT_BYTES_MAX"]
        for name in [*names, "REPAIRED_BYTES_MAX", "FORM_DIGITS", "FORM_FINGERPRINTS", "FORM_EXPECTED"]:
            self.assertEqual(getattr(shamir, f"_{name}"), int(sizes[name]))
        self.assertEqual((shamir.EXPONENT_MAX, shamir.SECRET_BYTES_MAX), (int(sizes["EXPONENT_MAX"]), int(sizes["SECRET_BYTES_MAX"])))
        self.assertEqual(ctypes.sizeof(shamir._Answer), 40)


if __name__ == "__main__":
    unittest.main()
