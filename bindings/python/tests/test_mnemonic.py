"""Tests the calls of the reference, `shamir.mnemonic`, with worked examples, and with Electrum if it is there."""
import array
import inspect
import json
import pathlib
import subprocess
import sys
import unittest
from unittest import mock

sys.path.insert(0, str(pathlib.Path(__file__).resolve().parent.parent))

import shamir  # noqa: E402
from shamir.mnemonic import MnemonicError, combine_mnemonics, generate_mnemonics  # noqa: E402

# The standard's published vectors 19 and 42, with the passphrase TREZOR, and what they give.
SECRET = bytes.fromhex("7c3397a292a5941682d7a4ae2d898d11")
PAIR = [
    "eraser senior beard romp adorn nuclear spill corner cradle style ancient family general leader ambition exchange unusual garlic promise voice",
    "eraser senior acrobat romp bishop medical gesture pumps secret alive ultimate quarter priest subject class dictate spew material endless market",
]
FLAGGED = "testify swimming academic academic column loyalty smear include exotic bedroom exotic wrist lobe cover grief golden smart junior estimate learn"
FLAGGED_SECRET = bytes.fromhex("1679b4516e0ee5954351d288a838f45e")
# With the bytes 0 to 25, 2/2of3,1of1,1of1 gives these mnemonics of the secret. Another program made them.
OTHER_SECRET = bytes.fromhex("bb54aac4b89dc868ba37d9cc21b2cece")
GROUPS = [
    [
        "academic aluminum acrobat leaf buyer drink heat negative damage union purchase photo inmate training amazing yield bucket wrote mule cluster",
        "academic aluminum acrobat lily august piece column laser headset unusual blimp nuclear sweater criminal credit eyebrow trouble silent axis skin",
        "academic aluminum acrobat lungs dive behavior mobile ting perfect ultimate weapon join paper involve clinic acrobat jerky preach gross usual",
    ],
    ["academic aluminum beard leader chest elite grant group club deploy increase divorce puny cylinder romp frequent crush ruler erode bucket"],
    ["academic aluminum ceramic leader cylinder decorate mobile devote echo finger program firm starting dwarf grumpy harvest enforce raisin sprinkle phantom"],
]
PLAN = 2, [(2, 3), (1, 1), (1, 1)]
# Electrum's reader, run by the Python for which Debian installs it. It prints the secrets that lists of mnemonics give.
PYTHON = "/usr/bin/python3"
READER = """
import json, sys
from electrum.slip39 import recover_ems
for passphrase, mnemonics in json.load(sys.stdin):
    print(recover_ems(mnemonics).decrypt(passphrase).hex())
"""


def electrum(asked):
    """Returns the secrets that Electrum recovers, or None if it isn't here."""
    if not pathlib.Path(PYTHON).exists() or subprocess.run([PYTHON, "-c", "import electrum.slip39"], capture_output=True).returncode:
        return None
    done = subprocess.run([PYTHON, "-c", READER], input=json.dumps(asked), capture_output=True, text=True)
    if done.returncode:
        raise AssertionError(done.stderr)
    return [bytes.fromhex(line) for line in done.stdout.split()]


class Calls(unittest.TestCase):
    def refused(self, kind, code, call, *arguments, **options):
        """Checks that a call raises this kind of error, and that the library's refusal is its cause."""
        with self.assertRaises(kind) as raised:
            call(*arguments, **options)
        self.assertIs(type(raised.exception), kind)
        self.assertEqual((raised.exception.__cause__.code, str(raised.exception)), (code, str(raised.exception.__cause__)))
        return raised.exception.__cause__

    def test_combine(self):
        for mnemonics in [PAIR, PAIR[::-1], iter(PAIR), [line + "\n" for line in PAIR], [PAIR[0].upper(), PAIR[1]], PAIR + PAIR]:
            self.assertEqual(combine_mnemonics(mnemonics, b"TREZOR"), SECRET)
        self.assertEqual(combine_mnemonics([FLAGGED], passphrase=b"TREZOR"), FLAGGED_SECRET)
        self.assertNotEqual(combine_mnemonics(PAIR), SECRET)

    def test_beyond_a_quorum(self):
        """More members and more groups than needed are accepted."""
        self.assertEqual(combine_mnemonics(sum(GROUPS, []), b"TREZOR"), OTHER_SECRET)
        self.assertEqual(combine_mnemonics(GROUPS[0] + GROUPS[2], b"TREZOR"), OTHER_SECRET)
        self.assertEqual(combine_mnemonics(GROUPS[0][:1] + GROUPS[1] + GROUPS[2], b"TREZOR"), OTHER_SECRET)

    def test_refused_mnemonics(self):
        code = shamir.Code
        for mnemonics, wanted, line in [
            ([], code.NO_SHARES, None),
            (PAIR[:1], code.INCOMPLETE, None),
            ([*PAIR, FLAGGED], code.OTHER_IDENTIFIER, 3),
            ([FLAGGED.replace("learn", "leaf")], code.BAD_CHECKSUM, 1),
            ([*PAIR, ""], code.WORD_COUNT, 3),
            ([PAIR[0], "# a note", PAIR[1]], code.UNKNOWN_WORD, 2),
            (["\n".join(PAIR)], code.UNKNOWN_WORD, 1),
            ([FLAGGED + "\n\n"], code.UNKNOWN_WORD, 1),
            ([FLAGGED + "\udc80"], code.UNKNOWN_WORD, 1),
            (PAIR[0], code.UNKNOWN_WORD, 1),
            ([FLAGGED + " " * 1024], code.LINE_TOO_LONG, 1),
        ]:
            refusal = self.refused(MnemonicError, wanted, combine_mnemonics, mnemonics, b"TREZOR")
            self.assertEqual(refusal.line, line)
        self.assertEqual(self.refused(MnemonicError, code.UNKNOWN_WORD, combine_mnemonics, [PAIR[0], "eraser acid x"]).details, (3, 0))
        self.assertFalse(issubclass(MnemonicError, ValueError))
        self.refused(ValueError, code.PASSPHRASE, combine_mnemonics, PAIR, b"\x1f")
        for other in [[6], [None], None, [b"duckling"]]:
            self.assertRaises(TypeError, combine_mnemonics, other)

    def test_generate(self):
        """With the random bytes of another program's backup, the mnemonics are those of that backup, group by group."""
        drawn = []
        with mock.patch("shamir.mnemonic.secrets.token_bytes", side_effect=lambda count: drawn.append(count) or bytes(range(count))):
            self.assertEqual(generate_mnemonics(*PLAN, OTHER_SECRET, b"TREZOR", False, 0), GROUPS)
            for secret in (bytearray(OTHER_SECRET), array.array("H", OTHER_SECRET)):
                self.assertEqual(generate_mnemonics(*PLAN, secret, "TREZOR", extendable=False, iteration_exponent=0), GROUPS)
        self.assertEqual(drawn, [26, 26, 26])

    def test_defaults(self):
        """The defaults are those of the reference: no passphrase, the extendable flag, and the exponent 1."""
        parameters = inspect.signature(generate_mnemonics).parameters
        self.assertEqual(list(parameters), ["group_threshold", "groups", "master_secret", "passphrase", "extendable", "iteration_exponent"])
        self.assertEqual(list(inspect.signature(combine_mnemonics).parameters), ["mnemonics", "passphrase"])
        made = generate_mnemonics(1, [(2, 3)], SECRET)
        fields = [shamir.parse(line) for line in made[0]]
        self.assertEqual([(share.extendable, share.exponent, share.member_index) for share in fields], [(True, 1, index) for index in range(3)])
        self.assertEqual(combine_mnemonics(made[0][:2]), SECRET)
        self.assertNotEqual(generate_mnemonics(1, [(2, 3)], SECRET), made)

    def test_refused_arguments(self):
        code = shamir.Code
        for arguments, wanted in [
            ((2, [(1, 1)], SECRET), code.PLAN_GROUPS),
            ((0, [(1, 1)], SECRET), code.BAD_PLAN),
            ((-1, [(1, 1)], SECRET), code.BAD_PLAN),
            ((1, [], SECRET), code.BAD_PLAN),
            ((1, [(1, 1)] * 17, SECRET), code.PLAN_GROUPS),
            ((1, [(3, 2)], SECRET), code.PLAN_MEMBERS),
            ((1, [(2, 17)], SECRET), code.PLAN_MEMBERS),
            ((1, [(1, 2)], SECRET), code.ONE_OF_MANY),
            ((1, [(1, 1)], SECRET[1:]), code.SECRET_LENGTH),
            ((1, [(1, 1)], SECRET[2:]), code.SECRET_LENGTH),
            ((1, [(1, 1)], bytes(130)), code.SECRET_LENGTH),
            ((1, [(1, 1)], SECRET, b"a\x7f"), code.PASSPHRASE),
            ((1, [(1, 1)], SECRET, b"", True, 16), code.OUT_OF_RANGE),
        ]:
            self.refused(ValueError, wanted, generate_mnemonics, *arguments)
        for arguments in [(1, [(1, 1)], SECRET, b"", True, -1), (1, [(1, 1)], SECRET, b"", True, 2**32), (1, [(1, 1, 1)], SECRET), (1, [(10**5000, 1)], SECRET)]:
            self.assertRaises(ValueError, generate_mnemonics, *arguments)
        for arguments in [("1", [(1, 1)], SECRET), (1, [("1", 1)], SECRET), (1, [(1, 1)], SECRET.hex()), (1, [(1, 1)], SECRET, b"", 1), (1, 1, SECRET)]:
            self.assertRaises(TypeError, generate_mnemonics, *arguments)
        self.assertRaisesRegex(TypeError, "^master_secret isn't .* of type str$", generate_mnemonics, 1, [(1, 1)], SECRET.hex())
        self.assertRaisesRegex(TypeError, "^a mnemonic isn't a str, but of type int$", combine_mnemonics, [7])

    def test_no_memory(self):
        """If the library has no memory for a call, no argument is blamed."""
        no_memory = shamir.Refusal(shamir.Code.NO_MEMORY, None, (0, 0), "4 no memory")
        for name, call in [
            ("parse", lambda: combine_mnemonics(PAIR)),
            ("recover", lambda: combine_mnemonics(PAIR)),
            ("random_needed", lambda: generate_mnemonics(*PLAN, OTHER_SECRET)),
            ("create", lambda: generate_mnemonics(*PLAN, OTHER_SECRET)),
        ]:
            with mock.patch.object(shamir, name, side_effect=no_memory):
                self.assertRaisesRegex(MemoryError, "^4 no memory$", call)

    def test_electrum(self):
        """Electrum recovers what is made without the extendable flag, which the Electrum of Debian 12 doesn't know."""
        asked, secrets = [], []
        for threshold, groups, length, passphrase, exponent in [
            (1, [(1, 1)], 16, b"", 0),
            (1, [(2, 3)], 16, b"TREZOR", 1),
            (1, [(3, 5)], 32, bytes(range(32, 127)), 2),
            (2, [(2, 3), (1, 1), (1, 1)], 18, b"TREZOR", 0),
            (3, [(16, 16), (2, 16), (3, 4), (1, 1)], 64, b" ", 0),
        ]:
            secret = bytes(range(length))
            made = generate_mnemonics(threshold, groups, secret, passphrase, extendable=False, iteration_exponent=exponent)
            needed = [line for lines, (count, _) in zip(made, groups) for line in lines[-count:]]
            for mnemonics in (needed, sum(made, [])):
                asked.append((passphrase.decode(), mnemonics))
                secrets.append(secret)
        found = electrum(asked)
        if found is None:
            self.skipTest("Electrum isn't here (Debian: python3-electrum)")
        self.assertEqual(found, secrets)


if __name__ == "__main__":
    unittest.main()
