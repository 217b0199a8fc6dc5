"""Tests of what judges mnemonics and keeps them, and of the details of refusals by their names. The mnemonics are published vectors, or
another program made them.
"""
import array
import copy
import dataclasses
import pathlib
import pickle
import sys
import unittest
from unittest import mock

sys.path[:0] = [str(pathlib.Path(__file__).resolve().parent.parent), str(pathlib.Path(__file__).resolve().parent)]

import shamir  # noqa: E402
from test_shamir import FIVE, FORGED, MISMATCHED, ONE, PLAN, SECRET, TWO  # noqa: E402

ID = 1
WRONG = TWO[0].replace("armed", "acid")


def refusal_of(call, *arguments, **options):
    try:
        call(*arguments, **options)
    except shamir.Refusal as refusal:
        return refusal
    raise AssertionError("the call isn't refused")


class Judgements(unittest.TestCase):
    def test_judge(self):
        fields = shamir.ShareFields(1, False, 0, 2, 2, 3, 0, 1)
        found = shamir.judge(FIVE[:3], FIVE[4])
        self.assertEqual(found, shamir.Judgement(fields, False, shamir.status([*FIVE[:3], FIVE[4]])))
        self.assertTrue(found.status.enough)
        # Lines of other backups don't matter, in whatever form they are.
        others = [ONE, *FIVE[:3], TWO[0]]
        data = [line.encode() for line in others]
        for lines in ["\n".join(others), b"\n".join(data), others, [line + b"\n" for line in data], map(bytearray, data)]:
            self.assertEqual(shamir.judge(lines, FIVE[4]), found)
        again = shamir.judge(FIVE, bytearray(FIVE[4].upper().encode()))
        self.assertEqual(again, shamir.Judgement(fields, True, shamir.status(FIVE)))
        self.assertEqual(shamir.judge([], ONE).status, shamir.status(ONE))
        self.assertEqual(dataclasses.asdict(shamir.parse(FIVE[4])), {**dataclasses.asdict(fields), "value": shamir.parse(FIVE[4]).value})

    def test_lines_in_one_buffer(self):
        """A line may be changed, or its buffer be emptied, as soon as the next one is asked for."""

        def reused(is_emptied):
            for line in FIVE:
                buffer = bytearray(line.encode())
                yield buffer
                buffer[:] = b"" if is_emptied else bytes(len(buffer))

        for is_emptied in [True, False]:
            self.assertEqual(shamir.judge(reused(is_emptied), FIVE[4]), shamir.judge(FIVE, FIVE[4]))
            self.assertEqual(shamir.recover(reused(is_emptied), passphrase="TREZOR"), SECRET)
            room = bytearray(16)
            shamir.recover_into(room, reused(is_emptied), passphrase=b"TREZOR")
            self.assertEqual(room, SECRET)
            self.assertEqual(shamir.encrypted_into(bytearray(16), reused(is_emptied)).id, ID)

    def test_buffers_with_gaps(self):
        mirrored = memoryview(FIVE[4].encode()[::-1])[::-1]
        doubled = memoryview(array.array("b", [sign for sign in FIVE[4].encode() for _ in range(2)]))[::2]
        for line in [mirrored, doubled]:
            self.assertEqual(shamir.judge([line], line), shamir.judge([FIVE[4]], FIVE[4]))

    def test_what_judge_refuses(self):
        for lines, mnemonic in [(6, ONE), ([6], ONE), (FIVE, 6), (FIVE, [ONE]), (FIVE, None)]:
            self.assertRaises(TypeError, shamir.judge, lines, mnemonic)
        for lines, mnemonic in [([f"{ONE}\n{ONE}"], ONE), (["\ud800"], ONE), ([], "\ud800")]:
            self.assertRaises(ValueError, shamir.judge, lines, mnemonic)

    def test_the_text_of_a_status(self):
        self.assertEqual(str(shamir.status(TWO[:1])), "groups 0 of 1\ngroup 0 members 1 of 2 0.2")
        self.assertEqual(str(shamir.status(FIVE).groups[0]), "group 0 members 3 of 2 0.0+0.1+0.2")
        self.assertEqual(str(shamir.judge(FIVE[:1], TWO[0])), "groups 0 of 1\ngroup 0 members 1 of 2 0.2")
        self.assertEqual(str(shamir.judge(TWO[:1], TWO[0])), "again\ngroups 0 of 1\ngroup 0 members 1 of 2 0.2")


class Papers(unittest.TestCase):
    def test_papers_of_several_backups(self):
        papers = shamir.Papers()
        given = [ONE, TWO[0], FIVE[3], FIVE[3], TWO[1].encode(), bytearray(FIVE[0].encode()), memoryview(FIVE[1].encode())]
        self.assertEqual([papers.add(paper).again for paper in given], [False, False, False, True, False, False, False])
        self.assertEqual(papers.ids, [7945, 25653, ID])
        kept = [[ONE], TWO, [FIVE[3], *FIVE[:2]]]
        self.assertEqual([[line.decode() for line in papers.lines(id)] for id in papers.ids], kept)
        self.assertEqual(papers.lines(2), [])
        # The lines of a backup are ready for other calls.
        self.assertEqual(shamir.recover(papers.lines(ID), passphrase="TREZOR", expect="df41d8fe"), SECRET)
        self.assertEqual([outcome.expected for outcome in shamir.drill(papers.lines(ID), passphrase="TREZOR", expect="df41d8fe")], [True])
        self.assertEqual(papers.add(FIVE[4]).status, shamir.status(papers.lines(ID)))
        room = bytearray(128)
        self.assertEqual(room[: shamir.recover_into(room, papers.lines(ID), passphrase=b"TREZOR")], SECRET)

    def test_the_backup_of_the_last_paper(self):
        papers, noted = shamir.Papers(), {"passphrase": "TREZOR", "expect": "df41d8fe"}
        self.assertEqual((papers.enough, refusal_of(papers.recover).code), (False, 29))
        for paper, told, is_enough in [
            (FIVE[3], "groups 1 of 2\ngroup 1 members 1 of 1 1.0", False),
            (ONE, "groups 1 of 1\ngroup 0 members 1 of 1 0.0", True),
            ("academic x", "11 unknown word 2", True),
            (TWO[0].encode(), "groups 0 of 1\ngroup 0 members 1 of 2 0.2", False),
            (FIVE[4], "groups 2 of 2\ngroup 1 members 1 of 1 1.0\ngroup 2 members 1 of 1 2.0", True),
        ]:
            self.assertEqual((papers.add_and_tell(paper), papers.enough), (told, is_enough))
            if is_enough:
                self.assertEqual(papers.recover(**noted), shamir.Recovered(SECRET))
                self.assertEqual(refusal_of(papers.recover, passphrase="x", expect="df41d8fe").code, 52)
            else:
                self.assertEqual(refusal_of(papers.recover).code, 30)
        self.assertEqual(papers.add_and_tell(bytearray(ONE.encode())), "again\ngroups 1 of 1\ngroup 0 members 1 of 1 0.0")
        self.assertEqual(papers.recover(**noted), shamir.Recovered(SECRET, (), ()))
        self.assertEqual(papers.add_and_tell(TWO[1]), "groups 1 of 1\ngroup 0 members 2 of 2 0.0+0.2")
        self.assertEqual(refusal_of(papers.recover, max_exponent=1).code, 3)
        self.assertRaises(TypeError, papers.add_and_tell, 7)
        papers.clear()
        self.assertEqual((papers.enough, refusal_of(papers.recover).code), (False, 29))

    def test_a_wrong_paper_does_not_hide_the_others(self):
        papers, noted = shamir.Papers(), {"passphrase": "TREZOR", "expect": "df41d8fe"}
        for paper in [ONE, FORGED[0], FIVE[1], FIVE[3]]:
            papers.add(paper)
        refused = refusal_of(papers.recover, **noted)
        self.assertEqual((refused.code, refused.group), (51, 0))
        papers.add(FIVE[4] + "\n")
        two = ("0.0+0.1+1.0", "0.0+0.1+2.0")
        found = papers.recover(**noted)
        self.assertEqual(found, shamir.Recovered(SECRET, two, ("0.0", "0.1")))
        self.assertNotIn(SECRET.hex(), repr(found) + repr(SECRET))
        self.assertEqual(repr(found), f"Recovered(failed={two}, doubtful=('0.0', '0.1'))")
        self.assertEqual(papers.recover(passphrase="TREZOR").secret, SECRET)
        self.assertEqual(refusal_of(papers.recover, passphrase="TREZOR", expect="00000000").code, 52)
        self.assertEqual(refusal_of(papers.recover, expect="").code, 44)
        papers.add(FIVE[2])
        four = (*two, "0.0+0.2+1.0", "0.0+0.2+2.0")
        self.assertEqual(papers.recover(**noted), shamir.Recovered(SECRET, four, ("0.0",)))
        # The digest of the group shares.
        groups = shamir.Papers()
        for paper in [FIVE[0], FIVE[1], FORGED[2], FIVE[4]]:
            groups.add(paper)
        self.assertEqual(groups.recover(**noted), shamir.Recovered(SECRET, ("0.0+0.1+1.0", "1.0+2.0"), ("1.0",)))
        # Doubtful papers come in the order of their numbers.
        many = shamir.Papers()
        right, *others = (shamir.create("2of16", SECRET, exponent=0, random=bytes(2) + bytes([it] * (shamir.random_needed("2of16", 16) - 2))) for it in range(4))
        for member, line in enumerate(right):
            many.add(others[(0, 2, 10).index(member)][member] if member in (0, 2, 10) else line)
        found = many.recover()
        self.assertEqual((found.secret, found.doubtful, len(found.failed)), (SECRET, ("0.0", "0.2", "0.10"), 120 - 78))

    def test_a_paper_is_taken_out(self):
        papers, noted = shamir.Papers(), {"passphrase": "TREZOR", "expect": "df41d8fe"}
        for paper in [FORGED[0], ONE, FIVE[1], FIVE[3]]:
            papers.add(paper)
        self.assertEqual((papers.remove(ID, "0.2"), papers.remove(2, "0.0"), papers.remove(ID, "0.00"), papers.enough), (False, False, False, True))
        self.assertEqual(papers.add_and_tell(FIVE[0]), "28 conflicting share 0.0")
        [forged, *_] = papers.lines(ID)
        self.assertEqual((papers.remove(ID, "0.0"), papers.enough, forged), (True, False, bytes(len(forged))))
        self.assertEqual(refusal_of(papers.recover).code, 30)
        self.assertFalse(papers.add(FIVE[0]).again)
        self.assertEqual((papers.enough, papers.recover(**noted)), (True, shamir.Recovered(SECRET)))
        self.assertEqual([line.decode() for line in papers.lines(ID)], [FIVE[1], FIVE[3], FIVE[0]])
        # A paper of another backup changes nothing for this one.
        self.assertEqual((papers.remove(7945, b"0.0"), papers.ids, papers.enough), (True, [ID], True))
        for name in ["0.0", "0.1", "1.0"]:
            self.assertTrue(papers.remove(ID, name))
        self.assertEqual((papers.ids, papers.enough, refusal_of(papers.recover).code), ([], False, 29))
        self.assertFalse(papers.add(FIVE[0]).again)

    def test_nothing_is_taken_out_without_memory(self):
        papers = shamir.Papers()
        for paper in FIVE[3:]:
            papers.add(paper)
        with mock.patch.object(shamir._library, "shamir_quorums", return_value=shamir._Answer(code=4)):
            self.assertEqual(refusal_of(papers.remove, ID, "1.0").code, 4)
        self.assertEqual(([line.decode() for line in papers.lines(ID)], papers.enough), (FIVE[3:], True))

    def test_a_refused_paper_is_not_kept(self):
        papers = shamir.Papers()
        papers.add(FIVE[0])
        for paper, code in [(FORGED[0], 28), ("academic x", 11), ("", 12), (WRONG, 13), (FIVE[1].ljust(1025), 71)]:
            refused = refusal_of(papers.add, paper)
            self.assertEqual((refused.code, refused.line), (code, None))
        self.assertRaises(TypeError, papers.add, 7)
        self.assertEqual(papers.lines(ID), [FIVE[0].encode()])

    def test_the_spelling(self):
        papers = shamir.Papers()
        papers.add(f" {FIVE[0].upper()}".replace(" ", "\t  ") + 700 * " ")
        papers.add(FIVE[1])
        self.assertEqual(papers.lines(ID), [line.encode() for line in FIVE[:2]])

    def test_clear(self):
        given = bytearray(FIVE[0].encode())
        with shamir.Papers() as papers:
            papers.add(given)
            [line] = papers.lines(ID)
        self.assertEqual((line, papers.ids, given), (bytes(len(given)), [], FIVE[0].encode()))
        papers.add(FIVE[1])
        self.assertEqual(papers.lines(ID), [FIVE[1].encode()])


class Details(unittest.TestCase):
    def test_details_by_name(self):
        counts = {"group": 0, "member": 1, "members": 1, "member_threshold": 2, "groups": 1, "group_threshold": 2}
        for named, call in [
            ({"exponent": 2}, lambda: shamir.recover(TWO, max_exponent=1)),
            ({"word": 2}, lambda: shamir.parse("academic x")),
            ({"words": 1}, lambda: shamir.parse("academic")),
            ({}, lambda: shamir.parse(WRONG)),
            ({"word": 20}, lambda: shamir.repair(WRONG)),
            ({"open": 4}, lambda: shamir.repair(" ".join(["?"] * 4 + ONE.split()[4:]))),
            ({"group": 0, "member": 0}, lambda: shamir.status([FIVE[0], FORGED[0]])),
            ({"complete": 1, "required": 2}, lambda: shamir.recover(FIVE[3:4])),
            ({"group": 1}, lambda: shamir.random_needed("1/1of1,3of2", 16)),
            ({"group": 1}, lambda: shamir.random_needed("1/1of1,1of2", 16)),
            ({"byte": 2}, lambda: shamir.recover(ONE, passphrase="a\x07")),
            ({"bytes": 15}, lambda: shamir.fingerprint(bytes(15))),
            ({"needed": 26}, lambda: shamir.create(PLAN, SECRET, random=b"")),
            ({"needed": 16}, lambda: shamir.recover_into(bytearray(15), ONE.encode())),
            ({"group": 0}, lambda: shamir.recover(MISMATCHED)),
            ({"group": 3, "member": 1}, lambda: shamir.reissue(PLAN, "3.1", FIVE)),
            (counts, lambda: shamir.reissue(PLAN, "0.1", [FIVE[0], FIVE[3]])),
        ]:
            refused = refusal_of(call)
            for other in (refused, copy.copy(refused), pickle.loads(pickle.dumps(refused))):
                found = {name: getattr(other, name) for name in shamir.Refusal.__annotations__ if getattr(other, name) is not None}
                self.assertEqual(found, named, str(refused))


if __name__ == "__main__":
    unittest.main()
