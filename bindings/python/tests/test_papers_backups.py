"""Tests how `shamir.papers` keeps papers of several backups apart, without a terminal. The papers are published vectors, or another program
made them."""
import contextlib
import dataclasses
import pathlib
import sys
import unittest
import unittest.mock

sys.path.insert(0, str(pathlib.Path(__file__).resolve().parent.parent))
sys.path.insert(0, str(pathlib.Path(__file__).resolve().parent))

from test_shamir import FIVE, FORGED, ONE, TWO  # noqa: E402

if sys.version_info < (3, 10):
    raise unittest.SkipTest("shamir.papers needs Python 3.10")

import shamir  # noqa: E402
from shamir.papers import agree  # noqa: E402
from shamir.papers.backups import label  # noqa: E402
from shamir.papers.check import _kind, _tell_repaired  # noqa: E402
from shamir.papers.collect import collect, tell_left_out  # noqa: E402
from shamir.papers.desk import Desk, is_same, paper_of  # noqa: E402
from shamir.papers.drill import Verdict  # noqa: E402
from shamir.papers.screen import Back  # noqa: E402
from shamir.papers.texts import say  # noqa: E402
from test_papers import LONG, Scripted  # noqa: E402

# The identifiers of the backups of these papers.
ONE_ID, TWO_ID, FIVE_ID = 7945, 25653, 1


def desk_of(*lines):
    desk = Desk()
    for line in lines:
        desk.add(paper_of(line))
    return desk


def opening(line):
    return " ".join(line.split()[:2])


def found_in(line, place):
    """Returns a paper of which one word can't be read."""
    words = line.split()
    return " ".join([*words[: place - 1], "?", *words[place:]])


class Answered(Scripted):
    """A screen whose questions have answers, and that shows all of a task."""

    is_held = False

    def clear(self, title):
        self.told.append(title)

    def hold(self, text):
        self.is_held = bool(text)

    def pause(self, prompt):
        self.asked.append(prompt)

    def keeping(self):
        return contextlib.nullcontext()

    def took_kept(self):
        return False

    def is_pasted(self, seconds):
        return False

    def ahead(self, most):
        return ""

    def choose(self, prompt, answers, default=None, has_back=False):
        self.asked.append(prompt)
        answer = self.answers.pop(0)
        if has_back and answer == "b":
            raise Back
        return answers[answer]


class DeskTests(unittest.TestCase):
    def test_papers_of_several_backups(self):
        desk = desk_of(ONE, FIVE[0], TWO[0], FIVE[3])
        self.assertEqual([*desk.backups], [ONE_ID, FIVE_ID, TWO_ID])
        self.assertEqual((desk.lines, [[it.line for it in papers] for papers in desk.others]), ([FIVE[0], FIVE[3]], [[ONE], [TWO[0]]]))
        desk.choose(ONE_ID)
        self.assertEqual((desk.lines, desk.status()), ([ONE], shamir.status([ONE])))
        self.assertFalse(desk.add(paper_of(FIVE[3])))
        self.assertEqual(desk.lines, [FIVE[0], FIVE[3]])
        self.assertEqual([label(desk, it) for it in desk.named("0.0")], [f"0.0 ({opening(line)})" for line in (ONE, FIVE[0])])
        # Once one backup is left, the task is about that one.
        for paper in [*desk.backups[FIVE_ID], *desk.backups[TWO_ID]]:
            desk.drop(paper)
        self.assertEqual((desk.lines, desk.others, label(desk, desk.papers[0])), ([ONE], [], "0.0"))

    def test_what_the_library_refuses(self):
        """A paper that has the identifier of others, and can't be of their backup, isn't taken. Those of other backups don't matter."""
        desk = desk_of(ONE, FIVE[0])
        with self.assertRaises(shamir.Refusal) as refused:
            desk.add(paper_of(FORGED[0]))
        self.assertEqual(refused.exception.code, shamir.Code.CONFLICTING_SHARE)
        self.assertEqual([it.line for it in desk.typed], [ONE, FIVE[0]])

    def test_same(self):
        for one, other, same in [(ONE, ONE.upper(), True), (FIVE[0], FORGED[0], False), (FIVE[0], FIVE[1], False), (ONE, FIVE[0], False)]:
            self.assertEqual(is_same(paper_of(one), paper_of(other)), same)

    def test_word_count(self):
        """Papers of a backup have as many words. Those of another one may have another number."""
        desk = Desk()
        self.assertIsNone(desk.word_count([]))
        desk.add(paper_of(LONG))
        words, others = LONG.split(), ONE.split()
        for marks, count in [([], 33), (words[:1], 33), (words[:2], 33), (words, 33), (["theo", "pain"], 33), (others[:1], 33), (others[:2], None)]:
            self.assertEqual(desk.word_count(marks), count)
        for marks in (["", others[1]], ["?", others[1]], ["dup", others[1]]):
            self.assertEqual(desk.word_count(marks), 33)
        desk.add(paper_of(ONE))
        for marks, count in [([], None), (words[:1], None), (words[:2], 33), (others[:2], 20), (FIVE[0].split(), None)]:
            self.assertEqual(desk.word_count(marks), count)

    def test_new_papers_have_an_identifier_of_no_other_backup(self):
        """The first two bytes that are drawn give the identifier, 15 bits of it."""
        drawn = [it.to_bytes(2, "big") + bytes(12) for it in (ONE_ID, FIVE_ID, TWO_ID, 2)]
        with unittest.mock.patch.object(shamir, "_random_for", lambda plan, count: drawn.pop(0)):
            papers, _ = desk_of(ONE, FIVE[0], TWO[0]).make("2of3", bytearray(16), 0, False)
        self.assertEqual((papers[0].id, drawn), (2, []))

    def test_unsure(self):
        """Papers of which words were found may be of another backup than they seem, until one of it is read in full."""
        desk = Desk()
        desk.add(dataclasses.replace(paper_of(FIVE[0]), is_repaired=True))
        self.assertEqual([it.name for it in desk.doubtful(paper_of(ONE))], ["0.0"])
        desk.add(paper_of(ONE))
        self.assertEqual([it.line for it in desk.unsure], [FIVE[0]])
        desk.add(paper_of(FIVE[1]))
        self.assertEqual((desk.unsure, desk.doubtful(paper_of(TWO[0]))), ([], []))
        self.assertEqual([it.line for it in desk.doubtful(paper_of(FORGED[0]))], [FIVE[0]])

    def test_left_out(self):
        """A good result isn't all if papers of another backup are here. They are named."""
        desk, verdict = desk_of(*FIVE, ONE, *TWO), Verdict("good", [], ("0.0", "0.1", "0.2", "1.0", "2.0"))
        desk.choose(FIVE_ID)
        self.assertEqual(_kind(desk, verdict, "good"), "left_out")
        screen = Answered()
        tell_left_out(screen, desk)
        names = ", ".join(it.name for it in desk.backups[TWO_ID])
        many, one = (say(f"left.backup.{key}", names=names, begin=opening(line)) for key, names, line in [("many", names, TWO[0]), ("one", "0.0", ONE)])
        self.assertEqual(screen.told, [one, many])
        for papers in desk.others:
            for paper in papers:
                desk.drop(paper)
        self.assertEqual(_kind(desk, verdict, "good"), "good")


class VerdictTests(unittest.TestCase):
    def test_a_stopped_drill_of_new_papers(self):
        """If all that it tried give one other secret, the passphrase is another one, and no fingerprint is blamed."""
        drills = [Verdict("good", [], fingerprint="01234567"), Verdict("stopped", ["No quorum"], is_other=True)]
        with unittest.mock.patch.object(agree, "run_drill", side_effect=drills):
            self.assertEqual(agree._drilled(Answered(), Desk(), Desk(), "01234567").sentences, [say("change.other")])

    def test_a_repaired_paper_beside_one_that_was_written_again(self):
        """Only what a drill doesn't show keeps the damaged paper, whatever it shows of a paper that was written from others."""
        desk = desk_of()
        desk.add(dataclasses.replace(paper_of(FIVE[0]), is_repaired=True))
        desk.written = "replaced"
        for names, is_kept in [(("0.0",), False), ((), True)]:
            screen = Answered()
            _tell_repaired(screen, desk, Verdict("good", [], names), "good", "good")
            self.assertEqual(say("damaged.keep") in screen.told, is_kept)


class CollectTests(unittest.TestCase):
    def collected(self, *answers, desk=None):
        desk, screen = desk or Desk(), Answered(*answers)
        collect(screen, desk, "Title", "Intro")
        self.assertEqual(screen.answers, [])
        return desk, screen

    def test_one_backup(self):
        desk, screen = self.collected(*FIVE, FIVE[0], "")
        self.assertEqual(desk.lines, FIVE)
        self.assertIn(say("collect.repeated", name="0.0"), screen.told)
        self.assertFalse([it for it in screen.told + screen.asked if "backups" in it or "that begin with" in it])

    def test_the_first_paper_is_of_another_backup(self):
        desk, screen = self.collected(ONE, FIVE[3], FIVE[4], "", "b", "", "2")
        self.assertEqual((desk.lines, screen.asked[-1]), (FIVE[3:], say("backup.choose")))
        begin = opening(FIVE[3])
        for text in [
            say("collect.taken.apart", name="1.0", begin=begin),
            say("collect.taken.of", name="2.0", begin=begin),
            say("collect.apart", count=2),
            f"{say('status.backup', begin=begin)}: 1.0, 2.0",
            say("backup.which"),
        ]:
            self.assertIn(text, screen.told)
        # The papers that are here are told again, with the words that tell them apart.
        _, again = self.collected("", "1", desk=desk)
        self.assertIn(say("collect.row", name=f"0.0 ({opening(ONE)})", words=20), again.told)
        self.assertEqual(desk.lines, [ONE])

    def test_taken_out(self):
        which = say("entry.drop.which", name="0.0")
        for answer, kept in [("0", [ONE, FIVE[0]]), ("1", [FIVE[0]]), ("2", [ONE])]:
            desk, screen = self.collected(ONE, FIVE[0], "-0.0", answer, "-3.3", "", *["1"] * (answer == "0"))
            self.assertEqual([it.line for it in desk.typed], kept)
            self.assertIn(which, screen.asked)
            self.assertIn(say("entry.drop.none", name="3.3"), screen.told)

    def test_words_that_were_found(self):
        """A paper of which words were found isn't taken as one of another backup. If it came first, it is the one that may be wrong."""
        desk, screen = self.collected(FIVE[0], found_in(ONE, 6), True, "")
        self.assertEqual(desk.lines, FIVE[:1])
        self.assertIn(say("refused.repaired.apart"), screen.told)
        desk, screen = self.collected(found_in(ONE, 6), True, FIVE[0], "", "2")
        self.assertEqual(desk.lines, FIVE[:1])
        self.assertIn(say("collect.apart", count=2), screen.told)
        self.assertIn(say("collect.unsure.one", names=say("backup.paper", name="0.0", begin=" ".join(ONE.split()[:2]))), screen.told)

    def test_pasted(self):
        """All lines of a paste are judged. Those of each backup are named together."""
        desk, screen = self.collected("\n".join([FIVE[0], ONE, FIVE[1], FORGED[0], ONE]), "", "1")
        self.assertEqual(desk.lines, FIVE[:2])
        for key, names, line in [("taken", "0.0, 0.1", FIVE[0]), ("taken", "0.0", ONE), ("repeated", "0.0", ONE)]:
            self.assertIn(say(f"paste.{key}.backup", names=names, begin=opening(line)), screen.told)
        why = say("refused.28", first=0, second=0)
        self.assertIn(say("paste.left", begin=" ".join(FORGED[0].split()[:4]), why=why), screen.told)


if __name__ == "__main__":
    unittest.main()
