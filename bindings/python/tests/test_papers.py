"""Tests parts of `shamir.papers` without a terminal: the entry of words over generated typing, plans, quorums, what
outcomes say together, and the sentences. tools/check_papers tests the program at a terminal."""
import dataclasses
import os
import pathlib
import random
import re
import signal
import sys
import unittest
import unittest.mock

sys.path.insert(0, str(pathlib.Path(__file__).resolve().parent.parent))
sys.path.insert(0, str(pathlib.Path(__file__).resolve().parent))

from test_shamir import FIVE, MISMATCHED, MISMATCHED_GROUPS, ONE, TWO  # noqa: E402

if sys.version_info < (3, 10):
    raise unittest.SkipTest("shamir.papers needs Python 3.10")

import shamir  # noqa: E402
import shamir.papers  # noqa: E402
from shamir.papers import safety  # noqa: E402
from shamir.papers.desk import Desk, paper_of  # noqa: E402
from shamir.papers.drill import said_total, verdict_of  # noqa: E402
from shamir.papers.entry import Entry  # noqa: E402
from shamir.papers.found import ask_paper  # noqa: E402
from shamir.papers.marks import said_count  # noqa: E402
from shamir.papers.paste import papers_in  # noqa: E402
from shamir.papers.plan import plain_plan, plan_of, said_dangers, said_plan, said_singles, said_takes  # noqa: E402
from shamir.papers.quorums import Tried, quorum_with, suspects  # noqa: E402
from shamir.papers.spelling import Misplaced, continued, has_idle_number, nearest, numbers_of, parts_of, placed, said_empty, seems_bip39  # noqa: E402
from shamir.papers.texts import OWN, TABLE, TASKS, _page, say  # noqa: E402
from shamir.papers.trial import Trial  # noqa: E402

# The first vector whose paper has 33 words.
LONG = "theory painting academic academic armed sweater year military elder discuss acne wildlife boring employer fused large satoshi bundle carbon diagnose anatomy hamster leaves tracks paces beyond phantom capital marvel lips brave detect luck"
WORDS = shamir.words("")
SOURCES = pathlib.Path(shamir.papers.__file__).resolve().parent
# These words speak of a page, and not of a terminal.
OF_A_PAGE = re.compile(r"\b(pages?|fields?|button|buttons|box|press (?!Ctrl|Enter)|click|above|below|browser|first screen|the table)")


class Scripted:
    """A screen whose questions have answers."""

    def __init__(self, *answers):
        self.answers, self.told, self.asked, self.begun, self.last = list(answers), [], [], [], None

    def ask(self, prompt, complete=None, has_back=False, begun=""):
        self.asked.append(prompt)
        self.begun.append(begun)
        self.last = self.answers.pop(0)
        return self.last

    def agree(self, prompt):
        self.asked.append(prompt)
        return self.answers.pop(0)

    def choose(self, prompt, answers, default=None, has_back=False):
        self.asked.append(prompt)
        return answers[self.answers.pop(0)]

    def tell(self, text, style=""):
        self.told.append(text)

    tell_seen = fault = tell

    def item(self, text, mark="- "):
        self.told.append(text)

    def words(self, words):
        self.told.append(" ".join(words))

    def gap(self):
        pass

    def drop_typed(self):
        pass

    def is_pasted(self, seconds):
        # What follows an empty line of a script is pasted.
        return seconds > 0 and self.last == "" and bool(self.answers)

    def goes_on(self):
        return False

    def pasted(self, most):
        text, self.answers = "\n".join([*self.answers, ""]), []
        return text, False


def by_rows(line, height):
    """Returns a paper as it is shown in columns, row by row: the words with their numbers, which aren't in their order."""
    cells = [f"{number}. {word}" for number, word in enumerate(line.split(), 1)]
    return ["  ".join(cells[row::height]) for row in range(height)]


def typed_by(chance, line):
    """Returns one way to type the words of a line, in one line or several."""
    words, styles = line.split(), ["{n}. {w}", "{n}) {w}", "{n} {w}", "{w}", "{w},", " {w} ", "{n}.{w}"]
    style, found = chance.choice(styles), []
    for number, word in enumerate(words, 1):
        length = chance.choice([4, len(word), chance.randint(4, len(word))])
        word = word[:length]
        word = chance.choice([word, word.upper(), word.capitalize()])
        found.append(style.format(n=number, w=word))
    cuts = sorted(chance.sample(range(1, len(words)), chance.randint(0, 4)))
    return [chance.choice([" ", "  ", "\t"]).join(found[begin:end]) for begin, end in zip([0, *cuts], [*cuts, len(words)])]


class EntryTests(unittest.TestCase):
    def read(self, *answers, wanted=None):
        screen = Scripted(*answers)
        found = Entry(screen, lambda marks: wanted).read("Paper 1:")
        self.assertEqual(screen.answers, [])
        return " ".join(found), screen

    def test_generated_typing(self):
        chance = random.Random(52)
        for round in range(400):
            line = chance.choice([ONE, *TWO, *FIVE, LONG])
            with self.subTest(round=round):
                self.assertEqual(self.read(*typed_by(chance, line))[0], line)

    def test_cut_after_twenty_words(self):
        first, rest = " ".join(LONG.split()[:20]), " ".join(LONG.split()[20:])
        found, screen = self.read(first, rest)
        self.assertEqual(found, LONG)
        self.assertIn(say("entry.longer", count=20), screen.told)
        self.assertEqual(self.read(first, rest, wanted=33)[0], LONG)

    def test_row_by_row(self):
        for line in [ONE, TWO[1], LONG]:
            for height in (5, 7, 10):
                rows = by_rows(line, height)
                with self.subTest(words=len(line.split()), height=height):
                    self.assertEqual(self.read(*rows)[0], line)
                    self.assertEqual(self.read(" ".join(rows))[0], line)
                    self.assertEqual(self.read("SLIP-0039 Paper 0.1 " + " ".join(rows))[0], line)

    def test_numbers_that_contradict(self):
        rows, words = by_rows(ONE, 5), ONE.split()
        found, screen = self.read(*rows[:2], rows[2].replace("13.", "12."), *rows[3:], f"12. {words[11]} 13. {words[12]}")
        self.assertEqual(found, ONE)
        self.assertIn(say("entry.twice", number=12, words=f"{words[11]}, {words[12]}"), screen.told)
        self.assertEqual(screen.asked[-1], say("entry.gap", count="18 words", last=20, numbers="12, 13", sign="-"))
        found, screen = self.read(" ".join(rows).replace("20.", "120."), words[19])
        self.assertEqual((found, screen.told), (ONE, [say("entry.beyond", number=120, words=words[19])]))
        self.assertEqual(self.read(rows[0], " ".join(rows))[0], ONE)

    def test_numbers_with_a_gap(self):
        rows = by_rows(ONE, 5)
        for answers in (["19. decision"], ["", "decision"]):
            found, screen = self.read(" ".join(rows).replace("19. decision", ""), *answers)
            self.assertEqual(found, ONE)
            self.assertEqual(screen.asked[-1], say("entry.gap", count="19 words", last=20, numbers="19", sign="-"))
        found, screen = self.read(rows[0], "-", ONE)
        self.assertEqual((found, screen.asked[1]), (ONE, say("entry.gap", count="4 words", last=16, numbers="2 to 5, 7 to 10, 12 to 15", sign="-")))

    def test_unknown_word_in_a_row(self):
        rows = by_rows(ONE, 5)
        words = ONE.split()
        found, screen = self.read(rows[0], rows[1].replace(words[6], "zzzz"), words[6], *rows[2:])
        self.assertEqual(found, ONE)
        self.assertEqual(screen.asked[2], say("entry.word", number=7, sign="-"))

    def test_counts(self):
        for count, wanted, said in [
            (19, 20, "Typed: 19 of 20 words, so 1 word is missing."),
            (21, 20, "Typed: 21 words. Each paper of this backup has 20 words, so 1 word is too many"),
            (19, None, "Typed: 19 words. Most papers have 20 or 33 words, so 1 word is missing, or 14."),
            (21, None, "Typed: 21 words. Most papers have 20 or 33 words, so 1 word is too many, or 12 words are missing."),
            (35, None, "Typed: 35 words. Most papers have 20 or 33 words, so 2 words are too many, or several papers were typed as one."),
        ]:
            self.assertTrue(said_count(count, wanted).startswith(said), said_count(count, wanted))
        words = ONE.split()
        found, screen = self.read(" ".join(words[:19]), "", words[19], wanted=20)
        self.assertEqual(found, ONE)
        self.assertEqual(screen.asked[1], say("entry.on", typed=said_count(19, 20), number=20, sign="-"))
        self.assertEqual(screen.told, [say("entry.typed"), " ".join(words[:19]), say("entry.compare", sign="-")])

    def test_unknown_word(self):
        found, screen = self.read(TWO[0].replace("always", "alwys"), "zzz", "again always", "again always acid", "always")
        self.assertEqual(found, TWO[0])
        self.assertTrue(screen.told[0].startswith("Word 4, alwys, isn't in the word list (always"), screen.told)
        self.assertIn(say("entry.one", number=4), screen.told)
        self.assertEqual(screen.asked[1], say("entry.word", number=4, sign="-"))
        # What is short is typed again, and what is long stays in the line, with a hint.
        self.assertEqual(screen.begun, ["", "", "", "", "again always acid "])
        self.assertIn(f"{say('entry.one', number=4)} {say('entry.stays')}", screen.told)

    def test_words_after_an_unknown_one(self):
        words = TWO[0].split()
        first, rest = " ".join([*words[:3], "alwys"]), " ".join(words[3:])
        self.assertEqual(self.read(first, rest)[0], TWO[0])
        self.assertEqual(self.read(TWO[0].replace("always", "alwys"), " ".join(words[3:9]))[0], TWO[0])
        self.assertEqual(self.read(TWO[0].replace("always", "alwys"), TWO[0])[0], TWO[0])
        self.assertEqual(self.read(first, f"9. {words[8]}", rest)[0], TWO[0])
        found, screen = self.read(TWO[0].replace("always", "alwys"), f"9. {words[3]}", f"4. {words[3]}")
        self.assertEqual((found, screen.begun[-1]), (TWO[0], ""))

    def test_ambiguous_beginning(self):
        found, screen = self.read(TWO[0].replace("always", "al"), "ALWA")
        self.assertEqual(found, TWO[0])
        self.assertIn("isn't complete", screen.told[0])

    def test_each_word_replaced_by_another(self):
        chance = random.Random(7)
        for at in range(20):
            words = TWO[1].split()
            words[at] = chance.choice([word for word in WORDS if word != words[at]])
            # The second word holds the extendable flag, by which the checksum is made. So no place is promised there.
            if at == 1:
                continue
            with self.subTest(at=at):
                found, screen = self.read(" ".join(words), f"{at + 1} {TWO[1].split()[at]}")
                self.assertEqual(found, TWO[1])
                self.assertTrue(any("it is word" in text for text in screen.told), screen.told)

    def test_nothing_is_corrected_by_itself(self):
        wrong = TWO[0].replace("always", "alien")
        found, _ = self.read(wrong, "-", "")
        self.assertEqual(found, "")

    def test_two_wrong_words(self):
        words = TWO[0].split()
        words[4], words[5] = words[5], words[4]
        found, screen = self.read(" ".join(words), "30 acid", f"5 {words[5]} 6. {words[4]}")
        self.assertEqual(found, TWO[0])
        self.assertIn(say("entry.numbers", count=20), screen.told)
        self.assertEqual(screen.begun[-1], "")
        self.assertNotIn(say("entry.left_out", sign="-"), screen.told)

    def test_left_out(self):
        words = TWO[0].split()
        found, screen = self.read(" ".join([*words[:5], *words[6:]]), words[5], TWO[0])
        self.assertEqual(found, TWO[0])
        self.assertIn(say("entry.left_out", sign="-"), screen.told)

    def test_all_words_again(self):
        words = TWO[0].split()
        words[4], words[5] = words[5], words[4]
        self.assertEqual(self.read(" ".join(words), TWO[0])[0], TWO[0])

    def test_too_many_words(self):
        found, screen = self.read(f"{ONE} acid", "-", ONE)
        self.assertEqual(found, ONE)
        self.assertEqual(screen.asked[1], say("entry.on.many", typed=said_count(21, None), number=22, sign="-"))
        self.assertEqual(self.read(f"acid {ONE}", "1")[0], ONE)
        for more in ("acid", "acid acid"):
            found, screen = self.read(f"{ONE} {more}", ONE, wanted=20)
            self.assertEqual(found, ONE)
            self.assertEqual(screen.told, [say("entry.typed"), f"{ONE} {more}", said_count(20 + len(more.split()), 20)])
        found, screen = self.read(f"acid {ONE} acid", "acid", "30", "1, 22", wanted=20)
        self.assertEqual(found, ONE)
        self.assertEqual(screen.told[-2:], [say("entry.over.numbers", count=22)] * 2)
        self.assertEqual(self.read(f"acid {ONE} acid", "22", "1", wanted=20)[0], ONE)

    def test_all_are_too_many(self):
        """An owner who takes out each word begins the paper again."""
        self.assertEqual(self.read(" ".join(WORDS[:21]), " ".join(map(str, range(1, 22))), ONE)[0], ONE)

    def test_no_such_number(self):
        """Words of which none has a place leave nothing to compare, and the paper is asked for again."""
        for wrong in ("0 academic", "111 acid", "2024 acid 111 acne", "1 acid 1 acne"):
            with self.subTest(typed=wrong):
                found, screen = self.read(wrong, ONE)
                self.assertEqual((found, screen.asked), (ONE, ["Paper 1:"] * 2))
        self.assertEqual(self.read("acid", "1 acne", "", ONE)[0], ONE)

    def test_empty_line_of_a_paste(self):
        self.assertEqual(self.read("", "  ", ONE)[0], ONE)

    def test_unread_word_before_one_is_taken_out(self):
        """What a question mark took the place of keeps its place if a word before it is taken out, and is forgotten with the paper."""
        words = ONE.split()
        screen = Scripted(" ".join([*words[:7], *words[6:-1], "xyzt"]), "?", "8", True)
        entry = Entry(screen)
        self.assertEqual(entry.paper(entry.read("Paper 1:")).line, ONE)
        self.assertIn(f"Word 20: {words[-1]} (you typed xyzt)", screen.told)
        self.assertEqual((entry.replaced, screen.answers), ({20: "xyzt"}, []))
        screen = Scripted(" ".join(["xyzt", *words[1:18], "acid", "acid"]), "?", ONE)
        entry = Entry(screen)
        self.assertEqual((entry.read("Paper 1:"), entry.replaced, screen.answers), (words, {}, []))

    def test_other_list_in_rows(self):
        """Words of another list are told from a few of them on, once, and not while a paper is typed back."""
        row = "abandon zoo letter advice"
        for show, times in [(None, 1), (lambda: None, 0)]:
            screen = Scripted(row, "acid", "academic", "-", ONE)
            self.assertEqual(Entry(screen, show=show).read("Paper 1:"), ONE.split())
            self.assertEqual(screen.told.count(say("entry.other_list")), times)

    def test_bip39(self):
        words = "legal winner thank year wave sausage worth useful legal winner thank yellow"
        found, screen = self.read(words, ONE)
        self.assertEqual(found, ONE)
        self.assertIn(say("entry.bip39", count=12), screen.told)
        self.assertTrue(seems_bip39(["abandon"] * 24))
        self.assertFalse(seems_bip39(ONE.split()[:12]))
        self.assertFalse(seems_bip39(["enlrage", *ONE.split()[:11]]))

    def test_faulty_programs_papers(self):
        padding = "duckling enlarge academic academic email result length solution fridge kidney coal piece deal husband erode duke ajar music cargo fitness"
        found, screen = self.read(padding, ONE)
        self.assertEqual(found, ONE)
        self.assertTrue(any(say("refused.14") in text for text in screen.told), screen.told)

    def test_open_words(self):
        words = ONE.split()
        words[3], words[6] = "?", "le?"
        marks = Entry(Scripted(" ".join(words))).read("Paper 1:")
        taken = Scripted(True)
        self.assertEqual(ask_paper(taken, marks).line, ONE)
        self.assertIn("Word 4: academic", taken.told)
        self.assertIsNone(ask_paper(Scripted(False), marks))
        mended = Scripted(False, "7 le?", False, "7 length", True)
        self.assertEqual(Entry(mended).paper(marks).line, ONE)
        self.assertIsNone(Entry(Scripted(False, "-")).paper(marks))

    def test_open_words_that_fit_nothing(self):
        words = ONE.split()
        words[3], words[4] = "?", "kidney"
        words[5] = "piece"
        screen = Scripted(" ".join(words), "-", "")
        self.assertEqual(Entry(screen).read("Paper 1:"), [])
        self.assertEqual(screen.told[-1], say("refused.17"))

    def test_letters_that_follow(self):
        """After a whole paper, a letter that answers another question is no word of it, and a number needs its word."""
        words = ONE.split()
        words[3], words[6] = words[6], words[3]
        for typed, behind in [("e", ""), ("4", ""), ("4 acid 7", "4 acid 7 ")]:
            screen = Scripted(" ".join(words), typed, f"4 {words[6]} 7 {words[3]}")
            self.assertEqual(Entry(screen).read("Paper 1:"), ONE.split())
            self.assertTrue(any(text.startswith(say("entry.numbers", count=20)) for text in screen.told), screen.told)
            self.assertEqual(screen.begun[-1], behind)

    def test_drop_sign(self):
        self.assertEqual(Entry(Scripted("-0.1")).read("Paper 2:"), ["-0.1"])
        found, screen = self.read("-", "12.", "")
        self.assertEqual((found, screen.told), ("", [say("entry.wordless")] * 2))
        self.assertEqual(self.read("\n".join(["- " + word for word in ONE.split()]).replace("\n", " "))[0], ONE)


class PasteTests(unittest.TestCase):
    """Which lines of a paste are of which paper."""

    def found(self, text, wanted=None):
        return [" ".join(word for _, word in parts_of(it)) for it in papers_in(text, wanted)]

    def test_generated_pastes(self):
        chance = random.Random(53)
        for round in range(300):
            papers = chance.choice([TWO, FIVE, [LONG]])
            with self.subTest(round=round):
                lines = [it for line in papers for it in [*typed_by(chance, line), *[""] * chance.randint(0, 2)]]
                pasted = papers_in("\n".join(lines), None)
                self.assertEqual([Entry(Scripted(it)).read("Paper 1:") for it in pasted], [line.split() for line in papers])

    def test_a_paper_that_is_not_sound(self):
        """A paper that isn't sound ends before the next one that is, or that its first line announces, or at as many words as papers have."""
        wrong = TWO[0].replace("always", "alwys")
        rows = [" ".join(wrong.split()[at : at + 5]) for at in range(0, 20, 5)]
        self.assertEqual(self.found(f"{wrong}\n{TWO[1]}\n"), [wrong, TWO[1]])
        self.assertEqual(self.found("\n".join([*rows, TWO[1]])), [wrong, TWO[1]])
        self.assertEqual(self.found("\n".join([*rows, "", *rows])), [wrong, wrong])
        self.assertEqual(self.found("\n".join([*rows, "Paper 0.1", *rows])), [wrong, wrong])
        self.assertEqual(self.found(f"{wrong}\nacid acid", 20), [wrong, "acid acid"])
        self.assertEqual(self.found("\n".join(by_rows(wrong, 5) + by_rows(wrong, 5)))[0].count("alwys"), 1)

    def test_nothing(self):
        for text in ("", "\n\n", "- \n 12."):
            self.assertEqual(self.found(text), [])


class DeskTests(unittest.TestCase):
    def test_left_out(self):
        desk = Desk()
        desk.leave_out(FIVE[0].split()[:5])
        self.assertEqual(len(desk.left_out), 0)
        for line in [FIVE[0], FIVE[1], FIVE[0].replace(FIVE[0].split()[8], "acid")]:
            desk.leave_out(line.split())
        self.assertEqual(len(desk.left_out), 2)
        for left, line in [(1, FIVE[1]), (1, FIVE[2]), (0, FIVE[0])]:
            desk.add(paper_of(line))
            self.assertEqual(len(desk.left_out), left)
        # What was typed wrongly before isn't counted again if the paper is taken out.
        desk.drop(desk.papers[-1])
        self.assertEqual(len(desk.left_out), 0)
        desk.clear()
        self.assertEqual(len(desk.left_out), 0)

    def test_new_papers_have_another_identifier(self):
        """Papers in place of others would be taken for one backup with these if the random bytes gave the old identifier."""
        drawn = [bytes(14), bytes(14), b"\x80" + bytes(13), b"\x00\x01" + bytes(12)]
        with unittest.mock.patch.object(shamir, "_random_for", lambda plan, count: drawn.pop(0)):
            desk = Desk()
            for line in shamir.create("2of3", bytes(16)):
                desk.add(paper_of(line))
            papers, _ = desk.make("2of3", bytearray(16), 0, False)
        self.assertEqual((shamir.parse(desk.lines[0]).id, shamir.parse(papers[0].line).id, drawn), (0, 1, []))

    def test_read_in_full(self):
        """A paper that is read in full takes the place of the same one of which words were found, unless that one was written anew."""
        for is_rewritten, damaged, is_repaired in [(False, [], False), (True, [], True)]:
            desk = Desk()
            desk.add(dataclasses.replace(paper_of(FIVE[0]), is_repaired=True, is_rewritten=is_rewritten))
            self.assertEqual(desk.damaged, [] if is_rewritten else ["0.0"])
            self.assertFalse(desk.add(paper_of(FIVE[0])))
            self.assertEqual((desk.damaged, [it.is_repaired for it in desk.papers]), (damaged, [is_repaired]))
        desk = Desk()
        desk.add(paper_of(FIVE[0]))
        self.assertFalse(desk.add(dataclasses.replace(paper_of(FIVE[0]), is_repaired=True)))
        self.assertEqual(desk.damaged, [])


class SpellingTests(unittest.TestCase):
    def test_marks(self):
        self.assertEqual([mark for _, mark in parts_of("1. Shadow 2) PISTOL,acad ? em?? 3shadow")], ["shadow", "pistol", "acad", "?", "em?", "shadow"])
        self.assertEqual(parts_of(" 12 .. "), [])
        self.assertEqual(parts_of("_ acad __ 7 em_? 8. ___"), [(None, "?"), (None, "acad"), (None, "?"), (7, "em?"), (8, "?")])

    def test_parts(self):
        self.assertEqual(parts_of("7 shadow, 9. acid"), [(7, "shadow"), (9, "acid")])
        self.assertEqual(parts_of("7 shadow acid 12"), [(7, "shadow"), (None, "acid")])
        self.assertEqual(parts_of("SLIP-0039, Paper 0.1: 1. shadow"), [(1, "shadow")])
        for name in ["0.0 ", "0.2: ", "(0.2) ", "1.15\n", "Paper 0.1."]:
            self.assertEqual(parts_of(f"{name}shadow 2.acid"), [(None, "shadow"), (2, "acid")])
        # Word 10 can't be read.
        self.assertEqual(parts_of("9.surface 10.11.strike"), [(9, "surface"), (11, "strike")])
        # A longer number or word is read as far as it can matter, since neither may take long.
        self.assertEqual(parts_of("7" * 5000 + "a" * 60000), [(int("7" * 20), "a" * 20)])
        self.assertEqual(parts_of(""), [])

    def test_numbers(self):
        for text, wanted in [("21", [21]), (" 3, 7. ", [3, 7]), ("", []), ("3 acid", []), ("3x", [])]:
            self.assertEqual(numbers_of(text), wanted)

    def test_idle_numbers(self):
        for text, is_idle in [("7 acid", False), ("7. ?, 12) acid", False), ("acid", False), ("", False), ("7", True), ("7 acid 8", True), ("6 6 acid", True), ("12.", True), ("SLIP-0039 Paper 0.1 acid", False), ("0.2 acid", False), ("10.11.acid", True)]:
            self.assertEqual(has_idle_number(text), is_idle, text)

    def test_continued(self):
        for text, wanted in [
            ("acid", ["shadow", "acid", "pistol"]),
            ("acid pistol", ["shadow", "acid", "pistol"]),
            ("acid pistol adult", ["shadow", "acid", "pistol", "adult"]),
            ("4. adult", ["shadow", "", "pistol", "adult"]),
            ("acid adult", None),
            ("1. adult", None),
            ("", None),
        ]:
            self.assertEqual(continued(["shadow", "acx", "pistol"], 2, parts_of(text)), wanted)

    def test_places(self):
        for marks, text, wanted in [
            ([], "1. shadow 3. acid", ["shadow", "", "acid"]),
            (["shadow", "", "acid"], "pistol 4. adult", ["shadow", "pistol", "acid", "adult"]),
            (["shadow"], "pistol acid", ["shadow", "pistol", "acid"]),
            (["shadow"], "1. shadow 2. pistol", ["shadow", "pistol"]),
        ]:
            self.assertEqual(placed(marks, parts_of(text)), (wanted, []))
        for marks, text, number, words, rest in [
            ([], "1. shadow 1. acid", 1, ("shadow", "acid"), []),
            ([], "1. shadow 1. acid 1. adult 2. pistol", 1, ("shadow", "acid", "adult"), ["", "pistol"]),
            (["shadow", "", "acid"], "pistol adult", 3, ("acid", "adult"), ["shadow", "pistol"]),
            ([], "0. acid", 0, ("acid",), []),
            ([], "7. pistol 111. acid", 111, ("acid",), [*[""] * 6, "pistol"]),
        ]:
            self.assertEqual(placed(marks, parts_of(text)), (rest, [Misplaced(number, words)]))
        self.assertEqual([it.number for it in placed([], parts_of("111. acid adult"))[1]], [111, 112])
        self.assertEqual(said_empty(["a", "", "", "", "b", "", "c", "", ""]), "2 to 4, 6, 8, 9")

    def test_nearest(self):
        self.assertEqual(nearest("emrald")[0], "emerald")
        self.assertIn("shadow", nearest("shadw"))
        self.assertEqual(nearest("?"), [])


class PlanTests(unittest.TestCase):
    def test_texts(self):
        for text in ["2of3", "1of1", "2/2of3,1of1,1of1", "1/2of2,3of4", "16/" + ",".join(["1of1"] * 16)]:
            shamir.random_needed(text, 16)
            self.assertEqual(plan_of(text).text, text)
        self.assertEqual(plan_of("1/2of3").text, "2of3")
        for typed in ("2 of 3", "2-of-3", "2OF3", " 2 - of - 3 "):
            self.assertEqual(plain_plan(typed), "2of3")
        self.assertEqual(plain_plan("2/2of3, 1-of-1"), "2/2of3,1of1")
        self.assertEqual(plan_of("2/2of3,1of1").names, ["0.0", "0.1", "0.2", "1.0"])

    def test_sentences(self):
        self.assertEqual(said_plan(plan_of("2of3")), "Any 2 of the 3 papers recover the secret.")
        self.assertIn("group 0 needs any 3 of its 5 papers; group 1 needs its only paper.", said_plan(plan_of("2/3of5,1of1")))
        self.assertEqual(said_takes(plan_of("2/3of5,1of1"), "1.0"), "This paper alone completes group 1. The secret needs 2 groups.")

    def test_risks(self):
        for plan, wanted in [
            ("2of3", ""),
            ("2/2of3,2of3", ""),
            ("1/2of3,2of2", ""),
            ("2of2", "If one of these papers is lost, the secret is lost."),
            ("1of1", "If paper 0.0 is lost, the secret is lost. Whoever finds paper 0.0 needs no other paper."),
            ("2/3of5,1of1", "If paper 1.0 is lost, the secret is lost. In group 1, one paper is enough: whoever finds it has the whole group."),
            ("2/2of3,1of1,1of1", "In each of the groups 1, 2, one paper is enough: whoever finds it has the whole group."),
            ("2/2of2,2of3", "If one paper of group 0 is lost, the secret is lost."),
            ("1/1of1,1of1,2of3", "Whoever finds one of the papers 0.0, 1.0 needs no other paper."),
            ("3/1of1,1of1,2of2", "If one of the papers 0.0, 1.0 is lost, the secret is lost. If one paper of group 2 is lost, the secret is lost. In each of the groups 0, 1, one paper is enough: whoever finds it has the whole group."),
        ]:
            with self.subTest(plan=plan):
                self.assertEqual(f"{said_dangers(plan_of(plan))} {said_singles(plan_of(plan))}".strip(), wanted)


def outcome(names, fingerprint):
    return Tried(tuple(names.split("+")), fingerprint, None if fingerprint else 0)


class VerdictTests(unittest.TestCase):
    def test_quorums(self):
        status = shamir.status(FIVE)
        self.assertEqual(quorum_with(status, "2.0"), ("0.0", "0.1", "2.0"))
        self.assertEqual(quorum_with(status, "0.2"), ("0.0", "0.2", "1.0"))
        self.assertIsNone(quorum_with(shamir.status(FIVE[:1]), "0.0"))

    def test_most(self):
        self.assertEqual(said_total(2**64 - 1), say("number.least", number="18,446,744,073,709,551,615"))
        self.assertEqual(said_total(2**64 - 2), "18,446,744,073,709,551,614")

    def test_all_right(self):
        tried = [outcome("0.0+0.1", "01234567"), outcome("0.0+0.2", "01234567"), outcome("0.1+0.2", "01234567")]
        verdict = verdict_of(tried, 3, "01234567", False, False)
        self.assertEqual((verdict.result, verdict.sentences), ("good", [say("verdict.all.noted", quorums="3 quorums", fingerprint="01234567")]))
        self.assertEqual(verdict_of(tried, 3, "", False, False).result, "good")
        part = verdict_of(tried, 4, "01234567", False, True)
        self.assertEqual(part.result, "stopped")
        self.assertNotIn("Every", " ".join(part.sentences))

    def test_one_wrong_quorum_is_never_all(self):
        for wrong in [None, "89abcdef"]:
            tried = [outcome("0.0+0.1", "01234567"), outcome("0.0+0.2", wrong), outcome("0.1+0.2", wrong)]
            verdict = verdict_of(tried, 3, "01234567", False, False)
            self.assertEqual(verdict.result, "some")
            self.assertIn(say("verdict.suspects.one", names="0.2"), verdict.sentences)
            self.assertNotIn("Every", " ".join(verdict.sentences))
        self.assertEqual(verdict_of(tried, 3, "", False, False).result, "several")

    def test_expected(self):
        def verdict(*outcomes):
            tried = [Tried((f"0.{at}",), None, None if expected is not None else 0, expected) for at, expected in enumerate(outcomes)]
            return verdict_of(tried, len(tried), "01234567", False, False)

        self.assertEqual(verdict(True, True).sentences, [say("verdict.all.noted", quorums="2 quorums", fingerprint="01234567")])
        for outcomes, result, key in [((False, False), "other", "verdict.other"), ((False, None), "none", "verdict.none"), ((None, None), "some", "verdict.nothing")]:
            found = verdict(*outcomes)
            self.assertEqual((found.result, found.sentences), (result, [say(key, quorums="2 quorums", noted="01234567")]))
            self.assertEqual(found.right, ())
        untyped = verdict_of([Tried(("0.0",), None, None, False)], 1, "01234567", False, False, has_passphrase=False)
        self.assertEqual((untyped.sentences, untyped.names), ([say("verdict.other.none", quorums="1 quorum", noted="01234567")], ("0.0",)))
        for outcomes in [(True, False), (True, None), (False, True)]:
            self.assertEqual(verdict(*outcomes).result, "some")
            self.assertEqual(verdict(*outcomes).right, (f"0.{outcomes.index(True)}",))
            self.assertNotIn("Every", " ".join(verdict(*outcomes).sentences))

    def test_suspects(self):
        right, wrong = [outcome("0.0+0.1", "a")], [outcome("0.0+0.2", "b"), outcome("0.1+0.2", "b")]
        self.assertEqual(suspects(right, wrong), ["0.2"])
        self.assertEqual(suspects(right, []), [])


class TrialTests(unittest.TestCase):
    def outcomes(self, lines, expect, is_slow, is_whole=True):
        trial = Trial({paper_of(line).name: line for line in lines}, bytearray(b"TREZOR"), expect)
        trial.run(is_whole, is_slow)
        return trial.outcomes

    def test_as_the_library_lists_them(self):
        """Quorum by quorum, each gives what a drill of the library gives, in its order."""
        plans = ["2of3", "3of5", "1of1", "2/3of5,1of1", "3/2of3,2of3,1of1,2of2", "1/1of1,2of3", "2/2of4,3of4,1of1"]
        made = [shamir.create(plan, bytes(16), exponent=0) for plan in plans]
        for lines in [FIVE, TWO, MISMATCHED, MISMATCHED_GROUPS, FIVE[1:], *made, *(lines[1:] for lines in made if len(lines) > 3)]:
            for expect in ("", "df41d8fe"):
                listed = shamir.drill(lines, passphrase="TREZOR", fingerprints=not expect, expect=expect or None)
                wanted = [Tried(tuple(it.names.split("+")), it.fingerprint, it.mismatch, it.expected) for it in listed]
                self.assertEqual(len(wanted), shamir.quorums(lines))
                for is_slow in (False, True):
                    self.assertEqual(self.outcomes(lines, expect, is_slow), wanted)

    def test_each_secret_is_decrypted_once(self):
        with unittest.mock.patch.object(shamir, "decrypt_rounds", side_effect=shamir.decrypt_rounds) as decrypted:
            self.assertEqual(len(self.outcomes(FIVE, "df41d8fe", True)), 7)
        decrypted.assert_called_once()

    def test_too_many(self):
        """Of too many quorums, the first ones are tried, and one with each paper. Both ways try the same."""
        lines = shamir.create("16/" + ",".join(["2of3"] * 16), bytes(16), exponent=0)
        with unittest.mock.patch("shamir.papers.trial.TRIED_FIRST", 30):
            both = [self.outcomes(lines, "", is_slow, False) for is_slow in (False, True)]
        self.assertEqual(both[0], both[1])
        self.assertEqual({name for it in both[0] for name in it.names}, {paper_of(line).name for line in lines})

    def test_stopped(self):
        """A trial that is stopped keeps what was tried, and ends after the round that goes on."""
        trial = Trial({paper_of(line).name: line for line in FIVE}, bytearray(), "")
        trial.stop()
        trial.run(True, True)
        self.assertEqual((trial.outcomes, trial.rounds), ([], 0))


class SafetyTests(unittest.TestCase):
    def test_a_new_start_takes_ctrl_c_later(self):
        """While the program starts anew, Ctrl-C waits, as Python would answer it with a traceback."""
        with unittest.mock.patch.dict(os.environ), unittest.mock.patch.object(os, "execve") as started:
            os.environ.pop(next(iter(safety.OVERWRITING)), None)
            safety.start_overwriting()
            self.assertIn(signal.SIGINT, signal.pthread_sigmask(signal.SIG_UNBLOCK, [signal.SIGINT]))
        started.assert_called_once()


class TextTests(unittest.TestCase):
    def keys(self):
        """Returns the keys that the sources name, where a value in braces stands for any part."""
        for path in SOURCES.glob("*.py"):
            text = path.read_text()
            for _, key in re.findall(r"""say\(\s*f?(["'])([a-z].*?)\1""", text):
                yield re.compile(re.sub(r"\\\{.*?\\\}", ".+", re.escape(key)))
            for noun in re.findall(r'counted\(.*?"([a-z]+)"\)', text):
                yield re.compile(rf"{noun}\.(one|many)")

    def test_each_key_is_there(self):
        for key in self.keys():
            self.assertTrue(any(key.fullmatch(it) for it in TABLE), key.pattern)

    def test_sentences_speak_of_no_page(self):
        found = {it for key in self.keys() for it in TABLE if key.fullmatch(it)} | {it for it in TABLE if "refused" in it}
        for key in found:
            self.assertIsNone(OF_A_PAGE.search(TABLE[key]), f"{key}: {TABLE[key]}")

    def test_each_own_sentence_is_used(self):
        keys, named = list(self.keys()), "".join(path.read_text() for path in SOURCES.glob("*.py"))
        for key in OWN:
            is_page = key in _page()
            self.assertTrue(is_page or any(it.fullmatch(key) for it in keys) or named.count(f'"{key}"') > 1, key)

    def test_tasks_are_named_as_the_menu_names_them(self):
        self.assertEqual([key for key, text in TABLE.items() if "'shamir-papers " in text], [])
        self.assertIn("'Read a damaged paper' (repair)", say("replace.destroyed.hint"))
        for task, key in TASKS.items():
            self.assertEqual(re.findall(rf"'{say(key)}'(?! \({task}\))", " ".join(TABLE.values())), [])

    def test_questions_are_english(self):
        self.assertEqual([key for key, text in TABLE.items() if re.search(r"How many \w+ has\b", text)], [])

    def test_numbers_are_digits(self):
        spelt = re.compile(r"\b(two|three|four|five|six|seven|eight|nine|ten|twelve|twenty)\b", re.IGNORECASE)
        self.assertEqual([key for key, text in TABLE.items() if spelt.search(text)], [])

    def test_sentences_are_ascii(self):
        for key in OWN:
            self.assertTrue(TABLE[key].isascii(), key)

    def test_own_sentences_differ_from_those_of_the_page(self):
        same = [key for key, text in _page().items() if OWN.get(key) == text]
        self.assertEqual(same, [])


if __name__ == "__main__":
    unittest.main()
