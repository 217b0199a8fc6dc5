"""Tests that `shamir.papers` never fails, whatever is typed: generated owners answer its questions, and often wrongly."""
import pathlib
import random
import re
import signal
import sys
import unittest

sys.path.insert(0, str(pathlib.Path(__file__).resolve().parent.parent))
sys.path.insert(0, str(pathlib.Path(__file__).resolve().parent))

from test_shamir import FIVE, ONE, TWO  # noqa: E402

if sys.version_info < (3, 10):
    raise unittest.SkipTest("shamir.papers needs Python 3.10")

import shamir  # noqa: E402
from shamir.papers.__main__ import RUN, run  # noqa: E402
from shamir.papers.desk import Desk  # noqa: E402
from shamir.papers.screen import Screen  # noqa: E402
from shamir.papers.terminal import Ended, Resized  # noqa: E402
from test_papers_keys import KeysAside  # noqa: E402

SESSIONS = 200
# In each session of so many, the owner has papers of several backups.
MIXED = 8
WORDS = shamir.words("")
PLANS = [("2of3", False), ("2of3", True), ("3of5", True), ("1/1of1,2of3", False)]
BACKUPS = [[ONE], TWO, FIVE, *(shamir.create(plan, bytes(16), extendable=flag, random=bytes(shamir.random_needed(plan, 16))) for plan, flag in PLANS)]
# What is no paper, and what answers no question well.
NO_PAPERS = ["0 acid", "111 acid", "1 acid 1 acne", "-", "-0.0", "?", *(" ".join(map(str, range(1, count + 1))) for count in (20, 21))]
SLIPS = [*NO_PAPERS, "b", "7 ?", "7", "y", "e", "p", "c", "1", "16", "0.1", "\x04", "\x1b[A", "\t", "é", "x" * 2001]
# The ends of questions, and answers.
ANSWERS = [
    (r"\(y/n", ["y", "y", "y", "n"]),
    (r"1, 2 or 3 \(b: back\):", ["1", "2", "3", ""]),
    (r"u: use this plan", ["u", "u", "u", "b"]),
    (r"1 or 2 \(b", ["1", "1", "2"]),
    (r"or a plan \(b", ["1", "2of2", "1of1", "2/2of2,1of1", "3of2"]),
    (r"\(Enter alone: 1\)", ["", "1", "2", "3", "m"]),
    (r"fingerprint that you noted", ["", "df41d8fe", "zz"]),
    (r"(Passphrase|same again) ?", ["", "", "TREZOR", "b", " x"]),
    (r"The (same )?digits", ["00" * 16, "11" * 16, "1"]),
    (r"1 to 16; b", ["0", "1", "2", "3", "5", "16"]),
    (r"The missing paper, such as", ["0.0", "0.1", "0.2", "1.0", "2", "d", "b"]),
    (r"d: try the papers together\. b", ["d", "b"]),
    (r"The number of a backup \(b", ["1", "1", "2", "3", "b"]),
    (r"is to be taken out \(0", ["0", "1", "2"]),
    (r"c: change the plan now", ["c", "c", "e", "b"]),
    (r"(Word \d+|Number and word|are missing)", ["?", "acid", "7 acid", "-", "", "", "12"]),
    (r"", ["", "", "e", "p", "t", "c", "w", "1", "check", "replace", "change"]),
]


class Guessed(KeysAside):
    """A terminal at which an owner answers up to so many questions, and then closes it. The owner knows the papers of one backup, or of a
    few, and those that were shown."""

    def __init__(self, chance, count):
        super().__init__([])
        self.chance, self.count, self.is_careful = chance, count, chance.random() < 0.7
        self.papers, self.written, self.noted = [*chance.choice(BACKUPS)], {}, ""
        self.passphrase = ""
        self.columns = chance.choice([20, 40, 80])

    @property
    def size(self):
        return type("Size", (), {"columns": self.columns, "lines": 24})

    def mix(self):
        """Gives the owner papers of a few backups, in no order."""
        self.papers = [line for lines in self.chance.sample(BACKUPS, 3) for line in lines]
        self.chance.shuffle(self.papers)

    def clear(self):
        self.shown = ""

    def drop_typed(self):
        is_more, self.keys = bool(bytes(self.keys).strip()), []
        return is_more

    def pasted(self, into, most):
        into += bytes(self.keys)
        self.keys = []
        return False

    def put_back(self, typed):
        self.keys = [*typed, *self.keys]

    def heed_interrupt(self):
        pass

    def key(self):
        if not self.keys:
            self.count -= 1
            if self.count < 0:
                raise Ended(signal.SIGHUP)
            if self.tells_size and self.chance.random() < 0.1:
                raise Resized
            self.keys = list((self.answer(" ".join(self.shown.split())) + "\n").encode())
        return self.keys.pop(0)

    def answer(self, shown):
        if self.chance.random() < (0.02 if self.is_careful else 0.1):
            return self.chance.choice(SLIPS)
        name = re.findall(r"[Pp]aper (\d+\.\d+)", shown)
        if "I have written it" in shown[-80:] and name:
            words = {int(number): word for number, word in re.findall(r"(\d+)\. ([a-z]+)", shown)}
            self.written[name[-1]] = " ".join(words[number] for number in sorted(words))
            return ""
        if "I have noted it" in shown[-80:]:
            self.noted = re.findall(r"fingerprint: ([0-9a-f]{8})", shown)[-1]
            return ""
        if re.search(r"fingerprint that you noted .{1,24}show it again", shown[-160:]):
            return self.chance.choice([self.noted, self.noted, "df41d8fe", ""])
        if "same again" in shown[-40:] or ("Type what you noted" in shown and "Passphrase (" in shown[-80:]):
            return self.passphrase
        if "Make a backup: the passphrase" in shown and "Passphrase (" in shown[-80:]:
            self.passphrase = self.chance.choice(["", "TREZOR"])
            return self.passphrase
        if re.search(r"(Paper \S+|damaged paper) \(", shown[-100:]) and self.chance.random() < 0.1:
            return self.chance.choice(NO_PAPERS)
        if re.search(r"Paper \S+ \(Enter alone: show", shown[-100:]):
            return self.slipped(self.written.get(name[-1], ONE))
        if re.search(r"(Paper \d+|damaged paper) \(", shown[-100:]):
            return self.slipped(self.papers[0]) if self.chance.random() < 0.65 else ""
        return self.chance.choice(next(answers for ask, answers in ANSWERS if re.search(ask, shown[-160:])))

    def slipped(self, line):
        """Returns a paper as it is typed. The next one is another."""
        self.papers = [*self.papers[1:], *self.papers[:1]]
        words = line.split()
        for _ in range(0 if self.chance.random() < 0.6 else self.chance.randint(1, 4)):
            at = self.chance.randrange(len(words))
            words[at : at + 1] = self.chance.choice([["?"], [words[at][:2] + "?"], [self.chance.choice(WORDS)], ["xyzt"], ["em"], [], [words[at], "acid"]])
            words = words or ["acid"]
        numbered = [f"{number}. {word}" for number, word in enumerate(words, 1)] if self.chance.random() < 0.3 else words
        return self.chance.choice([" ", " ", " ", "\n"]).join(numbered)[: self.chance.choice([None, None, None, 60])]


class GeneratedTests(unittest.TestCase):
    def test_no_answer_lets_the_program_fail(self):
        written = set()
        for number in range(SESSIONS):
            chance = random.Random(number)
            desk, terminal = Desk(), Guessed(chance, chance.choice([10, 30, 100]))
            if number % MIXED == 0:
                terminal.mix()
            with self.subTest(session=number):
                try:
                    run(Screen(terminal), desk, chance.choice([None, "new", "replace", "change", *RUN]), None)
                except Ended:
                    pass
            written.add(desk.written)
        # Papers were written in each task that writes some.
        self.assertLessEqual({"made", "replaced", "changing", "repaired"}, written)


if __name__ == "__main__":
    unittest.main()
