"""Tests the line editor and the questions of `shamir.papers` with a terminal whose keys are known."""
import contextlib
import pathlib
import sys
import unittest

sys.path.insert(0, str(pathlib.Path(__file__).resolve().parent.parent))

if sys.version_info < (3, 10):
    raise unittest.SkipTest("shamir.papers needs Python 3.10")

import shamir  # noqa: E402
from shamir.papers.line import Line, first_key  # noqa: E402
from shamir.papers.screen import Screen  # noqa: E402
from shamir.papers.terminal import Ended  # noqa: E402

WORDS = shamir.words("")


class Keys:
    """A terminal whose keys are known."""

    def __init__(self, keys, is_plain=False):
        self.keys, self.is_plain, self.shown, self.place = list(keys), is_plain, "", 0

    def key(self):
        return self.keys.pop(0)

    def is_typed(self, seconds):
        return bool(self.keys)

    def put_back(self, typed):
        self.keys[:0] = typed

    def write(self, text):
        self.shown += text

    def write_over(self, place, moves, text):
        self.shown += moves + text

    @property
    def size(self):
        return type("Size", (), {"columns": 40, "lines": 24})


class LineTests(unittest.TestCase):
    def typed(self, keys, complete=None, **how):
        terminal = Keys(keys)
        return Line(terminal, "? ", complete, **how).read().decode(), terminal

    def complete(self, letters):
        return [word for word in WORDS if word.startswith(letters)]

    def test_keys(self):
        for keys, wanted in [
            (b"acid\n", "acid"),
            (b"acix\x7fd\r", "acid"),
            (b"x\x08acid\n", "acid"),
            (b"wrong\x15acid\n", "acid"),
            (b"acid bad\x17adult\n", "acid adult"),
            (b"ac\x1b[Did\n", "acid"),
            (b"ac\x1bOCid\x1b[3~\n", "acid"),
            (b"ac\x1b[<35;10;10Mid\x1b]11;rgb:0/0/0\x07\n", "acid"),
            (b"ac\x1b[\n", "ac"),
            (b"\x1b\x1bOacid\n", "cid"),
            (b"a\x04cid\n", "acid"),
            ("aé\x7fcid\n".encode(), "acid"),
            (b"\x7f\x15\x17acid\n", "acid"),
        ]:
            with self.subTest(keys=keys):
                self.assertEqual(self.typed(keys)[0], wanted)

    def test_completion(self):
        for keys, wanted in [
            (b"shad pist\n", "shadow pistol"),
            (b"SHAD,pist \n", "SHADow,pistol "),
            (b"shad\tpis\t\n", "shadow pistol "),
            (b"aci\t\n", "acid "),
            (b"em? emer\n", "em? emerald"),
            (b"alwys acid\n", "alwys acid"),
        ]:
            with self.subTest(keys=keys):
                self.assertEqual(self.typed(keys, self.complete)[0], wanted)

    def test_several_are_shown(self):
        typed, terminal = self.typed(b"aca\x7f\x7f\tquired\n", self.complete)
        self.assertIn("academic", terminal.shown)
        self.assertTrue(typed.startswith("a"))

    def test_hidden(self):
        typed, terminal = self.typed(b"secret\x7ft\x15TREZOR\n", is_hidden=True)
        self.assertEqual((typed, terminal.shown), ("TREZOR", "? \n"))
        # A tab of a paste isn't lost, so the library can refuse it.
        self.assertEqual(self.typed(b"a\tbc\x7f\n", is_hidden=True)[0], "a\tb")

    def test_too_long(self):
        """A line that is cut says so until it is emptied."""
        for keys, is_cut in [(b"x" * 2000, False), (b"x" * 2001, True), (b"x" * 2001 + b"\x7f", True), (b"x" * 2001 + b"\x15y", False)]:
            line = Line(Keys(keys + b"\n"), "? ", is_hidden=True)
            self.assertEqual((len(line.read()) <= 2000, line.is_cut), (True, is_cut))

    def test_begun(self):
        self.assertEqual(self.typed(b"id\n", begun=b"ac")[0], "acid")
        typed, terminal = self.typed(b"\x7fx\n", begun=b"a", is_hidden=True)
        self.assertEqual((typed, terminal.shown), ("x", "? \n"))
        self.assertEqual(self.typed(b"\n", begun=b"2")[1].shown, "? 2\n")

    def test_first_key(self):
        for keys, wanted, rest in [(b"\n2", b"", b"2"), (b"2\n", b"2", b"\n"), (b"\x1b[A\tx", b"x", b""), (b"\x7f\r", b"", b"")]:
            terminal = Keys(keys)
            self.assertEqual((first_key(terminal), bytes(terminal.keys)), (wanted, rest))
        with self.assertRaises(Ended):
            first_key(Keys(b"\x04"))

    def test_end(self):
        with self.assertRaises(Ended):
            self.typed(b"\x04")
        with self.assertRaises(Ended):
            self.typed(b"ac\x15\x04")


class KeysAside(Keys):
    """A terminal that notes whether Ctrl-C was held back when it showed again what was there before a question."""

    is_held = tells_size = was_held = False

    def drop_typed(self):
        return False

    @contextlib.contextmanager
    def aside(self):
        yield
        self.was_held = self.is_held


class Bunches(KeysAside):
    """A terminal whose keys come in bunches, and that drops what is left of one."""

    def __init__(self, *bunches):
        super().__init__(b"")
        self.bunches = list(bunches)

    def key(self):
        self.keys = self.keys or list(self.bunches.pop(0))
        return super().key()

    def drop_typed(self):
        dropped, self.keys = self.keys, []
        return bool(dropped)


class ScreenTests(unittest.TestCase):
    def test_who_stays_is_asked_again(self):
        terminal = KeysAside(b"\x04n\nacid\n")
        screen = Screen(terminal)
        screen.hold("Two papers would be lost.")
        self.assertEqual(screen.ask("Word 1?"), "acid")
        self.assertIn("Two papers would be lost.", terminal.shown)
        self.assertTrue(terminal.was_held)

    def test_what_is_dropped_begins_no_answer(self):
        # After 22 rows, the screen waits for a key. It drops what comes with that key if it has to wait once more.
        for rows, bunches in [(50, [b"TREZOR\n", b"\n", b"TREZOR\n"]), (30, [b"T", b"REZOR\n"])]:
            screen = Screen(Bunches(*bunches))
            screen.rows(["row"] * rows)
            self.assertEqual(screen.ask_hidden("Passphrase?"), b"TREZOR")

    def test_too_long_a_line_is_not_taken(self):
        terminal = KeysAside(b"x" * 2001 + b"\nTREZOR\n")
        self.assertEqual(Screen(terminal).ask_hidden("Passphrase?"), b"TREZOR")
        self.assertIn("More was typed than a line", terminal.shown)
        self.assertEqual(terminal.shown.count("Passphrase? "), 2)


if __name__ == "__main__":
    unittest.main()
