"""Screens of 40 columns, terminals that know no control sequences, and colours."""
import os
import random
import re

from emulator import Emulator
from hands import SEED, Failed, habits, say
from tasks import TASKS, check_new

from shamir.papers.line import Line


def gone_through(look, **how):
    """Goes through all tasks with such terminals, and looks at each session."""
    earlier = getattr(habits, "how", {})
    habits.how = {**earlier, **how}
    try:
        papers, noted = check_new(None)
        look(habits.ended)
        for task in TASKS:
            task(papers, noted)
            look(habits.ended)
    finally:
        habits.how = earlier


def check_width(session):
    """Checks that no row that the program shows by itself is wider than the screen."""
    columns = session.emulator.main.columns
    rows = re.sub(r"\x1b\[[?0-9;]*[A-Za-z]", "", session.raw.decode()).replace("\r\n", "\n").split("\n")
    # Behind the last row of a question stands what was typed.
    asked = {row for prompt in session.asked for row in [prompt.split()[-1]]}
    wide = [row for row in rows if len(row.split("\r")[-1]) > columns and not any(f"{it} " in row for it in asked)]
    if wide:
        raise Failed(f"rows are wider than {columns} columns: {wide[:3]}")


def check_plain(session):
    if session.emulator.sequences:
        raise Failed("a plain terminal gets control sequences")
    session_shows(session, say("safety.plain", kind="dumb"))


def session_shows(session, text):
    if " ".join(text.split()) not in " ".join(session.raw.decode().split()):
        raise Failed(f"this wasn't shown: {text}")


def check_colourless(session):
    if session.emulator.colours:
        raise Failed("with NO_COLOR, colours are set")


def check_coloured(session):
    if not session.emulator.colours:
        raise Failed("without NO_COLOR, no colour is set, so the check of NO_COLOR sees nothing")


class Typed:
    """A terminal of the small kind, whose keys are known."""

    is_plain = False

    def __init__(self, columns, keys):
        self.emulator, self.keys, self.size = Emulator(columns, 24), list(keys), os.terminal_size((columns, 24))
        self.written = []

    def key(self):
        return self.keys.pop(0)

    def is_typed(self, seconds):
        return bool(self.keys)

    @property
    def place(self):
        return len(self.written)

    def write(self, text):
        self.written.append(text)
        feed(self.emulator, text)

    def write_over(self, place, moves, text):
        self.written[place:] = [text]
        feed(self.emulator, moves + text)


def feed(emulator, text):
    emulator.feed(text.replace("\n", "\r\n").encode())


def check_lines():
    """Types letters and takes some back, over the ends of rows: the screen shows what is left, and nothing else, also at another size."""
    chance = random.Random(SEED)
    for _ in range(1000):
        columns = chance.choice([20, 21, 40])
        keys = b"".join(chance.choice([b"a", b"b", b"\x7f", b"\x7f", b" ", b"word", b"\x17", b"\x15", b"abcdefghijkl", b"\x1b[D"]) for _ in range(chance.randrange(60)))
        terminal = Typed(columns, keys + b"\n")
        whole = "Paper 1: " + Line(terminal, "Paper 1: ").read().decode()
        again = Emulator(100, 24)
        feed(again, "".join(terminal.written))
        for emulator, width in [(terminal.emulator, columns), (again, 100)]:
            rows = [whole[at : at + width].rstrip() for at in range(0, len(whole), width)]
            if emulator.shown.text().rstrip().split("\n") != "\n".join(rows).rstrip().split("\n"):
                raise Failed(f"after {keys} on {columns} columns, {width} columns show {emulator.shown.text().rstrip()!r}")


def check(see):
    check_lines()
    gone_through(check_width, columns=40, rows=24)
    gone_through(check_width, columns=40, rows=16)
    gone_through(check_plain, TERM="dumb")
    gone_through(check_colourless, NO_COLOR="1")
    gone_through(check_coloured, columns=132, rows=50)
    return []
