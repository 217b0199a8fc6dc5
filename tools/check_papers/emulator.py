"""A small terminal: what a program's output shows on the main screen, above it, and on the alternate screen."""
import re

MORE = "(Enter: more)"
SEQUENCE = re.compile(r"\x1b\[(\??)([0-9;]*)([A-Za-z])")


class Screen:
    """Rows of signs, with a cursor. `above` are the rows that left it at its top."""

    def __init__(self, columns, rows):
        self.columns, self.count = columns, rows
        self.above = []
        self.clear()

    def clear(self):
        self.rows = [[" "] * self.columns for _ in range(self.count)]
        self.x = self.y = 0
        self.is_full = False

    def put(self, sign):
        if self.is_full:
            self.x, self.is_full = 0, False
            self.down()
        self.rows[self.y][self.x] = sign
        if self.x + 1 == self.columns:
            self.is_full = True
        else:
            self.x += 1

    def down(self):
        if self.y + 1 < self.count:
            self.y += 1
        else:
            self.above.append("".join(self.rows.pop(0)).rstrip())
            self.rows.append([" "] * self.columns)

    def erase_above(self):
        for row in self.rows[: self.y]:
            row[:] = [" "] * self.columns
        self.rows[self.y][: self.x + 1] = [" "] * (self.x + 1)

    def erase_below(self):
        self.rows[self.y][self.x :] = [" "] * (self.columns - self.x)
        for row in self.rows[self.y + 1 :]:
            row[:] = [" "] * self.columns

    def text(self):
        return "\n".join("".join(row).rstrip() for row in self.rows)

    def before_cursor(self):
        """Returns what stands before the cursor, row by row."""
        whole = ["".join(row).rstrip() for row in self.rows[: self.y]]
        end = self.columns if self.is_full else self.x
        return [*whole, "".join(self.rows[self.y][:end])]


class Emulator:
    """The terminal. `colours` counts the sequences that set a colour or a weight, and `sequences` all. `has_other` says whether it has an
    alternate screen. If not, what is cleared goes to the scrollback. If it is None, the terminal also tells nothing of itself. `clears_kept` says
    whether it can clear its scrollback. `answers` is what it sends."""

    def __init__(self, columns, rows, has_other=True, clears_kept=True):
        self.has_other, self.clears_kept, self.answers = has_other, clears_kept, b""
        self.main, self.other = Screen(columns, rows), Screen(columns, rows)
        self.shown = self.main
        self.colours = self.sequences = 0
        self._rest = ""
        # All that the alternate screen showed, for tests that look for a sentence.
        self.seen = []

    def resize(self, columns, rows):
        """Takes another size. What a program doesn't write again is gone."""
        is_other = self.shown is self.other
        self._keep()
        self.main, self.other = Screen(columns, rows), Screen(columns, rows)
        self.shown = self.other if is_other else self.main

    def feed(self, data):
        text = self._rest + data.decode("ascii")
        self._rest = ""
        at = 0
        while at < len(text):
            if text[at] == "\x1b":
                found = SEQUENCE.match(text, at)
                if found is None:
                    self._rest = text[at:]
                    return
                self._control(*found.groups())
                at = found.end()
            else:
                self._sign(text[at])
                at += 1

    def _sign(self, sign):
        screen = self.shown
        if sign == "\r":
            screen.x, screen.is_full = 0, False
        elif sign == "\n":
            screen.is_full = False
            screen.down()
        elif sign == "\b":
            screen.x, screen.is_full = max(0, screen.x - 1), False
        elif sign >= " ":
            screen.put(sign)

    def _control(self, private, numbers, letter):
        self.sequences += 1
        screen = self.shown
        if private and numbers == "1049" and not self.has_other:
            pass
        elif private and numbers == "1049":
            self._keep()
            if letter == "h":
                self.other.clear()
            self.shown = self.other if letter == "h" else self.main
        elif letter == "H":
            row, column = map(int, (numbers or "1;1").split(";"))
            screen.y, screen.x = min(row, screen.count) - 1, min(column, screen.columns) - 1
            screen.is_full = False
        elif letter == "n" and numbers == "6":
            self.answers += b"" if self.has_other is None else f"\x1b[{screen.y + 1};{screen.x + 1}R".encode()
        elif letter == "J":
            if numbers == "2":
                self._keep()
                at = screen.x, screen.y
                if not self.has_other:
                    screen.above += screen.text().split("\n")
                screen.clear()
                screen.x, screen.y = at
            elif numbers == "1":
                self._keep()
                screen.erase_above()
            elif numbers == "3" and self.clears_kept:
                screen.above.clear()
            elif numbers in ("", "0"):
                screen.erase_below()
        elif letter == "A":
            screen.y = max(0, screen.y - int(numbers or 1))
            screen.is_full = False
        elif letter == "m":
            self.colours += numbers not in ("", "0")
        else:
            raise AssertionError(f"the program sends the unknown sequence {private}{numbers}{letter}")

    def _keep(self):
        if self.shown is self.other:
            self.seen += [*self.other.above, *self.other.text().split("\n")]
            self.other.above = []
        elif not self.has_other:
            self.seen += [*self.main.above, *self.main.text().split("\n")]

    def kept(self):
        """Returns what the terminal keeps when the program is gone: the rows of the main screen, and those above it."""
        return "\n".join([*self.main.above, self.main.text()])

    def all_seen(self):
        """Returns all that was shown so far, with single spaces, and without the questions whether to go on with what is shown."""
        rows = [row for row in [*self.seen, *self.shown.above, *self.shown.text().split("\n")] if row != MORE]
        return " ".join(" ".join(rows).split())
