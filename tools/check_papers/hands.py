"""A person at a terminal: starts shamir-papers there, reads the screen, and types."""
import fcntl
import os
import pathlib
import pty
import random
import re
import select
import struct
import subprocess
import sys
import termios
import threading
import time

from emulator import Emulator

ROOT = pathlib.Path(__file__).resolve().parent.parent.parent
BINDING = ROOT / "bindings" / "python"
sys.path[:0] = [str(BINDING), str(ROOT / "tools")]
from shamir.papers.texts import TABLE, counted, say  # noqa: E402, F401
from tool import Failed  # noqa: E402

PROGRAM = [sys.executable, "-m", "shamir.papers"]
# An answer may take this many seconds.
PATIENCE = 30
# The random cases come from this number, so that a part that is tried again has the same ones.
SEED = random.SystemRandom().randrange(1 << 32)
MORE = say("screen.more") + " "
END = f"{say('end.ask')} (y/n)"
# What the program says of the papers if it ends before the task does.
ENDS = ["ended", *(f"ended.{it}" for it in ("unfinished", "changing", "changed", "made", "replaced", "repaired"))]


class Interrupted(Exception):
    """What a check does at one of the questions has ended the program."""


# What each session of this thread does: `at_question` is called with the session and each question that it waits for, and `how`
# has further arguments of sessions.
habits = threading.local()


def environment(**more):
    """Returns the environment of a session: this binding, or a copy, and nothing that says more of the machine than is so."""
    gone = {"SSH_CONNECTION", "SSH_TTY", "STY", "NO_COLOR", "PYTHONMALLOC", "GLIBC_TUNABLES", "SHAMIR_LIBRARY"}
    kept = {name: value for name, value in os.environ.items() if name not in gone}
    return {**kept, "PYTHONPATH": str(getattr(habits, "how", {}).get("package", BINDING)), "PYTHONDONTWRITEBYTECODE": "1", "TERM": "xterm", **more}


class Session:
    """A run of shamir-papers in a terminal of its own."""

    def __init__(self, *words, **how):
        self._start(*words, **{**getattr(habits, "how", {}), **how})

    def _start(self, *words, columns=80, rows=24, before=(), command=None, package=None, has_other=True, clears_kept=True, **more):
        self.ours, self.theirs = pty.openpty()
        fcntl.ioctl(self.theirs, termios.TIOCSWINSZ, struct.pack("HHHH", rows, columns, 0, 0))
        self.modes = termios.tcgetattr(self.theirs)
        self.emulator = Emulator(columns, rows, has_other, clears_kept)
        self.width = max(20, min(76, columns - 1))
        given = environment(**more)
        self.is_plain = given["TERM"] == "dumb"
        self.run = subprocess.Popen(command or [*before, *PROGRAM, *words], stdin=self.theirs, stdout=self.theirs, stderr=self.theirs, env=given, preexec_fn=self._own)
        self.raw = b""
        self.asked = []
        # Whether the program asked before it ended.
        self.was_asked = False

    def _own(self):
        """Makes the terminal the one that controls the new process."""
        os.setsid()
        fcntl.ioctl(self.theirs, termios.TIOCSCTTY, 0)

    def __enter__(self):
        return self

    def __exit__(self, *_):
        if self.run.poll() is None:
            self.run.kill()
            self.run.wait()
        for descriptor in (self.ours, self.theirs):
            try:
                os.close(descriptor)
            except OSError:
                pass

    def pull(self, seconds):
        """Reads what the program shows within this time. Returns whether there was something."""
        if not select.select([self.ours], [], [], seconds)[0]:
            return False
        try:
            data = os.read(self.ours, 1 << 16)
        except OSError:
            return False
        self.raw += data
        self.emulator.feed(data)
        if self.emulator.answers:
            os.write(self.ours, self.emulator.answers)
            self.emulator.answers = b""
        return bool(data)

    def _before(self):
        """Returns what stands before the cursor as one line, or nothing if the cursor is at the begin of a row."""
        *above, last = self.emulator.shown.before_cursor()
        return " ".join([*(" ".join(above).split()), last]) if last.strip() else ""

    def wait(self, *prompts):
        """Waits until the program asks one of these, and returns it. Where the screen is full, it goes on."""
        deadline = time.monotonic() + PATIENCE
        while True:
            shown = self._before()
            if shown.endswith(MORE):
                self._send("\n")
                continue
            for prompt in prompts:
                if shown.endswith(" ".join(prompt.split()) + " "):
                    self.asked.append(prompt)
                    getattr(habits, "at_question", lambda *_: None)(self, prompt)
                    return prompt
            if not self.pull(max(0, min(0.2, deadline - time.monotonic()))) and (time.monotonic() > deadline or self.run.poll() is not None):
                if not self.pull(0.05):
                    raise Failed(f"the program doesn't ask {' or '.join(map(repr, prompts))}; it shows: {self.screen()}")

    def wait_full(self):
        """Waits until the screen is full, and the program waits."""
        self.wait_shown(lambda: self._before().endswith(MORE), "the screen isn't full")

    def wait_shown(self, is_shown, fault):
        """Reads what the program shows until that is what is waited for. `fault` says what is wrong if it never is."""
        deadline = time.monotonic() + PATIENCE
        while not is_shown():
            is_ended = self.run.poll() is not None
            if time.monotonic() > deadline or (not self.pull(0.2) and is_ended):
                raise Failed(f"{fault}; the program shows: {self.screen()}")

    def _send(self, text):
        """Types a text, and waits until the program shows something."""
        count, deadline = len(self.raw), time.monotonic() + PATIENCE
        self.type(text)
        while len(self.raw) == count and time.monotonic() < deadline and self.run.poll() is None:
            self.pull(0.2)

    def type(self, text):
        os.write(self.ours, text.encode())

    def answer(self, prompt, text):
        """Waits for a question, and answers it."""
        self.wait(prompt)
        self._send(text + "\n")

    def screen(self):
        return self.emulator.shown.text().strip()

    def expect(self, text):
        """Waits until a sentence was shown since the last `forget`."""
        wanted = " ".join(text.split())
        self.wait_shown(lambda: wanted in self.emulator.all_seen(), f"{wanted!r} isn't shown")

    def lacks(self, text, why="this is shown, and shouldn't be"):
        """Checks that a text wasn't shown since the last `forget`."""
        if text in self.emulator.all_seen():
            raise Failed(f"{why}: {text!r}")

    def forget(self):
        self.emulator.seen = []

    def words(self):
        """Returns the numbered words that the screen shows, in their order."""
        found = dict(re.findall(r"(\d+)\. ([a-z]+)", self.emulator.shown.text()))
        return " ".join(found[str(number)] for number in range(1, len(found) + 1))

    def end(self, status, said=""):
        """Waits for the end, and checks the status, the terminal's modes, and what the terminal keeps. If the program asks whether to end,
        the answer is yes. `said` is the key of what the program must say at its end, if it matters."""
        deadline = time.monotonic() + PATIENCE
        while self.run.poll() is None:
            self.pull(0.05)
            if not self.was_asked and self._before().endswith(END + " "):
                self.was_asked = True
                self.type("y\n")
            if time.monotonic() > deadline:
                raise Failed(f"the program doesn't end; it shows: {self.screen()}")
        while self.pull(0.05):
            pass
        habits.ended = self
        if self.run.returncode != status:
            raise Failed(f"the status is {self.run.returncode}, and not {status}; the terminal shows: {self.emulator.kept().strip()}")
        if termios.tcgetattr(self.theirs) != self.modes:
            raise Failed("the terminal's modes aren't as before")
        if self.emulator.shown is not self.emulator.main:
            raise Failed("the alternate screen wasn't left")
        if self.emulator.other.text().strip():
            raise Failed("the alternate screen wasn't cleared")
        bare = re.search(r"\(\d\d[:)]", self.emulator.all_seen())
        if bare:
            raise Failed(f"a number that owners don't know is shown: {bare[0]}")
        kept = "".join(self.emulator.kept().split())
        ends = [say(said or "closed")] if status == 0 else [f"{say(it)} {say('ended.close')}" for it in ([said] if said else ENDS)]
        if not self.is_plain and kept not in [it.replace(" ", "") for it in ends]:
            raise Failed(f"when the program is gone, the terminal still shows {kept!r}")

    def resize(self, columns, rows):
        """Gives the terminal another size."""
        self.emulator.resize(columns, rows)
        fcntl.ioctl(self.theirs, termios.TIOCSWINSZ, struct.pack("HHHH", rows, columns, 0, 0))

    def send(self, number):
        self.run.send_signal(number)
