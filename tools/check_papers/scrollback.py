"""The program in a real terminal, tmux, under bash: what its scrollback keeps, with an alternate screen and without one, Ctrl-Z, and `stty`."""
import pathlib
import re
import shlex
import shutil
import subprocess
import tempfile

from hands import PATIENCE, PROGRAM, Failed, environment, say
from refusals import word_prompt
from tasks import paper_prompt, short

from samples import SECRET, THREE_GROUPS, with_words

from tool import waited


class Terminal:
    """A bash in tmux. The server of tmux is one of its own."""

    def __init__(self, folder, columns=80, rows=24, has_other=True):
        self.tmux = ["tmux", "-S", f"{folder}/socket", "-f", "/dev/null"]
        given = {**environment(), "PS1": "$ ", "HISTFILE": f"{folder}/history"}
        given.pop("TERM")
        start = [*self.tmux, "new-session", "-d", "-s", "it", "-x", str(columns), "-y", str(rows), "exec env 'PS1=$ ' bash --norc --noprofile"]
        subprocess.run(start, env=given, check=True)
        subprocess.run([*self.tmux, "set", "-w", "alternate-screen", "on" if has_other else "off"], check=True)
        told = subprocess.run([*self.tmux, "display-message", "-p", "-t", "it", "#{pane_pid}"], check=True, capture_output=True, text=True)
        self.shell = pathlib.Path(f"/proc/{int(told.stdout)}/stat")
        self.wait("$")

    def __enter__(self):
        return self

    def __exit__(self, *_):
        """Ends tmux, and waits until bash has ended: it writes its history at its end."""
        subprocess.run([*self.tmux, "kill-server"], capture_output=True)
        waited(lambda: not self.runs(), PATIENCE)

    def runs(self):
        """Whether bash runs. One that has ended may still be listed, with the state Z."""
        try:
            return self.shell.read_text().rpartition(")")[2].split()[0] != "Z"
        except OSError:
            return False

    def shown(self, *options):
        return subprocess.run([*self.tmux, "capture-pane", "-p", "-t", "it", *options], check=True, capture_output=True, text=True).stdout

    def kept(self):
        """Returns all that the terminal keeps, with what has left the screen."""
        return self.shown("-S", "-")

    def keys(self, *keys):
        subprocess.run([*self.tmux, "send-keys", "-t", "it", *keys], check=True)

    def wait(self, text):
        """Waits until the screen ends with a text."""
        wanted = " ".join(text.split())
        if not waited(lambda: " ".join(self.shown().split()).endswith(wanted), PATIENCE):
            raise Failed(f"tmux doesn't show {wanted!r} at its end, but {self.shown()!r}")

    def answer(self, prompt, text):
        self.wait(prompt)
        self.keys("-l", text)
        self.keys("Enter")

    def command(self, text):
        self.answer("$", text)

    def modes(self):
        """Returns what `stty -a` says."""
        self.command("clear; stty -a; echo told")
        self.wait("told $")
        return self.shown().split("told")[0]


def words_in(text):
    """Returns the words of the papers that a text has."""
    return set(re.findall(r"[a-z]+", text)) & set(" ".join(THREE_GROUPS).split()) - {"paper", "echo"}


def check_kept(terminal, is_told=False):
    """Goes through 'recover', and looks for words and digits in what tmux keeps. `is_told` says whether the owner must be told that tmux has
    no alternate screen."""
    before = terminal.modes()
    terminal.command("clear; " + shlex.join([*PROGRAM, "recover"]))
    terminal.wait(say("safety.go"))
    if (say("safety.kept.tmux") in " ".join(terminal.shown().split())) != is_told:
        raise Failed(f"that tmux has no alternate screen is told: {not is_told}")
    terminal.answer(say("safety.go"), "")
    # So many lines leave the screen.
    terminal.answer(paper_prompt(1), with_words(THREE_GROUPS[0], {5: "acdemic"}))
    for letter in "abcdefghij":
        terminal.answer(word_prompt(5), f"acdem{letter}")
        waited(lambda: f"acdem{letter}, isn't" in terminal.shown(), PATIENCE)
    terminal.answer(word_prompt(5), THREE_GROUPS[0].split()[4])
    for number, line in enumerate(THREE_GROUPS[1:], 2):
        terminal.answer(paper_prompt(number), short(line))
    terminal.answer(paper_prompt(len(THREE_GROUPS) + 1), "")
    terminal.answer(say("passphrase.ask"), "TREZOR")
    terminal.answer(say("noted.ask"), "")
    terminal.answer(say("new.passphrase.again"), "TREZOR")
    terminal.answer(f"{say('recover.show')} (y/n)", "y")
    terminal.wait(say("recover.clear"))
    if SECRET[:8] not in terminal.shown():
        raise Failed("tmux doesn't show the digits, so this check sees nothing")
    terminal.answer(say("recover.clear"), "")
    terminal.answer(say("next.unnoted"), "e")
    terminal.wait(f"{say('closed')} $")
    kept = terminal.kept()
    if words_in(kept) or "TREZOR" in kept or re.search(r"\b[0-9a-f]{8}\b", kept):
        raise Failed(f"the scrollback keeps words or digits: {kept!r}")
    terminal.command("echo status $?")
    terminal.wait("status 0 $")
    if terminal.modes() != before:
        raise Failed("stty -a isn't as before")


def check_stop(terminal):
    """Ctrl-Z hides the screen, and stops; 'fg' shows it again as it was. What is typed then is taken."""
    before = terminal.modes()
    terminal.command("clear; " + shlex.join([*PROGRAM, "check"]))
    terminal.answer(say("safety.go"), "")
    terminal.answer(paper_prompt(1), THREE_GROUPS[0])
    terminal.wait(paper_prompt(2))
    terminal.keys("-l", "academic alum")
    terminal.wait("academic alum")
    shown = terminal.shown()
    terminal.keys("C-z")
    terminal.wait("$")
    if words_in(terminal.kept()):
        raise Failed(f"while the program is stopped, the terminal shows {terminal.kept()!r}")
    if terminal.modes() != before:
        raise Failed("while the program is stopped, stty -a isn't as before")
    terminal.command("clear; fg")
    terminal.wait("academic alum")
    if terminal.shown() != shown:
        raise Failed(f"after 'fg', the screen is another: {terminal.shown()!r}, and not {shown!r}")
    terminal.keys("-l", " " + short(" ".join(THREE_GROUPS[1].split()[2:])))
    terminal.keys("Enter")
    terminal.wait(paper_prompt(3))
    terminal.keys("C-c")
    terminal.answer(f"{say('end.ask')} (y/n)", "y")
    terminal.wait(f"{say('ended')} {say('ended.close')} $")
    if words_in(terminal.kept()):
        raise Failed(f"the scrollback keeps words: {terminal.kept()!r}")
    terminal.command("echo status $?")
    terminal.wait("status 130 $")


def stopped(terminal, is_behind):
    """Begins to type papers, and stops the program. It may then go on in the background, where it stops again."""
    terminal.command("clear; " + shlex.join([*PROGRAM, "check"]))
    terminal.answer(say("safety.go"), "")
    terminal.answer(paper_prompt(1), THREE_GROUPS[0])
    terminal.wait(paper_prompt(2))
    terminal.keys("C-z")
    terminal.wait("$")
    if is_behind:
        terminal.command("clear; bg; while [ \"$(jobs -r)\" ]; do sleep 0.1; done; jobs > /dev/null; echo behind")
        terminal.wait("behind $")


def check_killed(terminal):
    """A program that is stopped ends when it is told to, and leaves the terminal to the shell."""
    before = terminal.modes()
    for is_behind in (False, True):
        stopped(terminal, is_behind)
        terminal.command("clear; echo begun; it=$(jobs -p); kill %1; while kill -0 $it; do sleep 0.1; done 2>/dev/null; jobs > /dev/null; echo gone")
        terminal.wait("gone $")
        if "begun" not in terminal.shown():
            raise Failed(f"a program that is stopped clears the shell's screen when it ends: {terminal.shown()!r}")
        if terminal.modes() != before:
            raise Failed("after a program that was stopped, stty -a isn't as before")


def check_behind(terminal):
    """After 'bg', which a program at a terminal can't follow, 'fg' goes on with the papers that were typed."""
    before = terminal.modes()
    stopped(terminal, True)
    terminal.command("clear; fg")
    terminal.answer(paper_prompt(2), THREE_GROUPS[1])
    terminal.wait(paper_prompt(3))
    terminal.keys("C-c")
    terminal.answer(f"{say('end.ask')} (y/n)", "y")
    terminal.wait(f"{say('ended')} {say('ended.close')} $")
    if terminal.modes() != before:
        raise Failed("after a program that was in the background, stty -a isn't as before")


def check(see):
    if not shutil.which("tmux"):
        return ["tmux isn't here, so the scrollback of a real terminal isn't looked at"]
    with tempfile.TemporaryDirectory() as folder:
        with Terminal(folder) as terminal:
            check_kept(terminal)
            check_stop(terminal)
            check_killed(terminal)
            check_behind(terminal)
        history = pathlib.Path(folder, "history")
        if not history.exists():
            raise Failed("the shell keeps no history, so this check sees nothing")
        if words_in(history.read_text()):
            raise Failed(f"the shell's history has words of papers: {history.read_text()!r}")
    with tempfile.TemporaryDirectory() as folder, Terminal(folder, has_other=False) as terminal:
        check_kept(terminal, is_told=True)
        check_stop(terminal)
    return []
