"""The command `shamir-papers`."""
from __future__ import annotations

import argparse
import contextlib
import os
import signal
import sys
from typing import Callable, Dict, List, NoReturn, Optional

from shamir.papers import echo, safety
from shamir.papers.change import change_plan
from shamir.papers.check import check_papers
from shamir.papers.desk import Desk
from shamir.papers.help import show_help
from shamir.papers.new import make_backup
from shamir.papers.plan import plain_plan
from shamir.papers.recover import recover_secret
from shamir.papers.repair import read_damaged
from shamir.papers.replace import replace_paper
from shamir.papers.screen import Back, Screen, wrapped
from shamir.papers.terminal import Ended, Terminal
from shamir.papers.texts import TASKS, say
from shamir.papers.what import tell_paper

import shamir

# The command for scripts that does what a task does.
COMMANDS = {
    "new": "shamir create",
    "check": "shamir drill --fingerprint",
    "recover": "shamir recover",
    "replace": "shamir reissue",
    "change": "shamir resplit",
    "repair": "shamir repair",
    "what": "shamir show",
}
RUN: Dict[str, Callable[[Screen, Desk], None]] = {
    "check": check_papers,
    "recover": recover_secret,
    "replace": replace_paper,
    "change": change_plan,
    "repair": read_damaged,
    "what": tell_paper,
}
HELP = "help"
DESCRIPTION = "Makes paper backups of a wallet's secret (SLIP-0039), checks them, recovers from them, and replaces papers. It asks step by step."


def readable(word: str) -> str:
    """Returns a word of the command as a text. What isn't UTF-8, or is neither printed nor space, becomes a sign that no plan has."""
    return "".join(it if it.isprintable() or it.isspace() else "\ufffd" for it in os.fsencode(word).decode("utf-8", "replace"))


def words_of_command() -> argparse.ArgumentParser:
    parser = argparse.ArgumentParser(prog="shamir-papers", description=DESCRIPTION, allow_abbrev=False)
    parser.add_argument("-V", "--version", action="version", version=f"shamir-papers {shamir.__version__}")
    tasks = parser.add_subparsers(dest="task", metavar="TASK", title="tasks (without one, it asks for one)")
    for name, key in TASKS.items():
        task = tasks.add_parser(name, help=say(f"{key}.hint"), description=say(f"{key}.hint"), allow_abbrev=False)
        if name == "new":
            task.add_argument("plan", metavar="PLAN", nargs="*", type=readable, help="which papers are enough, such as 2of3, or 2/3of5,1of1 with groups")
    return parser


def need_terminal(task: Optional[str]) -> None:
    """Ends with status 2 if standard input or output isn't a terminal."""
    for stream, descriptor in [("input", 0), ("output", 1)]:
        if not os.isatty(descriptor):
            command = COMMANDS[task] if task else "shamir"
            with contextlib.suppress(OSError):
                print(say("needs.terminal", stream=stream, command=command), file=sys.stderr, flush=True)
            os._exit(2)


def prepare(screen: Screen, terminal: Terminal, kind: str, forbidden: List[str]) -> None:
    """Says what the owner should know before the first question."""
    told = [*safety.warnings(kind, terminal.keeps_lines), *forbidden]
    screen.clear(say("safety.title"))
    for text in told:
        screen.item(text)
    if not told:
        screen.item(say("safety.good"))
    screen.item(say("safety.seen"))
    screen.gap()
    screen.pause(say("safety.go"))
    terminal.clear_kept()


def ask_task(screen: Screen) -> str:
    numbers = {str(number): name for number, name in enumerate(TASKS, 1)}
    while True:
        screen.clear(say("home.title"))
        for number, (name, key) in enumerate(TASKS.items(), 1):
            screen.item(f"{say(key)} ({name}). {say(f'{key}.hint')}", f"{number}  ")
        screen.gap()
        screen.tell(say("names.sentence"))
        chosen = screen.choose(say("home.choose"), {**numbers, **{name: name for name in TASKS}, "h": HELP})
        if chosen != HELP:
            return chosen
        show_help(screen)


def run(screen: Screen, desk: Desk, task: Optional[str], plan: Optional[str]) -> None:
    """Runs a task. From its first question, the owner may go back to all tasks."""
    while True:
        chosen = task or ask_task(screen)
        try:
            return make_backup(screen, desk, plan) if chosen == "new" else RUN[chosen](screen, desk)
        except Back:
            desk.clear()
            screen.hold("")
            task = plan = None


def end_by(number: int) -> NoReturn:
    """Ends as a signal asks. What the keyboard ends has the status 130."""
    if number not in (signal.SIGINT, signal.SIGQUIT):
        signal.signal(number, signal.SIG_DFL)
        os.kill(os.getpid(), number)
    os._exit(130)


def said_end(written: str) -> str:
    """Says what became of the papers if the program ends before the task does. `written` says what they are that were written."""
    return " ".join([say(f"ended.{written}") if written else say("ended"), say("ended.close")])


def said_close(written: str) -> str:
    """Says that the task ended. New papers are no backup, and a damaged paper or old ones are to be kept, until a drill has shown that the
    words are right."""
    return say(f"closed.{written}" if written in ("repaired", "changing", "unfinished") else "closed")


def told(terminal: Terminal, text: str) -> None:
    """Says how the program ended, where the terminal shows what was there before."""
    rows = wrapped(text, max(1, terminal.size.columns - 1))
    try:
        os.write(2, "".join(f"{row}\n" for row in rows).encode())
    except OSError:
        # The terminal is no longer there.
        pass


def main() -> None:
    echo.hide()
    try:
        run_words()
    except BaseException:
        echo.show()
        raise


def run_words() -> None:
    if sys.version_info < (3, 10):
        sys.exit("shamir-papers needs Python 3.10 or later")
    signal.signal(signal.SIGINT, signal.SIG_DFL)
    if sys.stdout is not None:
        # Without a buffer, argparse drops the error of a write, and nothing tells of a write that ends early.
        sys.stdout = open(1, "w", encoding="utf-8", closefd=False)
    try:
        args = words_of_command().parse_args()
    except SystemExit:
        # The status tells of help that standard output doesn't take. At its end, Python would choose another one.
        try:
            print(end="", flush=True)
        except OSError:
            echo.show()
            os._exit(1)
        raise
    need_terminal(args.task)
    safety.start_overwriting()
    forbidden = safety.protect()
    kind = os.environ.get("TERM", "")
    terminal, desk = Terminal(0, 1, kind), Desk()
    ended: Optional[int] = None
    is_failed = False
    try:
        terminal.open()
        signal.pthread_sigmask(signal.SIG_UNBLOCK, [signal.SIGINT])
        screen = Screen(terminal)
        prepare(screen, terminal, kind, forbidden)
        run(screen, desk, args.task, plain_plan("".join(getattr(args, "plan", []))) or None)
    except Ended as by:
        ended = by.number
    except Exception:
        # No text of an error is shown, as it could hold what was typed.
        is_failed = True
    finally:
        terminal.close()
        desk.clear()
    if is_failed:
        told(terminal, say("failed"))
    told(terminal, said_close(desk.written) if ended is None and not is_failed else said_end(desk.written))
    if ended is not None:
        end_by(ended)
    # A thread that was stopped may still wait for the library.
    os._exit(1 if is_failed else 0)


if __name__ == "__main__":
    main()
