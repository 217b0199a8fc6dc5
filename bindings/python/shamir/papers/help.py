"""The questions that owners ask, each with its answer."""
from __future__ import annotations

from shamir.papers.screen import Back, Screen
from shamir.papers.texts import TABLE, say

ANSWER = ".answer"


def show_help(screen: Screen) -> None:
    """Lists the questions, and shows the answers that the owner wants, until the owner goes back."""
    names = [key[: -len(ANSWER)] for key in TABLE if key.startswith("help.") and key.endswith(ANSWER)]
    chosen = ""
    while True:
        screen.clear(say("help.title"))
        for number, name in enumerate(names, 1):
            screen.item(say(name), f"{number:>2}  ")
        screen.gap()
        if chosen:
            screen.tell(say(chosen), "strong")
            screen.tell(say(f"{chosen}{ANSWER}"))
        try:
            chosen = screen.choose(say("help.choose"), {str(number): name for number, name in enumerate(names, 1)}, has_back=True)
        except Back:
            return
