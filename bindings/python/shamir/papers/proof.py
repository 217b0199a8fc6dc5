"""The end of the task 'new': the owner notes the fingerprint, types what was noted, and every quorum is tried with that."""
from __future__ import annotations

from dataclasses import dataclass, field
from typing import Optional

from shamir.papers.desk import Desk
from shamir.papers.drill import Verdict, run_drill, tell_verdict
from shamir.papers.questions import ask_right, cleaned, is_fingerprint
from shamir.papers.quorums import Tried, gives
from shamir.papers.screen import Screen
from shamir.papers.spelling import DROP
from shamir.papers.texts import say


@dataclass(frozen=True)
class Made:
    """The fingerprint of the secret of new papers, whether the owner had the secret before, and whether there is a passphrase."""

    fingerprint: str = field(repr=False)
    is_own: bool
    has_passphrase: bool


def note_and_drill(screen: Screen, desk: Desk, made: Made) -> Optional[Verdict]:
    """Lets the owner note the fingerprint, asks for what was noted, and drills with it, until every quorum gives the secret. Returns what
    the drill found then, or None if the backup isn't made."""
    noted = _ask_noted(screen, made)
    while True:
        desk.set_passphrase(ask_right(screen, say("passphrase.ask"), False))
        screen.clear(say("make.drill"))
        try:
            verdict = run_drill(screen, desk, noted or made.fingerprint, is_own=not noted)
        finally:
            desk.forget_passphrase()
        if verdict.result == "good":
            return verdict
        if not _tries_again(screen, verdict, made):
            return None


def _show(screen: Screen, made: Made) -> None:
    """Shows the fingerprint to be noted, and then asks for what was noted."""
    title = say("noted.title.own" if made.is_own else "noted.title")
    screen.clear(title)
    screen.tell(f"{title}: {made.fingerprint}", "strong")
    screen.tell(say("noted.new"))
    screen.tell(say("noted.own" if made.is_own else "noted.drawn"))
    screen.tell(say("noted.apart" if made.has_passphrase else "noted.papers"))
    screen.tell(say("proof.next.both" if made.has_passphrase else "proof.next"))
    screen.pause(say("noted.done.own" if made.is_own else "noted.done"))
    screen.clear(say("proof.title"))
    screen.tell(say("proof.why"))


def _ask_noted(screen: Screen, made: Made) -> str:
    """Returns the fingerprint as it was noted, which is the right one. It is shown again if the owner wants that. That of the owner's own
    secret needn't be noted: then the text is empty."""
    _show(screen, made)
    while True:
        typed = cleaned(screen.ask(say("proof.ask.own" if made.is_own else "proof.ask", sign=DROP)))
        if made.is_own and typed == DROP:
            return ""
        if not typed:
            _show(screen, made)
        elif not is_fingerprint(typed):
            screen.fault(say("proof.wrong"))
        elif not gives(Tried((), made.fingerprint, None), typed):
            screen.fault(say("proof.other"))
        else:
            return typed


def _tries_again(screen: Screen, verdict: Verdict, made: Made) -> bool:
    """Says why the backup isn't made, and returns whether the owner types the passphrase again. The papers are those that were shown, and
    the fingerprint is right. So if all quorums give one other secret, the passphrase is another one than they were made with."""
    screen.tell(say("make.failed.title"), "strong")
    if verdict.is_other:
        which = "without" if not made.has_passphrase else "" if verdict.has_passphrase else "none"
        screen.tell(say(".".join(filter(None, ["proof.passphrase", which]))), "bad")
        screen.tell(say("proof.passphrase.then" if made.has_passphrase else "proof.passphrase.without.then"))
    else:
        tell_verdict(screen, verdict, "")
        screen.tell(say("make.unproved" if verdict.result == "stopped" else "make.failed"), "bad")
        if verdict.result != "stopped":
            return screen.choose(say("screen.end"), {"e": False})
    return screen.choose(say("make.failed.again"), {"t": True, "e": False})
