"""The end of the task 'change': every quorum of the old papers and of the new ones is tried, with one passphrase."""
from __future__ import annotations

from typing import Optional

from shamir.papers.desk import Desk
from shamir.papers.drill import Verdict, run_drill, tell_verdict
from shamir.papers.questions import ask_passphrase
from shamir.papers.screen import Back, Screen
from shamir.papers.texts import say


def agree(screen: Screen, old: Desk, new: Desk) -> Optional[Verdict]:
    """Drills old and new papers with what the owner types, until all give one secret. Returns what the drill of the new ones found then,
    or None if the owner ends before."""
    is_extendable = old.papers[0].is_extendable
    while True:
        screen.clear(say("change.noted"))
        screen.tell(f"{say('change.noted.why')} {say('change.bare.none')}" if is_extendable else say("change.again.why"))
        try:
            noted = ask_passphrase(screen, old)
        except Back:
            continue
        screen.gap()
        try:
            verdict = _drilled(screen, old, new, noted)
        finally:
            old.forget_passphrase()
            new.forget_passphrase()
        if verdict.result == "good":
            return verdict
        if not _tries_again(screen, verdict):
            return None


def is_proved(old: Desk, noted: str) -> bool:
    """Whether new papers that give what the old ones give are shown to be right: without the noted fingerprint, nothing shows that a passphrase
    or a found word was right."""
    return bool(noted) or (old.papers[0].is_extendable and not any(it.is_repaired for it in old.papers))


def _drilled(screen: Screen, old: Desk, new: Desk, noted: str) -> Verdict:
    """Drills the old papers, and then the new ones with the fingerprint that these gave. Returns what is wrong, or else that all agree."""
    screen.tell(say("change.old.title"), "strong")
    first = run_drill(screen, old, noted)
    if first.result in ("some", "several"):
        first.sentences.append(say("change.old.wrong"))
    if first.result != "good":
        return first
    new.set_passphrase(bytearray(old.passphrase))
    screen.tell(say("change.new.title"), "strong")
    second = run_drill(screen, new, first.fingerprint, is_own=not noted, is_new=True)
    if second.result == "good" and noted:
        second.sentences = [" ".join([*second.sentences, say("change.same")])]
    elif second.result == "good" and is_proved(old, noted):
        second.sentences = [say("change.agree")]
    elif second.is_other:
        second.sentences = [say("change.other")]
    elif second.result in ("some", "several"):
        second.sentences.append(say("change.broken"))
    return second


def _tries_again(screen: Screen, verdict: Verdict) -> bool:
    """Says why nothing shows that old and new papers agree, and returns whether the owner tries again."""
    screen.tell(say("change.unproved"), "strong")
    tell_verdict(screen, verdict, "")
    # The passphrase changes nothing about papers that don't agree.
    if verdict.result in ("some", "several"):
        return screen.choose(say("screen.end"), {"e": False})
    screen.tell(say("change.failed.then"))
    return screen.choose(say("make.failed.again"), {"t": True, "e": False})
