"""The task 'recover': papers are typed, and the secret is compared by its fingerprint. Its digits show only if asked for."""
from __future__ import annotations

from typing import Optional, Union

import shamir
from shamir.papers.check import ask_next
from shamir.papers.collect import ask_for_more, collect, tell_damaged
from shamir.papers.desk import Desk
from shamir.papers.drill import warned_time
from shamir.papers.line import wipe
from shamir.papers.questions import ask_passphrase
from shamir.papers.quorums import Tried, gives
from shamir.papers.refusals import said_refusal
from shamir.papers.screen import Back, Screen, Stopped
from shamir.papers.texts import say

DIGITS = 8


def recover_secret(screen: Screen, desk: Desk) -> None:
    typed: Optional[str] = ""
    while typed is not None:
        collect(screen, desk, say("recover.title"), say("recover.intro"), typed=typed)
        if desk.status().enough:
            typed = "" if _recover(screen, desk) == "p" else None
        else:
            typed = ask_for_more(screen, desk, say("recover.few"), say("recover.too_few"))


def _recover(screen: Screen, desk: Desk) -> str:
    """Asks for the passphrase, and recovers the secret. Returns what the owner wants then."""
    while True:
        screen.clear(say("recover.passphrase"))
        try:
            noted = ask_passphrase(screen, desk)
        except Back:
            return "p"
        has_passphrase = bool(desk.passphrase)
        found = recovered(screen, desk)
        desk.forget_passphrase()
        answer = _tell(screen, desk, found, noted, has_passphrase) if isinstance(found, bytearray) else tell_failed(screen, found)
        if answer != "t":
            return answer


def recovered(screen: Screen, desk: Desk) -> Union[bytearray, Stopped, shamir.Refusal]:
    """Returns the secret, or why there is none. Says how long that takes, if it is long."""
    screen.gap()
    left = warned_time(screen, desk.papers[0])
    try:
        return screen.work(desk.recover, left, is_stoppable=True)
    except (Stopped, shamir.Refusal) as error:
        return error


def tell_failed(screen: Screen, error: Union[Stopped, shamir.Refusal]) -> str:
    """Says why nothing was recovered. Returns what the owner wants then."""
    screen.tell(say("recover.failed"), "strong")
    if isinstance(error, Stopped):
        screen.tell(say("recover.stopped"))
        return ask_next(screen, "again")
    screen.tell(said_refusal(error), "bad")
    return ask_next(screen, "papers")


def _tell(screen: Screen, desk: Desk, secret: bytearray, noted: str, has_passphrase: bool) -> str:
    """Says which secret was recovered. Its digits are offered unless it is known to be another one than the owner's."""
    try:
        fingerprint = shamir.fingerprint(secret)
        which = "unnoted" if not noted else "same" if gives(Tried((), fingerprint, None), noted) else "other"
        screen.tell(say(f"recover.done.{which}"), "strong")
        if which != "same":
            _tell_doubt(screen, desk)
        key = "recover.other.none" if which == "other" and not has_passphrase else f"recover.{which}"
        told = f"{say(key, noted=noted)} {fingerprint}", {"same": "good", "other": "bad"}.get(which, "")
        screen.tell(*told)
        if which == "other":
            return ask_next(screen, "again")
        screen.tell(say("digits.what"))
        if screen.agree(say("recover.show")):
            _show(screen, secret)
            # The fingerprint isn't cleared together with the digits: it may not be noted yet.
            screen.tell(*told)
    finally:
        wipe(secret)
    if which == "same":
        screen.hold("")
    screen.tell(f"{say('recover.next.title')}: {say('recover.next')}")
    tell_damaged(screen, desk)
    return ask_next(screen, "good" if which == "same" else "unnoted")


def _tell_doubt(screen: Screen, desk: Desk) -> None:
    """Says that words of the only paper were found, and not read. Inside one paper, nothing is compared."""
    if len(desk.papers) == 1 and desk.papers[0].is_doubtful:
        screen.tell(say("damaged.doubt", names=desk.papers[0].name), "bad")


def _show(screen: Screen, secret: bytearray) -> None:
    """Shows the digits on a screen that is cleared after it."""
    screen.clear(say("digits.title"))
    digits = secret.hex()
    screen.digits([digits[at : at + DIGITS] for at in range(0, len(digits), DIGITS)])
    screen.pause(say("recover.clear.plain" if screen.is_plain else "recover.clear"))
    screen.clear(say("recover.title"))
