"""The task 'change': new papers for the same wallet, by another plan, from enough of the old ones. The secret is never shown."""
from __future__ import annotations

from typing import List, Optional, Tuple, Union

import shamir
from shamir.papers.agree import agree, is_proved
from shamir.papers.check import ask_next
from shamir.papers.collect import ask_for_more, collect
from shamir.papers.desk import Desk, Paper
from shamir.papers.drill import Verdict, tell_verdict
from shamir.papers.line import wipe
from shamir.papers.plan import Plan, noted_plan
from shamir.papers.plan_choice import ask_plan
from shamir.papers.questions import ask_passphrase
from shamir.papers.quorums import Tried, gives
from shamir.papers.recover import recovered, tell_failed
from shamir.papers.refusals import said_refusal
from shamir.papers.screen import Back, Screen, Stopped
from shamir.papers.secret import Choices, ask_wallet, make_papers
from shamir.papers.shown import write_all
from shamir.papers.texts import say

# The plan of new papers, and these papers; or what the owner wants instead: to go back to the old papers ('p'), or to end ('e').
Made = Union[Tuple[Plan, List[Paper]], str]


def change_plan(screen: Screen, desk: Desk) -> None:
    """Makes new papers in place of old ones. Until they are shown, the owner may go back to the papers, and from there to the tasks."""
    typed: Optional[str] = ""
    while typed is not None:
        collect(screen, desk, say("change.title"), say("change.intro"), typed=typed)
        if desk.status().enough:
            typed = "" if _change(screen, desk) == "p" else None
        else:
            typed = ask_for_more(screen, desk, say("recover.few"), say("recover.too_few"))


def _change(screen: Screen, desk: Desk) -> str:
    """Makes new papers, and lets the owner write them down, type them back and compare them with the old ones. Returns what the owner
    wants then."""
    try:
        made = _split_anew(screen, desk) if desk.papers[0].is_extendable else _make_anew(screen, desk)
    except Back:
        return "p"
    if isinstance(made, str):
        return made
    plan, papers = made
    desk.written = "changing"
    screen.hold(say("end.changing"))
    screen.tell_next(say("change.mark"), "strong")
    new = Desk()
    try:
        write_all(screen, new, plan, papers)
        verdict = agree(screen, desk, new)
    finally:
        papers.clear()
        new.clear()
    screen.hold("")
    if verdict is not None:
        desk.written = "changed"
        _tell_done(screen, desk, plan, verdict)
    return "e"


def _split_anew(screen: Screen, desk: Desk) -> Made:
    """Splits what is encrypted anew, which takes no passphrase. Each passphrase goes on giving the secret that it gave."""
    plan = ask_plan(screen, say("change.plan"), say("change.extendable"))
    try:
        return plan, desk.resplit(plan.text)
    except shamir.Refusal as refusal:
        screen.tell(say("change.failed"), "strong")
        screen.tell(said_refusal(refusal), "bad")
        return ask_next(screen, "good")


def _make_anew(screen: Screen, desk: Desk) -> Made:
    """Makes a backup of the secret that the papers give. Without the flag, nothing else gives papers of another plan."""
    while True:
        secret = _recovered(screen, desk)
        if isinstance(secret, str):
            return secret
        try:
            return _from_secret(screen, desk, secret)
        except Back:
            continue
        finally:
            wipe(secret)
            desk.forget_passphrase()


def _recovered(screen: Screen, desk: Desk) -> Union[bytearray, str]:
    """Asks for the passphrase and the noted fingerprint, until both fit the papers. Returns the secret, or what the owner wants instead."""
    while True:
        screen.clear(say("change.passphrase"))
        screen.tell(say("change.passphrase.why"))
        noted = ask_passphrase(screen, desk)
        if not noted and not desk.passphrase and not screen.agree(say("new.passphrase.none"), is_hidden=True):
            continue
        found = recovered(screen, desk)
        if isinstance(found, bytearray):
            fingerprint = shamir.fingerprint(found)
            if not noted or gives(Tried((), fingerprint, None), noted):
                return found
            wipe(found)
            answer = _tell_other(screen, fingerprint, noted, bool(desk.passphrase))
        else:
            answer = tell_failed(screen, found)
        desk.forget_passphrase()
        if answer != "t":
            return answer


def _tell_other(screen: Screen, fingerprint: str, noted: str, has_passphrase: bool) -> str:
    """Says that papers give another secret than the noted one. Returns what the owner wants then."""
    screen.tell(say("change.failed"), "strong")
    screen.tell(f"{say('recover.other' if has_passphrase else 'recover.other.none', noted=noted)} {fingerprint}", "bad")
    return ask_next(screen, "again")


def _from_secret(screen: Screen, desk: Desk, secret: bytearray) -> Made:
    """Asks for the plan and the wallet, and makes the papers. The owner may go back to the passphrase."""
    choices = Choices(exponent=desk.papers[0].exponent)
    while True:
        plan = ask_plan(screen, say("change.plan"))
        try:
            ask_wallet(screen, say("change.wallet"), choices)
            return plan, make_papers(screen, desk, plan.text, secret, choices)[0]
        except Stopped:
            screen.tell_next(say("make.stopped"))
        except Back:
            continue


def _tell_done(screen: Screen, desk: Desk, plan: Plan, verdict: Verdict) -> None:
    """Says that the plan is changed, what the drill showed, and what to do with the old papers."""
    is_extendable, is_repaired = desk.papers[0].is_extendable, any(it.is_repaired for it in desk.papers)
    is_unproved = not is_proved(desk, "" if verdict.is_own else verdict.fingerprint)
    desk.clear()
    screen.clear(say("change.done.unproved" if is_unproved else "change.done"))
    if is_unproved:
        repaired = "change.repaired" if is_extendable else "change.repaired.flagless"
        screen.tell(say(repaired if is_repaired else "change.unnoted"), "bad")
    tell_verdict(screen, verdict, "" if verdict.is_own else "good")
    screen.tell(say("quorum.what"))
    if is_unproved:
        screen.tell(say("change.noted.first"))
    screen.tell(say("change.restore"), "strong")
    screen.tell(f"{noted_plan(plan)} {say('make.keep' if len(plan.names) > 1 else 'make.keep.one')}")
    screen.tell(say("change.old.unproved" if is_unproved else "change.old" if is_extendable else "change.old.renewed"))
    screen.tell(f"{say('change.mixed')} {say('change.thief')}")
    screen.choose(say("screen.end"), {"e": None})
