"""The task 'new': what the wallet holds, a plan, a secret, a passphrase, the papers one by one, typed back, drilled, and the fingerprint."""
from __future__ import annotations

from typing import List, Optional, Tuple

from shamir.papers.change import change_plan
from shamir.papers.desk import Desk, Paper
from shamir.papers.drill import Verdict, tell_verdict
from shamir.papers.line import wipe
from shamir.papers.plan import Plan, noted_plan, said_dangers, said_plan, said_singles, said_survives
from shamir.papers.plan_choice import ask_plan
from shamir.papers.proof import Made, note_and_drill
from shamir.papers.questions import ask_new_passphrase
from shamir.papers.screen import Back, Screen, Stopped
from shamir.papers.secret import Choices, Entropy, ask_secret, ask_wallet, make_papers
from shamir.papers.shown import write_all
from shamir.papers.texts import say


# What an owner may have of a wallet.
HAS = ("new", "papers", "own", "words", "none")


def make_backup(screen: Screen, desk: Desk, given: Optional[str]) -> None:
    """Makes a backup, unless the wallet has one already. `given` is the plan that the command named, if it did. The owner may go back to the
    tasks."""
    has = ""
    while True:
        has = has or _ask_has(screen)
        try:
            if has == "papers":
                return change_plan(screen, desk)
            if has in ("words", "none"):
                _agree_to_new(screen, has)
            return _make(screen, desk, given, Choices(is_own=has == "own"))
        except (Back, Entropy) as by:
            desk.clear()
            screen.hold("")
            has = "words" if isinstance(by, Entropy) else ""


def _ask_has(screen: Screen) -> str:
    """Asks what the owner has: papers of a new secret are no backup of a wallet that holds money."""
    screen.clear(say("home.make"))
    screen.tell(say("has.legend"))
    for number, key in enumerate(HAS, 1):
        screen.item(f"{say(f'has.{key}')}. {say(f'has.{key}.hint')}", f"{number}  ")
    screen.gap()
    return screen.choose(say("has.choose"), {str(number): key for number, key in enumerate(HAS, 1)}, has_back=True)


def _agree_to_new(screen: Screen, has: str) -> None:
    """Says that what the owner has can't become papers: words of BIP-39, or a wallet alone. The owner goes on with a new wallet, or back."""
    screen.clear(say(f"has.{has}.title"))
    screen.tell(say(f"has.{has}.what"), "bad")
    screen.choose(say("has.make.choose"), {"n": None}, has_back=True)


def _make(screen: Screen, desk: Desk, given: Optional[str], choices: Choices) -> None:
    """Makes a backup of a new secret, or of the owner's. The owner may go back from the plan."""
    plan, papers, fingerprint = _plan_and_papers(screen, desk, given, choices)
    desk.forget_passphrase()
    desk.written = "unfinished"
    screen.hold(say("end.unfinished"))
    write_all(screen, desk, plan, papers)
    verdict = note_and_drill(screen, desk, Made(fingerprint, choices.is_own, choices.has_passphrase))
    papers.clear()
    desk.clear()
    screen.hold("")
    if verdict is not None:
        desk.written = "made"
        _tell_done(screen, plan, choices, verdict)


def _plan_and_papers(screen: Screen, desk: Desk, given: Optional[str], choices: Choices) -> Tuple[Plan, List[Paper], str]:
    """Asks for the plan, the wallet and the secret until the papers are made. The owner may go back from each to the one before. If the command
    named the plan, only its dangers are asked about."""
    while True:
        plan = ask_plan(screen, say("make.plan"), given=given)
        try:
            return (plan, *_wallet_and_papers(screen, desk, plan, choices))
        except Back:
            if plan.text != given:
                given = None
            elif not said_dangers(plan):
                raise


def _wallet_and_papers(screen: Screen, desk: Desk, plan: Plan, choices: Choices) -> Tuple[List[Paper], str]:
    while True:
        ask_wallet(screen, say("make.wallet"), choices, asks_words=True)
        try:
            return _create(screen, desk, plan, choices)
        except Back:
            continue


def _create(screen: Screen, desk: Desk, plan: Plan, choices: Choices) -> Tuple[List[Paper], str]:
    """Asks for the secret and the passphrase, and makes the papers. If the owner stops that, or goes back from the passphrase, it asks
    again."""
    while True:
        screen.clear(say("make.secret"))
        screen.tell(" ".join(filter(None, [said_plan(plan), said_singles(plan), said_survives(plan)])))
        secret = ask_secret(screen, choices)
        try:
            # The digits that were typed would be lost on the way back.
            desk.set_passphrase(ask_new_passphrase(screen, has_back=not choices.is_own))
            choices.has_passphrase = bool(desk.passphrase)
            return make_papers(screen, desk, plan.text, secret, choices)
        except Stopped:
            screen.tell_next(say("make.stopped"))
        except Back:
            continue
        finally:
            wipe(secret)


def _tell_done(screen: Screen, plan: Plan, choices: Choices, verdict: Verdict) -> None:
    """Says that the backup is made, what the drill showed, and what to do now. Only what the owner noted was compared."""
    screen.clear(say("make.done"))
    if not choices.is_own:
        screen.tell(say("make.empty"), "strong")
    tell_verdict(screen, verdict, "" if verdict.is_own else "good")
    screen.tell(say("quorum.what"))
    screen.tell(noted_plan(plan))
    screen.tell(say("make.restore"))
    keep = say("make.keep" if len(plan.names) > 1 else "make.keep.one")
    screen.tell(f"{keep} {say('make.with' if choices.has_passphrase else 'make.without')}")
    if choices.is_own:
        screen.tell(say("make.own"))
    screen.choose(say("screen.end"), {"e": None})
