"""The questions for the secret of a new backup: a new secret, or the digits of the owner's own. These are typed twice, and compared with
the fingerprint that the owner noted, since a backup of another secret looks like a right one."""
from __future__ import annotations

from dataclasses import dataclass
from typing import List, Tuple

import shamir
from shamir.papers.desk import Desk, Paper, derivation_seconds, drawn
from shamir.papers.drill import LONG_EXPONENT, measured, remaining
from shamir.papers.line import wipe
from shamir.papers.questions import ask_noted
from shamir.papers.quorums import Tried, gives
from shamir.papers.refusals import said_refusal
from shamir.papers.screen import Back, Screen
from shamir.papers.texts import said_time, say

# A new backup has what the reference implementation gives it.
EXPONENT = 1
# How many bytes a new secret has, by the number of words on each paper.
BYTES = {20: 16, 33: 32}
HEXADECIMAL = b"0123456789abcdefABCDEF"
# This answer shows the digits from then on.
SHOW = b"s"


class Entropy(Exception):
    """The digits are the entropy of words of BIP-39, which isn't the secret of their wallet."""


@dataclass
class Choices:
    """What the owner chose beside the plan. `is_own` says that the secret isn't a new one, and `words` is how many words each paper has."""

    is_own: bool = False
    has_passphrase: bool = False
    exponent: int = EXPONENT
    extendable: bool = False
    words: int = 20


def ask_secret(screen: Screen, choices: Choices) -> bytearray:
    """Returns a new secret, or the owner's own. The owner may go back to the wallet."""
    size = BYTES[choices.words]
    if not choices.is_own:
        screen.tell(say("secret.new", bytes=size, words=choices.words))
    while True:
        is_more = screen.choose(say("new.secret"), {"": False, "m": True}, has_back=True)
        try:
            if is_more:
                _ask_more(screen, choices)
            else:
                return _ask_own(screen, choices.words) if choices.is_own else drawn(size)
        except Back:
            continue


def ask_wallet(screen: Screen, title: str, choices: Choices, asks_words: bool = False) -> None:
    """Asks which wallet will read the papers, and how many words it asks for if papers of a secret are made. The answers say whether the
    papers get the extendable flag, and how long the secret is. The owner may go back."""
    while True:
        screen.clear(title)
        screen.tell(say("wallet.legend"))
        for number, key in enumerate(["flag", "older", "unknown"], 1):
            screen.item(f"{say(f'wallet.{key}')}. {say(f'wallet.{key}.hint')}", f"{number}  ")
        screen.gap()
        screen.tell(say("wallet.what"))
        choices.extendable = screen.choose(say("new.wallet"), {"1": True, "2": False, "3": False}, has_back=True)
        try:
            if asks_words:
                _ask_words(screen, choices)
            return
        except Back:
            continue


def _ask_words(screen: Screen, choices: Choices) -> None:
    """Asks how many words each paper is to have. The owner may go back."""
    screen.tell(say("wallet.words"))
    for count in BYTES:
        screen.item(f"{say('entry.words', count=count)}. {say(f'wallet.words.{count}.hint')}")
    screen.gap()
    choices.words = screen.choose(say("new.words"), {str(count): count for count in BYTES}, "20", has_back=True)


def make_papers(screen: Screen, desk: Desk, plan: str, secret: bytearray, choices: Choices) -> Tuple[List[Paper], str]:
    """Makes the papers of a backup, and returns them with the fingerprint of the secret. If that is long, the owner may stop it."""
    if choices.exponent < LONG_EXPONENT:
        return screen.work(lambda: desk.make(plan, secret, choices.exponent, choices.extendable))
    seconds = derivation_seconds(measured(), choices.exponent, len(secret))
    screen.tell(say("time.about", time=said_time(seconds)))
    return screen.work(lambda: desk.make(plan, secret, choices.exponent, choices.extendable), remaining(seconds), is_stoppable=True)


def _ask_more(screen: Screen, choices: Choices) -> None:
    """Asks for the iteration exponent."""
    screen.tell(say("more.exponent.hint"))
    screen.tell(say("more.time", time=said_time(derivation_seconds(measured(), EXPONENT, 16))) + " " + say("new.exponent.each"))
    choices.exponent = _ask_exponent(screen)
    screen.tell(say("new.chosen", exponent=choices.exponent))


def _ask_exponent(screen: Screen) -> int:
    """Asks for the iteration exponent. If recoveries would be long, the owner says whether that is meant."""
    while True:
        typed = screen.ask(say("new.exponent"), has_back=True).strip() or str(EXPONENT)
        if not typed.isdecimal() or int(typed) > shamir.EXPONENT_MAX:
            screen.fault(say("more.exponent.wrong"))
            continue
        exponent = int(typed)
        time = said_time(derivation_seconds(measured(), exponent, 16))
        if exponent < LONG_EXPONENT or screen.agree(say("new.exponent.long", exponent=exponent, time=time)):
            return exponent


def _ask_from(screen: Screen) -> None:
    """Asks what the digits are."""
    screen.tell(say("secret.from"))
    for number, key in enumerate(["slip39", "bip39"], 1):
        screen.item(say(f"secret.{key}"), f"{number}  ")
    screen.gap()
    if screen.choose(say("secret.from.choose"), {"1": False, "2": True}, has_back=True):
        raise Entropy


def _doubts(secret: bytearray, words: int) -> List[str]:
    """Says what is in doubt of a secret: it is no random one, or it doesn't fit the number of words that the wallet asks for."""
    repeated = [say("secret.repeated")] if len({*secret}) == 1 else []
    fit = BYTES[words]
    return repeated + ([] if len(secret) == fit else [say("secret.unfit", bytes=len(secret), words=words, fit=fit)])


def _is_meant(screen: Screen, secret: bytearray, words: int) -> bool:
    """Whether the owner means a secret in which something is in doubt."""
    doubts = _doubts(secret, words)
    for doubt in doubts:
        screen.tell(doubt, "bad")
    return not doubts or screen.agree(say("secret.sure"))


def _ask_own(screen: Screen, words: int) -> bytearray:
    """Returns the owner's secret, which has the fingerprint that was noted, if there is one. The owner may go back to the choice."""
    _ask_from(screen)
    screen.tell(say("secret.digits.hint"))
    screen.tell(say("plan.short"))
    while True:
        secret = _ask_twice(screen)
        screen.tell(say("new.secret.count", digits=2 * len(secret), bytes=len(secret)))
        if not _is_meant(screen, secret, words):
            wipe(secret)
            continue
        screen.tell(say("secret.noted"))
        try:
            noted = ask_noted(screen)
        except Back:
            wipe(secret)
            raise
        if not noted or _is_noted(screen, shamir.fingerprint(secret), noted):
            return secret
        wipe(secret)


def _is_noted(screen: Screen, fingerprint: str, noted: str) -> bool:
    """Whether digits have the noted fingerprint. If not, the owner types the fingerprint again, or goes back to the digits."""
    while not gives(Tried((), fingerprint, None), noted):
        screen.fault(say("secret.other", fingerprint=fingerprint, noted=noted))
        try:
            noted = ask_noted(screen, "noted.again", may_lack=False)
        except Back:
            return False
    screen.tell_next(say("secret.same"), "good")
    return True


def _ask_twice(screen: Screen) -> bytearray:
    """Asks for the hexadecimal digits of a secret until the library takes it, and it is typed twice the same. They show if the owner asks
    for that."""
    is_shown = False
    while True:
        typed = screen.ask_hidden(say("new.secret.digits.shown" if is_shown else "new.secret.digits"), has_back=True, is_shown=is_shown)
        if typed.strip().lower() == SHOW and not is_shown:
            is_shown = True
            continue
        fault = _fault_of(typed)
        secret = _bytes_of(typed)
        if fault:
            wipe(secret)
            screen.fault(fault)
            continue
        again = _bytes_of(screen.ask_hidden(say("new.secret.again"), is_shown=is_shown))
        is_same = secret == again
        wipe(again)
        if is_same:
            return secret
        wipe(secret)
        screen.fault(say("secret.differ"))


def _fault_of(typed: bytearray) -> str:
    """Returns why digits are no secret, in words, or nothing."""
    digits = typed.translate(None, b" \t")
    try:
        if not digits:
            return say("secret.missing")
        wrong = next((at for at, digit in enumerate(digits, 1) if digit not in HEXADECIMAL), 0)
        if wrong:
            return say("secret.not_hex", place=wrong)
        if len(digits) % 2:
            return say("secret.odd", digits=len(digits))
        shamir.random_needed("1of1", len(digits) // 2)
        return ""
    except shamir.Refusal as refusal:
        return said_refusal(refusal)
    finally:
        wipe(digits)


def _bytes_of(typed: bytearray) -> bytearray:
    """Returns the bytes that hexadecimal digits stand for, or none if they stand for none. Clears the digits."""
    digits = typed.translate(None, b" \t")
    try:
        return bytearray.fromhex(digits.decode("ascii", "replace"))
    except ValueError:
        # The error says where the digits are wrong, and nothing of them. The caller says it in other words.
        return bytearray()
    finally:
        wipe(digits)
        wipe(typed)
