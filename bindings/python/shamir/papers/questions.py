"""The questions for the passphrase and for the noted fingerprint."""
from __future__ import annotations

import re

import shamir
from shamir.papers.desk import Desk
from shamir.papers.line import LENGTH_MAX, wipe
from shamir.papers.refusals import said_refusal
from shamir.papers.screen import BACK, Back, Screen
from shamir.papers.texts import say

# `shamir --passphrase-file` reads no longer passphrase.
PASSPHRASE_MAX = 1024


def _fault_of(passphrase: bytearray) -> str:
    """Returns why the library refuses a passphrase, in words, or nothing. Without papers it derives no key."""
    try:
        shamir.recover([], passphrase=passphrase)
    except shamir.Refusal as refusal:
        if refusal.code != shamir.Code.NO_SHARES:
            return said_refusal(refusal)
    return ""


def ask_right(screen: Screen, prompt: str, has_back: bool, most: int = LENGTH_MAX) -> bytearray:
    """Asks for a passphrase until the library takes it, and it has at most so many bytes."""
    while True:
        typed = screen.ask_hidden(prompt)
        fault = say("new.passphrase.long", most=f"{most:,}") if len(typed) > most else _fault_of(typed)
        if not fault and _is_meant(screen, typed, has_back):
            return typed
        wipe(typed)
        if fault:
            screen.fault(fault)


def _is_meant(screen: Screen, typed: bytearray, has_back: bool) -> bool:
    """Whether a passphrase is as the owner wants it. A space at its end isn't seen, and makes it another one. The letter that goes back
    elsewhere may be a passphrase. An owner who doesn't read the question may type a passphrase here, so no answer shows."""
    if typed.lower() == BACK.encode() and not screen.agree(say("passphrase.back"), has_back, is_hidden=True):
        return False
    for key, edge in [("passphrase.space.first", typed[:1]), ("passphrase.space.last", typed[-1:])]:
        if edge == b" " and not screen.agree(say(key), is_hidden=True):
            return False
    return True


def ask_passphrase(screen: Screen, desk: Desk) -> str:
    """Asks for the passphrase of a backup, which may be empty, and for the fingerprint that was noted. Returns the fingerprint, or an
    empty text if there is none. Nothing else shows then whether the passphrase is mistyped, so it is typed twice. The owner may go back to
    the papers."""
    screen.tell(say("passphrase.why"))
    while True:
        # The owner may come back from the next question.
        desk.forget_passphrase()
        desk.set_passphrase(ask_right(screen, say("passphrase.ask"), True))
        try:
            noted = ask_noted(screen)
        except Back:
            continue
        if noted or not desk.passphrase:
            return noted
        screen.tell(say("passphrase.twice"))
        if _is_typed_again(screen, desk.passphrase):
            return noted
        screen.fault(say("passphrase.differ"))


def _is_typed_again(screen: Screen, passphrase: bytearray) -> bool:
    """Whether the owner types a passphrase the same once more."""
    again = screen.ask_hidden(say("new.passphrase.again"))
    is_same = passphrase == again
    wipe(again)
    return is_same


def ask_new_passphrase(screen: Screen, has_back: bool) -> bytearray:
    """Asks for a passphrase twice, until both are the same, or until there is to be none. `has_back` says that the owner may go back
    before that."""
    screen.clear(say("make.passphrase"))
    screen.tell(say("passphrase.new"))
    screen.tell(say("passphrase.hint"))
    while True:
        first = ask_right(screen, say("new.passphrase"), has_back, PASSPHRASE_MAX)
        if not first:
            if screen.agree(say("new.passphrase.none"), has_back, is_hidden=True):
                return first
            continue
        if _is_typed_again(screen, first):
            return first
        wipe(first)
        screen.fault(say("passphrase.differ"))


def cleaned(typed: str) -> str:
    """Returns a fingerprint as it was typed, without spaces and in small letters."""
    return re.sub(r"\s", "", typed).lower()


def ask_noted(screen: Screen, key: str = "noted.ask", may_lack: bool = True) -> str:
    """Asks for the fingerprint that was noted. Returns an empty text if there is none, and may be none. The owner may go back."""
    while True:
        typed = cleaned(screen.ask(say(key), has_back=True))
        if is_fingerprint(typed) or (not typed and may_lack):
            return typed
        screen.fault(say("noted.wrong" if may_lack else "noted.again.wrong"))


def is_fingerprint(typed: str) -> bool:
    """Whether the library takes a fingerprint. Without papers it compares none."""
    try:
        shamir.recover([], expect=typed)
    except shamir.Refusal as refusal:
        return refusal.code != shamir.Code.BAD_FINGERPRINT
    return True
