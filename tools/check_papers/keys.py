"""Keys that a line doesn't know, and what a terminal answers by itself: nothing of them is typed, at once or in parts."""
import itertools
import time

from hands import Failed, say
from tasks import end_by_keys, in_turn, paper_prompt, started

from samples import FINGERPRINT, PASSPHRASE, THREE_GROUPS

# A report of a mouse in three forms, the attributes of the terminal, its focus, the place of the cursor, its colour, its name, modes, and brackets of a paste.
ANSWERS = [
    "\x1b[<35;10;10M",
    "\x1b[<0;10;10m",
    "\x1b[M !!",
    "\x1b[35;10;10M",
    "\x1b[?62;1;6c",
    "\x1b[>0;276;0c",
    "\x1b[I",
    "\x1b[12;40R",
    "\x1b]11;rgb:0000/0000/0000\x07",
    "\x1b]10;rgb:ffff/ffff/ffff\x1b\\",
    "\x1bP>|tmux 3.3a\x1b\\",
    "\x1bP1$r0m\x1b\\",
    "\x1b[?1049;1$y",
    "\x1b[200~",
    "\x1b[201~",
]
# Left, Home, End, Delete, F1 in two forms, F12, and arrows with Ctrl, with Alt, and with Alt as two Escapes.
KEYS = ["\x1b[D", "\x1bOH", "\x1b[4~", "\x1b[3~", "\x1bOP", "\x1b[[A", "\x1b[24~", "\x1b[1;5C", "\x1b[1;3D", "\x1b\x1b[D", "\x1bb"]
# A slow line splits an arrow so.
PARTS = [("\x1b", "[D"), ("\x1b[", "D"), ("\x1b", "OD"), ("\x1b[1;", "5C"), ("\x1b", "]11;rgb:0000/0000/0000\x07"), ("\x1b[<35;10", ";10M")]
SPLIT_SECONDS = 0.4
HINT = " ".join(say("line.keys").split())


def type_with(owner, text, sequences):
    """Types a line with sequences in it, each of which may come in parts, one after each letter."""
    for letter, parts in itertools.zip_longest(text, sequences, fillvalue=""):
        owner.type(letter)
        for at, part in enumerate(parts):
            if at:
                time.sleep(SPLIT_SECONDS)
            owner.type(part)
    owner.type("\n")


def check_answers():
    """Sequences in a paper and in a passphrase, which doesn't show. Only keys are told that they do nothing."""
    for sequences, is_told in [([[it] for it in ANSWERS], False), ([[it] for it in KEYS], True), (PARTS, True)]:
        with started("check") as owner:
            owner.wait(paper_prompt(1))
            type_with(owner, THREE_GROUPS[3], sequences)
            owner.wait(paper_prompt(2))
            if (HINT in owner.emulator.all_seen()) != is_told:
                raise Failed(f"that keys do nothing is told: {not is_told}, after {sequences}")
            owner.type_paper(paper_prompt(2), THREE_GROUPS[4])
            owner.answer(paper_prompt(3), "")
            owner.wait(say("passphrase.ask"))
            type_with(owner, PASSPHRASE, sequences)
            owner.answer(say("noted.ask"), FINGERPRINT)
            if owner.wait(say("next.good"), say("next.again"), say("next.papers")) != say("next.good"):
                raise Failed(f"one of these is a part of a passphrase: {sequences}")
            end_by_keys(owner)


def check_pasted():
    """The same in a paste, and alone where only Enter is asked for."""
    with started("check") as owner:
        owner.wait(paper_prompt(1))
        owner.type("".join(f"{line[:40]}{it}{line[40:]}\n" for line, it in zip(THREE_GROUPS, ANSWERS[::3])))
        owner.wait(paper_prompt(6))
        end_by_keys(owner)


def check_hint():
    """A key that moves elsewhere says once that it doesn't here. What was typed stays."""
    for key in ["\x1b[D", "\x1b[H", "\x1b[1~", "\x01", "\x05", "\x0b"]:
        with started("check") as owner:
            owner.wait(paper_prompt(1))
            owner.type("shadow pist")
            owner.wait_shown(lambda: "pist" in owner.screen(), "what is typed isn't shown")
            owner.type(3 * key)
            owner.expect(say("line.keys"))
            owner.type("ol ")
            owner.wait_shown(lambda: owner.screen().endswith(f"{paper_prompt(1)} shadow pistol"), "the line isn't shown again")
            if owner.emulator.all_seen().count(HINT) != 1:
                raise Failed("the same is said several times")
            end_by_keys(owner)


CHECKS = [check_answers, check_pasted, check_hint]
check = in_turn(CHECKS)
