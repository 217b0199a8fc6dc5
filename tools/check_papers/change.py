"""The task 'change': old papers with and without the extendable flag, what is refused, the ways back, and how it ends."""
from hands import END, Failed, say
from slips import type_damaged
from tasks import SIGN, change, check_changed, end_by_keys, in_turn, paper_prompt, started

import plain
from samples import PASSPHRASE, SOUND_PAPER, THREE_GROUPS, changed, fingerprint_of, name_of, papers_of

AGAIN = say("make.failed.again")


def backup(plan, is_extendable, exponent=0):
    """Returns the papers of a backup with the passphrase, and the fingerprint of its secret."""
    papers = papers_of(plan, PASSPHRASE, exponent, is_extendable)
    return papers, fingerprint_of(papers, PASSPHRASE)


def check_flagless():
    """Without the flag, the new papers are made with the passphrase that gives the noted fingerprint. They have the old exponent."""
    old, noted = backup("3of5", False, 2)
    for wallet, flag in [("1", 1), ("2", 0), ("3", 0)]:
        with started("change") as owner:
            owner.collect(old[1:4])
            if wallet == "1":
                owner.passphrase("TREZER", noted)
                owner.wait(say("next.again"))
                owner.expect(say("change.passphrase.why"))
                owner.expect(f"{say('recover.other', noted=noted)} {fingerprint_of(old, 'TREZER')}")
                owner.answer(say("next.again"), "t")
            owner.passphrase(PASSPHRASE, noted)
            new = change(owner, "2of3", wallet)
            if wallet == "1":
                # What was typed again isn't the passphrase of the new papers.
                owner.passphrase("TREZER", "")
                owner.wait(AGAIN)
                owner.expect(say("change.other"))
                owner.expect(say("change.unproved"))
                owner.lacks(say("change.done"))
                owner.answer(AGAIN, "t")
            owner.passphrase(PASSPHRASE, noted)
            owner.wait(say("screen.end"))
            for key in ("change.same", "change.old.renewed", "change.restore"):
                owner.expect(say(key))
            owner.lacks(say("change.unnoted"))
            owner.finish(say("screen.end"))
            check_changed(owner, old, new, "2of3", flag)


def check_unnoted():
    """Without a noted fingerprint, nothing is said to be right, and old papers without the flag aren't to be destroyed at once."""
    for is_extendable, passphrase, key in [(True, "", "change.old"), (False, PASSPHRASE, "change.unnoted")]:
        old, _ = backup("2of3", is_extendable)
        with started("change") as owner:
            owner.collect(old[:2])
            if not is_extendable:
                owner.passphrase("", "")
                owner.answer(f"{say('new.passphrase.none')} {say('screen.yes')}", "n")
                owner.passphrase(passphrase, "")
            new = change(owner, "1of1", "" if is_extendable else "1")
            owner.passphrase(passphrase, "")
            owner.wait(say("screen.end"))
            owner.expect(say(key))
            if is_extendable:
                owner.expect(f"{say('change.done')} {say('change.agree')}")
            else:
                check_unproved(owner, "change.unnoted")
            owner.lacks("[ok]")
            owner.finish(say("screen.end"))
            check_changed(owner, old, new, "1of1", 1)
    with started("change") as owner:
        type_damaged(owner, 1, THREE_GROUPS[3])
        owner.collect([THREE_GROUPS[4]], 2)
        owner.passphrase(PASSPHRASE, "")
        change(owner, "1of1", "1")
        owner.passphrase(PASSPHRASE, "")
        owner.wait(say("screen.end"))
        check_unproved(owner, "change.repaired.flagless")
        # Nothing shows that the new papers are right, so this isn't said at the end either.
        owner.type("\x03")
        owner.end(130, "ended.changed")


def check_unproved(owner, key):
    """Checks that the end says first, as what is wrong, that nothing was compared, and doesn't say that old and new papers agree."""
    owner.expect(f"{say('change.done.unproved')} [!] {say(key)}")
    owner.expect(say("change.old.unproved"))
    for text in ("change.agree", "change.same", "change.old", "change.old.renewed"):
        owner.lacks(say(text), "old and new papers are said to agree, though nothing was compared")


def check_refused():
    """Old papers that don't belong together give no new ones. A sound paper of another backup is kept apart, and too few are told."""
    old, noted = backup("3of5", True)
    value = plain.parse(old[1].encode())["value"]
    with started("change") as owner:
        owner.collect([old[0], SOUND_PAPER])
        owner.answer(say("backup.choose"), "1")
        owner.wait(say("more.papers"))
        owner.expect(say("recover.too_few"))
        owner.answer(say("more.papers"), "")
        owner.answer(paper_prompt(3), f"{SIGN}0.0")
        owner.answer(say("entry.drop.which", name="0.0"), "2")
        owner.collect([changed(old[1], value=value[::-1]), old[2]], 2)
        owner.answer(say("new.plan.choose"), "2of3")
        owner.wait(say("next.good"))
        owner.expect(say("change.failed"))
        owner.expect(say("refused.51", first=0))
        owner.lacks(say("new.write"))
        owner.answer(say("next.good"), "p")
        owner.answer(paper_prompt(4), f"{SIGN}0.1")
        owner.collect([old[1]], 3)
        change(owner, "2of3")
        # A fingerprint that the old papers don't give shows no agreement.
        owner.passphrase(PASSPHRASE, "01234567")
        owner.wait(AGAIN)
        owner.expect(say("verdict.other", quorums="1 quorum", noted="01234567"))
        owner.lacks(say("change.done"))
        owner.answer(AGAIN, "t")
        owner.passphrase(PASSPHRASE, noted)
        owner.wait(say("screen.end"))
        end_by_keys(owner)


def check_wrong():
    """A wrong paper among the old ones, which the new papers aren't made of, is found: all quorums of the old papers are tried."""
    old, noted = backup("2of3", True)
    with started("change") as owner:
        owner.collect([*old[:2], changed(old[2], value=bytes(16))])
        change(owner, "1of1")
        owner.passphrase(PASSPHRASE, noted)
        owner.wait(say("screen.end"))
        for key in ("change.old.title", "change.unproved", "change.old.wrong"):
            owner.expect(say(key))
        owner.expect(say("verdict.suspects.one", names="0.2"))
        owner.lacks(say("change.done"))
        owner.lacks("If the result stays the same")
        owner.finish(say("screen.end"), "closed.changing")


def check_mark(owner):
    """The first paper is shown with the line that the old papers are to be marked: at another size too, and after words that came too early."""
    for change in (None, (100, 30), (80, 24), "acid"):
        if change == "acid":
            owner.answer(say("new.write"), change)
        elif change:
            owner.resize(*change)
        owner.wait(say("new.write"))
        if say("change.mark") not in " ".join(owner.screen().split()):
            raise Failed(f"after {change}, the screen doesn't say that the old papers are to be marked: {owner.screen()}")


def check_ways():
    """An Enter too many and ways back lose nothing. Until old and new papers agree, whoever ends is told to keep the old ones."""
    old, noted = backup("2of3", False)
    plan, wallet, ask = say("new.plan.choose"), say("new.wallet"), say("passphrase.ask")
    with started("change") as owner:
        owner.answer(paper_prompt(1), "")
        owner.collect(old[:2])
        owner.answer(ask, "b")
        owner.answer(f"{say('passphrase.back')} {say('screen.yes.back')}", "b")
        owner.answer(paper_prompt(3), "")
        owner.passphrase(PASSPHRASE, noted)
        owner.answer(plan, "")
        owner.answer(plan, "b")
        owner.passphrase(PASSPHRASE, noted)
        owner.answer(plan, "1")
        owner.answer(wallet, "")
        owner.answer(wallet, "b")
        owner.answer(plan, "1of1")
        owner.answer(say("new.plan.sure"), "")
        owner.answer(say("new.plan.sure"), "u")
        owner.answer(wallet, "1")
        check_mark(owner)
        line = owner.words()
        owner.type("\x04")
        owner.wait(END)
        owner.expect(say("end.changing"))
        owner.answer(END, "n")
        owner.answer(say("new.write"), "")
        owner.answer(say("screen.next"), "")
        owner.answer(say("back.ask", name="0.0"), line)
        owner.answer(ask, "")
        owner.answer(say("noted.ask"), noted)
        owner.answer(AGAIN, "")
        owner.finish(AGAIN, "closed.changing")
    old, _ = backup("2of3", True)
    with started("change") as owner:
        owner.collect(old[1:])
        owner.answer(plan, "b")
        owner.answer(paper_prompt(3), "")
        owner.answer(plan, "2of3")
        owner.wait(say("new.write"))
        owner.type("\x03")
        owner.end(130, "ended.changing")


def check_pasted():
    """All old papers are pasted at once, and again where new ones are typed back: then they aren't taken for new ones."""
    old, noted = backup("2/2of3,1of1", True)
    lines = "".join(f"{line}\n" for line in old)
    with started("change", columns=120, rows=40) as owner:
        owner.wait(paper_prompt(1))
        owner.type(lines)
        owner.answer(paper_prompt(5), "")
        owner.answer(say("new.plan.choose"), "2 of 3")
        new = owner.written()
        owner.answer(say("screen.next"), "")
        first = say("back.ask", name="0.0")
        owner.wait(first)
        owner.type(lines)
        owner.wait(first)
        owner.expect(say("paste.only", papers="4 papers"))
        owner.expect(say("back.foreign", name="0.0", typed="0.0"))
        for line in new:
            owner.wait(say("back.ask", name=name_of(line)))
            owner.type(f"{line}\n")
        owner.passphrase(PASSPHRASE, noted)
        owner.wait(say("screen.end"))
        owner.expect(say("change.done"))
        end_by_keys(owner)
        check_changed(owner, old, new, "2of3", 1)


def check_lost():
    """Whoever fears that a lost paper is in other hands goes on to new papers at once."""
    old, _ = backup("2of3", True)
    with started("replace") as owner:
        owner.answer(say("replace.how"), "2")
        owner.answer(say("replace.new.choose"), "c")
        owner.collect(old[1:])
        owner.answer(say("new.plan.choose"), "2of3")
        owner.wait(say("new.write"))
        if owner.words() == old[0]:
            raise Failed("the lost paper is written again")
        end_by_keys(owner)


CHECKS = [check_flagless, check_unnoted, check_refused, check_wrong, check_ways, check_pasted, check_lost]
check = in_turn(CHECKS)
