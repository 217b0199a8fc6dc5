"""Papers of several backups: they are kept apart, the first one isn't trusted, and the owner says which backup is meant."""
from hands import say
from slips import sure
from tasks import SIGN, end_by_keys, in_turn, paper_prompt, started

from samples import FINGERPRINT, LONG, PASSPHRASE, SOUND_PAPER, THREE_GROUPS, TWO, changed, fingerprint_of, name_of, named, opening, with_words
from shamir.papers.marks import said_count

CHOOSE = say("backup.choose")


def headed(line):
    return say("status.backup", begin=opening(line))


def check_first():
    """The first paper is of another backup than the rest: these are kept apart, and the drill tries only them."""
    with started("check") as owner:
        owner.type_paper(paper_prompt(1), TWO[0])
        owner.type_paper(paper_prompt(2), THREE_GROUPS[3])
        owner.wait(paper_prompt(3))
        owner.expect(say("collect.taken.apart", name="1.0", begin=opening(THREE_GROUPS[3])))
        owner.expect(say("collect.apart", count=2))
        for line in (TWO[0], THREE_GROUPS[3]):
            owner.expect(f"{headed(line)}:")
        owner.type_paper(paper_prompt(3), THREE_GROUPS[4])
        owner.wait(paper_prompt(4))
        owner.expect(say("collect.taken.of", name="2.0", begin=opening(THREE_GROUPS[3])))
        owner.answer(paper_prompt(4), "")
        owner.wait(CHOOSE)
        owner.expect(say("backup.which"))
        owner.expect(f"{headed(TWO[0])}: {name_of(TWO[0])}")
        owner.expect(f"{headed(THREE_GROUPS[3])}: 1.0, 2.0")
        owner.answer(CHOOSE, "b")
        for wrong in ("", "3"):
            owner.answer(paper_prompt(4) if not wrong else CHOOSE, wrong)
        owner.answer(CHOOSE, "2")
        owner.expect(say("screen.answers", answers="1, 2, b"))
        owner.passphrase(PASSPHRASE, FINGERPRINT)
        owner.wait(say("next.good"))
        owner.expect(say("check.done.left_out"))
        owner.expect(say("verdict.all.noted", quorums="1 quorum", fingerprint=FINGERPRINT))
        owner.expect(say("left.backup.one", names=name_of(TWO[0]), begin=opening(TWO[0])))
        owner.lacks(say("check.done.good"))
        end_by_keys(owner)


def check_each():
    """Papers of two backups are enough. Each is recovered as if the others weren't there. Too few of one are told as such."""
    with started("recover") as owner:
        owner.collect([SOUND_PAPER, *THREE_GROUPS[3:], TWO[0]])
        for number, papers in [("1", [SOUND_PAPER]), ("2", THREE_GROUPS[3:])]:
            owner.answer(CHOOSE, number)
            owner.passphrase(PASSPHRASE, fingerprint_of(papers, PASSPHRASE))
            owner.answer(f"{say('recover.show')} (y/n)", "n")
            owner.wait(say("next.good"))
            owner.expect(say("recover.done.same"))
            owner.forget()
            owner.answer(say("next.good"), "p")
            owner.answer(paper_prompt(5), "")
        owner.answer(CHOOSE, "3")
        owner.wait(say("more.papers"))
        owner.expect(say("recover.too_few"))
        owner.expect(say("left.backup.many", names="1.0, 2.0", begin=opening(THREE_GROUPS[3])))
        owner.finish(say("more.papers"))


def check_names():
    """Papers of two backups have one name: the owner says which one is to be taken out. Once one backup is left, nothing is chosen."""
    ask = say("entry.drop.which", name="0.0")
    with started("check") as owner:
        owner.type_paper(paper_prompt(1), THREE_GROUPS[0])
        owner.type_paper(paper_prompt(2), SOUND_PAPER)
        owner.answer(paper_prompt(3), SOUND_PAPER)
        owner.wait(paper_prompt(3))
        owner.expect(say("collect.repeated", name=f"0.0 ({opening(SOUND_PAPER)})"))
        owner.answer(paper_prompt(3), f"{SIGN}0.0")
        owner.answer(ask, "0")
        owner.answer(paper_prompt(3), f"{SIGN}0.0")
        owner.wait(ask)
        owner.expect(f"1 0.0 ({opening(THREE_GROUPS[0])})")
        owner.answer(ask, "1")
        owner.wait(paper_prompt(2))
        owner.expect(say("collect.dropped", name=f"0.0 ({opening(THREE_GROUPS[0])})"))
        owner.answer(paper_prompt(2), "")
        owner.passphrase(PASSPHRASE, fingerprint_of([SOUND_PAPER], PASSPHRASE))
        owner.wait(say("next.good"))
        owner.expect(say("check.done.good"))
        end_by_keys(owner)


def check_counts():
    """The number of words of papers that are here says nothing of a paper of another backup."""
    words = SOUND_PAPER.split()
    with started("check") as owner:
        owner.answer(paper_prompt(1), LONG)
        on = say("entry.on", typed=said_count(19, None), number=20, sign=SIGN)
        owner.answer(paper_prompt(2), " ".join(words[:19]))
        owner.answer(on, words[19])
        owner.wait(paper_prompt(3))
        owner.expect(say("collect.taken.apart", name="0.0", begin=opening(SOUND_PAPER)))
        for line, count in [(SOUND_PAPER, 20), (LONG, 33)]:
            on = say("entry.on", typed=said_count(19, count), number=20, sign=SIGN)
            owner.answer(paper_prompt(3), " ".join(line.split()[:19]))
            owner.answer(on, SIGN)
        end_by_keys(owner)


def check_pasted():
    """Papers of two backups are pasted at once, in no order: all are taken, and those of each backup are named."""
    lines = [THREE_GROUPS[0], TWO[0], SOUND_PAPER, TWO[1], THREE_GROUPS[1], TWO[0]]
    with started("check") as owner:
        owner.wait(paper_prompt(1))
        owner.type("".join(f"{line}\n" for line in lines))
        owner.wait(paper_prompt(6))
        for papers in (THREE_GROUPS[:2], TWO, [SOUND_PAPER]):
            owner.expect(say("paste.taken.backup", names=named(papers), begin=opening(papers[0])))
        owner.expect(say("paste.repeated.backup", names=name_of(TWO[0]), begin=opening(TWO[0])))
        owner.expect(say("collect.apart", count=3))
        end_by_keys(owner)


def check_found():
    """Words that were found and not read may make a paper one of another backup. So it isn't taken beside others. If it came first, it is
    the one that may be wrong, as long as no other paper of its backup was read in full."""
    elsewhere = [changed(line, id=77) for line in THREE_GROUPS]
    unsure = say("collect.unsure.one", names=say("backup.paper", name="0.0", begin=opening(elsewhere[0])))
    with started("check") as owner:
        owner.type_paper(paper_prompt(1), THREE_GROUPS[1])
        owner.answer(paper_prompt(2), with_words(elsewhere[0], {6: "?"}))
        owner.answer(sure("0.0"), "y")
        owner.wait(paper_prompt(2))
        owner.expect(say("refused.repaired.apart"))
        owner.lacks(say("collect.apart", count=2))
        end_by_keys(owner)
    with started("check") as owner:
        owner.answer(paper_prompt(1), with_words(elsewhere[0], {6: "?"}))
        owner.answer(sure("0.0"), "y")
        owner.type_paper(paper_prompt(2), THREE_GROUPS[1])
        owner.wait(paper_prompt(3))
        owner.expect(say("collect.apart", count=2))
        owner.expect(unsure)
        owner.expect(say("entry.drop", sign=SIGN, name="0.0"))
        owner.type_paper(paper_prompt(3), elsewhere[1])
        owner.wait(paper_prompt(4))
        owner.forget()
        owner.expect(say("collect.apart", count=2))
        owner.lacks(unsure)
        end_by_keys(owner)


CHECKS = [check_first, check_each, check_names, check_counts, check_pasted, check_found]
check = in_turn(CHECKS)
