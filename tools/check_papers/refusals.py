"""What can be wrong with papers and passphrases, and what the program says and asks then."""
from hands import Failed, counted, say
from tasks import SIGN, end_by_keys, in_turn, paper_prompt, started

from samples import BAD_CHECKSUM, BAD_PADDING, BIP39, BIP39_LONG, EXCHANGED, FINGERPRINT, LONG, PASSPHRASE, SOUND_PAPER, THREE_GROUPS, TWO
from samples import changed, fingerprint_of, name_of, named, refused_beside, with_words
from shamir.papers.marks import said_count

NUMBERED = say("entry.numbered", sign=SIGN)
# This key erases the line.
ERASE = "\x15"


def word_prompt(number):
    return say("entry.word", number=number, sign=SIGN)


def back_prompt(number):
    return say("entry.word.back", number=number, sign=SIGN)


def check_words():
    """A word that isn't in the list is asked for again, and nothing else. Nothing is put in its place by itself."""
    with started("check") as owner:
        owner.answer(paper_prompt(1), with_words(SOUND_PAPER, {3: "acdemic", 11: "co"}))
        owner.answer(word_prompt(3), "acdmic")
        owner.expect("Word 3, acdemic, isn't in the word list (academic")
        for short in ("4", "academic agency"):
            owner.forget()
            owner.answer(word_prompt(3), short)
            owner.wait(word_prompt(3))
            owner.expect(say("entry.one", number=3))
        owner.answer(word_prompt(3), "academic agency acid")
        owner.answer(f"{word_prompt(3)} academic agency acid", f"{ERASE}ACADemic")
        owner.expect(f"{say('entry.one', number=3)} {say('entry.stays')}")
        owner.answer(word_prompt(11), "")
        owner.answer(word_prompt(11), "11. coal")
        owner.wait(paper_prompt(2))
        owner.expect(say("collect.taken", name="0.0"))
        owner.forget()
        owner.answer(paper_prompt(2), SOUND_PAPER)
        owner.wait(paper_prompt(2))
        owner.expect(say("collect.repeated", name="0.0"))
        end_by_keys(owner)


def check_checksum():
    with started("check") as owner:
        owner.answer(paper_prompt(1), BAD_CHECKSUM)
        owner.wait(word_prompt(20))
        owner.expect(say("refused.18", first=20))
        owner.answer(word_prompt(20), "keyb")
        owner.wait(paper_prompt(2))
        owner.expect(say("collect.taken", name="0.0"))
        owner.answer(paper_prompt(2), f"{SIGN}0.0")
        owner.wait(paper_prompt(1))
        owner.expect(say("collect.dropped", name="0.0"))
        owner.answer(paper_prompt(1), EXCHANGED)
        owner.wait(NUMBERED)
        owner.expect(say("refused.13"))
        owner.answer(NUMBERED, "30 acid")
        owner.answer(NUMBERED, "30 acid 31")
        # The sign counts behind what stands in the line, too.
        owner.answer(f"{NUMBERED} 30 acid 31", SIGN)
        owner.answer(paper_prompt(1), EXCHANGED)
        owner.answer(NUMBERED, "7 leng 8 solu")
        owner.wait(paper_prompt(2))
        owner.answer(paper_prompt(2), f"{SIGN}0.0")
        owner.answer(paper_prompt(1), BAD_CHECKSUM)
        owner.answer(word_prompt(20), SIGN)
        owner.answer(paper_prompt(1), BAD_PADDING)
        owner.wait(paper_prompt(1))
        owner.expect(say("refused.14"))
        owner.answer(paper_prompt(1), "")
        owner.wait(paper_prompt(1))
        owner.expect(say("collect.none"))
        end_by_keys(owner)


def check_others():
    """A share that doesn't belong says why, and the papers before it stay."""
    with started("check") as owner:
        owner.answer(paper_prompt(1), THREE_GROUPS[0])
        for line, number, values in refused_beside(THREE_GROUPS[0]):
            owner.forget()
            owner.wait(paper_prompt(2))
            owner.answer(paper_prompt(2), line)
            owner.wait(paper_prompt(2))
            owner.expect(say(f"refused.{number}", **values))
            owner.expect(say("entry.drop", sign=SIGN, name="0.0"))
        owner.answer(paper_prompt(2), "")
        owner.wait(say("more.papers"))
        owner.expect(say("check.sound", papers=counted(1, "paper"), names="0.0"))
        owner.expect(say("status.not_enough", needed=counted(2, "whole"), here=0))
        owner.expect(say("check.too_few"))
        owner.answer(say("more.papers"), "")
        owner.wait(paper_prompt(2))
        owner.expect(say("collect.row", name="0.0", words=20))
        end_by_keys(owner)


def check_other_standard():
    with started("check") as owner:
        for words, count in [(BIP39, 12), (BIP39_LONG, 24)]:
            owner.forget()
            owner.answer(paper_prompt(1), words)
            owner.wait(paper_prompt(1))
            owner.expect(say("entry.bip39", count=count))
        end_by_keys(owner)


def check_pasted():
    """Papers that are pasted, in several lines, with numbers and capitals. After a fault, the rest of a paste answers nothing."""
    with started("check") as owner:
        owner.wait(paper_prompt(1))
        words = [f"{number}. {word.upper()}" for number, word in enumerate(TWO[0].split(), 1)]
        owner.type(", ".join(words[:7]) + "\n" + " ".join(words[7:]) + "\n" + TWO[1] + "\n")
        owner.wait(paper_prompt(3))
        owner.expect(say("paste.taken", names=named(TWO[:2])))
        owner.expect(say("status.enough"))
        owner.type(TWO[0].replace("always", "alwys") + "\n" + "always\n" * 3)
        owner.answer(say("paste.mend"), "")
        owner.expect(say("paste.left", begin="always always always", why=said_count(3, None)))
        owner.wait(word_prompt(4))
        owner.type("acdmic\nacid acid\n")
        owner.expect(say("screen.dropped"))
        owner.answer(word_prompt(4), "always")
        owner.wait(paper_prompt(3))
        owner.expect(say("collect.repeated", name=name_of(TWO[0])))
        end_by_keys(owner)


def rows_of(line, height=5):
    """Returns a paper row by row, as it is shown in columns that are read downwards."""
    cells = [f"{number:>3}. {word}" for number, word in enumerate(line.split(), 1)]
    return ["  ".join(cells[row::height]) for row in range(height)]


def check_numbers():
    """Words that are pasted row by row with their numbers, numbers that contradict one another, and one that is left out."""
    rows = rows_of(SOUND_PAPER)
    with started("check") as owner:
        for pasted in ("\n".join(rows), " ".join(rows)):
            owner.wait(paper_prompt(1))
            owner.type(pasted + "\n")
            owner.wait(paper_prompt(2))
            owner.expect(say("collect.taken", name="0.0"))
            owner.answer(paper_prompt(2), f"{SIGN}0.0")
        owner.answer(paper_prompt(1), " ".join(rows).replace(" 7.", " 8."))
        gap = say("entry.gap", count=counted(18, "word"), last=20, numbers="7, 8", sign=SIGN)
        owner.wait(gap)
        owner.expect(say("entry.twice", number=8, words="length, solution"))
        owner.answer(gap, "leng solu")
        owner.wait(paper_prompt(2))
        owner.answer(paper_prompt(2), f"{SIGN}0.0")
        owner.answer(paper_prompt(1), " ".join(rows).replace("18. critical", ""))
        owner.answer(say("entry.gap", count=counted(19, "word"), last=20, numbers="18", sign=SIGN), "crit")
        owner.wait(paper_prompt(2))
        end_by_keys(owner)


def check_counts():
    """One word too few, and one too many: the program says how many are typed, and how many a paper has."""
    words = SOUND_PAPER.split()

    def on(number, key, **values):
        return say("entry.on.many" if number > 21 else "entry.on", number=number, sign=SIGN, typed=say(f"entry.count.{key}", few=20, many=33, **values))

    with started("check") as owner:
        too_few = on(20, "few", count="19 words", missing="1 word is missing", others=14)
        owner.answer(paper_prompt(1), " ".join(words[:19]))
        owner.answer(too_few, "")
        owner.wait(too_few)
        owner.expect(say("entry.compare", sign=SIGN))
        owner.answer(too_few, f"{words[19]} acid")
        too_many = on(22, "between", count="21 words", excess="1 word is too many", missing="12 words are missing")
        owner.answer(too_many, SIGN)
        owner.answer(paper_prompt(1), f"{SOUND_PAPER} acid")
        owner.answer(too_many, "21")
        owner.answer(paper_prompt(2), " ".join(words[:19]))
        owner.answer(say("entry.on", number=20, sign=SIGN, typed=say("entry.count.wanted", count=19, words="20 words", missing="1 word is missing")), "keyb acid")
        over = say("entry.over", sign=SIGN)
        owner.wait(over)
        owner.expect(say("entry.count.over", count="21 words", words="20 words", excess="1 word is too many"))
        owner.answer(over, "acid")
        owner.answer(over, "21")
        owner.wait(paper_prompt(2))
        owner.expect(say("collect.repeated", name="0.0"))
        end_by_keys(owner)


def check_long():
    """A paper of 33 words in two lines, cut where another paper could end."""
    with started("check") as owner:
        words = LONG.split()
        owner.answer(paper_prompt(1), " ".join(words[:20]))
        owner.wait(NUMBERED)
        owner.expect(say("entry.longer", count=20))
        owner.answer(NUMBERED, " ".join(words[20:]))
        owner.wait(paper_prompt(2))
        owner.expect(say("collect.taken", name="0.0"))
        owner.answer(paper_prompt(2), " ".join(words[:21]))
        typed = say("entry.count.wanted", count=21, words=counted(33, "word"), missing="12 words are missing")
        owner.answer(say("entry.on", number=22, sign=SIGN, typed=typed), SIGN)
        owner.wait(paper_prompt(2))
        end_by_keys(owner)


def check_open_words():
    """A paper of which a word can't be read, among other papers."""
    with started("check") as owner:
        owner.answer(paper_prompt(1), with_words(TWO[1], {6: "pra?", 7: "?"}))
        ask = f"{say('damaged.sure', name=name_of(TWO[1]))} (y/n)"
        owner.wait(ask)
        owner.expect(f"{say('entry.place', number=7)}: class")
        owner.answer(ask, "perhaps")
        owner.answer(ask, "n")
        owner.answer(NUMBERED, f"6 ? 7 {TWO[1].split()[6]}")
        owner.expect(say("entry.kept"))
        owner.answer(ask, "y")
        owner.wait(paper_prompt(2))
        said = say("collect.row.repaired", name=name_of(TWO[1]), words=20)
        owner.expect(said)
        owner.forget()
        owner.answer(paper_prompt(2), "")
        owner.wait(say("more.papers"))
        owner.expect(said)
        if "sound" in owner.screen():
            raise Failed("a repaired paper is said to be sound")
        end_by_keys(owner)


def check_passphrases():
    """A refused passphrase, a wrong one, a wrong note, and a right one, with the same papers."""
    with started("check") as owner:
        owner.collect(THREE_GROUPS)
        owner.answer(say("passphrase.ask"), "Straße")
        owner.wait(say("passphrase.ask"))
        owner.expect(say("refused.41", first=5))
        owner.answer(say("passphrase.ask"), "TREZER")
        owner.answer(say("noted.ask"), "xyz")
        owner.answer(say("noted.ask"), FINGERPRINT.upper())
        owner.expect(say("noted.wrong"))
        owner.wait(say("next.again"))
        owner.expect(say("check.done.other"))
        owner.expect("the passphrase is most likely mistyped, or the backup has none")
        owner.lacks("Every quorum", "with a wrong passphrase, every quorum is said to be right")
        owner.answer(say("next.again"), "t")
        check_unnoted(owner)
        owner.answer(paper_prompt(6), "")
        owner.answer(say("passphrase.ask"), PASSPHRASE)
        owner.answer(say("noted.ask"), FINGERPRINT)
        owner.wait(say("next.good"))
        owner.expect(say("verdict.all.noted", quorums="7 quorums", fingerprint=FINGERPRINT))
        owner.expect(f"[ok] {say('verdict.all.noted', quorums='7 quorums', fingerprint=FINGERPRINT)}")
        for typed in ("t", ""):
            owner.forget()
            owner.answer(say("next.good"), typed)
            owner.wait(say("next.good"))
            owner.expect(say("screen.answers", answers="e, p"))
        owner.finish(say("next.good"))


def check_unnoted(owner):
    """Without a noted fingerprint, nothing is said to be good, since a wrong passphrase gives one secret too."""
    owner.forget()
    for passphrase, answer in [("TREZER", "t"), (PASSPHRASE, "p")]:
        owner.passphrase(passphrase, "")
        owner.wait(say("next.unnoted"))
        owner.expect(say("check.done.same"))
        owner.expect(say("verdict.all.same", quorums="7 quorums", fingerprint=fingerprint_of(THREE_GROUPS, passphrase)))
        owner.lacks("[ok]", "what was compared with nothing is said to be equal to what was noted")
        owner.expect(say("noted.first"))
        owner.lacks(say("check.done.good"), "without a noted fingerprint, the papers are said to have no fault")
        owner.answer(say("next.unnoted"), answer)


def check_mixed():
    """A sound paper that belongs to no quorum: the papers that may be wrong are named, and 'every' is never said."""
    forged = changed(THREE_GROUPS[1], value=bytes(16))
    with started("check") as owner:
        owner.collect([THREE_GROUPS[0], forged, *THREE_GROUPS[2:]])
        owner.passphrase(PASSPHRASE, FINGERPRINT)
        owner.wait(say("next.papers"))
        owner.expect(say("verdict.some", wrong=4, quorums=counted(7, "quorum")))
        owner.expect(say("verdict.suspects.one", names=name_of(forged)))
        owner.lacks("Every quorum", "although quorums are wrong, every quorum is said to be right")
        owner.answer(say("next.papers"), "p")
        owner.answer(paper_prompt(6), f"{SIGN}{name_of(forged)}")
        owner.answer(paper_prompt(5), f"{SIGN}3.3")
        owner.answer(paper_prompt(5), "")
        owner.expect(say("entry.drop.none", name="3.3"))
        owner.passphrase(PASSPHRASE, FINGERPRINT)
        owner.wait(say("next.good"))
        owner.expect(say("verdict.all.noted", quorums="3 quorums", fingerprint=FINGERPRINT))
        end_by_keys(owner)


def check_recover():
    """Too few papers, another secret, and a digest that doesn't match."""
    with started("recover") as owner:
        owner.collect(THREE_GROUPS[:1])
        owner.wait(say("more.papers"))
        owner.expect(say("recover.too_few"))
        owner.answer(say("more.papers"), "")
        owner.collect([changed(THREE_GROUPS[1], value=bytes(16)), THREE_GROUPS[3]], 2)
        owner.passphrase(PASSPHRASE, FINGERPRINT)
        owner.wait(say("next.papers"))
        owner.expect(say("refused.51", first=0))
        owner.answer(say("next.papers"), "p")
        owner.answer(paper_prompt(4), f"{SIGN}{name_of(THREE_GROUPS[1])}")
        owner.collect([THREE_GROUPS[1]], 3)
        owner.passphrase("TREZER", FINGERPRINT)
        owner.wait(say("next.again"))
        owner.expect(say("recover.done.other"))
        owner.answer(say("next.again"), "t")
        owner.passphrase(PASSPHRASE, "")
        owner.answer(f"{say('recover.show')} (y/n)", "n")
        owner.wait(say("next.unnoted"))
        owner.expect(FINGERPRINT)
        owner.expect(say("recover.done.unnoted"))
        owner.finish(say("next.unnoted"))


CHECKS = [
    check_words,
    check_checksum,
    check_others,
    check_other_standard,
    check_pasted,
    check_numbers,
    check_counts,
    check_long,
    check_open_words,
    check_passphrases,
    check_mixed,
    check_recover,
]
check = in_turn(CHECKS)
