"""What an owner forgets, mistypes or writes down wrongly, and what the program says and keeps then."""
from hands import Failed, counted, say
from refusals import NUMBERED, back_prompt
from tasks import SIGN, end_by_keys, in_turn, paper_prompt, short, started

from samples import FINGERPRINT, PASSPHRASE, THREE_GROUPS, name_of, papers_of, swappable, swapped, with_words
from shamir.papers.marks import said_count


def sure(name):
    return f"{say('damaged.sure', name=name)} (y/n)"


def type_damaged(owner, number, line):
    """Types a paper of which one word can't be read, and takes the word that is found."""
    owner.answer(paper_prompt(number), with_words(short(line), {7: "?"}))
    owner.answer(sure(name_of(line)), "y")


def write_anew(owner, line):
    """Reads a paper of which one word can't be read, writes it anew, and types it back."""
    owner.answer(say("damaged.ask"), with_words(line, {6: "?"}))
    owner.answer(say("damaged.menu"), "w")
    owner.answer(sure(name_of(line)), "y")
    owner.answer(say("new.write"), "")
    owner.type_paper(say("back.ask", name=name_of(line)), line)


def check_damaged():
    """Papers that can't be read in full are named at the end of a check and of a recovery, and not once they are written anew."""
    names = [name_of(line) for line in THREE_GROUPS]
    with started("check") as owner:
        type_damaged(owner, 1, THREE_GROUPS[0])
        owner.answer(paper_prompt(2), "")
        owner.wait(say("more.papers"))
        owner.expect(say("damaged.anew.one", names=names[0]))
        owner.answer(say("more.papers"), "")
        type_damaged(owner, 2, THREE_GROUPS[1])
        owner.type_paper(paper_prompt(3), THREE_GROUPS[3])
        owner.forget()
        owner.answer(paper_prompt(4), "")
        owner.passphrase(PASSPHRASE, FINGERPRINT)
        owner.wait(say("next.good"))
        owner.expect(say("damaged.anew.many", names=", ".join(names[:2])))
        end_by_keys(owner)
    with started("recover") as owner:
        owner.type_paper(paper_prompt(1), THREE_GROUPS[3])
        type_damaged(owner, 2, THREE_GROUPS[4])
        owner.answer(paper_prompt(3), "")
        owner.passphrase(PASSPHRASE, FINGERPRINT)
        owner.answer(f"{say('recover.show')} (y/n)", "n")
        owner.wait(say("next.good"))
        owner.expect(say("damaged.anew.one", names=names[4]))
        end_by_keys(owner)
    with started("repair") as owner:
        write_anew(owner, THREE_GROUPS[0])
        owner.collect(THREE_GROUPS[1:4], 2)
        owner.passphrase(PASSPHRASE, FINGERPRINT)
        owner.wait(say("next.good"))
        owner.expect(say("damaged.right.one", names=names[0]))
        owner.lacks("can't be read in full", "a paper that was written anew is still to be written anew")
        end_by_keys(owner)


def check_number():
    """A missing paper is named by its name, or by its number if there is only one group. No number of papers is asked for."""
    papers, choose = papers_of("2of3"), say("replace.choose.only")
    for name in ("0.2", "2", " 0. 2"):
        with started("replace") as owner:
            owner.answer(say("replace.how"), "1")
            owner.type_paper(paper_prompt(1), papers[0])
            owner.wait(paper_prompt(2))
            owner.expect(say("replace.not_enough", needed=counted(2, "paper"), here=1))
            owner.type_paper(paper_prompt(2), papers[1])
            owner.wait(paper_prompt(3))
            owner.expect(say("replace.enough"))
            owner.answer(paper_prompt(3), "")
            owner.answer(choose, "1")
            owner.wait(choose)
            owner.expect(say("which.here", name="0.1"))
            owner.answer(choose, name)
            owner.wait(say("new.write"))
            owner.expect(say("takes.papers", needed=2))
            if owner.words() != papers[2]:
                raise Failed("the paper that is written again has other words")
            owner.answer(say("new.write"), "")
            owner.type_paper(say("back.ask", name="0.2"), papers[2])
            owner.wait(choose)
            owner.expect(say("which.another"))
            owner.answer(choose, "")
            owner.expect(say("which.name.wrong"))
            end_by_keys(owner)
    with started("replace") as owner:
        owner.answer(say("replace.how"), "1")
        owner.collect(papers_of("1of1"))
        owner.answer(say("replace.choose.none"), "")
        owner.answer(say("replace.choose.none"), "b")
        owner.wait(paper_prompt(2))
        end_by_keys(owner)


def check_twice():
    """Without a noted fingerprint, a passphrase is typed twice, and the fingerprint isn't to be noted yet."""
    ask, again = say("passphrase.ask"), say("new.passphrase.again")
    with started("check") as owner:
        owner.collect(THREE_GROUPS[3:])
        owner.answer(ask, "TREZER")
        owner.answer(say("noted.ask"), "")
        owner.answer(again, PASSPHRASE)
        owner.wait(ask)
        owner.expect(say("passphrase.twice"))
        owner.expect(say("passphrase.differ"))
        owner.passphrase(PASSPHRASE, "")
        owner.wait(say("next.unnoted"))
        owner.expect(say("noted.first"))
        owner.answer(say("next.unnoted"), "t")
        owner.passphrase("", "")
        owner.wait(say("next.unnoted"))
        end_by_keys(owner)


def see_again(owner, prompt, words):
    """Lets a paper be shown again from a question, which then comes again."""
    owner.answer(prompt, "")
    owner.wait(say("new.write"))
    if owner.words() != words:
        raise Failed("another paper is shown again")
    owner.answer(say("new.write"), "")
    owner.wait(prompt)


def check_written_wrongly():
    """A paper that was written down wrongly: it is shown again from each question for a word, and what was typed stays. Words that are
    typed while a paper is shown clear nothing."""
    back, numbered = say("back.ask", name="0.0"), say("entry.numbered.back", sign=SIGN)
    with started("new", "1of1") as owner:
        owner.settle()
        line = owner.draw()
        owner.answer(say("new.write"), line)
        owner.wait(say("new.write"))
        owner.expect(say("new.write.alone"))
        if owner.words() != line:
            raise Failed("words that are typed too early clear the paper")
        owner.answer(say("new.write"), "")
        owner.answer(say("screen.next"), "")
        at, words = swappable(line), line.split()
        owner.answer(back, swapped(line, at))
        owner.wait(numbered)
        owner.expect(say("back.refused.13"))
        see_again(owner, numbered, line)
        owner.answer(numbered, f"{at} {words[at - 1]}")
        last = back_prompt(at + 1)
        owner.wait(last)
        owner.expect(say("back.refused.18", first=at + 1))
        see_again(owner, last, line)
        owner.answer(last, "emrald")
        owner.wait(last)
        owner.expect("isn't in the word list (emerald")
        see_again(owner, last, line)
        owner.answer(last, words[at])
        owner.wait(say("noted.done"))
        owner.lacks("type ?", "a question mark is offered where none is taken")
        end_by_keys(owner)


def check_sign():
    """A sign alone, or a number, is no end of the papers."""
    with started("check") as owner:
        owner.type_paper(paper_prompt(1), THREE_GROUPS[0])
        for typed in (SIGN, "12."):
            owner.forget()
            owner.answer(paper_prompt(2), typed)
            owner.wait(paper_prompt(2))
            owner.expect(say("entry.wordless"))
        end_by_keys(owner)


def check_left_out():
    """A word that was left out, and typed at the end: its place can't be told, so the program says what may be."""
    words = THREE_GROUPS[0].split()
    with started("check") as owner:
        owner.answer(paper_prompt(1), " ".join([*words[:6], *words[7:]]))
        owner.answer(say("entry.on", typed=said_count(19, None), number=20, sign=SIGN), words[6])
        owner.wait(NUMBERED)
        owner.expect(say("refused.13"))
        owner.expect(say("entry.left_out", sign=SIGN))
        owner.answer(NUMBERED, THREE_GROUPS[0])
        owner.wait(paper_prompt(2))
        end_by_keys(owner)


def check_plans():
    """A plan of groups without what comes before them, and plans in which one paper matters more than the owner may think."""
    plan = say("new.plan.choose")
    with started("new", "3of5,1of1") as owner:
        owner.wait(plan)
        owner.expect(say("new.plan.groups", plan="2/3of5,1of1"))
        owner.forget()
        owner.answer(plan, "1of2,1of1")
        owner.wait(plan)
        owner.expect(say("refused.31"))
        owner.lacks("2/1of2", "a plan is named that the program refuses")
        for typed, texts in [
            ("2 / 3-of-5, 1OF1", [say("plan.lost.one", names="1.0"), say("plan.found.group.one", groups="1")]),
            ("2of2", [say("plan.lost.any")]),
            ("1/1of1,2of3", [say("plan.found.one", names="0.0")]),
        ]:
            owner.answer(plan, typed)
            owner.answer(say("new.plan.sure"), "b")
            owner.answer(plan, typed)
            owner.settle()
            owner.wait(say("new.secret"))
            for text in texts:
                owner.expect(text)
            owner.answer(say("new.secret"), "b")
            owner.answer(say("new.wallet"), "b")
        owner.forget()
        owner.answer(plan, "2of3")
        owner.wait(say("new.wallet"))
        owner.lacks("is lost, the secret is lost", "one paper of 2of3 is said to be needed")
        end_by_keys(owner)


def check_spaces():
    """A space at the beginning or the end of a passphrase is asked about."""
    first, last = (f"{say(f'passphrase.space.{edge}')} (y/n)" for edge in ("first", "last"))
    with started("new", "2of3") as owner:
        owner.settle()
        owner.answer(say("new.secret"), "")
        owner.answer(say("new.passphrase"), "TREZOR ")
        owner.answer(last, "n")
        owner.answer(say("new.passphrase"), " TREZOR")
        owner.answer(first, "y")
        owner.answer(say("new.passphrase.again"), " TREZOR")
        owner.wait(say("new.write"))
        end_by_keys(owner)


def check_fingerprint():
    """After the digits of a secret are cleared, its fingerprint still shows, as it may not be noted yet."""
    with started("recover") as owner:
        owner.collect(THREE_GROUPS[3:])
        owner.passphrase(PASSPHRASE, "")
        owner.answer(f"{say('recover.show')} (y/n)", "y")
        owner.answer(say("recover.clear"), "")
        owner.wait(say("next.unnoted"))
        if FINGERPRINT not in owner.screen():
            raise Failed(f"the fingerprint was cleared together with the digits: {owner.screen()}")
        end_by_keys(owner)


CHECKS = [check_fingerprint, check_damaged, check_number, check_twice, check_written_wrongly, check_sign, check_left_out, check_plans, check_spaces]
check = in_turn(CHECKS)
