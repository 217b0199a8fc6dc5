"""Papers of which words were found and not read: how they are shown, which of several papers is blamed, and what a drill shows of them."""
from astray import PLAN
from hands import say
from refusals import NUMBERED, word_prompt
from slips import sure, write_anew
from tasks import SIGN, end_by_keys, in_turn, paper_prompt, started

from samples import FINGERPRINT, PASSPHRASE, SOUND_PAPER, THREE_GROUPS, changed, fingerprint_of, papers_of, swapped, with_words


def check_refused_repaired():
    """A paper of which words were found, and that is refused beside sound ones, is left out itself. A sound one is never blamed for it."""
    with started("check") as owner:
        owner.type_paper(paper_prompt(1), THREE_GROUPS[1])
        owner.answer(paper_prompt(2), with_words(changed(THREE_GROUPS[0], exponent=3), {6: "?"}))
        owner.answer(sure("0.0"), "y")
        owner.wait(paper_prompt(2))
        owner.expect("Most likely it is wrong, since words of it were found and not read. It is left out.")
        owner.lacks("To take a paper out again")
        owner.answer(paper_prompt(2), with_words(THREE_GROUPS[0], {6: "?"}))
        owner.answer(sure("0.0"), "y")
        owner.answer(paper_prompt(3), with_words(changed(THREE_GROUPS[0], value=bytes(16)), {6: "?"}))
        owner.answer(sure("0.0"), "y")
        owner.wait(paper_prompt(3))
        owner.expect(say("entry.drop", sign=SIGN, name="0.0"))
        end_by_keys(owner)


def check_read_later():
    """A paper that is typed with a question mark, and then in full, isn't damaged."""
    papers = papers_of("1of1")
    with started("check") as owner:
        owner.answer(paper_prompt(1), with_words(papers[0], {6: "?"}))
        owner.answer(sure("0.0"), "y")
        owner.type_paper(paper_prompt(2), papers[0])
        owner.wait(paper_prompt(2))
        owner.expect(say("collect.repeated", name="0.0"))
        owner.forget()
        owner.answer(paper_prompt(2), "")
        owner.passphrase("", fingerprint_of(papers, ""))
        owner.wait(say("next.good"))
        owner.expect(say("check.done.good"))
        owner.lacks("Write it anew")
        owner.finish(say("next.good"))


def check_miswritten():
    """A word that the paper says wrongly: the found word is taken, beside the one that the paper says."""
    papers = papers_of(PLAN)
    with started("check") as owner:
        owner.answer(paper_prompt(1), with_words(papers[3], {17: "acid"}))
        owner.answer(word_prompt(17), "?")
        owner.wait(sure("0.3"))
        owner.expect(f"{say('entry.place', number=17)}: {papers[3].split()[16]} {say('entry.place.typed', word='acid')}")
        owner.expect(say("entry.miswritten"))
        owner.answer(sure("0.3"), "y")
        owner.wait(paper_prompt(2))
        owner.expect(say("collect.row.repaired", name="0.3", words=20))
        owner.answer(paper_prompt(2), swapped(papers[4], 9))
        owner.answer(NUMBERED, "9 ? 10 ?")
        owner.answer(sure("0.4"), "y")
        owner.answer(paper_prompt(3), with_words(papers[0], {11: "emrald"}))
        owner.answer(word_prompt(11), "?")
        owner.wait(sure("0.0"))
        owner.expect(say("entry.place.typed", word="emrald"))
        owner.answer(sure("0.0"), "y")
        owner.type_paper(paper_prompt(4), papers[5])
        owner.forget()
        owner.answer(paper_prompt(5), "")
        owner.passphrase("", fingerprint_of(papers, ""))
        owner.wait(say("next.good"))
        owner.expect(say("check.done.damaged"))
        owner.expect("The papers 0.3, 0.4, 0.0 can't be read in full, or are miswritten.")
        owner.lacks(say("check.done.good"))
        end_by_keys(owner)


def check_impossible():
    """A paper that no backup has is never offered, though its words fit. If it is typed, its group is shown."""
    line = changed(SOUND_PAPER, group=12, group_count=10, group_threshold=7)
    told = say("damaged.impossible", name="12.0", groups="10 groups")
    marks = with_words(line, {5: "?", 6: "?", 7: "?"})
    with started("repair") as owner:
        owner.answer(say("damaged.ask"), marks)
        owner.answer(say("damaged.menu.none"), "w")
        owner.expect(told)
        owner.answer(say("damaged.menu.none"), "c")
        owner.answer(NUMBERED, SOUND_PAPER)
        owner.finish(say("damaged.menu"))
    # Two papers fit, and no backup has one of them. So perhaps no word that was typed is wrong.
    with started("repair") as owner:
        owner.answer(say("damaged.ask"), with_words(SOUND_PAPER, {2: "?", 3: "?", 6: "?"}))
        owner.wait(say("damaged.menu"))
        owner.expect(say("damaged.one", name="0.0"))
        owner.lacks("So a word that you typed is wrong")
        owner.finish(say("damaged.menu"))
    with started("check") as owner:
        owner.answer(paper_prompt(1), marks)
        owner.wait(NUMBERED)
        owner.expect(told)
        end_by_keys(owner)
    with started("check") as owner:
        owner.type_paper(paper_prompt(1), line)
        owner.wait(paper_prompt(2))
        owner.expect(say("status.group", group=12))
        end_by_keys(owner)


def check_repaired():
    """A repaired paper that is wrong: it's blamed, and not the good ones. If no drill shows that it is right, the damaged one is to be kept."""
    line = changed(THREE_GROUPS[0], value=bytes(16))
    with started("repair") as owner:
        owner.answer(say("damaged.ask"), with_words(line, {6: "?"}))
        owner.answer(say("damaged.menu"), "w")
        owner.answer(sure("0.0"), "n")
        owner.answer(say("damaged.menu"), "w")
        owner.answer(sure("0.0"), "y")
        owner.answer(say("new.write"), "")
        owner.type_paper(say("back.ask", name="0.0"), line)
        owner.type_paper(paper_prompt(2), changed(THREE_GROUPS[1], exponent=3))
        owner.wait(paper_prompt(2))
        owner.expect("Most likely paper 0.0 is wrong, of which words were found and not read.")
        owner.lacks("is of another backup, or forged")
        owner.collect(THREE_GROUPS[1:4], 2)
        owner.passphrase(PASSPHRASE, FINGERPRINT)
        owner.wait(say("next.papers"))
        owner.expect(say("damaged.drill"))
        owner.expect(say("damaged.suspect.one", names="0.0"))
        owner.expect(say("damaged.keep"))
        owner.finish(say("next.papers"), "closed.repaired")


def check_untried():
    """A repaired paper that is in no quorum: nothing says that it's right, and the damaged one is to be kept."""
    papers = papers_of("1/2of3,2of3")
    with started("repair") as owner:
        write_anew(owner, papers[3])
        owner.collect(papers[:2], 2)
        owner.passphrase("", fingerprint_of(papers[:2], ""))
        owner.wait(say("next.good"))
        owner.expect(say("check.done.left_out"))
        owner.expect(say("damaged.keep"))
        owner.lacks("is right: the drill gave your secret with it")
        owner.finish(say("next.good"), "closed.repaired")
    with started("check") as owner:
        owner.type_paper(paper_prompt(1), papers[0])
        for number, name, paper in [(2, "0.1", papers[1]), (3, "1.0", papers[3])]:
            owner.answer(paper_prompt(number), with_words(paper, {6: "?"}))
            owner.answer(sure(name), "y")
        owner.answer(paper_prompt(4), "")
        # Of the two repaired papers, only 0.1 is tried.
        owner.passphrase("", fingerprint_of(papers[:2], ""))
        owner.wait(say("next.good"))
        owner.expect(say("damaged.keep"))
        owner.finish(say("next.good"))
    with started("repair") as owner:
        # 0.1 is written anew, and tried; 1.0 isn't.
        write_anew(owner, papers[1])
        owner.type_paper(paper_prompt(2), papers[0])
        owner.answer(paper_prompt(3), with_words(papers[3], {6: "?"}))
        owner.answer(sure("1.0"), "y")
        owner.answer(paper_prompt(4), "")
        owner.passphrase("", fingerprint_of(papers[:2], ""))
        owner.wait(say("next.good"))
        owner.expect(say("damaged.right.one", names="0.1"))
        owner.expect(say("damaged.keep"))
        owner.finish(say("next.good"), "closed.repaired")


def check_taken_out():
    """A paper that was written anew and taken out again: a good drill of the others doesn't show that its words are right. If
    it is typed once more, it does."""
    papers = papers_of("2of3")
    with started("repair") as owner:
        write_anew(owner, papers[0])
        owner.answer(paper_prompt(2), f"{SIGN}0.0")
        owner.collect(papers[1:])
        owner.passphrase("", fingerprint_of(papers, ""))
        owner.wait(say("next.good"))
        owner.expect(say("damaged.keep"))
        owner.answer(say("next.good"), "p")
        owner.type_paper(paper_prompt(3), papers[0])
        owner.forget()
        owner.answer(paper_prompt(4), "")
        owner.passphrase("", fingerprint_of(papers, ""))
        owner.wait(say("next.good"))
        owner.expect(say("damaged.right.one", names="0.0"))
        owner.finish(say("next.good"), "closed")


def check_proved():
    """Once a drill has shown that the words of a repaired paper are right, it isn't blamed any more."""
    papers = papers_of("2of3")
    noted = fingerprint_of(papers, "")
    with started("repair") as owner:
        write_anew(owner, papers[1])
        owner.collect(papers[:1], 2)
        owner.passphrase("", noted)
        owner.wait(say("next.good"))
        owner.expect(say("damaged.right.one", names="0.1"))
        owner.forget()
        owner.answer(say("next.good"), "p")
        owner.answer(paper_prompt(3), f"{SIGN}0.0")
        owner.type_paper(paper_prompt(2), changed(papers[2], exponent=3))
        owner.wait(paper_prompt(2))
        owner.expect(say("refused.23"))
        owner.type_paper(paper_prompt(2), changed(papers[2], value=bytes(16)))
        owner.answer(paper_prompt(3), "")
        owner.passphrase("", noted)
        owner.wait(say("next.papers"))
        owner.lacks("Most likely paper 0.1 is wrong")
        owner.lacks(say("damaged.keep"))
        owner.finish(say("next.papers"), "closed")


def check_whole():
    """A damaged paper that can be read in full, and is written anew: a good drill with it shows that it works, and nothing is to be kept."""
    # The paper itself says that its group needs one paper.
    for line, name, others in [(THREE_GROUPS[0], "0.0", THREE_GROUPS[1:4]), (THREE_GROUPS[4], "2.0", THREE_GROUPS[:3])]:
        with started("repair") as owner:
            owner.answer(say("damaged.ask"), line)
            owner.answer(say("damaged.menu"), "w")
            owner.answer(say("new.write"), "")
            owner.type_paper(say("back.ask", name=name), line)
            owner.collect(others, 2)
            owner.passphrase(PASSPHRASE, FINGERPRINT)
            owner.wait(say("next.good"))
            owner.expect(say("replace.right.one", names=name))
            owner.lacks(say("damaged.keep"))
            owner.finish(say("next.good"), "closed")
    with started("repair") as owner:
        owner.answer(say("damaged.ask"), THREE_GROUPS[0])
        owner.answer(say("damaged.menu"), "w")
        owner.answer(say("new.write"), "")
        owner.type_paper(say("back.ask", name="0.0"), THREE_GROUPS[0])
        # No quorum of these has it.
        owner.collect(THREE_GROUPS[3:], 2)
        owner.passphrase(PASSPHRASE, FINGERPRINT)
        owner.wait(say("next.good"))
        owner.expect(say("damaged.keep"))
        owner.finish(say("next.good"), "closed.repaired")


def check_few():
    """Of too few papers, nothing says that the words are right which were found."""
    with started("check") as owner:
        owner.answer(paper_prompt(1), with_words(THREE_GROUPS[0], {6: "?", 9: "?", 12: "?"}))
        owner.answer(sure("0.0"), "y")
        owner.answer(paper_prompt(2), "")
        owner.wait(say("more.papers"))
        owner.expect(say("damaged.too_few"))
        owner.lacks("the checksum finds no wrong word")
        owner.finish(say("more.papers"))


def check_lone():
    """A paper written again whose group needs one paper, as only the owner says: a drill doesn't show that this is so, and nothing says that
    no paper is missing. The answer is wrong here."""
    papers = papers_of("2/1of1,1of1,2of3", PASSPHRASE)
    for noted in (fingerprint_of(papers, PASSPHRASE), ""):
        with started("replace") as owner:
            owner.reply(say("replace.how"), "1")
            owner.collect(papers[:2])
            owner.reply(say("replace.choose"), "2.0")
            owner.reply(say("which.ask.needed", group=2), "1")
            owner.wait(owner.question("new.write"))
            written = owner.words()
            owner.reply(owner.question("new.write"), "")
            owner.type_paper(say("back.ask", name="2.0"), written)
            owner.wait(say("replace.choose.none"))
            owner.expect(say("replace.none.answered.one", names="2.0"))
            owner.lacks(say("replace.none"))
            owner.reply(say("replace.choose.none"), "d")
            owner.passphrase(PASSPHRASE, noted)
            owner.wait(say("next.good" if noted else "next.unnoted"))
            owner.expect(f"{say('check.done.answered')} [!] {say('replace.lone.one', names='2.0')}")
            owner.lacks("[ok]", "what rests on an answer is called right")
            owner.finish(say("next.good" if noted else "next.unnoted"))


def check_untyped():
    """What wasn't typed is named together with what was found: a paper before others, a group without papers, or any other."""
    two, five = papers_of("2of3"), papers_of("2/2of4,1of1,1of1")
    for papers, lines, told in [
        (two, [two[0], two[2]], f"{say('verdict.untried.one', names='0.1')} {say('verdict.untried.others')}"),
        (two, two[:2], say("verdict.untried.others")),
        (five, [five[0], five[3], five[4]], f"{say('verdict.untried.many', names='0.1, 0.2')} {say('verdict.untried.group.one', names='2')} {say('verdict.untried.others')}"),
    ]:
        noted = fingerprint_of(papers, "")
        for fingerprint, key, prompt in [(noted, "noted", "next.good"), ("", "same", "next.unnoted")]:
            with started("check") as owner:
                owner.collect(lines)
                owner.passphrase("", fingerprint)
                owner.wait(say(prompt))
                sign = "[ok] " if fingerprint else ""
                owner.expect(f"{sign}{say(f'verdict.all.{key}', quorums='1 quorum', fingerprint=noted)} {told}")
                owner.finish(say(prompt))


def check_alone():
    """Inside a backup of one paper, nothing is compared. So words that were found in it are in doubt before all else."""
    [paper] = papers_of("1of1", PASSPHRASE)
    wrong, noted = changed(paper, value=bytes(16)), fingerprint_of([paper], PASSPHRASE)
    for task in ("check", "recover"):
        for line, fingerprint, prompt in [(wrong, "", "next.unnoted"), (wrong, noted, "next.again"), (paper, noted, "next.good")]:
            with started(task) as owner:
                owner.answer(paper_prompt(1), with_words(line, {6: "?"}))
                owner.answer(sure("0.0"), "y")
                owner.answer(paper_prompt(2), "")
                owner.passphrase(PASSPHRASE, fingerprint)
                if task == "recover" and prompt != "next.again":
                    owner.answer(f"{say('recover.show')} (y/n)", "n")
                owner.wait(say(prompt))
                doubt = f"[!] {say('damaged.doubt', names='0.0')}"
                if line == wrong:
                    title = say("check.done.doubt") if task == "check" else say(f"recover.done.{'other' if fingerprint else 'unnoted'}")
                    owner.expect(f"{title} {doubt}")
                else:
                    owner.lacks(doubt)
                owner.lacks("Every quorum of these papers gives the same")
                owner.finish(say(prompt))
    with started("check") as owner:
        owner.collect([paper])
        owner.passphrase(PASSPHRASE, "")
        owner.wait(say("next.unnoted"))
        owner.expect(f"{say('check.done.one')} {say('verdict.one.same', fingerprint=noted)}")
        owner.finish(say("next.unnoted"))


CHECKS = [
    check_whole,
    check_alone,
    check_untyped,
    check_proved,
    check_few,
    check_lone,
    check_refused_repaired,
    check_read_later,
    check_miswritten,
    check_impossible,
    check_repaired,
    check_untried,
    check_taken_out,
]
check = in_turn(CHECKS)
