"""Where an owner who reads only the screen could go astray: papers that don't work, results that say too much, and questions whose honest
answer must lead on."""
import os

from hands import END, Failed, counted, say
from refusals import NUMBERED, word_prompt
from slips import sure
from tasks import SIGN, end_by_keys, in_turn, paper_prompt, started

from samples import FINGERPRINT, PASSPHRASE, SECRET, SOUND_PAPER, THREE_GROUPS, changed, fingerprint_of, name_of, named, papers_of, swapped, with_words

PLAN = "2/3of5,1of1"


def leave_out_two(owner, papers):
    """Types paper 0.3 with a wrong word, and paper 0.4 with two words that changed places, and leaves both out."""
    owner.answer(paper_prompt(1), with_words(papers[3], {17: "acid"}))
    owner.wait(word_prompt(17))
    owner.expect("If the paper says the same, it is miswritten: type ?")
    owner.answer(word_prompt(17), SIGN)
    owner.answer(paper_prompt(1), swapped(papers[4], 9))
    owner.wait(NUMBERED)
    owner.expect("If they agree, the paper itself is wrong: type ? for up to 3 words that may be wrong.")
    owner.answer(NUMBERED, SIGN)


def check_left_out():
    """Papers that were begun and left out are counted in the result, until they are typed soundly. Those that were tried are named."""
    papers = papers_of(PLAN)
    noted = fingerprint_of(papers, "")
    with started("check") as owner:
        owner.wait(paper_prompt(1))
        owner.expect("Have the passphrase at hand too, if there is one, and the fingerprint that you noted.")
        leave_out_two(owner, papers)
        owner.collect([*papers[:3], papers[5]])
        for left, more, title in [(2, papers[3], "left_out"), (1, papers[4], "left_out"), (0, "", "good")]:
            owner.forget()
            owner.passphrase("", noted)
            owner.wait(say("next.good"))
            owner.expect(say(f"check.done.{title}"))
            tried = [line for line in papers if left == 0 or line in papers[:3] + papers[5:] or (left == 1 and line == papers[3])]
            owner.expect(say("verdict.papers", names=named(tried)))
            owner.lacks(say("check.done.good" if left else "check.done.left_out"))
            owner.lacks("left out" if not left else "The papers that you typed have no others")
            if left:
                owner.expect(counted(left, "left"))
                owner.answer(say("next.good"), "p")
                number = 7 - left
                owner.wait(paper_prompt(number))
                owner.type("\x03")
                owner.wait(END)
                owner.answer(END, "n")
                owner.type_paper(paper_prompt(number), more)
                owner.reply(paper_prompt(number + 1), "")
        owner.finish(say("next.good"))


def check_refused():
    """A sound paper that can't be of one backup with the others is left out too."""
    with started("check") as owner:
        owner.collect([THREE_GROUPS[3]])
        owner.answer(say("more.papers"), "")
        owner.type_paper(paper_prompt(2), changed(THREE_GROUPS[3], value=bytes.fromhex(SECRET)))
        owner.collect([THREE_GROUPS[4]], 2)
        owner.passphrase(PASSPHRASE, FINGERPRINT)
        owner.wait(say("next.good"))
        owner.expect(say("check.done.left_out"))
        owner.expect(say("left.sound.one", names="1.0"))
        owner.lacks(counted(1, "left"))
        end_by_keys(owner)


def check_pasted_papers():
    """Papers that are pasted with empty lines between them are all taken, however their lines end, and none answers the question for the
    passphrase."""
    papers = papers_of("2of3")
    for end in ("\n", "\r", "\r\n"):
        for last in ("", end, end + end):
            with started("check") as owner:
                owner.wait(paper_prompt(1))
                owner.type("".join(f"{end}{line}{end}" for line in papers) + last)
                owner.wait(paper_prompt(4))
                owner.expect(say("paste.taken", names="0.0, 0.1, 0.2"))
                owner.lacks(say("collect.none"))
                while owner.pull(0.2):
                    pass
                # A terminal can send both for the key.
                owner.type(end)
                owner.wait(say("passphrase.ask"))
                end_by_keys(owner)


def check_replace_again():
    """After a paper was written, the owner may go back to all tasks, and begin with other papers."""
    papers = papers_of("2of3")
    with started("replace") as owner:
        owner.answer(say("replace.how"), "1")
        owner.collect(papers[:2])
        owner.answer(say("replace.choose.only"), "0.2")
        owner.answer(say("new.write"), "")
        owner.type_paper(say("back.ask", name="0.2"), papers[2])
        owner.answer(say("replace.choose.only"), "b")
        for number in (4, 3, 2):
            owner.answer(paper_prompt(number), f"{SIGN}0.{number - 2}")
        owner.answer(paper_prompt(1), "b")
        owner.answer(say("home.choose"), "replace")
        owner.answer(say("replace.how"), "1")
        other = papers_of("3of5")
        owner.collect(other[:2])
        owner.answer(say("more.papers"), other[2])
        owner.answer(paper_prompt(4), "")
        # What was written before is none of these papers, so the missing one is asked for.
        owner.answer(say("replace.choose.only"), "0.3")
        owner.wait(say("new.write"))
        owner.type("\x04")
        owner.end(130, "ended.replaced")


def check_too_few():
    """Too few papers: those that were left out are told. A paper that is typed at the question whether to type more is the next one."""
    papers = papers_of(PLAN)
    for task in ("check", "recover", "replace"):
        with started(task) as owner:
            if task == "replace":
                owner.answer(say("replace.how"), "1")
            leave_out_two(owner, papers)
            owner.collect(papers[:1])
            owner.wait(say("more.papers"))
            owner.expect(counted(2, "left"))
            owner.answer(say("more.papers"), "perhaps")
            # Here each word stands in a line of its own.
            owner.answer(say("more.papers"), papers[1].split()[0])
            owner.type(papers[1].partition(" ")[2].replace(" ", "\n") + "\n")
            owner.wait(paper_prompt(3))
            owner.expect(say("collect.taken", name="0.1"))
            end_by_keys(owner)


def check_instead():
    """New papers in place of a lost one: the owner is told of the task that makes them, and that it may be of no use."""
    with started("replace") as owner:
        owner.answer(say("replace.how"), "2")
        owner.answer(say("replace.new.choose"), "")
        owner.answer(say("replace.new.choose"), "b")
        owner.answer(say("replace.how"), "2")
        owner.wait(say("replace.new.choose"))
        owner.expect("'Change the plan' (change) writes new papers from those that you have")
        owner.expect("or if you don't have enough of them to recover it. Then make a new wallet while the old one still works")
        owner.finish(say("replace.new.choose"))


def check_letter():
    """The letter that goes back elsewhere, as a passphrase: the program asks. No answer to a question about a passphrase shows."""
    first, again, ask = say("new.passphrase"), say("new.passphrase.again"), say("passphrase.ask")
    back = f"{say('passphrase.back')} {say('screen.yes.back')}"
    papers = papers_of("1of1")
    with started("new", "1of1") as owner:
        owner.settle()
        owner.answer(say("new.secret"), "")
        owner.answer(first, "b")
        owner.answer(back, "b")
        owner.answer(say("new.secret"), "")
        owner.answer(first, "x" * 2001)
        owner.wait(first)
        owner.expect(say("screen.long"))
        owner.answer(first, "x" * 1025)
        owner.wait(first)
        owner.expect(say("new.passphrase.long", most="1,024"))
        owner.answer(first, "B")
        owner.answer(back, "n")
        owner.answer(first, "TREZOR ")
        space = f"{say('passphrase.space.last')} (y/n)"
        owner.answer(space, "TREZOR ")
        owner.answer(space, "n")
        owner.answer(first, "b")
        owner.answer(back, "y")
        owner.answer(again, "b")
        line = owner.written()[0]
        owner.answer(say("screen.next"), "")
        owner.answer(say("back.ask", name="0.0"), line)
        owner.answer(say("noted.done"), "")
        owner.prove(owner.noted(), "b")
        owner.wait(say("screen.end"))
        owner.expect("This backup has a passphrase: keep it in another place.")
        owner.expect(say("make.note", said="this one paper recovers the secret", plan="1of1"))
        if b"TREZOR" in owner.raw:
            raise Failed("a passphrase shows that was typed in place of an answer")
        owner.finish(say("screen.end"))
    if name_of(line) != "0.0" or fingerprint_of([line], "b") == fingerprint_of([line], ""):
        raise Failed("the passphrase isn't the letter")
    for task in ("check", "recover"):
        with started(task) as owner:
            owner.collect(papers)
            owner.answer(ask, "b")
            owner.answer(back, "b")
            owner.answer(paper_prompt(2), "")
            owner.answer(ask, "b")
            owner.answer(back, "y")
            owner.answer(say("noted.ask"), fingerprint_of(papers, "b"))
            if task == "recover":
                owner.answer(f"{say('recover.show')} (y/n)", "n")
            owner.finish(say("next.good"))


def check_without():
    """A backup without a passphrase says so. 'quorum' is explained, a paper is said to be typed back in one way, and plans have examples."""
    with started("new", os.fsdecode(b"2of3\xff")) as owner:
        owner.wait(say("new.plan.choose"))
        owner.expect(say("refused.31"))
        end_by_keys(owner)
    with started("new", "3/5") as owner:
        for plan in ("2 out of 3", "2/3:5,1of1"):
            owner.wait(say("new.plan.choose"))
            owner.expect("2of3, or 2/3of5,1of1 with groups.")
            owner.forget()
            owner.answer(say("new.plan.choose"), plan)
        owner.wait(say("new.plan.choose"))
        owner.expect("This isn't a plan. Plans are typed so: 2of3")
        owner.answer(say("new.plan.choose"), "1of1")
        owner.settle()
        owner.draw()
        line = owner.written()[0]
        owner.answer(say("screen.next"), "")
        owner.wait(say("back.ask", name="0.0"))
        owner.lacks("Type the words in their order")
        owner.answer(say("back.ask", name="0.0"), line)
        owner.wait(say("noted.done"))
        owner.lacks("helps to guess the passphrase")
        owner.answer(say("noted.done"), "")
        owner.prove(owner.noted(), "")
        owner.wait(say("screen.end"))
        owner.expect(say("quorum.what"))
        owner.expect("This backup has no passphrase.")
        owner.expect("This paper alone recovers the secret, so keep it where nobody finds it.")
        owner.lacks("if there is one, in another place")
        owner.finish(say("screen.end"))


def check_end():
    """Once a paper was typed, Ctrl-C and Ctrl-D ask, and a second Ctrl-C ends. What may be destroyed is told in full."""
    for task, keys in [("check", "\x03"), ("recover", "\x04"), ("replace", "\x03")]:
        with started(task) as owner:
            if task == "replace":
                owner.answer(say("replace.how"), "1")
            owner.type_paper(paper_prompt(1), THREE_GROUPS[0])
            owner.wait(paper_prompt(2))
            owner.type(keys)
            owner.wait(END)
            owner.expect(say("end.typed"))
            owner.answer(END, "n")
            owner.wait(paper_prompt(2))
            owner.expect(say("collect.taken", name="0.0"))
            owner.type(keys)
            owner.wait(END)
            owner.type("\x03")
            owner.was_asked = True
            owner.end(130)
    with started("repair") as owner:
        owner.answer(say("damaged.ask"), with_words(SOUND_PAPER, {7: "acid"}))
        owner.answer(word_prompt(7), "?")
        owner.wait(say("damaged.menu"))
        owner.expect(f"{say('entry.place', number=7)}: length {say('entry.place.typed', word='acid')}")
        owner.expect(say("entry.miswritten"))
        end_by_keys(owner)
    with started("repair") as owner:
        owner.answer(say("damaged.ask"), with_words(SOUND_PAPER, {7: "?"}))
        owner.wait(say("damaged.menu"))
        owner.type("\x03")
        owner.wait(END)
        owner.answer(END, "n")
        owner.finish(say("damaged.menu"))


def check_back():
    """From the first paper, the owner may go back to all tasks, and from the fingerprint to the passphrase."""
    with started("check") as owner:
        owner.answer(paper_prompt(1), "b")
        owner.answer(say("home.choose"), "repair")
        owner.answer(say("damaged.ask"), "B")
        owner.answer(say("home.choose"), "recover")
        owner.collect(papers_of("1of1"))
        owner.answer(say("passphrase.ask"), "wrong")
        owner.answer(say("noted.ask"), "b")
        owner.passphrase("", fingerprint_of(papers_of("1of1"), ""))
        owner.wait(f"{say('recover.show')} (y/n)")
        owner.expect(say("recover.done.same"))
        end_by_keys(owner)


def check_lost():
    """The only paper of a group without which nothing is recovered: nothing else gives it."""
    papers = papers_of(PLAN)
    with started("replace") as owner:
        owner.answer(say("replace.how"), "1")
        owner.collect(papers[:4])
        owner.answer(say("replace.choose"), "1.0")
        owner.answer(say("which.ask.needed", group=1), "1")
        owner.wait(say("replace.choose"))
        owner.expect(f"{say('which.untold', name='1.0')} No other papers give it. If your wallet still works, make a new wallet, and move your money to it.")
        owner.lacks("Or it takes")
        owner.answer(say("replace.choose"), "0.4")
        owner.answer(say("new.write"), "")
        owner.type_paper(say("back.ask", name="0.4"), papers[4])
        owner.wait(say("replace.choose"))
        owner.type("\x03")
        owner.wait(END)
        owner.expect("destroy only a paper written now and not typed back. Keep all others: your old ones, and those typed back.")
        owner.answer(END, "n")
        owner.forget()
        owner.answer(say("replace.choose"), "d")
        owner.wait(say("more.papers"))
        owner.expect(say("replace.done"))
        owner.lacks(say("replace.few"))
        # With enough papers, the drill comes next.
        owner.answer(say("more.papers"), papers[5])
        owner.answer(paper_prompt(7), "")
        owner.passphrase("", fingerprint_of(papers[:3] + papers[5:], ""))
        owner.wait(say("next.good"))
        owner.expect(say("check.done.written"))
        owner.finish(say("next.good"))


def check_unsaid():
    """What a terminal that can't be cleared does, a passphrase that wasn't typed, and a paper of another backup."""
    with started("new", "1of1", TERM="dumb") as owner:
        owner.settle()
        owner.draw()
        if b"cleared then" in owner.raw:
            raise Failed("words are said to be cleared that stay")
        end_by_keys(owner)
    for task, told in [("check", "the backup most likely has a passphrase, and you typed none."), ("recover", "the backup most likely has a passphrase: try again, and type it.")]:
        with started(task) as owner:
            owner.type_paper(paper_prompt(1), THREE_GROUPS[0])
            owner.type_paper(paper_prompt(2), SOUND_PAPER)
            owner.wait(paper_prompt(3))
            owner.expect("so it is of another backup than the papers before")
            for number, line in enumerate(THREE_GROUPS[1:4], 3):
                owner.type_paper(paper_prompt(number), line)
            owner.forget()
            owner.answer(paper_prompt(6), "")
            owner.answer(say("backup.choose"), "1")
            owner.passphrase("", FINGERPRINT)
            owner.wait(say("next.again"))
            owner.expect(told)
            owner.lacks("With this passphrase")
            owner.lacks("the passphrase is mistyped")
            end_by_keys(owner)


def check_line():
    """A line that stands for a word that can't be read is a question mark."""
    with started("check") as owner:
        owner.answer(paper_prompt(1), with_words(SOUND_PAPER, {7: "_", 9: "fr__"}))
        owner.wait(sure("0.0"))
        owner.expect(f"{say('entry.place', number=7)}: length")
        owner.expect(f"{say('entry.place', number=9)}: fridge")
        end_by_keys(owner)


def check_size():
    """A terminal that gets another size shows a paper anew, and any other screen as it was."""
    with started("new", "1of1", columns=80, rows=24) as owner:
        owner.settle()
        words = owner.draw()
        for columns, rows in [(40, 30), (80, 24)]:
            owner.resize(columns, rows)
            owner.wait(say("new.write"))
            if owner.words() != words:
                raise Failed(f"with {columns} columns, the words of a paper are {owner.words()!r}")
        owner.resize(40, 12)
        owner.wait_full()
        owner.forget()
        owner.resize(80, 24)
        # Nothing is typed where the screen was full.
        owner.expect(say("new.write"))
        if owner.words() != words:
            raise Failed("after the terminal was small, words of a paper are missing")
        owner.answer(say("new.write"), "")
        owner.wait(say("screen.next"))
        shown = owner.screen()
        owner.resize(40, 30)
        owner.resize(80, 24)
        owner.wait(say("screen.next"))
        if owner.screen() != shown:
            raise Failed(f"after another size, the screen shows {owner.screen()!r}, and not {shown!r}")
        end_by_keys(owner)


CHECKS = [
    check_left_out,
    check_refused,
    check_pasted_papers,
    check_replace_again,
    check_too_few,
    check_instead,
    check_letter,
    check_without,
    check_end,
    check_back,
    check_lost,
    check_unsaid,
    check_line,
    check_size,
]
check = in_turn(CHECKS)
