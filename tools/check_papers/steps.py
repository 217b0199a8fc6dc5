"""What an owner can answer in the tasks 'new', 'replace' and 'repair', the ways back, and answers where the screen is full."""
from hands import MORE, Failed, say
from refusals import NUMBERED, back_prompt, word_prompt
from tasks import DIGITS, SIGN, end_by_keys, in_turn, paper_prompt, started

import plain
from samples import FINGERPRINT, PASSPHRASE, SECRET, SOUND_PAPER, THREE_GROUPS, TWO, papers_of, with_words

MENU = say("home.choose")


def check_new():
    """Plans, digits and passphrases that are refused, papers that are typed back wrongly, and the owner's own secret."""
    with started("new", "1of3", has=DIGITS) as owner:
        owner.wait(say("new.plan.choose"))
        owner.expect(say("refused.34", first=0))
        if MORE.encode() in owner.raw:
            raise Failed("the screen is full right before a question")
        owner.answer(say("new.plan.choose"), "3of2")
        owner.answer(say("new.plan.choose"), "two of three")
        owner.expect(say("refused.33", first=0))
        owner.answer(say("new.plan.choose"), "1")
        owner.expect(say("refused.31"))
        owner.answer(say("new.wallet"), "")
        owner.answer(say("new.wallet"), "2")
        owner.expect(say("wallet.flag.hint"))
        owner.answer(say("new.words"), "3")
        owner.answer(say("new.words"), "b")
        owner.answer(say("new.wallet"), "2")
        owner.answer(say("new.words"), "20")
        owner.answer(say("new.secret"), "3")
        owner.answer(say("new.secret"), "m")
        owner.answer(say("new.exponent"), "b")
        owner.answer(say("new.secret"), "m")
        owner.answer(say("new.exponent"), "16")
        owner.answer(say("new.exponent"), "15")
        owner.expect(say("more.exponent.wrong"))
        owner.answer("and much longer on a hardware wallet. Is that right? (y/n)", "n")
        owner.answer(say("new.exponent"), "0")
        owner.answer(say("new.secret"), "")
        type_own_secret(owner)
        owner.answer(say("new.passphrase"), "Straße")
        owner.answer(say("new.passphrase"), "")
        owner.expect(say("refused.41", first=5))
        without = f"{say('new.passphrase.none')} {say('screen.yes')}"
        owner.answer(without, "b")
        owner.answer(without, "n")
        owner.answer(say("new.passphrase"), "one")
        owner.answer(say("new.passphrase.again"), "two")
        owner.answer(say("new.passphrase"), PASSPHRASE)
        owner.expect(say("passphrase.differ"))
        owner.answer(say("new.passphrase.again"), PASSPHRASE)
        papers = owner.written()
        type_back(owner, papers)
        owner.wait(say("noted.done.own"))
        owner.expect(say("noted.own"))
        owner.expect(say("noted.apart"))
        owner.answer(say("noted.done.own"), "")
        prove(owner)
        owner.wait(say("screen.end"))
        owner.expect(f"[ok] {say('verdict.all.noted', quorums='3 quorums', fingerprint=FINGERPRINT)}")
        owner.expect(say("make.restore"))
        owner.expect(say("make.own"))
        # The drill said it too, on the screen before.
        owner.forget()
        owner.expect(say("quorum.what"))
        owner.finish(say("screen.end"))
        fields = plain.parse(papers[0].encode())
        if (fields["extendable"], fields["exponent"]) != (0, 0):
            raise Failed("the flag and the exponent that were asked for aren't in the papers")


def prove(owner):
    """Types a fingerprint and a passphrase that are wrong, and then right ones. Until then the backup isn't made."""
    ask = say("proof.ask.own", sign=SIGN)
    for typed, text in [("xyz", say("proof.wrong")), ("01234567", say("proof.other"))]:
        owner.answer(ask, typed)
        owner.wait(ask)
        owner.expect(text)
    owner.answer(ask, "")
    owner.answer(say("noted.done.own"), "")
    owner.answer(ask, FINGERPRINT.upper())
    for passphrase, key in [("TREZER", "proof.passphrase"), ("", "proof.passphrase.none")]:
        owner.answer(say("passphrase.ask"), passphrase)
        owner.wait(say("make.failed.again"))
        owner.expect(say(key))
        owner.expect(say("proof.passphrase.then"))
        owner.answer(say("make.failed.again"), "t")
    owner.lacks(say("make.done"), "the backup is said to be made before the passphrase is right")
    owner.answer(say("passphrase.ask"), PASSPHRASE)


def type_own_secret(owner):
    """Types digits that are refused, digits that differ, and digits that have another fingerprint than the noted one, and then those of
    the secret. No paper is shown before."""
    digits = say("new.secret.digits")
    owner.answer(say("secret.from.choose"), "1")
    for typed, text in [
        ("bb54g", say("secret.not_hex", place=5)),
        (f"bb54 {SECRET[4:31]}z", say("secret.not_hex", place=32)),
        ("", say("secret.missing")),
        (SECRET[:31], say("secret.odd", digits=31)),
        (SECRET[:30], say("refused.42", first=15)),
    ]:
        owner.answer(digits, typed)
        owner.wait(digits)
        owner.expect(text)
    owner.answer(digits, SECRET)
    owner.answer(say("new.secret.again"), f"{SECRET[:-1]}0")
    owner.wait(digits)
    owner.expect(say("secret.differ"))
    wrong = f"{SECRET[:-1]}0"
    owner.answer(digits, wrong)
    owner.answer(say("new.secret.again"), wrong)
    owner.answer(say("noted.ask"), FINGERPRINT)
    owner.answer(say("noted.again"), "")
    owner.expect(say("secret.other", fingerprint=by_digits(wrong), noted=FINGERPRINT))
    owner.answer(say("noted.again"), "b")
    owner.answer(digits, f"{SECRET[:16]} {SECRET[16:].upper()}")
    owner.answer(say("new.secret.again"), SECRET)
    owner.wait(say("noted.ask"))
    owner.expect(say("new.secret.count", digits=32, bytes=16))
    owner.answer(say("noted.ask"), "xyz")
    # After a mistyped fingerprint, the fingerprint alone is typed again.
    owner.answer(say("noted.ask"), "01234567")
    owner.answer(say("noted.again"), FINGERPRINT)
    owner.wait(say("new.passphrase"))
    owner.expect(say("noted.wrong"))
    owner.expect(say("noted.again.wrong"))
    owner.expect(say("secret.same"))
    if say("new.write") in owner.asked:
        raise Failed("a paper is shown before the digits are right")


def by_digits(digits):
    """Returns the fingerprint of a secret, by the plain reading."""
    return plain.told(bytes.fromhex(digits), True)


def type_back(owner, papers):
    """Types three papers back: first another one, one of another backup, and a look at the first again."""
    owner.answer(say("screen.next"), "")
    first = say("back.ask", name="0.0")
    owner.answer(first, papers[1])
    owner.wait(first)
    owner.expect(say("back.other", name="0.0", typed="0.1"))
    owner.answer(first, SOUND_PAPER)
    owner.wait(first)
    owner.expect(say("back.foreign", name="0.0", typed="0.0"))
    owner.answer(first, TWO[0])
    owner.wait(first)
    owner.expect(say("back.foreign", name="0.0", typed="0.2"))
    owner.answer(first, with_words(papers[0], {1: "?"}))
    owner.answer(back_prompt(1), SIGN)
    owner.expect(say("entry.mark.none", number=1, word="?"))
    owner.answer(first, "")
    owner.wait(say("new.write"))
    if owner.words() != papers[0]:
        raise Failed("the paper that is shown again isn't the first")
    owner.answer(say("new.write"), "")
    for at, line in enumerate(papers):
        owner.answer(say("back.ask", name=f"0.{at}"), line)


def check_replace():
    """A paper that may be in other hands, plans that don't fit, and papers that aren't determined."""
    with started() as owner:
        owner.answer(MENU, "replace")
        owner.wait(say("replace.how"))
        owner.expect("first try 'Read a damaged paper' (repair)")
        owner.answer(say("replace.how"), "2")
        owner.answer(say("replace.new.choose"), "b")
        owner.answer(say("replace.how"), "2")
        owner.wait(say("replace.new.choose"))
        owner.expect(say("replace.new.move"))
        owner.finish(say("replace.new.choose"))
    with started("replace") as owner:
        owner.answer(say("replace.how"), "1")
        owner.collect(THREE_GROUPS[:1])
        owner.wait(say("more.papers"))
        owner.expect(say("replace.none_yet"))
        owner.answer(say("more.papers"), "")
        owner.collect([THREE_GROUPS[1]], 2)
        choose = say("replace.choose")
        owner.wait(choose)
        for name, key in [("0.2", "after"), ("1.0", "of_group"), ("2.0", "of_group")]:
            owner.expect(f"{name} {say(f'which.{key}', group=name[0])}")
        ask_names(owner)
        owner.answer(say("which.ask.needed", group=1), "b")
        owner.collect([THREE_GROUPS[3]], 3)
        owner.answer(choose, "2.0")
        owner.answer(say("which.ask.needed", group=2), "1")
        owner.wait(say("new.write"))
        if owner.words() != THREE_GROUPS[4]:
            raise Failed("the paper that is written again has other words")
        end_by_keys(owner)


def ask_names(owner):
    """A name that no missing paper has, and papers that can't be written: the owner hears why, and is asked again. A number that stands in a
    list is no name."""
    choose = say("replace.choose")
    for typed, told in [
        ("2", say("which.name.wrong")),
        ("0.16", say("which.name.wrong")),
        ("0.2 0.3", say("which.name.wrong")),
        ("", say("which.name.wrong")),
        ("3.0", say("which.beyond", groups="3 groups")),
        ("0.1", say("which.here", name="0.1")),
    ]:
        owner.forget()
        owner.answer(choose, typed)
        owner.wait(choose)
        owner.expect(told)
    for name, group, needed, why in [
        ("1.0", 1, "1", "That takes 2 complete groups besides group 1, and you have 1 so far."),
        ("2.1", 2, "2", "That takes 2 papers more of group 2. Or it takes 1 paper more of group 2, and"),
    ]:
        owner.answer(choose, name)
        owner.answer(say("which.ask.needed", group=group), "17")
        owner.wait(say("which.ask.needed", group=group))
        owner.expect(say("which.needed.hint"))
        owner.expect(say("which.needed.wrong"))
        owner.answer(say("which.ask.needed", group=group), needed)
        owner.wait(choose)
        owner.expect(f"{say('which.untold', name=name)} {why}")
    owner.answer(choose, "d")
    owner.answer(say("more.papers"), "")
    owner.answer(paper_prompt(3), "")
    owner.answer(choose, "1.0")


def check_repair():
    """Two papers that fit, none, a wrong word, and too many open words."""
    menu = say("damaged.menu")
    with started("repair") as owner:
        ask = say("damaged.ask")
        owner.answer(ask, with_words(SOUND_PAPER, {1: "?", 2: "?", 3: "?", 4: "?"}))
        owner.answer(NUMBERED, SIGN)
        owner.expect(say("damaged.refused.19", first=4))
        owner.answer(ask, with_words(SOUND_PAPER, {3: "acad?", 4: "acax?"}))
        owner.answer(word_prompt(4), "?")
        owner.expect(say("entry.mark", number=4, word="acax?"))
        owner.wait(menu)
        owner.expect(say("damaged.limits", case=say("damaged.limits.1")))
        owner.answer(menu, "")
        owner.wait(menu)
        owner.expect(say("screen.answers", answers="w, c, t, e"))
        owner.answer(menu, "c")
        owner.answer(NUMBERED, "5 ? 6 ?")
        owner.wait(menu)
        owner.expect(say("damaged.limits", case=say("damaged.limits.3")))
        owner.answer(menu, "t")
        owner.answer(ask, with_words(SOUND_PAPER, {2: "?"}))
        two = say("damaged.menu.two")
        owner.wait(two, menu)
        owner.type("e\n")
        owner.end(0)
    with started("repair") as owner:
        owner.answer(ask, SOUND_PAPER.replace("agency", "zero"))
        owner.wait(word_prompt(5))
        owner.expect(say("damaged.refused.18", first=5))
        owner.answer(word_prompt(5), "agen")
        owner.wait(menu)
        owner.expect(say("damaged.whole"))
        owner.finish(menu)


def check_wrong_plan():
    """What a wrong answer does, if no paper of a group is here: with 1, a paper is written that isn't of the backup, and with more, none."""
    papers = papers_of("2/1of1,2of3,1of1")
    for needed in ("1", "2"):
        with started("replace") as owner:
            owner.answer(say("replace.how"), "1")
            owner.collect([papers[0], papers[-1]])
            owner.answer(say("replace.choose"), "1.0")
            owner.answer(say("which.ask.needed", group=1), needed)
            if needed == "2":
                owner.wait(say("replace.choose"))
                owner.expect(say("which.untold", name="1.0"))
            else:
                owner.wait(say("new.write"))
                if owner.words() in papers:
                    raise Failed("a wrong number of needed papers gives a paper of the backup")
            end_by_keys(owner)


def check_back():
    """From each of the first questions, the owner goes back to the one before, and at last to the tasks."""
    secret, plan, wallet = say("new.secret"), say("new.plan.choose"), say("new.wallet")
    with started() as owner:
        owner.answer(MENU, "1")
        owner.answer(say("has.choose"), "b")
        owner.answer(MENU, "new")
        owner.answer(say("has.choose"), DIGITS)
        owner.answer(plan, "b")
        owner.answer(say("has.choose"), DIGITS)
        owner.answer(plan, "2")
        owner.answer(wallet, "1")
        owner.answer(say("new.words"), "33")
        owner.answer(secret, "B")
        owner.answer(wallet, "b")
        owner.answer(plan, "1")
        owner.answer(wallet, "3")
        owner.answer(say("new.words"), "33")
        owner.answer(secret, "")
        owner.answer(say("secret.from.choose"), "b")
        owner.answer(secret, "")
        owner.answer(say("secret.from.choose"), "1")
        owner.answer(say("new.secret.digits"), "b")
        owner.answer(secret, "b")
        owner.answer(wallet, "b")
        owner.answer(plan, "b")
        owner.answer(say("has.choose"), "1")
        owner.answer(plan, "1")
        owner.answer(wallet, "3")
        owner.answer(say("new.words"), "33")
        owner.wait(secret)
        owner.expect(say("secret.new", bytes=32, words=33))
        owner.answer(secret, "")
        owner.answer(say("new.passphrase"), "")
        owner.answer(f"{say('new.passphrase.none')} {say('screen.yes.back')}", "b")
        owner.answer(secret, "")
        owner.answer(say("new.passphrase"), "")
        owner.answer(f"{say('new.passphrase.none')} {say('screen.yes.back')}", "y")
        owner.wait(say("new.write"))
        if len(owner.words().split()) != 33:
            raise Failed("the number of words that the wallet asks for isn't that of the papers")
        owner.expect(say("plan.sentence.any", needed=2, members=3))
        end_by_keys(owner)
    with started("new", "2of2") as owner:
        owner.answer(say("new.plan.sure"), "u")
        owner.answer(wallet, "b")
        owner.answer(say("new.plan.sure"), "b")
        owner.answer(plan, "b")
        owner.wait(say("has.choose"))
        end_by_keys(owner)
    with started("new", "2of3") as owner:
        # The command named the plan, so the question before is another one.
        owner.answer(wallet, "b")
        owner.answer(say("has.choose"), "1")
        owner.answer(wallet, "b")
        owner.answer(say("has.choose"), "b")
        owner.answer(MENU, "replace")
        owner.answer(say("replace.how"), "b")
        owner.answer(MENU, "4")
        owner.answer(say("replace.how"), "1")
        owner.collect(THREE_GROUPS[:2])
        owner.answer(say("replace.choose"), "1.0")
        owner.answer(say("which.ask.needed", group=1), "b")
        owner.answer(paper_prompt(3), "")
        owner.answer(say("replace.choose"), "b")
        owner.wait(paper_prompt(3))
        end_by_keys(owner)


def check_has():
    """What the owner has says what is done. Papers lead to 'Change the plan', and neither 12 or 24 words nor a wallet alone can become papers."""
    has = say("has.choose")
    with started("new", has=None) as owner:
        owner.answer(has, "")
        owner.wait(has)
        owner.expect(say("has.legend"))
        owner.answer(has, "2")
        owner.wait(paper_prompt(1))
        owner.expect(say("change.intro"))
        owner.answer(paper_prompt(1), "b")
        for number, key in (("4", "words"), ("5", "none")):
            owner.answer(has, number)
            owner.wait(say("has.make.choose"))
            owner.expect(f"{say(f'has.{key}.title')} [!] {say(f'has.{key}.what')}")
            owner.answer(say("has.make.choose"), "b")
        owner.answer(has, "5")
        owner.answer(say("has.make.choose"), "n")
        owner.answer(say("new.plan.choose"), "1")
        owner.settle()
        owner.wait(say("new.secret"))
        owner.expect(say("secret.new", bytes=16, words=20))
        end_by_keys(owner)


def check_doubts():
    """Digits that don't fit the number of words that the wallet asks for, and those of one repeated byte, are asked about. The entropy of words
    of BIP-39 is no secret here. The digits show if the owner asks for that."""
    digits, shown, again = say("new.secret.digits"), say("new.secret.digits.shown"), say("new.secret.again")
    sure = f"{say('secret.sure')} (y/n)"
    unfit, repeated = say("secret.unfit", bytes=32, words=20, fit=16), say("secret.repeated")
    with started("new", "2of3", has=DIGITS) as owner:
        owner.settle()
        owner.answer(say("new.secret"), "")
        owner.answer(say("secret.from.choose"), "2")
        owner.wait(say("has.make.choose"))
        owner.expect(f"{say('has.words.title')} [!] {say('has.words.what')}")
        owner.answer(say("has.make.choose"), "b")
        owner.answer(say("has.choose"), DIGITS)
        owner.settle()
        owner.answer(say("new.secret"), "")
        owner.answer(say("secret.from.choose"), "1")
        for typed, doubts in [(SECRET * 2, f"[!] {unfit}"), ("00" * 16, f"[!] {repeated}"), ("ab" * 32, f"[!] {repeated} [!] {unfit}")]:
            owner.forget()
            owner.answer(digits, typed)
            owner.answer(again, typed)
            owner.wait(sure)
            owner.expect(doubts)
            owner.lacks(typed, "digits show that nobody asked to see")
            owner.answer(sure, "n")
        owner.answer(digits, "S")
        owner.answer(shown, SECRET * 2)
        owner.expect(SECRET)
        owner.answer(again, SECRET * 2)
        owner.answer(sure, "y")
        owner.answer(say("noted.ask"), by_digits(SECRET * 2))
        owner.wait(say("new.passphrase"))
        owner.expect(say("secret.same"))
        if SECRET[:8] in owner.screen():
            raise Failed("the digits stay on the screen of the passphrase")
        end_by_keys(owner)


def check_spaced():
    """A plan may be typed with spaces, on the command line too."""
    for words in (["2 of 3"], ["2", "of", "3"]):
        with started("new", *words) as owner:
            owner.wait(say("new.wallet"))
            if owner.asked.count(say("new.plan.choose")):
                raise Failed(f"{words} is no plan")
            end_by_keys(owner)
    with started("new") as owner:
        owner.answer(say("new.plan.choose"), "2 of 3")
        owner.wait(say("new.wallet"))
        end_by_keys(owner)


def check_full():
    """What is typed where the screen is full is the answer to the question that follows. An arrow is no answer."""
    for keys, rows, columns in [(["2\n"], 20, 80), (["\x1b[B", "2", "\n"], 20, 80), (["2", "\n", "\n"], 16, 40), (["\n", "3of5\n"], 16, 40)]:
        with started("new", rows=rows, columns=columns) as owner:
            owner.wait_full()
            for at, key in enumerate(keys):
                owner.type(key)
                while owner.pull(1):
                    pass
            owner.settle()
            owner.wait(say("new.secret"))
            owner.expect(say("plan.sentence.any", needed=3, members=5))
            if owner.asked.count(say("new.plan.choose")):
                raise Failed("an answer is asked for again")
            end_by_keys(owner)


CHECKS = [check_new, check_has, check_doubts, check_replace, check_wrong_plan, check_repair, check_back, check_spaced, check_full]
check = in_turn(CHECKS)
