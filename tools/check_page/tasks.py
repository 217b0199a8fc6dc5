"""Each task of the page from its start to its end, by keyboard alone.

The values that the page must show are from outside (tools/samples.py).
"""
from browsers import Failed
from samples import FINGERPRINT, PASSPHRASE, SECRET, THREE_GROUPS, check_papers_of, fingerprint_of, name_of, swappable, swapped, with_words
from texts import counted, say


def begin(page, task, has="new"):
    """Starts a task from the first screen, and answers the question before it. `has` is what the owner of a new backup has, or nothing to
    stay at the question for that."""
    page.push(say(f"home.{task}"))
    if task != "blank" and page.title() == say("home.title"):
        page.wait(lambda: page.title() != say("home.title"), "the next screen")
    if page.title() == say("prepare.title"):
        page.push(say("prepare.anyway"))
        page.push(say("prepare.yes"))
    page.wait(lambda: page.title() not in [say("home.title"), say("prepare.title"), say("prepare.sure.title")], "the first screen of the task")
    if task == "make" and has:
        choose_has(page, has)


def choose_has(page, has, to="make.plan"):
    """Says what the owner of a new backup has, and goes on."""
    page.wait_title(say("home.make"))
    page.choose(say(f"has.{has}"))
    page.push(say("continue"), to=say(to))


def begin_replace(page, why="destroyed"):
    """Starts to replace a paper, and says what became of it."""
    begin(page, "replace")
    page.choose(say(f"replace.{why}"))
    page.push(say("continue"))


def type_paper(page, line, is_by_four=False):
    """Types a paper's words. Each word is followed by a space, or only its first four letters are typed."""
    page.go_to("textbox", say("entry.word", number=1))
    if len(line.split()) != page.evaluate("document.querySelectorAll('.word:not([hidden])').length"):
        page.push(say("entry.words", count=len(line.split())))
        page.go_to("textbox", say("entry.word", number=1))
    page.type("".join(f"{word[:4]} " for word in line.split()) if is_by_four else line + " ")


def paste(page, text):
    """Pastes a text into the first field. The clipboard itself isn't used, since other programs of this machine share it."""
    page.go_to("textbox", say("entry.word", number=1))
    script = "{ const event = new Event('paste', { bubbles: true, cancelable: true }); event.clipboardData = { getData: () => " + repr(text) + " };"
    page.evaluate(script + " document.activeElement.dispatchEvent(event); } null")


def take(page, lines):
    """Pastes papers that are taken."""
    for line in lines:
        paste(page, line)
        page.wait_text(say("collect.taken", name=name_of(line)))


def take_all(page, lines):
    """Pastes papers that are taken, and goes on."""
    take(page, lines)
    page.push(say("collect.end"))


def type_passphrase(page, passphrase, *labels):
    """Types a passphrase into the fields with these labels. None stands for none."""
    if passphrase is None:
        page.tick(say("passphrase.none"))
    else:
        for label in labels:
            page.fill(say(label), passphrase)


def answer_passphrase(page, passphrase, noted):
    """Answers the questions for the passphrase and for the noted fingerprint. None stands for none."""
    type_passphrase(page, passphrase, "passphrase.label")
    if noted is None:
        page.tick(say("noted.none"))
    else:
        page.fill(say("noted.label"), noted)
    page.push(say("continue"))


def drill(page, passphrase, noted):
    """Answers these questions, and begins the drill."""
    answer_passphrase(page, passphrase, noted)
    page.push(say("drill.start"))


def choose_wallet(page, wallet="flag", words=20):
    """Goes on from the plan, and says which wallet will read the papers, and how many words it asks for."""
    page.push(say("continue"), to=say("make.wallet"))
    page.choose(say(f"wallet.{wallet}"))
    if words != 20:
        page.choose(say("entry.words", count=words))
    page.push(say("continue"), to=say("make.secret"))


def end(page):
    page.push(say("end"), to=say("home.title"))


# Returns the size of the text that has a fingerprint, beside that of a plain paragraph.
SIZES = """
((found) => [...found, document.querySelector('#main p:not([class])')].map((it) => parseFloat(getComputedStyle(it).fontSize)).join(' '))
  ([...document.querySelectorAll('#main *')].filter((it) => [...it.childNodes].some((node) => node.nodeType === 3 && node.data.includes('%s'))))
"""


def check_small(page, fingerprint):
    """Checks that a fingerprint which mustn't be noted yet is shown, and no larger than other text."""
    page.wait_text(fingerprint)
    *sizes, plain = map(float, page.evaluate(SIZES % fingerprint).split())
    if not sizes or max(sizes) > plain:
        raise Failed(f"a fingerprint that mustn't be noted yet has letters of {sizes} pixels, beside {plain}")


def clear(page, is_asked=False):
    """Leaves a task before its end. `is_asked` says that the page asks whether that is meant, since papers aren't finished. It can be what
    the page says then."""
    page.push(say("clear"))
    if is_asked:
        page.wait_text(*[is_asked] if isinstance(is_asked, str) else [])
        page.push(say("clear.yes"))
    page.wait_title(say("home.title"))


def read_paper(page):
    """Returns the words that the page shows."""
    page.wait(lambda: page.evaluate("document.querySelectorAll('.paper li').length") > 0, "the words of a paper")
    return page.evaluate("[...document.querySelectorAll('.paper li')].map((it) => it.textContent).join(' ')")


def write_down(page, look=lambda number: None):
    """Writes down each paper that the page shows, and goes on. Returns them. `look` is called with the number of each while it is shown."""
    papers = []
    while page.title() != say("back.begin.title"):
        papers.append(read_paper(page))
        shown = page.title()
        look(len(papers))
        page.push(say("paper.written"))
        page.wait(lambda: page.title() != shown, "the end of a paper")
    page.push(say("continue"))
    return papers


def create(page, is_noted=False):
    """Makes the papers, and goes on to the first. `is_noted` says that the secret was compared with a noted fingerprint."""
    page.push(say("make.create"), to=say("make.forms"))
    if (say("secret.same") in page.text()) != is_noted:
        raise Failed("the page doesn't say that the digits have the noted fingerprint, or says it of other ones")
    page.push(say("forms.go"))


def make(page, plan_label, wallet, words, passphrase, see, digits=None):
    """Makes a backup with a proposed plan. Returns its papers, and the fingerprint to note."""
    begin(page, "make", "new" if digits is None else "own")
    see("plan")
    page.choose(plan_label)
    choose_wallet(page, wallet, words)
    if digits is not None:
        type_digits(page, digits, digits, FINGERPRINT)
    type_passphrase(page, passphrase, "passphrase.label", "passphrase.again")
    see("secret")
    create(page, digits is not None)

    def look(number):
        if number == 1:
            page.wait_text("the name 0.0 and the words")
            see("paper")

    papers = write_down(page, look)
    for number, line in enumerate(papers):
        page.wait_title(say("back.title", name=name_of(line)))
        if number:
            page.wait_text(say("back.same", name=name_of(papers[number - 1])))
        if number == 1:
            page.type(papers[0] + " ")
            page.wait_text(say("back.other", typed="0.0", name=name_of(line)))
            see("typed another paper back")
        if number == 2:
            # As if it was written down wrongly.
            type_paper(page, swapped(line, swappable(line)))
            page.wait_text(say("back.refused.13"))
            page.push(say("entry.empty"))
        type_paper(page, line, is_by_four=number % 2 == 1)
    page.wait_title(say("noted.title" if digits is None else "noted.title.own"))
    page.wait_text(say("back.same", name=name_of(papers[-1])))
    see("fingerprint")
    if [say(key) in page.text() for key in ("noted.apart", "noted.papers")] != [passphrase is not None, passphrase is None]:
        raise Failed("the page doesn't say whether the fingerprint may stand on the papers, or says it though there is a passphrase")
    fingerprint = page.evaluate("document.querySelector('.fingerprint').textContent")
    page.push(say("noted.done"))
    prove(page, passphrase, fingerprint, digits is None, see)
    page.wait_title(say("make.done"))
    page.wait_text(say("make.restore"))
    page.wait_text(say("make.with" if passphrase else "make.without"))
    if (say("make.own") in page.text()) != (digits is not None):
        raise Failed("the page doesn't say what becomes of digits on paper, or says it of a secret that it drew")
    first = page.evaluate("document.querySelector('#main > h1 ~ *').innerText")
    if (first == say("make.empty")) != (digits is None):
        raise Failed(f"that a new wallet is empty isn't said first, or is said of an own secret: {first!r}")
    page.wait_text(say("make.note", said="@", plan="").split("@")[0])
    see("backup is made")
    end(page)
    return papers, fingerprint


def prove(page, passphrase, fingerprint, is_drawn, see):
    """Types what was noted of a new backup, and drills with it."""
    page.wait_title(say("proof.title"))
    see("what was noted")
    if fingerprint in page.text() or is_drawn == bool(page.located("checkbox", say("noted.none"))):
        raise Failed("the fingerprint is shown while it is asked for, or the owner of a new secret needn't type it")
    type_passphrase(page, passphrase, "passphrase.label")
    for typed, text in [("", "proof.missing"), ("xyz", "proof.wrong"), (fingerprint, "drill.what")] if is_drawn else [(fingerprint, "drill.what")]:
        page.retype(say("noted.label"), typed)
        page.push(say("continue"))
        page.wait_text(say(text))
    page.push(say("drill.start"), to=say("make.done"))
    if not page.evaluate("Boolean(document.querySelector('.verdict .good'))") or fingerprint not in page.text():
        raise Failed("a backup that gives the noted secret isn't said to")


def type_digits(page, digits, again, noted):
    """Types the digits of an own secret twice, and the noted fingerprint, unless it is empty. None stands for none."""
    page.choose(say("secret.slip39"))
    page.fill(say("secret.digits"), digits)
    page.fill(say("secret.again"), again)
    if noted is None:
        page.tick(say("noted.none"))
    elif noted:
        page.fill(say("noted.label"), noted)


def check_make(page, see):
    """A new secret of 16 bytes in 2of3, one of 32 bytes in groups, and an own secret, each beside the plain reading."""
    for label, plan, wallet, words, passphrase, digits in [
        ("two", "2of3", "flag", 20, None, None),
        ("home", "2/2of3,1of1,1of1", "older", 33, "six words and 'signs' ~", None),
        ("three", "3of5", "unknown", 20, PASSPHRASE, SECRET),
    ]:
        papers, fingerprint = make(page, say(f"plan.{label}"), wallet, words, passphrase, see, digits)
        check_papers_of(papers, plan, int(wallet == "flag"), 1, words)
        if fingerprint_of(papers, passphrase or "") != fingerprint:
            raise Failed(f"the fingerprint of a new backup is {fingerprint}, and the plain reading differs")
        if digits is not None and fingerprint != FINGERPRINT:
            raise Failed("the backup of an own secret has another fingerprint")
        see = lambda _: None  # noqa: E731


def check_papers(page, see):
    begin(page, "check")
    see("empty entry")
    for number, line in enumerate(THREE_GROUPS):
        type_paper(page, line, is_by_four=number % 2 == 0)
        page.wait_text(say("collect.taken", name=name_of(line)))
        if number == 1:
            see("papers so far")
    page.type(THREE_GROUPS[0] + " ")
    page.wait_text(say("collect.repeated", name="0.0"))
    page.push(say("collect.end"))
    drill(page, PASSPHRASE, FINGERPRINT)
    page.wait_text(say("verdict.all.noted", quorums=counted(7, "quorum"), fingerprint=FINGERPRINT))
    page.wait_text(say("quorum.what"))
    page.wait_title(say("check.done.good"))
    page.lacks(say("again"), "a good result is offered to be tried again")
    see("end of a good check")
    page.push(say("collect.back"), to=say("check.title"))
    page.push(say("collect.end"))
    drill(page, "TREZOr", FINGERPRINT)
    page.wait_text(say("verdict.other", quorums=counted(7, "quorum"), noted=FINGERPRINT))
    page.wait_text(say("drill.other"))
    page.wait_title(say("check.done.other"))
    page.wait_text(say("verdict.other", quorums=counted(7, "quorum"), noted=FINGERPRINT))
    page.wait_text(say("check.other"))
    see("end of a check with a wrong passphrase")
    page.push(say("again"), to=say("check.passphrase"))
    if not page.is_true(f"(it) => it.value === '{FINGERPRINT}'", page.node("textbox", say("noted.label"))):
        raise Failed("another try empties the noted fingerprint")
    clear(page)


def check_recover(page, see):
    begin(page, "recover")
    for line in THREE_GROUPS[:2] + THREE_GROUPS[4:]:
        type_paper(page, line)
    page.wait_text(say("status.enough"))
    page.push(say("collect.end"))
    see("passphrase")
    answer_passphrase(page, "TREZOr", FINGERPRINT)
    page.wait_title(say("recover.done.other"))
    see("another secret is recovered")
    page.lacks(say("digits.show"), "the digits of another secret than the noted one are offered")
    check_small(page, fingerprint_of(THREE_GROUPS, "TREZOr"))
    page.push(say("again"))
    page.retype(say("noted.label"), "")
    answer_passphrase(page, PASSPHRASE, None)
    page.wait_title(say("recover.done.unnoted"))
    page.wait_text(say("recover.unnoted"))
    check_small(page, FINGERPRINT)
    see("a secret is recovered, and none was noted")
    page.push(say("again"))
    answer_passphrase(page, PASSPHRASE, FINGERPRINT)
    page.wait_title(say("recover.done.same"))
    page.lacks(SECRET[:8], "the digits show before the button is pressed")
    page.push(say("digits.show"))
    page.wait(lambda: SECRET in page.text().replace(" ", ""), "the digits")
    page.wait_text(say("recover.next"))
    see("recovered")
    page.lacks(say("again"), "a recovery of the noted secret is offered to be tried again")
    page.press("Enter")
    page.wait(lambda: SECRET[:8] not in page.text(), "the end of the digits")
    end(page)


def check_replace(page, see):
    begin(page, "replace")
    see("what became of the paper")
    page.push(say("continue"))
    page.wait_text(say("replace.why.missing"))
    page.choose(say("replace.destroyed"))
    page.push(say("continue"))
    for line in THREE_GROUPS[:1] + THREE_GROUPS[3:]:
        type_paper(page, line)
    page.wait_text(say("collect.taken", name="2.0"))
    page.push(say("collect.end"), to=say("replace.which"))
    see("which paper is missing")
    page.choose(say("which.paper", name="0.1"))
    page.push(say("which.write"))
    if read_paper(page) != THREE_GROUPS[1]:
        raise Failed("the replaced paper isn't the lost one")
    page.push(say("paper.written"))
    type_paper(page, THREE_GROUPS[1])
    page.wait_title(say("replace.which"))
    page.wait_text(say("back.same", name="0.1"))
    page.push(say("replace.end"))
    drill(page, PASSPHRASE, None)
    page.wait_text(say("verdict.all.same", quorums=counted(3, "quorum"), fingerprint=FINGERPRINT))
    page.wait_title(say("check.done.same"))
    page.wait_text(say("noted.first"), say("replace.tried.one", names="0.1"))
    if say("check.done.good") in page.text() or say("again") not in page.text():
        raise Failed("without a noted fingerprint, a result is said to be good")
    see("end of a check without a noted fingerprint")
    end(page)
    begin_replace(page, "other")
    page.wait_text(say("replace.new.change"))
    see("a new backup instead")
    page.push(say("replace.new.change.go"), to=say("change.title"))
    for title in ("replace.new.title", "replace.title", "home.title"):
        page.push(say("back"), to=say(title))


def type_damaged(page, line):
    """Types what can be read of a paper. A space ends each word."""
    page.push(say("entry.empty"))
    page.type(line + " ")


def write_anew(page, line, read=None):
    """Types what can be read of a paper, all words but one if nothing else is given, writes it anew, and types it back."""
    name = name_of(line)
    page.wait_title(say("damaged.title"))
    paste(page, read or with_words(line, {6: "?"}))
    page.push(say("damaged.write", name=name), to=say("paper.title", name=name))
    page.push(say("paper.written"), to=say("back.title", name=name))
    paste(page, line)
    page.wait_title(say("damaged.check.title"))


def found_words(page):
    """Returns the words that the page found, each after its number, a line for each paper that fits."""
    script = "[...document.querySelectorAll('.fit .rows')].map((it) => [...it.children].map((row) => row.innerText.replace(/\\s+/g, ' ').trim()).join(', ')).join('\\n')"
    return page.evaluate(script)


def check_damaged(page, see):
    """Two words that can't be read come back. The paper is written anew, typed back, and checked beside another one."""
    words = THREE_GROUPS[1].split()
    begin(page, "damaged")
    see("damaged paper")
    type_damaged(page, with_words(THREE_GROUPS[1], {5: "?", 12: words[11][:2] + "?"}))
    page.wait_text(say("damaged.one", name="0.1"))
    wanted = f"{say('entry.word', number=5)} {words[4]}, {say('entry.word', number=12)} {words[11]}"
    page.wait(lambda: found_words(page) == wanted, f"the words {wanted!r}")
    see("words that were found")
    page.fill(say("entry.word", number=5), "x")
    page.wait(lambda: page.evaluate("document.querySelector('.fits').childElementCount") == 0, "the end of an answer to other words")
    page.press("Backspace")
    page.type("? ")
    page.push(say("entry.read"))
    page.push(say("damaged.write", name="0.1"), to=say("paper.title", name="0.1"))
    if read_paper(page) != THREE_GROUPS[1]:
        raise Failed("the repaired paper isn't the damaged one")
    page.push(say("paper.written"), to=say("back.title", name="0.1"))
    type_paper(page, THREE_GROUPS[1], is_by_four=True)
    page.wait_title(say("damaged.check.title"))
    page.wait_text(say("back.same", name="0.1"))
    page.wait_text(say("collect.row.repaired", name="0.1", words=20))
    see("check of a repaired paper")
    page.push(say("collect.end"), to=say("check.done.few"))
    page.wait_text(say("damaged.too_few"))
    page.lacks("sound", f"a repaired paper is called sound: {page.text()!r}")
    see("too few papers for a repaired one")
    page.push(say("collect.more"))
    for line in (THREE_GROUPS[0], THREE_GROUPS[3]):
        type_paper(page, line)
        page.wait_text(say("collect.taken", name=name_of(line)))
    page.push(say("collect.end"))
    drill(page, PASSPHRASE, FINGERPRINT)
    page.wait_text(say("verdict.all.noted", quorums=counted(1, "quorum"), fingerprint=FINGERPRINT))
    end(page)


TASKS = {"make": check_make, "check": check_papers, "recover": check_recover, "replace": check_replace, "damaged": check_damaged}
