"""The ways back, what Enter does in a field that isn't a word's, and the questions for the plan of papers."""
from browsers import Failed
from choices import check_green
from samples import FINGERPRINT, PASSPHRASE, SOUND_PAPER, THREE_GROUPS, TWO, fingerprint_of, name_of, papers_of
from tasks import begin, begin_replace, choose_wallet, clear, create, drill, end, paste, read_paper, take, take_all, type_paper
from texts import counted, say

import plain


# Returns where the way back stands.
PLACE = """
(({ left, top }) => `${Math.round(left)} ${Math.round(top + scrollY)}`)(
  [...document.querySelectorAll('#main button')].find((it) => it.textContent === '%s').getBoundingClientRect(),
)
"""


def go_back(page, title):
    """Goes back. The way back stands at one place on each screen, above its title."""
    place = page.evaluate(PLACE % say("back"))
    page.push(say("back"))
    page.wait_title(title)
    page.place_of_back = getattr(page, "place_of_back", place)
    if place != page.place_of_back:
        raise Failed(f"the way back to {title!r} stands at {place}, and on other screens at {page.place_of_back}")


def check_first_steps(page, _):
    """The first screen of each task leads back to the choice of a task."""
    for task in ("make", "check", "recover", "replace", "change", "damaged", "what"):
        begin(page, task, None)
        go_back(page, say("home.title"))
    begin(page, "blank")
    go_back(page, say("home.title"))
    begin_replace(page, "other")
    page.wait_title(say("replace.new.title"))
    go_back(page, say("replace.title"))
    page.choose(say("replace.destroyed"))
    page.push(say("continue"))
    page.wait_text(say("replace.intro"))
    go_back(page, say("replace.title"))
    page.wait_text(say("replace.why"))
    go_back(page, say("home.title"))


def check_make(page, _):
    """From the secret, the owner can go back to the plan, which stays. A plan in which one lost paper loses all says so."""
    begin(page, "make")
    page.choose(say("plan.three"))
    choose_wallet(page)
    go_back(page, say("make.wallet"))
    go_back(page, say("make.plan"))
    page.wait_text(say("plan.sentence.any", needed=3, members=5))
    if not page.is_chosen(say("plan.three")):
        raise Failed("on the way back, another plan is chosen")
    page.choose(say("plan.home"))
    page.wait_text(say("plan.found.group.many", groups="1, 2"))
    page.choose(say("plan.own"))
    for name in (say("plan.drop"), say("plan.drop"), f"{say('plan.fewer')}: {say('plan.members', group=0)}"):
        page.push(name)
    page.wait_text(say("plan.lost.any"))
    go_back(page, say("home.make"))
    go_back(page, say("home.title"))


def check_passphrase(page, _):
    """From the questions before a drill, the owner can go back to the papers, which stay. Enter goes from field to field, and on."""
    begin(page, "check")
    take(page, [SOUND_PAPER])
    if say("back") in page.text().splitlines():
        raise Failed("one press leaves the papers that were read")
    page.push(say("collect.end"), to=say("check.passphrase"))
    go_back(page, say("check.title"))
    page.wait_text(say("collect.row", name="0.0", words=20))
    page.push(say("collect.end"))
    for passphrase in ("TREZOr", PASSPHRASE):
        page.fill(say("passphrase.label"), passphrase)
        page.press("Enter")
        if passphrase != PASSPHRASE:
            if not page.has_focus(page.node("textbox", say("noted.label"))):
                raise Failed("Enter in the passphrase doesn't go on to the empty fingerprint")
            page.press("Enter")
            page.wait_text(say("noted.missing"))
            page.type(FINGERPRINT)
            page.press("Enter")
            page.wait_text(say("drill.count", total=1))
            go_back(page, say("check.passphrase"))
    page.push(say("drill.start"))
    page.wait_text(say("verdict.all.noted", quorums=counted(1, "quorum"), fingerprint=FINGERPRINT))
    clear(page)


def check_which(page, see):
    """The page asks which paper is missing. A name that is here, or that no paper has, is asked for again, with the reason."""
    begin_replace(page)
    here = [THREE_GROUPS[0], THREE_GROUPS[2], THREE_GROUPS[3]]
    take_all(page, here)
    page.wait_title(say("replace.which"))
    if page.evaluate("Boolean(document.querySelector('#main .picture').compareDocumentPosition(document.querySelector('#main .buttons')) & 4)"):
        raise Failed("the buttons don't stand below the choices, but below the picture of the papers")
    offered = page.evaluate("[...document.querySelectorAll('[role=radio] strong')].map((it) => it.textContent).join(', ')")
    names = set(map(name_of, here))
    if names != {"0.0", "0.2", "1.0"} or offered != ", ".join([*(say("which.paper", name=name) for name in ("0.1", "0.3", "2.0")), say("which.other")]):
        raise Failed(f"beside {names}, these papers are offered: {offered}")
    page.push(say("which.write"))
    page.wait_text(say("which.missing"))
    page.choose(say("which.other"))
    for typed, text in [("x", say("which.name.wrong")), ("0.2", say("which.here", name="0.2")), ("0.02", say("which.here", name="0.2")), ("1.1", say("which.only", group=1)), ("0.16", say("which.name.wrong")), ("2", say("which.name.wrong")), ("3.0", say("which.beyond", groups=counted(3, "group")))]:
        page.retype(say("which.name"), typed)
        page.push(say("which.write"))
        page.wait_text(text)
    page.retype(say("which.name"), "2.0")
    for needed in ("", "0", "17"):
        page.retype(say("which.needed"), needed, "spinbutton")
        page.push(say("which.write"))
        page.wait_text(say("which.needed.wrong"))
    see("which paper is missing")
    page.retype(say("which.needed"), "1", "spinbutton")
    page.press("Enter")
    page.wait_title(say("paper.title", name="2.0"))
    if read_paper(page) != THREE_GROUPS[4]:
        raise Failed("the paper that is written isn't the missing one")
    page.push(say("paper.written"))
    type_paper(page, THREE_GROUPS[4])
    page.wait_title(say("replace.which"))
    page.push(say("replace.end"))
    drill(page, PASSPHRASE, FINGERPRINT)
    # Only the answer above says that its group needs one paper.
    check_answered(page)
    see("a paper that is written again, and that rests on an answer")
    end(page)


def check_answered(page):
    """Checks that the end of 'Replace' names the answer on which paper 2.0 rests, before all else, and that nothing is green."""
    page.wait_title(say("check.done.answered"))
    if page.evaluate("document.querySelector('#main > p.bad')?.innerText") != say("replace.lone.one", names="2.0"):
        raise Failed("the answer on which a new paper rests isn't told in red")
    if page.text().index(say("replace.lone.one", names="2.0")) > page.text().index(say("quorum.what")):
        raise Failed("the answer on which a new paper rests is told after what the drill found")
    check_green(page, [])


def check_wrong_answer(page, see):
    """A wrong answer of how many papers a group needs gives a paper that isn't of the backup. No drill shows that, and nothing says that no
    paper is missing."""
    papers = papers_of("2/1of1,1of1,2of3", PASSPHRASE)
    for noted in (fingerprint_of(papers, PASSPHRASE), None):
        begin_replace(page)
        take_all(page, papers[:2])
        page.choose(say("which.paper", name="2.0"))
        page.retype(say("which.needed"), "1", "spinbutton")
        page.push(say("which.write"), to=say("paper.title", name="2.0"))
        written = read_paper(page)
        if written in papers:
            raise Failed("a wrong answer gives a paper of the backup")
        page.push(say("paper.written"))
        paste(page, written)
        page.wait_title(say("replace.which"))
        page.wait_text(say("replace.none.answered.one", names="2.0"))
        page.lacks(say("replace.none"), "that no paper is missing is said after an answer that is wrong")
        see("what is missing rests on an answer")
        page.push(say("replace.end"))
        drill(page, PASSPHRASE, noted)
        check_answered(page)
        end(page)


def check_one_group(page, _):
    """Of a backup with one group, the page says what is enough to write a paper."""
    begin_replace(page)
    paste(page, TWO[0])
    page.wait_text(say("replace.not_enough", needed=counted(2, "paper"), here=1))
    paste(page, TWO[1])
    page.wait_text(say("replace.enough"))
    page.push(say("collect.end"))
    page.choose(say("which.paper", name="0.1"))
    page.push(say("which.write"), to=say("paper.title", name="0.1"))
    clear(page, is_asked=True)
    begin_replace(page)
    paste(page, SOUND_PAPER)
    page.wait_text(say("status.enough"))
    page.push(say("collect.end"))
    page.wait_text(say("replace.none"))
    clear(page)


def check_chosen(page, see):
    """What was chosen for the secret stays on the way back to the plan. Buttons that change a plan keep the focus near them."""
    begin(page, "make")
    page.choose(say("plan.own"))
    fewer, more = [f"{say(key)}: {say('plan.needed', group=0)}" for key in ("plan.fewer", "plan.more")]
    add, drop = say("plan.add"), say("plan.drop")
    for name, focused in [(add, add), (drop, drop), (drop, drop), (drop, add), (more, fewer)]:
        page.push(name)
        if not page.has_focus(page.node("button", focused)):
            raise Failed(f"after {name!r}, the focus is lost")
    page.push(f"{say('plan.fewer')}: {say('plan.members', group=0)}")
    page.wait_text(say("plan.sentence.both"))
    for wallet in ("flag", "older"):
        page.push(say("continue"))
        page.push(say("plan.sure.yes"), to=say("make.wallet"))
        page.choose(say(f"wallet.{wallet}"))
        page.choose(say("entry.words", count=33))
        page.push(say("back" if wallet == "flag" else "continue"))
    page.wait_title(say("make.secret"))
    page.evaluate("document.querySelector('details').open = true; null")
    page.retype(say("more.exponent"), "40", "spinbutton")
    page.lacks(say("more.time", time="|").split("|")[0], "a time is told for an iteration exponent that there isn't")
    page.retype(say("more.exponent"), "3", "spinbutton")
    page.fill(say("more.dice"), "123")
    go_back(page, say("make.wallet"))
    page.push(say("continue"), to=say("make.secret"))
    if page.evaluate("document.querySelector('details input').value") != "3":
        raise Failed("on the way back, too few throws lose the iteration exponent")
    for title in ("make.wallet", "make.plan", "home.make"):
        go_back(page, say(title))
    for answer, title in [("continue", "make.plan"), ("continue", "plan.sure.title"), ("plan.sure.yes", "make.wallet"), ("continue", "make.secret")]:
        page.push(say(answer), to=say(title))
    see("what was chosen stays")
    page.tick(say("passphrase.none"))
    create(page)
    page.wait_title(say("paper.title", name="0.0"))
    share = plain.parse(read_paper(page).encode())
    if share["extendable"] or share["exponent"] != 3 or len(share["value"]) != 32:
        raise Failed(f"on the way back, what was chosen for the secret is lost: {share}")
    clear(page, is_asked=True)


CHECKS = [check_first_steps, check_make, check_chosen, check_passphrase, check_which, check_wrong_answer, check_one_group]
