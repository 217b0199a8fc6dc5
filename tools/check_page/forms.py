"""The blank forms: which are printed, and what the engine refuses."""
from browsers import Failed
from tasks import begin, choose_wallet, clear, read_paper
from texts import say

# What each form has besides its name, its plan and its lines for words.
LINES = ["blank.heirs", "blank.website", "blank.passphrase", "blank.fingerprint", "blank.wallet", "blank.date", "blank.where", "blank.keep"]
# Returns how many columns the lines of the first form have, and the least room between two of them, in points of print.
GUTTER = """
(() => {
  const places = [...document.querySelector('.form ol').children].map((it) => it.getBoundingClientRect());
  const sides = [...new Map(places.map(({ left, right }) => [Math.round(left), [left, right]])).values()].sort((a, b) => a[0] - b[0]);
  const list = document.querySelector('.form ol').getBoundingClientRect();
  const isInside = sides[0][0] >= list.left - 1 && sides.at(-1)[1] <= list.right + 1;
  return [sides.length, Math.round(Math.min(...sides.slice(1).map(([left], at) => left - sides[at][1])) * 0.75), isInside].join(' ');
})()
"""
# Shows the page as it's printed, or as it is again.
SHOW_AS = "for (const it of document.styleSheets[0].cssRules) if (it.media?.mediaText === '%s') it.media.mediaText = '%s'; null"


def watch_printing(page):
    page.evaluate("window.printed = false; window.print = () => { window.printed = true }; null")


def print_forms(page):
    """Lets the page print forms. Returns their names, how many lines each has, and the number of sheets."""
    page.push(say("blank.print"))
    page.wait(lambda: page.evaluate("window.printed ?? false"), "the printing")
    names = page.evaluate("[...document.querySelectorAll('.form .name')].map((it) => it.textContent).join(' | ')")
    lines = page.evaluate("[...document.querySelectorAll('.form ol')].map((it) => it.children.length).join(' ')")
    return names, lines, page.printed()[1]


def named_forms(*names):
    return " | ".join(say("blank.name", name=name) for name in names)


def leave(page):
    page.push(say("back"), to=say("home.title"))


def check_blank(page, see):
    watch_printing(page)
    begin(page, "blank")
    page.choose(say("plan.own"))
    page.push(f"{say('plan.fewer')}: {say('plan.needed', group=0)}")
    page.push(say("blank.print"))
    page.wait_text(say("refused.34", first=0))
    if page.evaluate("Boolean(window.printed) || document.getElementById('sheet').children.length > 0"):
        raise Failed("forms of a plan that the engine refuses are printed")
    page.choose(say("plan.home"))
    page.lacks(say("refused.34", first=0), "what the engine refused stays beside another plan")
    page.choose(say("entry.words", count=33))
    see("blank forms")
    printed = print_forms(page)
    if printed != (named_forms("0.0", "0.1", "0.2", "1.0", "2.0"), "33 33 33 33 33", 5):
        raise Failed(f"names, lines and sheets of the forms are {printed}")
    lacks = [key for key in LINES if page.evaluate("[...document.querySelectorAll('.form')].map((it) => it.textContent).join('|')").count(say(key)) != 5]
    if lacks:
        raise Failed(f"not each form has {lacks}")
    if page.evaluate("[...document.querySelectorAll('.form .answer-box')].map((it) => it.textContent).join('|')") != "|".join([say("blank.yes"), say("blank.no")] * 5):
        raise Failed("the forms don't ask whether there is a passphrase")
    page.evaluate(SHOW_AS % ("print", "all"))
    page.size(794, 5600)
    see("printed forms")
    if page.evaluate(GUTTER) != "2 36 true":
        raise Failed(f"the lines of a form stand in columns with this gutter: {page.evaluate(GUTTER)}")
    page.size(1200, 900)
    page.evaluate(SHOW_AS % ("all", "print"))
    leave(page)
    if page.evaluate("document.getElementById('sheet').children.length"):
        raise Failed("the forms stay after the task")


def check_offered(page, see):
    """'Make a backup' offers the forms of its papers. Labels of places stand beside the names, and on the forms. Then nothing can be printed."""
    watch_printing(page)
    begin(page, "make")
    choose_wallet(page)
    page.tick(say("passphrase.none"))
    page.push(say("make.create"), to=say("make.forms"))
    page.evaluate("document.querySelector('main details').open = true; null")
    page.fill(say("forms.label", name="0.1"), "Home A")
    see("forms for a new backup")
    labelled, printed = say("paper.labelled", name="0.1", label="Home A"), print_forms(page)
    if printed != (named_forms("0.0", labelled, "0.2"), "20 20 20", 3):
        raise Failed(f"names, lines and sheets of the forms of a new backup are {printed}")
    page.push(say("forms.go"))
    for name in ("0.0", labelled):
        page.wait_title(say("paper.title", name=name))
        read_paper(page)
        if page.evaluate("document.getElementById('sheet').children.length"):
            raise Failed("forms stay beside the words of a paper")
        see("a paper with a label")
        page.push(say("paper.written"))
    clear(page, is_asked=True)


def check_single(page, _):
    """The form of a single paper doesn't say that it is one of several."""
    watch_printing(page)
    begin(page, "blank")
    page.choose(say("plan.own"))
    for name in [say("plan.drop"), say("plan.drop"), *[f"{say('plan.fewer')}: {say('plan.members', group=0)}"] * 2]:
        page.push(name)
    print_forms(page)
    text = page.evaluate("document.getElementById('sheet').textContent")
    if say("blank.heirs.one") not in text or say("blank.heirs") in text:
        raise Failed("the form of a single paper says that it is one of several")
    if say("blank.website") not in text:
        raise Failed("the form of a single paper doesn't say that its words are for no website")
    leave(page)


CHECKS = [check_blank, check_offered, check_single]
