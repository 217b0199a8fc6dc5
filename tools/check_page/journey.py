"""The steps of each task: one total that doesn't change, and one button to press next. What a plan survives, beside a count of all sets."""
import itertools
import json

from browsers import Failed
from samples import FINGERPRINT, PASSPHRASE, SOUND_PAPER, THREE_GROUPS
from tasks import answer_passphrase, begin, choose_wallet, clear, create, drill, end, paste, take_all, write_anew, write_down
from texts import say

# Notes the title, the step and the buttons to press next of each screen, as it comes and as it changes.
WATCH = """
{
  const main = document.getElementById('main');
  window.seen = [];
  window.watch = new MutationObserver(() => {
    const [title, step] = ['h1', '.step'].map((it) => main.querySelector(it)?.textContent ?? '');
    const leading = [...main.querySelectorAll('button.primary')].filter((it) => it.checkVisibility()).length;
    window.seen.push([title, step, leading]);
  });
  window.watch.observe(main, { childList: true, subtree: true, attributes: true, attributeFilter: ['class'] });
}
null
"""
SEEN = "window.watch.disconnect(); JSON.stringify(window.seen)"
# 'Change the plan' has at most so many steps.
MOST_STEPS = 8
# How the titles of screens begin that show papers, or ask to type them back.
PAPERS = (say("paper.title", name=""), say("back.begin.title"))


def check_seen(page, task, count, is_most=False):
    """Checks the screens of a task that ended: its steps begin at 1, go on by one, and end at their number. `is_most` says that the first
    step tells how many there are at most. Only papers that are written and typed back, and a drill with its result, are several screens of
    one step."""
    seen = [it for it in json.loads(page.evaluate(SEEN)) if it[1]]
    crowded = [it for it in seen if it[2] > 1]
    if crowded:
        raise Failed(f"{task}: more than one button is to be pressed next: {crowded[:3]}")
    steps = [it[0] for it in itertools.groupby(step for _, step, _ in seen)]
    first = [say("step.most", at=1, count=MOST_STEPS)] if is_most else [say("step", at=1, count=count)]
    if steps != [*first, *(say("step", at=at, count=count) for at in range(2, count + 1))]:
        raise Failed(f"{task}: the steps are {steps}")
    for step in steps[:-1]:
        asking = {title for title, at, leading in seen if at == step and leading}
        if len(asking) > 1 and not any(it.startswith(PAPERS) for it in asking):
            raise Failed(f"{task}: {step!r} stands still on the screens {asking}")


def check_steps(page, see):
    """Each task from its start to its end."""
    steps_of = {"make": 9, "check": 3, "recover": 3, "replace": 8, "change": 8, "damaged": 6}
    for (task, count), go in zip(steps_of.items(), [make, check, recover, replace, change, repair]):
        page.evaluate(WATCH)
        begin(page, task)
        go(page, see)
        end(page)
        check_seen(page, task, count, task == "change")
        if page.evaluate("Boolean(document.querySelector('.step'))"):
            raise Failed("a step is shown without a task")


def check_drill(page, title):
    """Drills with what was noted. The result is said once."""
    drill(page, PASSPHRASE, FINGERPRINT)
    page.wait_title(say(title))
    if page.text().count(FINGERPRINT) != 1:
        raise Failed(f"the result of a drill is said {page.text().count(FINGERPRINT)} times")


def write(page):
    """Writes three papers down, and types them back. Each screen says which of them it has."""

    def look(number):
        page.wait_title(say("paper.title", name=f"0.{number - 1}"))
        page.wait_text(say("paper.place", number=number, count=3))

    for number, line in enumerate(write_down(page, look), 1):
        page.wait_text(say("paper.place", number=number, count=3))
        paste(page, line)


def make(page, see):
    choose_wallet(page)
    page.tick(say("passphrase.none"))
    create(page)
    write(page)
    page.wait_title(say("noted.title"))
    noted = page.evaluate("document.querySelector('.fingerprint').textContent")
    page.push(say("noted.done"))
    drill(page, None, noted)
    page.wait_title(say("make.done"))
    page.wait_text("Note the plan too: any 2 of the 3 papers recover the secret (2of3).")
    see("journey made")


def check(page, see):
    take_all(page, THREE_GROUPS)
    check_drill(page, "check.done.good")
    see("journey checked")


def recover(page, _):
    take_all(page, THREE_GROUPS)
    answer_passphrase(page, PASSPHRASE, FINGERPRINT)
    page.wait_title(say("recover.done.same"))


def replace(page, see):
    page.choose(say("replace.destroyed"))
    page.push(say("continue"))
    take_all(page, [THREE_GROUPS[0], *THREE_GROUPS[2:]])
    page.choose(say("which.paper", name="0.1"))
    page.push(say("which.write"), to=say("paper.title", name="0.1"))
    page.push(say("paper.written"), to=say("back.title", name="0.1"))
    paste(page, THREE_GROUPS[1])
    page.wait_title(say("replace.which"))
    page.wait_text(say("which.another"))
    see("journey which paper")
    page.push(say("replace.end"), to=say("replace.passphrase"))
    check_drill(page, "check.done.written")
    page.wait_text(say("replace.right.one", names="0.1"))


def change(page, see):
    take_all(page, THREE_GROUPS)
    page.push(say("continue"))
    page.choose(say("wallet.flag"))
    page.push(say("continue"))
    answer_passphrase(page, PASSPHRASE, FINGERPRINT)
    page.push(say("forms.go"))
    write(page)
    check_drill(page, "change.done")
    see("journey changed")


def repair(page, see):
    write_anew(page, SOUND_PAPER)
    page.push(say("collect.end"))
    drill(page, PASSPHRASE, None)
    page.wait_title(say("check.done.doubt"))
    see("journey repaired")


# Plans that are offered, and some of an owner's own: how many groups are needed, and of each group how many papers it needs and has.
OFFERED = {"two": (1, [(2, 3)]), "three": (1, [(3, 5)]), "home": (2, [(2, 3), (1, 1), (1, 1)])}


def enough(plan, papers):
    needed, groups = plan
    return sum(sum(group == at for group, _ in papers) >= least for at, (least, _) in enumerate(groups)) >= needed


def survived(plan):
    """Returns how many papers can be lost, and how many stolen, whichever these are: by looking at every set of papers."""
    papers = [(group, member) for group, (_, count) in enumerate(plan[1]) for member in range(count)]
    sets = [frozenset(it) for size in range(len(papers) + 1) for it in itertools.combinations(papers, size)]
    lost = min(len(it) for it in sets if not enough(plan, set(papers) - it)) - 1
    stolen = min(len(it) for it in sets if enough(plan, it)) - 1
    return lost, stolen


def check_picture(page, what, plan):
    lost, stolen = survived(plan)
    risk = "risk.only" if len(plan[1]) == 1 else "risk"
    lines = [("survives", "lost.safe", lost), ("survives", "stolen.safe", stolen), ("survives.not", f"lost.{risk}", lost + 1), ("survives.not", f"stolen.{risk}", stolen + 1)]
    wanted = [[say(heading), say(f"{kind}.{'one' if count == 1 else 'many'}", n=count)] for heading, kind, count in lines if count]
    found = json.loads(page.evaluate("JSON.stringify([...document.querySelectorAll('.survives li > span')].map((it) => [it.closest('ul').previousElementSibling.textContent, it.textContent]))"))
    if found != wanted:
        raise Failed(f"the plan {what} survives {wanted}, and the page says {found}")
    drawn = json.loads(page.evaluate("JSON.stringify([...document.querySelectorAll('.survives .cards')].map((row) => [...row.querySelectorAll('.card')].map((it) => [it.textContent, it.classList.contains('lost') || it.classList.contains('stolen')])))"))
    for (heading, text), row in zip(found, drawn, strict=True):
        marked = {tuple(map(int, name.split("."))) for name, is_marked in row if is_marked}
        left = {tuple(map(int, name.split("."))) for name, is_marked in row if not is_marked}
        is_loss, is_safe = "lost" in text, heading == say("survives")
        if enough(plan, left if is_loss else marked) != (is_safe if is_loss else not is_safe):
            raise Failed(f"the plan {what}: the cards {row} don't show that {text!r}")


def check_plans(page, see):
    """What each offered plan and some others survive, beside a count of all sets of their papers."""
    begin(page, "make")
    for key, plan in OFFERED.items():
        page.choose(say(f"plan.{key}"))
        check_picture(page, key, plan)
        see(f"what the plan {key} survives")
    page.choose(say("plan.own"))
    needed, groups = OFFERED["home"]
    # What is pressed, and the plan then.
    for button, plan in [
        (f"{say('plan.more')}: {say('plan.groups_needed')}", (3, groups)),
        (f"{say('plan.more')}: {say('plan.members', group=0)}", (3, [(2, 4), *groups[1:]])),
        (f"{say('plan.more')}: {say('plan.members', group=1)}", (3, [(2, 4), (1, 2), (1, 1)])),
        (f"{say('plan.more')}: {say('plan.needed', group=1)}", (3, [(2, 4), (2, 2), (1, 1)])),
        (f"{say('plan.fewer')}: {say('plan.groups_needed')}", (2, [(2, 4), (2, 2), (1, 1)])),
        (f"{say('plan.fewer')}: {say('plan.groups_needed')}", (1, [(2, 4), (2, 2), (1, 1)])),
    ]:
        page.push(button)
        check_picture(page, button, plan)
    see("what a plan of one's own survives")
    clear(page)
    begin(page, "check")
    for line, cards in [(THREE_GROUPS[0], "0.0 missing"), (THREE_GROUPS[1], "0.0 0.1 enough"), (THREE_GROUPS[3], "0.0 0.1 enough 1.0 enough")]:
        paste(page, line)
        told = "[...document.querySelectorAll('.picture .card, .picture .enough')].map((it) => it.textContent).join(' ')"
        page.wait(lambda: page.evaluate(told) == cards, f"the cards {cards!r}, and not {page.evaluate(told)!r},")
    see("cards of papers")
    clear(page)


CHECKS = [check_steps, check_plans]
