"""What an owner does in haste, or while the page is slow: a double click, 'Clear everything' or 'Stop' at a bad moment, a start that fails."""
import time

from browsers import Failed
from long_drill import begin_long
from looks import words_shown
from samples import SOUND_PAPER, changed, with_words
from tasks import begin, choose_wallet, clear, create, end, paste, take_all
from texts import say

# Lets what the page starts, or what it asks the worker for, come not at all, or only at `UNDO`, which ends this.
LAUNCH = """
{
  const given = in_client.Desk.launch;
  const late = new Promise((resolve) => { window.undo = () => { in_client.Desk.launch = given; resolve(); }; });
  in_client.Desk.launch = %s;
}
null
"""
ASK = """
{
  const given = in_client.Desk.prototype.ask;
  const late = new Promise((resolve) => { window.undo = () => { in_client.Desk.prototype.ask = given; resolve(); }; });
  in_client.Desk.prototype.ask = async function (call, ...more) {
    const answer = await given.call(this, call, ...more);
    if (call === "%s") await late;
    return answer;
  };
}
null
"""
FAIL = ASK.replace("await late;", "throw new Error('none');")
UNDO = "window.undo(); null"
# Returns how many bytes are left of the digits that a long call was given, if the worker is ended at once, and while it is at work.
GIVEN = """
(async () => {
  const left = [];
  for (const wait of [0, 1000]) {
    const desk = await in_client.Desk.launch();
    const digits = new TextEncoder().encode("00112233445566778899aabbccddeeff");
    desk.askLong("make", { plan: "2of3", bytes: 16, digits, exponent: 15, extendable: true });
    if (wait) await new Promise((resolve) => setTimeout(resolve, wait));
    await desk.end();
    left.push(digits.filter((it) => it !== 0).length);
  }
  return left.join(" ");
})()
"""


def check_launch(page, see):
    """A task whose worker doesn't start, or whose engine isn't right, says so. One that is cleared while it starts doesn't begin."""
    begin(page, "check")
    clear(page)
    for launch, text in [
        ("() => Promise.reject(new Error('none'))", say("lacks.engine")),
        ("() => given.call(in_client.Desk).then((it) => { it.begun.fault = 'recover'; return it; })", say("lacks.wrong", fault="recover")),
    ]:
        page.evaluate(LAUNCH % launch)
        page.push(say("home.check"), to=say("lacks.title"))
        page.wait_text(text)
        see("a task that doesn't start")
        page.evaluate(UNDO)
        clear(page)
    page.evaluate(LAUNCH % "() => late.then(() => given.call(in_client.Desk))")
    page.push(say("home.check"))
    page.push(say("clear"))
    page.evaluate(UNDO)
    time.sleep(2)
    if page.title() != say("home.title"):
        raise Failed(f"a task that was cleared while it started begins all the same: {page.title()!r}")


def check_double_click(page, _):
    """A double click presses one button, and not one of the next screen too."""
    begin(page, "make")
    choose_wallet(page)
    page.tick(say("passphrase.none"))
    create(page)
    page.wait_title(say("paper.title", name="0.0"))
    page.wait(lambda: words_shown(page) == 20, "the words")
    # The next screen isn't scrolled, so the button stands at the same place only if this one isn't either.
    page.size(1200, 900)
    # What is pressed as soon as a screen comes was meant for the one before.
    time.sleep(1)
    page.double_click(say("paper.written"))
    page.wait(lambda: page.title() != say("paper.title", name="0.0"), "the end of a paper")
    time.sleep(0.5)
    if page.title() != say("paper.title", name="0.1"):
        raise Failed(f"a double click skips a paper: {page.title()!r}")
    check_late_words(page)


# Presses a button of the next screen as a mouse does, so many milliseconds after that has come.
LATE = """
{
  const shown = document.querySelector('h1').textContent;
  const timer = setInterval(() => {
    if (document.querySelector('h1').textContent === shown) return;
    clearInterval(timer);
    setTimeout(() => {
      [...document.querySelectorAll('main button')].find((it) => it.textContent === "%s").dispatchEvent(new MouseEvent('click', { detail: 1, bubbles: true }));
      window.pressed = true;
    }, %s);
  });
  window.pressed = false;
}
null
"""


def check_late_click(page, _):
    """A click that comes when the last word of a paper has led to the next screen presses nothing there. A later one does."""
    for wait, title in [(200, "damaged.check.title"), (1500, "damaged.title")]:
        begin(page, "damaged")
        paste(page, with_words(SOUND_PAPER, {6: "?"}))
        page.push(say("damaged.write", name="0.0"))
        page.push(say("paper.written"), to=say("back.title", name="0.0"))
        page.evaluate(LATE % (say("damaged.another"), wait))
        page.type(SOUND_PAPER + " ")
        page.wait(lambda: page.evaluate("window.pressed"), "a click on the next screen")
        time.sleep(0.5)
        if page.title() != say(title):
            raise Failed(f"a click {wait} milliseconds after a screen has come leads to {page.title()!r}")
        clear(page, say("clear.repaired"))


def check_late_words(page):
    """Words that come late aren't shown while the page asks whether to clear them."""
    page.evaluate(ASK % "paper")
    page.push(say("paper.written"), to=say("paper.title", name="0.2"))
    page.push(say("clear"))
    page.wait_text(say("clear.unfinished"))
    page.evaluate(UNDO)
    time.sleep(2)
    if words_shown(page):
        raise Failed("words that come late are shown while the page asks whether to clear them")
    page.push(say("clear.stay"))
    page.push(say("paper.show"))
    page.wait(lambda: words_shown(page) == 20, "the words again")
    if page.evaluate("document.activeElement === document.body"):
        raise Failed("the button that shows the words takes the focus with it")
    clear(page, is_asked=True)


def check_stop(page, see):
    """'Stop' works before the page has its copy of what the worker holds, and if no other worker starts."""
    begin(page, "recover")
    take_all(page, [changed(SOUND_PAPER, exponent=14)])
    page.evaluate(ASK % "keep")
    begin_long(page)
    page.push(say("stop"))
    page.evaluate(UNDO)
    page.wait_text(say("recover.stopped"))
    page.push(say("again"))
    begin_long(page)
    time.sleep(2)
    page.evaluate("{ const given = Worker; window.undo = () => { window.Worker = given; }; window.Worker = function () { throw new Error('none'); }; } null")
    page.push(say("stop"), to=say("fault.title"))
    page.wait_text(say("fault.other"))
    page.evaluate(UNDO)
    see("no other worker starts")
    end(page)


def check_given(page, _):
    """If a task ends while the worker makes papers of the owner's digits, the page overwrites these."""
    left = page.evaluate(GIVEN)
    if left != "0 0":
        raise Failed(f"so many bytes are left of the digits after a task that was cleared: {left}")


def check_fault(page, see):
    """A task that fails while papers are half written says what becomes of them."""
    begin(page, "make")
    choose_wallet(page)
    page.tick(say("passphrase.none"))
    create(page)
    page.wait_title(say("paper.title", name="0.0"))
    page.evaluate(FAIL % "paper")
    page.push(say("paper.written"), to=say("fault.title"))
    page.evaluate(UNDO)
    page.wait_text(say("fault.other"), say("clear.unfinished"))
    see("a task that fails")
    end(page)


def check_late_answer(page, _):
    """What was found of a damaged paper isn't told beside words that were changed before it was shown."""
    begin(page, "damaged")
    page.evaluate(ASK % "paper")
    paste(page, with_words(SOUND_PAPER, {6: "?"}))
    page.wait_text(say("damaged.found"))
    page.fill(say("entry.word", number=5), "x")
    page.evaluate(UNDO)
    time.sleep(1)
    page.lacks(say("damaged.one", name="0.0"), "an answer to other words is told")
    clear(page)


CHECKS = [check_launch, check_double_click, check_late_click, check_stop, check_given, check_fault, check_late_answer]
