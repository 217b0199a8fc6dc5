"""What an owner takes back: a paper that was taken out, and fields that were emptied. Words that are offered, and a long paste."""
from browsers import Failed
from looks import HIDE
from samples import SOUND_PAPER, THREE_GROUPS
from tasks import begin, clear, paste, take
from texts import counted, say

WORDS = "[...document.querySelectorAll('.word:not([hidden]) input')].map((it) => it.value).join(' ')"
# Some programs that fill fields tell only that a field has changed.
BARE_INPUT = "{ const it = document.querySelectorAll('.word input')[2]; it.value = 'sub'; it.dispatchEvent(new Event('input', { bubbles: true })); } null"
SHOWN = "[...document.querySelectorAll('.ahead button')].map((it) => it.textContent).join(' ')"


def check_put_back(page, see):
    """A paper that was taken out can be put back, until another is typed or taken out."""
    begin(page, "check")
    for line, name in zip(THREE_GROUPS[:2], ("0.0", "0.1")):
        paste(page, line)
        page.wait_text(say("collect.taken", name=name))
    for name in ("0.1", "0.0"):
        page.push(say("collect.drop", name=name))
        page.wait_text(say("collect.dropped", name=name))
        page.wait_text(say("status.not_enough", needed=counted(2, "whole"), here=0))
        see("a paper that was taken out")
        page.push(say("collect.undo", name=name))
        page.wait_text(say("collect.undone", name=name))
        page.wait_text(say("status.not_enough", needed=counted(2, "whole"), here=1))
        page.lacks(say("collect.undo", name=name), "a paper that is back can be put back again")
    for name in ("0.1", "0.0"):
        page.push(say("collect.drop", name=name))
        page.wait_text(say("collect.dropped", name=name))
    page.lacks(say("collect.undo", name="0.1"), "the paper that was taken out before the last one can be put back")
    take(page, [THREE_GROUPS[3]])
    page.lacks(say("collect.undo", name="0.0"), "a paper can be put back beside one that was typed later")
    clear(page)


def check_emptied(page, see):
    """Words that were emptied come back, until something else is typed."""
    typed = " ".join(SOUND_PAPER.split()[:7])
    for task in ("check", "damaged"):
        begin(page, task)
        page.lacks(say("entry.undo"), "words can be brought back before any were emptied")
        page.type(typed + " ")
        page.wait(lambda: page.evaluate(WORDS).strip() == typed, "the words that were typed")
        page.push(say("entry.empty"))
        page.wait(lambda: page.evaluate(WORDS).strip() == "", "the end of the words")
        see(f"fields that were emptied, {task}")
        page.push(say("entry.undo"))
        page.wait(lambda: page.evaluate(WORDS).strip() == typed, "the words that were emptied")
        page.push(say("entry.empty"))
        page.fill(say("entry.word", number=1), "acid ")
        if say("entry.undo") in page.text() or page.evaluate(WORDS).strip() != "acid":
            raise Failed("words that were emptied can be brought back over others")
        clear(page)


def check_question(page, _):
    """A question about words that are typed goes when they are taken as a paper, since its answer would forget the paper too."""
    begin(page, "recover")
    first, *others = SOUND_PAPER.split()
    page.type(first + " ")
    page.push(say("back"))
    page.wait_text(say("entry.lost"))
    page.fill(say("entry.word", number=2), " ".join(others) + " ")
    page.wait_text(say("collect.taken", name="0.0"))
    page.lacks(say("entry.lost"), "a question about words stays beside the paper that they became")
    clear(page)


# Pastes a text with no separator, and returns how many milliseconds the page takes: at most `PASTING_MOST`. It takes a multiple of that if it
# compares all letters with the list.
PASTE_LONG = """
(() => {
  const event = new Event('paste', { bubbles: true, cancelable: true });
  event.clipboardData = { getData: () => 'acid'.repeat(4000) };
  const begun = performance.now();
  document.querySelector('.word input').dispatchEvent(event);
  return performance.now() - begun;
})()
"""
PASTING_MOST = 3000


def check_long_paste(page, _):
    """A long text without separators is told as no word, and the page doesn't stand still meanwhile."""
    begin(page, "check")
    taken = page.evaluate(PASTE_LONG)
    page.wait_text(say("entry.unknown", number=1))
    if taken > PASTING_MOST:
        raise Failed(f"a paste of many letters takes {taken:.0f} ms")
    clear(page)


def check_offered(page, see):
    """While a word is typed, the words that begin so are offered, if they are few. A word that is none is told with those that are near."""
    begin(page, "check")
    page.fill(say("entry.word", number=1), "su")
    if page.evaluate(SHOWN):
        raise Failed(f"too many words are offered: {page.evaluate(SHOWN)}")
    page.type("b")
    page.wait(lambda: page.evaluate(SHOWN) == "subject submit", "the words that begin so")
    see("words that begin so")
    page.evaluate("document.querySelectorAll('.ahead button')[1].click(); null")
    page.wait(lambda: page.evaluate(WORDS).split() == ["submit"], "the word that was chosen")
    if not page.has_focus(page.node("textbox", say("entry.word", number=2))) or page.evaluate(SHOWN):
        raise Failed("after a word was chosen, the focus isn't in the next field, or words are still offered")
    page.type("acdemic ")
    page.wait_text(say("entry.unknown", number=2))
    told = "document.getElementById('live').textContent"
    page.wait(lambda: page.evaluate(told).startswith(say("entry.unknown", number=2)) and "academic" in page.evaluate(told), "the words that are near, in what a screen reader says")
    for is_hidden in ("true", "false"):
        page.evaluate(HIDE % is_hidden)
        if page.evaluate(told):
            raise Failed("a hidden tab keeps the words that a screen reader was told")
    page.evaluate(BARE_INPUT)
    page.wait(lambda: page.evaluate(SHOWN) == "subject submit", "the words that begin so, after an input that doesn't say of which kind it is")
    clear(page)


CHECKS = [check_put_back, check_emptied, check_question, check_long_paste, check_offered]
