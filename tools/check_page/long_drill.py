"""Drills and recoveries that take long: what is tried of too many quorums, and how a recovery is stopped."""
import math

from browsers import Failed
from choices import check_green
from samples import SOUND_PAPER, changed, fingerprint_of, papers_of
from tasks import answer_passphrase, begin, choose_wallet, clear, end, take_all
from texts import say

# A plan with more quorums than a drill tries: three groups of eight papers, four of each needed.
GROUPS, MEMBERS, NEEDED = 3, 8, 4
FIRST = 1000


def check_big(page, see):
    """The first quorums are tried, and one with each paper. The page doesn't say that all were."""
    lines = papers_of(f"{GROUPS}/" + ",".join([f"{NEEDED}of{MEMBERS}"] * GROUPS))
    begin(page, "check")
    take_all(page, lines)
    fingerprint = fingerprint_of([line for group in range(GROUPS) for line in lines[group * MEMBERS : group * MEMBERS + NEEDED]], "")
    answer_passphrase(page, None, fingerprint)
    total = f"{math.comb(MEMBERS, NEEDED) ** GROUPS:,}"
    page.wait_text(say("drill.count_part", total=total, first=f"{FIRST:,}"))
    page.push(say("drill.start"))
    # The first 1,000 quorums have the papers 0.0 to 0.3, 1.0 to 1.7 and 2.0 to 2.7, so one more is tried with each of 0.4 to 0.7.
    tried = FIRST + MEMBERS - NEEDED
    page.wait_text(say("drill.tried", tried=f"{tried:,}", total=total))
    verdict = f"{say('verdict.tried.noted', fingerprint=fingerprint)} {say('verdict.untried.others')}"
    page.wait_text(verdict)
    # A count is no comparison.
    check_green(page, [verdict])
    page.lacks("All quorums", "the page says that all quorums were tried")
    see("drill of too many quorums")
    end(page)


def check_most(page, _):
    """The engine counts no further than 2^64 - 1."""
    for number, text in ((2**64 - 1, say("number.least", number=f"{2**64 - 1:,}")), (2**64 - 2, f"{2**64 - 2:,}")):
        told = page.evaluate(f"in_verdict.saidCount({number}n)")
        if told != say("drill.count_part", total=text, first=f"{FIRST:,}"):
            raise Failed(f"of {number} quorums the page says {told!r}")


def check_bar(page):
    """A bar moves, and says that the time which is left is an estimate."""
    at = "document.querySelector('.estimate progress').value"
    page.wait_text(say("work.left", time="@").split("@")[1])
    first = page.evaluate(at)
    page.wait(lambda: page.evaluate(at) > first, "a bar that moves")


def begin_long(page):
    """Begins a recovery that takes long."""
    answer_passphrase(page, "TREZOR", None)
    page.wait_text(say("time.long", exponent=14, time="@").split("@")[0])


def check_stop(page, see):
    """A recovery with a high exponent says how long it takes, and stops. The papers stay."""
    begin(page, "recover")
    take_all(page, [changed(SOUND_PAPER, exponent=14)])
    begin_long(page)
    check_bar(page)
    see("a long recovery")
    page.push(say("stop"))
    page.wait_text(say("recover.stopped"))
    page.push(say("again"))
    begin_long(page)
    clear(page)


def check_stop_drill(page, see):
    """A drill that is stopped before its first quorum says only that, and no verdict on the papers."""
    begin(page, "check")
    take_all(page, [changed(SOUND_PAPER, exponent=14)])
    begin_long(page)
    page.push(say("drill.start"))
    check_bar(page)
    page.push(say("stop"), to=say("check.done.stopped"))
    verdict = page.evaluate("[...document.querySelectorAll('.verdict .bad, .verdict .good, .verdict .note')].map((it) => it.innerText).join(' ')")
    if verdict.strip() != say("drill.tried", tried=0, total=1) or page.evaluate("document.querySelectorAll('.bad').length"):
        raise Failed(f"a drill that was stopped says {verdict!r}, or says that something is wrong")
    see("a drill that was stopped")
    page.wait_text(say("check.stopped"))
    end(page)


def check_slow_drill(page, see):
    """A slow drill shows how many quorums were tried, and how far the next one is. If it is stopped, what was tried counts. Each of these papers
    is a quorum with a secret of its own."""
    total = 12
    begin(page, "check")
    take_all(page, [changed(SOUND_PAPER, exponent=7, group_count=total, group=group, value=bytes([group]) * 16) for group in range(total)])
    answer_passphrase(page, None, None)
    page.push(say("drill.start"))
    for tried in (0, 1, 2):
        shown = [f"{say('drill.tried', tried=tried, total=total)} {say('drill.next', rounds=rounds)}" for rounds in (1, 2, 3)]
        page.wait(lambda: any(it in page.evaluate("document.body.innerText") for it in shown), f"how far the quorum after {tried} is")
    see("a slow drill")
    page.push(say("stop"), to=say("check.done.stopped"))
    # One more may have been tried meanwhile.
    told = page.evaluate("document.body.innerText")
    tried = next((it for it in (2, 3, 4) if say("drill.tried", tried=it, total=total) in told), 0)
    page.wait_text(say("verdict.several", quorums=f"{tried} quorums", secrets=f"{tried} different secrets"))
    end(page)


def check_stop_make(page, _):
    """The making of a backup with a high exponent says how long it takes, and stops. Nothing is made."""
    begin(page, "make")
    choose_wallet(page)
    page.evaluate("document.querySelector('details').open = true; null")
    page.tick(say("passphrase.none"))
    page.retype(say("more.exponent"), "14", "spinbutton")
    page.push(say("make.create"), to=say("make.work"))
    page.wait_text(say("time.about", time="@").split("@")[0])
    check_bar(page)
    page.push(say("stop"))
    page.wait_text(say("make.stopped"))
    clear(page)


CHECKS = [check_big, check_most, check_stop, check_stop_drill, check_slow_drill, check_stop_make]
