"""'Change the plan': new papers for the secret of old ones, of an extendable backup and of another one, and what stops or refuses it.

What old and new papers give is computed by the plain reading.
"""
from browsers import Failed
from choices import DRAWN, FOREKNOWN, PHONE, check_green
from long_drill import check_bar
from refusals import said
from samples import FINGERPRINT, PASSPHRASE, SECRET, THREE_GROUPS, changed, check_backups, fingerprint_of, name_of, papers_of
from tasks import answer_passphrase, begin, begin_replace, clear, drill, end, paste, take_all, write_down
from texts import counted, say

import plain

WIDE = (1280, 900)
# Notes whether the page ever shows the digits of a secret.
WATCH = """
window.isSeen = false;
window.watch = new MutationObserver(() => { window.isSeen ||= document.getElementById('main').textContent.replace(/\\s/g, '').includes('%s'); });
window.watch.observe(document.getElementById('main'), { childList: true, subtree: true, characterData: true });
null
"""
SEEN = "window.watch.disconnect(); window.isSeen"
# Whether the button that ends stands below all that is told, and not over it.
BELOW = """
(() => {
  scrollTo(0, 0);
  const go = document.querySelector('main > .go');
  return go.getBoundingClientRect().top >= go.previousElementSibling.getBoundingClientRect().bottom;
})()
"""


def old_papers(exponent=0):
    """Returns the papers of an extendable backup of the secret with the passphrase: 2/2of3,1of1,1of1."""
    papers = papers_of("2/2of3,1of1,1of1", PASSPHRASE, 0, True, bytes.fromhex(SECRET))
    # To derive the key with a high exponent would take long. Then the papers are of some other secret.
    return [changed(line, exponent=exponent) for line in papers]


def pictures(page, see, what):
    for width, height in (PHONE, WIDE):
        page.size(width, height)
        wide = page.evaluate("document.documentElement.scrollWidth - document.documentElement.clientWidth")
        if wide > 0:
            raise Failed(f"{what}: at {width} pixels the screen is {wide} pixels too wide")
        see(f"change {what} {width}")


def write(page, see, old, is_checked=False):
    """Writes the new papers down, and types them back. An old paper isn't taken for a new one. Returns the new ones."""
    page.wait_title(say("change.forms"))
    page.wait_text(say("change.mark"), say("forms.print"))
    pictures(page, see, "pen and paper")
    page.push(say("forms.go"))
    new = write_down(page)
    for line in new:
        page.wait_title(say("back.title", name=name_of(line)))
        if is_checked and line == new[0]:
            paste(page, old[0])
            page.wait_text(say("back.foreign", name="0.0", typed="0.0"))
            pictures(page, see, "an old paper is typed back")
            page.push(say("clear"))
            page.wait_text(say("clear.changed"))
            page.push(say("clear.stay"))
        paste(page, line)
    page.wait_title(say("change.noted"))
    return new


def start(page, lines):
    page.evaluate(WATCH % SECRET)
    begin(page, "change")
    take_all(page, lines)
    page.wait_title(say("change.plan"))


def finish(page):
    end(page)
    if page.evaluate(SEEN):
        raise Failed("the page showed the secret")


def check_done(page, see, what, texts, green, title="change.done"):
    page.wait_title(say(title))
    keep = say("make.keep").split(". ")[1]
    page.wait_text(*texts, keep, say("change.restore"), say("change.mixed"), say("change.thief"))
    if (say("change.same") in page.text()) != (title == "change.done"):
        raise Failed("that old and new papers agree isn't said, or is said though nothing was compared")
    if page.text().index(say("change.restore")) > page.text().index(say("change.old.title")):
        raise Failed("what is to be destroyed is told before what is to be done first")
    check_green(page, green)
    pictures(page, see, what)
    if not page.evaluate(BELOW):
        raise Failed("the button that ends stands over what is to be done with the old papers")


def check_extendable(page, see):
    """An extendable backup: too few papers, the way back, and new papers that agree with the old ones for every passphrase."""
    old = old_papers()
    begin(page, "change")
    page.wait_text(say("step.most", at=1, count=8))
    pictures(page, see, "old papers")
    take_all(page, old[:1])
    page.wait_title(say("recover.few"))
    page.push(say("collect.more"))
    take_all(page, [old[1], old[3]])
    page.wait_title(say("change.plan"))
    page.push(say("back"))
    page.wait_text(say("collect.row", name="1.0", words=20))
    clear(page)
    start(page, [old[0], old[1], old[3]])
    page.choose(say("plan.three"))
    pictures(page, see, "the new plan")
    page.push(say("continue"))
    new = write(page, see, old, is_checked=True)
    check_backups([old[0], old[1], old[3]], new, "3of5", 1)
    # No wallet and no passphrase was asked for.
    page.wait_text(say("step", at=5, count=6))
    pictures(page, see, "what was noted")
    drill(page, "TREZOr", FINGERPRINT)
    page.wait_text(say("verdict.other", quorums=counted(1, "quorum"), noted=FINGERPRINT))
    pictures(page, see, "another fingerprint")
    answer_passphrase(page, PASSPHRASE, None)
    # The fingerprint that was typed before stands there, so none and one are said at once.
    page.wait_text(say("noted.both"))
    page.retype(say("noted.label"), FINGERPRINT)
    page.push(say("continue"))
    page.push(say("drill.start"))
    verdict = say("verdict.all.noted.new", quorums=counted(10, "quorum"), fingerprint=FINGERPRINT)
    note = say("make.note", said="any 3 of the 5 papers recover the secret", plan="3of5")
    check_done(page, see, "done", [verdict, say("change.old"), note], [verdict])
    finish(page)


def check_bare(page, see):
    """Without passphrase and fingerprint, old and new papers of an extendable backup are compared all the same. Nothing is green."""
    old = old_papers()
    for passphrase in (None, PASSPHRASE):
        start(page, [old[3], old[4]])
        page.push(say("continue"))
        new = write(page, see, old)
        check_backups([old[3], old[4]], new, "2of3", 1)
        if passphrase is None:
            # What was typed before isn't taken.
            drill(page, "TREZOr", FINGERPRINT)
            page.wait_text(say("verdict.other", quorums=counted(1, "quorum"), noted=FINGERPRINT))
            page.push(say("change.bare"))
        else:
            answer_passphrase(page, passphrase, None)
        page.push(say("drill.start"))
        verdict = say("verdict.all.own.new", quorums=counted(3, "quorum"), fingerprint=fingerprint_of(old[3:], passphrase or ""))
        check_done(page, see, f"done without notes {passphrase}", [verdict, say("change.noted.first" if passphrase else "change.bare.noted"), say("change.old")], [])
        finish(page)


def check_renewed(page, see):
    """Another backup: the passphrase and the fingerprint are asked for first, and the papers are made of the secret, with the flag if the
    wallet knows it."""
    old = [THREE_GROUPS[0], THREE_GROUPS[1], THREE_GROUPS[3]]
    for wallet, noted in (("flag", FINGERPRINT), ("older", None)):
        start(page, old)
        page.push(say("continue"), to=say("change.wallet"))
        page.push(say("back"), to=say("change.plan"))
        page.push(say("continue"))
        page.choose(say(f"wallet.{wallet}"))
        pictures(page, see, "which wallet")
        page.push(say("continue"), to=say("change.passphrase"))
        page.push(say("back"), to=say("change.wallet"))
        page.push(say("continue"))
        page.wait_text(say("change.passphrase.why"))
        pictures(page, see, "the passphrase")
        if noted:
            page.lacks(say("passphrase.twice"), "beside a noted fingerprint, the passphrase is asked for twice")
            answer_passphrase(page, "TREZOr", noted)
            page.wait_text(say("recover.other", noted=FINGERPRINT))
            page.fill(say("passphrase.label"), PASSPHRASE)
            page.push(say("continue"))
        else:
            type_twice(page, see)
        new = write(page, see, old)
        check_backups(old, new, "2of3", int(wallet == "flag"))
        if not noted:
            drill(page, "TREZOr", None)
            page.wait_title(say("change.unproved"))
            page.wait_text(say("change.other"))
            check_green(page, [])
            pictures(page, see, "another passphrase")
            page.push(say("proof.again"))
            page.fill(say("passphrase.label"), PASSPHRASE)
            page.push(say("continue"))
        else:
            answer_passphrase(page, PASSPHRASE, noted)
        page.push(say("drill.start"))
        verdict = say(f"verdict.all.{'noted' if noted else 'own'}.new", quorums=counted(3, "quorum"), fingerprint=FINGERPRINT)
        if noted:
            check_done(page, see, f"done, not extendable, {wallet}", [verdict, say("change.old.renewed")], [verdict])
        else:
            texts = [verdict, say("change.noted.first"), say("change.old.unproved")]
            check_done(page, see, f"done, not extendable, {wallet}", texts, [], "change.done.unproved")
            first = page.evaluate("(({ className, innerText }) => `${className} ${innerText}`)(document.querySelector('#main > h1 ~ *'))")
            if first != f"bad {say('change.unnoted')}":
                raise Failed(f"that nothing was compared isn't said first, and in red, but {first!r}")
            page.lacks(say("change.old.renewed"), "that old and new papers agree is said though nothing was compared")
        finish(page)


def type_twice(page, see):
    """Types the passphrase of old papers without a noted fingerprint. Nothing else shows a mistyped one, so it is typed twice."""
    page.fill(say("passphrase.label"), PASSPHRASE)
    page.tick(say("noted.none"))
    page.wait_text(say("passphrase.twice"))
    for again in ("", "TREZOr"):
        page.retype(say("passphrase.again"), again)
        page.push(say("continue"))
        page.wait_text(say("passphrase.differ"))
    pictures(page, see, "the passphrase typed twice")
    page.retype(say("passphrase.again"), PASSPHRASE)
    page.push(say("continue"))


def check_refused(page, see):
    """Papers that don't belong together give no new ones, and the owner goes back to them. From 'Replace', a lost paper leads here."""
    old = old_papers()
    wrong = changed(old[1], value=bytes(16))
    begin_replace(page, "other")
    page.wait_title(say("replace.new.title"))
    page.wait_text(say("replace.new.change"))
    pictures(page, see, "a lost paper")
    page.push(say("replace.new.change.go"))
    take_all(page, [old[0], wrong, old[3]])
    page.push(say("continue"), to=say("change.failed"))
    page.wait_text(said(51, first=0))
    pictures(page, see, "papers that don't belong together")
    page.push(say("collect.back"), to=say("change.title"))
    page.push(say("collect.drop", name="0.1"))
    take_all(page, [old[1]])
    page.push(say("continue"), to=say("change.forms"))
    clear(page)


def check_wrong(page, see):
    """A wrong paper among the old ones, which the new papers aren't made of, is found: all quorums of the old papers are tried."""
    old = old_papers()
    start(page, [old[0], old[1], changed(old[2], value=bytes(16)), old[3]])
    page.push(say("continue"))
    write(page, see, old)
    answer_passphrase(page, PASSPHRASE, FINGERPRINT)
    for title, count in (("change.old.title", 3), ("change.new.title", 3)):
        page.wait_text(f"{say(title)}\n\n{say('drill.count', total=count)}")
    pictures(page, see, "what is tried")
    page.push(say("drill.start"), to=say("change.unproved"))
    page.wait_text(say("verdict.some", wrong=2, quorums=counted(3, "quorum")), say("verdict.suspects.one", names="0.2"), say("change.old.wrong"))
    check_green(page, [])
    if page.text().index(say("change.old.title")) > page.text().index(say("drill.caption")):
        raise Failed("nothing above the table says that its papers are the old ones")
    pictures(page, see, "a wrong old paper")
    finish(page)


def check_stop(page, see):
    """What takes long tells how far it is, and stops. The papers stay."""
    begin(page, "change")
    take_all(page, [changed(line, exponent=14) for line in THREE_GROUPS[3:]])
    page.push(say("continue"))
    page.choose(say("wallet.flag"))
    page.push(say("continue"))
    answer_passphrase(page, PASSPHRASE, FINGERPRINT)
    page.wait_title(say("make.work"))
    check_bar(page)
    pictures(page, see, "a long making")
    page.push(say("stop"))
    page.wait_text(say("change.stopped"))
    for title in ("change.wallet", "change.plan", "change.title"):
        page.push(say("back"), to=say(title))
    page.wait_text(say("collect.row", name="2.0", words=20))
    clear(page)
    begin(page, "change")
    take_all(page, old_papers(14)[3:])
    page.push(say("continue"))
    write(page, see, old_papers(14))
    page.push(say("change.bare"))
    page.push(say("drill.start"), to=say("change.work"))
    check_bar(page)
    page.push(say("stop"), to=say("change.noted"))
    page.wait_text(say("change.stopped"))
    clear(page, is_asked=True)


def check_identifier(page, _):
    """If the first random bytes give the identifier of the old papers, others are drawn."""
    for lines in (old_papers()[3:], THREE_GROUPS[3:]):
        share = plain.parse(lines[0].encode())
        first, second = divmod(share["id"], 256)
        # A plan of 2of3 takes 14 random bytes.
        page.evaluate(FOREKNOWN % f"if (it.length === 14) draws += 1; if (it.length === 14 && draws === 1) [it[0], it[1]] = [{first}, {second}];")
        start(page, lines)
        page.push(say("continue"))
        if not share["extendable"]:
            page.choose(say("wallet.older"))
            page.push(say("continue"))
            answer_passphrase(page, PASSPHRASE, FINGERPRINT)
        new = write(page, lambda _: None, lines)
        check_backups(lines, new, "2of3", share["extendable"])
        if plain.parse(new[0].encode())["id"] != int.from_bytes(DRAWN[:2], "big"):
            raise Failed("the random bytes that were to be drawn weren't")
        clear(page, is_asked=True)
        page.call("browsingContext.reload", wait="complete")
        page.wait_title(say("home.title"))


CHECKS = [check_extendable, check_bare, check_renewed, check_wrong, check_refused, check_identifier, check_stop]
