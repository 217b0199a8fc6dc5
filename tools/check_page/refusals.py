"""Each refusal that an owner can meet, and what the page says of it."""
import json

from browsers import Failed
from samples import BAD_CHECKSUM, BAD_PADDING, BIP39, EXCHANGED, FINGERPRINT, PASSPHRASE, SECRET, SOUND_PAPER, THREE_GROUPS
from samples import changed, opening, refused_beside, with_words
from tasks import answer_passphrase, begin, begin_replace, choose_has, choose_wallet, clear, drill, end, paste, take_all, type_digits, type_paper
from texts import counted, say

import plain

WRONG_WORD = with_words(SOUND_PAPER, {7: "lend"})


def said(number, **values):
    """Returns what the page says of a refusal, without the engine's own text."""
    return say(f"refused.{number}", **values)


def of_one_paper():
    """Returns papers that are refused by themselves, or beside the first paper of the example."""
    return [
        (BAD_CHECKSUM, said(18, first=20)),
        (WRONG_WORD, said(18, first=7)),
        (EXCHANGED, said(13)),
        (BAD_PADDING, said(14)),
        (changed(THREE_GROUPS[0], group_threshold=16), said(15)),
        *((line, said(number, **values)) for line, number, values in refused_beside(THREE_GROUPS[0])),
    ]


def check_papers(page, see):
    """Papers that are refused stay in their fields, with the reason, until they are typed right."""
    begin(page, "check")
    type_paper(page, THREE_GROUPS[0], is_by_four=True)
    page.wait_text(say("collect.taken", name="0.0"))
    for line, text in of_one_paper():
        type_paper(page, line, is_by_four=True)
        page.wait_text(text)
        if line == WRONG_WORD:
            see("another wrong word")
            check_wrong_word(page)
        else:
            page.push(say("entry.empty"))
    if len(page.text().split(": sound")) != 2:
        raise Failed("a refused paper was taken")
    page.push(say("collect.end"))
    page.wait_text(say("check.sound", papers=counted(1, "paper"), names="0.0"))
    page.wait_text(say("status.not_enough", needed=counted(2, "whole"), here=0))
    see("too few papers")
    page.push(say("collect.more"), to=say("check.title"))
    page.wait_text(say("collect.row", name="0.0", words=20))
    page.push(say("collect.drop", name="0.0"))
    page.wait_text(say("collect.dropped", name="0.0"))
    page.lacks(say("collect.taken", name="0.0"), "a paper that was taken out is still said to be sound")
    clear(page)


def check_wrong_word(page):
    """The focus goes to the wrong word, and the paper is read again as soon as it is right. It is of another backup."""
    if not page.has_focus(page.node("textbox", say("entry.word", number=7))):
        raise Failed("the focus doesn't go to the wrong word")
    page.type("leng")
    page.wait_text(say("collect.taken.apart", name="0.0", begin=opening(SOUND_PAPER)))
    page.push(say("collect.drop.of", name="0.0", begin=opening(SOUND_PAPER)))
    page.wait_text(say("collect.dropped", name="0.0"))


def check_words(page, see):
    """A word that isn't in the list is marked, and nothing is put in its place. A paper of 21 words, and words of BIP-39."""
    begin(page, "check")
    type_paper(page, with_words(SOUND_PAPER, {3: "acdemic"}))
    page.wait_text(say("entry.unknown", number=3))
    page.wait(lambda: page.evaluate("document.getElementById('live').textContent") != "", "what a screen reader is told of an unknown word")
    see("an unknown word")
    if page.evaluate("document.querySelectorAll('.word input')[2].value") != "acdemic":
        raise Failed(f"a word was put in the place of an unknown one: {page.text()[:700]!r}")
    page.push(say("entry.read"))
    page.wait_text(said(11, first=3))
    page.push("academic")
    page.wait_text(say("collect.taken", name="0.0"))
    page.push(say("collect.drop", name="0.0"))
    page.wait_text(say("collect.dropped", name="0.0"))
    page.retype(say("entry.count"), "21", "spinbutton")
    page.fill(say("entry.word", number=1), f"{SOUND_PAPER} acid ")
    page.wait_text(said(12, first=21))
    page.push(say("entry.empty"))
    page.push(say("entry.words", count=20))
    page.go_to("textbox", say("entry.word", number=3))
    page.press("Backspace")
    if not page.has_focus(page.node("textbox", say("entry.word", number=2))):
        raise Failed("Backspace in an empty field doesn't go back")
    paste(page, BIP39)
    page.wait_text(say("entry.bip39", count=12))
    page.push(say("entry.empty"))
    paste(page, " ".join(["duckl1ng", *SOUND_PAPER.split()[1:12]]).replace("1", "x"))
    page.wait_text(say("entry.missing", number=13, count=12, fields=20))
    page.push(say("entry.empty"))
    paste(page, BAD_CHECKSUM)
    page.wait_text(said(18, first=20))
    page.type("keyb")
    page.wait_text(say("collect.taken", name="0.0"))
    page.push(say("collect.drop", name="0.0"))
    page.wait_text(say("collect.dropped", name="0.0"))
    # As a blank form prints it.
    heading = f"{say('blank.heading')} {say('blank.name', name='0.0')}\n"
    numbered = "".join(f"{number}. {word.upper()},\n" for number, word in enumerate(SOUND_PAPER.split(), 1))
    paste(page, heading + numbered)
    page.wait_text(say("collect.taken", name="0.0"))
    clear(page)


def check_values(page, see):
    """Plans, secrets and passphrases that are refused."""
    begin(page, "make")
    page.choose(say("plan.own"))
    page.push(f"{say('plan.fewer')}: {say('plan.needed', group=0)}")
    page.push(say("continue"))
    page.wait_text(said(34, first=0))
    see("a plan that is refused")
    page.choose(say("plan.two"))
    choose_wallet(page)
    page.push(say("make.create"))
    page.wait_text(say("passphrase.missing"))
    for title in ("make.wallet", "make.plan", "home.make"):
        page.push(say("back"), to=say(title))
    choose_has(page, "own")
    choose_wallet(page)
    page.push(say("make.create"))
    page.wait_text(say("secret.from.missing"))
    page.choose(say("secret.slip39"))
    page.push(say("make.create"))
    page.wait_text(say("secret.missing"))
    check_digits(page, see)
    for passphrase, again, text in [
        ("pässword", "pässword", say("passphrase.unfit")),
        (PASSPHRASE, "TREZOr", say("passphrase.differ")),
        (f"{PASSPHRASE} ", f"{PASSPHRASE} ", say("passphrase.space")),
        ("x" * 1025, "x" * 1025, say("passphrase.long")),
    ]:
        type_digits(page, SECRET, SECRET, FINGERPRINT)
        for field, value in [("passphrase.label", passphrase), ("passphrase.again", again)]:
            page.fill(say(field), value)
            if field == "passphrase.label" and text == say("passphrase.unfit"):
                page.wait_text(said(41, first=2))
                see("a passphrase that wallets don't take")
        page.push(say("make.create"))
        page.wait_text(text)
    page.lacks(said(41, first=2), "what was refused before stays beside what is missing now")
    clear(page)


def check_digits(page, see):
    """Digits that stand for no secret, that differ, and that have another fingerprint than the noted one. No paper is shown."""
    changed_digits = SECRET[:-1] + "0"
    other, is_kept = plain.told(bytes.fromhex(changed_digits), True), False
    for digits, again, noted, text in [
        (SECRET[:-2], SECRET[:-2], FINGERPRINT, said(42, first=15)),
        (SECRET[:-1] + "g", SECRET[:-1] + "g", FINGERPRINT, say("secret.not_hex", place=32)),
        (SECRET[:-1], SECRET[:-1], FINGERPRINT, say("secret.odd", digits=31)),
        (changed_digits, changed_digits, FINGERPRINT, say("secret.other", fingerprint=other, noted=FINGERPRINT)),
        (SECRET, changed_digits, FINGERPRINT, say("secret.differ")),
        (SECRET, SECRET, "", say("noted.missing")),
    ]:
        # What was typed before stays in its fields.
        for field, text_of in [("secret.digits", digits), ("secret.again", again), ("noted.label", noted), ("passphrase.label", PASSPHRASE), ("passphrase.again", PASSPHRASE)]:
            page.go_to("textbox", say(field))
            if page.evaluate("document.activeElement.value") != text_of:
                if is_kept and field.startswith("passphrase"):
                    raise Failed("a refusal of digits empties the passphrase")
                page.evaluate("document.activeElement.select()")
                page.press("Backspace")
                page.type(text_of)
        is_kept = True
        page.push(say("make.create"))
        page.wait_text(text)
        if digits == changed_digits:
            see("digits with another fingerprint")


def check_mixed(page, see):
    """A paper of another backup that only the digests find, and a paper that the rest don't determine."""
    forged = changed(THREE_GROUPS[2], value=plain.parse(THREE_GROUPS[3].encode())["value"])
    begin(page, "check")
    for line in [*THREE_GROUPS[:2], forged, *THREE_GROUPS[3:]]:
        type_paper(page, line, is_by_four=True)
    page.wait_text(say("collect.taken", name="2.0"))
    page.push(say("collect.end"))
    drill(page, PASSPHRASE, "df41d8fe")
    page.wait_text(say("verdict.some", quorums=counted(7, "quorum"), wrong=4))
    page.wait_text(say("verdict.suspects.one", names="0.2"))
    page.wait_text(say("drill.mismatch", group=0))
    see("drill with a forged paper")
    end(page)
    begin_replace(page)
    type_paper(page, THREE_GROUPS[0], is_by_four=True)
    page.wait_text(say("collect.taken", name="0.0"))
    page.push(say("collect.end"))
    page.wait_text(say("replace.none_yet"))
    see("too few papers to write a missing one")
    page.push(say("collect.more"))
    take_all(page, THREE_GROUPS[1:3])
    one, two, whole = counted(1, "paper"), counted(2, "paper"), counted(2, "whole")
    for group, needed, text in [(1, "1", said("66.only", group=1, whole=whole, groups=1)), (2, "2", said("66.fewer", group=2, more=two, fewer=one, whole=whole, groups=1))]:
        page.choose(say("which.paper", name=f"{group}.0"))
        page.fill(say("which.needed"), needed, "spinbutton")
        page.push(say("which.write"))
        page.wait_text(f"{say('which.untold', name=f'{group}.0')} {text}")
    page.lacks("other groups", "the page tells an owner of 'other groups' in the engine's words")
    see("papers that the rest don't determine")
    page.push(say("replace.end"))
    page.wait_text(say("replace.too_few"))
    end(page)


ONLINE = "Object.defineProperty(navigator, 'onLine', { configurable: true, get: () => %s });"


def check_prepare(page, _):
    """The question before the first task: a machine that seems online is asked twice, and one that seems offline once. A change shows."""
    for is_online in (True, False):
        page.evaluate(ONLINE % str(is_online).lower() + " null")
        page.push(say("home.check"), to=say("prepare.title"))
        page.wait_text(say("prepare.online" if is_online else "prepare.offline"))
        if is_online:
            page.evaluate(ONLINE % "false" + " window.dispatchEvent(new Event('offline')); null")
            page.wait_text(say("prepare.offline"))
            page.evaluate(ONLINE % "true" + " window.dispatchEvent(new Event('online')); null")
            page.wait_text(say("prepare.online"))
        page.push(say("prepare.ready"))
        if is_online:
            page.wait_text(say("prepare.still_online"))
            page.push(say("prepare.no"), to=say("home.title"))
    page.wait_title(say("check.title"))
    clear(page)


def forged_backups():
    """Returns papers with one that was forged: beside papers of its group, and in a group of its own."""
    value = plain.parse(THREE_GROUPS[2].encode())["value"]
    of_member = [THREE_GROUPS[0], changed(THREE_GROUPS[1], value=value[::-1]), THREE_GROUPS[3]]
    of_groups = [changed(THREE_GROUPS[3], value=value[::-1]), THREE_GROUPS[4]]
    return [(of_member, said(51, first=0)), (of_groups, say("refused.51.groups"))]


def check_noted(page, see):
    """A text that is no fingerprint, one beside the box that says that there is none, and no answer. At last there is none."""
    page.fill(say("passphrase.label"), PASSPHRASE)
    page.wait(lambda: said(41, first=2) not in page.text(), "the end of a refusal")
    page.tick(say("noted.none"))
    for typed, text in [(None, say("noted.both")), ("df41d8fg", say("noted.wrong")), ("", say("noted.missing"))]:
        if typed is not None:
            page.retype(say("noted.label"), typed)
        page.push(say("continue"))
        page.wait_text(text)
    see("a fingerprint is asked for")
    page.tick(say("noted.none"))
    page.push(say("continue"))


def check_recovery(page, see):
    """A passphrase that wallets don't take, and papers that don't belong together, in a recovery and in a drill."""
    for task in ("recover", "check"):
        for lines, text in forged_backups():
            begin(page, task)
            take_all(page, lines)
            answer_passphrase(page, "p\u00e4ssword", FINGERPRINT)
            page.wait_text(said(41, first=2))
            page.wait_text(say("passphrase.unfit"))
            check_noted(page, see)
            if task == "check":
                page.push(say("drill.start"))
                page.wait_text(say("drill.mismatch", group=0) if "group 0" in text else say("drill.mismatch_groups"))
                page.wait_title(say("check.done.some"))
                page.wait_text(say("verdict.nothing", quorums=counted(1, "quorum")))
                page.push(say("collect.back"), to=say("check.title"))
                page.push(say("collect.end"), to=say("check.passphrase"))
                clear(page)
                continue
            else:
                page.wait_title(say("recover.failed"))
                page.wait_text(text)
                see("papers that don't belong together")
            end(page)
            see = lambda _: None  # noqa: E731


def check_long_line(page, _):
    """The engine counts the words before it looks at the length of the line (71), so an owner gets the number of words."""
    begin(page, "check")
    paste(page, " ".join(["academic"] * 128))
    page.wait_text(said(12, first=128))
    clear(page)


# Asks the engine through the page's own worker, and returns what the page says of each answer.
ASK = """
(async () => {
  const desk = await in_client.Desk.launch();
  const said = [];
  for (const [call, given] of %s) {
    if (given.line) given.line = new TextEncoder().encode(given.line);
    try { await desk.ask(call, given); said.push(""); } catch (error) { said.push(in_refusals.saidError(error)); }
  }
  await desk.end();
  return JSON.stringify(said);
})()
"""


def check_unreachable(page, _):
    """Refusals that no key leads to, since the page asks for what is missing before. The page has words for them too."""
    asked = [
        ("plan", {"plan": "two of three", "bytes": 16}, said(31)),
        ("plan", {"plan": "3/1of1,1of1", "bytes": 16}, said(32)),
        ("plan", {"plan": "1/" + ",".join(["1of1"] * 17), "bytes": 16}, said(32)),
        ("plan", {"plan": "3of2", "bytes": 16}, said(33, first=0)),
        ("add", {"line": THREE_GROUPS[0]}, ""),
        ("recover", {}, said(30, first=0, second=2)),
        ("reissue", {"plan": "2/2of3,1of1,1of1", "name": "0.9"}, said(64, first=0, second=9)),
        ("reissue", {"plan": "2/3of3,1of1,1of1", "name": "0.1"}, said(65)),
    ]
    told = json.loads(page.evaluate(ASK % json.dumps([[call, given] for call, given, _ in asked])))
    for (call, given, text), answer in zip(asked, told):
        if not answer.startswith(text) or (text == "") != (answer == ""):
            raise Failed(f"{call} {given}: the page says {answer!r}, and not {text!r}")


CHECKS = [check_prepare, check_papers, check_words, check_values, check_mixed, check_recovery, check_long_line, check_unreachable]
