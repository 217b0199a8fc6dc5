"""What an owner is asked on the way to a backup: the wallet, a plan with a danger, and what was noted. What is green, what has a sign, and
what one paper says."""

from browsers import Failed
from refusals import said
from samples import BAD_CHECKSUM, BIP39, EXCHANGED, FINGERPRINT, LONG, PASSPHRASE, SECRET, SOUND_PAPER, THREE_GROUPS, TWO, changed, fingerprint_of, name_of, said_kind
from samples import with_words
from tasks import answer_passphrase, begin, check_small, choose_has, choose_wallet, clear, create, drill, end, paste, read_paper, type_digits, type_paper, type_passphrase, write_down
from texts import counted, say

import plain

# Returns the texts that are green, or in a green frame, and the classes of those that have none.
GREEN = """
(() => {
  const main = document.getElementById('main');
  const probe = main.appendChild(document.createElement('p'));
  probe.className = 'good';
  const style = getComputedStyle(probe);
  const greens = [style.backgroundColor, style.borderLeftColor];
  probe.remove();
  const isGreen = (it) => {
    const own = getComputedStyle(it);
    const edges = ['Top', 'Right', 'Bottom', 'Left'].filter((side) => own[`border${side}Width`] !== '0px').map((side) => own[`border${side}Color`]);
    return it.checkVisibility() && [own.backgroundColor, own.color, ...edges].some((colour) => greens.includes(colour));
  };
  return [...main.querySelectorAll('*')].filter(isGreen).map((it) => it.innerText || it.parentElement.className).join(' | ');
})()
"""
# Returns what says something and shows no sign.
UNSIGNED = """
[...document.querySelectorAll('.note, .good, .bad, .answer, .fault, .word.wrong, .word.doubt')].filter((it) => it.checkVisibility())
  .filter((it) => ['none', 'normal', ''].includes(getComputedStyle(it, it.matches('.word') ? '::after' : '::before').content))
  .map((it) => it.className).join(' | ')
"""


def check_green(page, wanted):
    """Checks that only these texts are green, and that all that says something has a sign."""
    page.wait(lambda: page.evaluate(GREEN) == " | ".join(wanted), f"green for {wanted}, and not for {page.evaluate(GREEN)!r},")
    if page.evaluate(UNSIGNED):
        raise Failed(f"nothing but a colour tells these apart: {page.evaluate(UNSIGNED)}")


def check_wallet(page, see):
    """The wallet must be said, and its number of words sets the length of a new secret. The answers stay on the way back."""
    begin(page, "make")
    page.push(say("continue"), to=say("make.wallet"))
    page.push(say("continue"))
    page.wait_text(say("wallet.missing"))
    page.wait_text(say("wallet.flag.hint"))
    see("which wallet")
    page.choose(say("wallet.older"))
    page.lacks(say("wallet.missing"), "what was missing stays after it was chosen")
    page.push(say("back"), to=say("make.plan"))
    for wallet in ("unknown", "older", "flag"):
        choose_wallet(page, wallet, 33)
        page.wait_text(say("secret.new", bytes=32, words=33), say("passphrase.new"))
        page.push(say("back"), to=say("make.wallet"))
        for chosen in (say(f"wallet.{wallet}"), say("entry.words", count=33)):
            if not page.is_chosen(chosen):
                raise Failed(f"on the way back, another wallet or number of words is chosen than {chosen!r}")
        page.push(say("back"), to=say("make.plan"))
    for title in ("home.make", "home.title"):
        page.push(say("back"), to=say(title))


def check_has(page, see):
    """Whether there is money in the wallet must be said first. Papers of it lead to 'Change the plan', its digits to their fields, and neither 12 or
    24 words nor a wallet alone can become papers. What was said stays on the way back."""
    begin(page, "make", None)
    page.wait_text(say("has.legend"), say("step", at=1, count=9))
    page.push(say("continue"))
    page.wait_text(say("has.missing"))
    see("whether there is money in the wallet")
    choose_has(page, "papers", "change.title")
    page.wait_text(say("change.intro"))
    page.push(say("back"), to=say("home.make"))
    if not page.is_chosen(say("has.papers")):
        raise Failed("on the way back, it is forgotten that the owner has papers")
    choose_has(page, "words", "has.words.title")
    if page.evaluate("document.querySelector('#main > .bad').innerText") != say("has.words.what"):
        raise Failed("that 12 or 24 words can't become papers isn't said in red")
    see("12 or 24 words")
    page.push(say("back"), to=say("home.make"))
    choose_has(page, "own")
    choose_wallet(page)
    page.node("textbox", say("secret.digits"))
    page.lacks(say("secret.new", bytes=16, words=20), "a new secret is drawn for a wallet that holds money")
    for title in ("make.wallet", "make.plan", "home.make"):
        page.push(say("back"), to=say(title))
    choose_has(page, "none", "has.none.title")
    if page.evaluate("document.querySelector('#main > .bad').innerText") != say("has.none.what"):
        raise Failed("that a wallet alone can't become papers isn't said in red")
    see("a wallet alone")
    page.push(say("back"), to=say("home.make"))
    choose_has(page, "words", "has.words.title")
    page.push(say("has.make"), to=say("make.plan"))
    choose_wallet(page)
    page.wait_text(say("secret.new", bytes=16, words=20))
    if page.located("textbox", say("secret.digits")):
        raise Failed("the digits of 12 or 24 words are asked for")
    clear(page)


def check_doubts(page, see):
    """Digits that don't fit the number of words that the wallet asks for, and those of one repeated byte, are asked about. The entropy of words
    of BIP-39 is no secret here."""
    begin(page, "make", "own")
    choose_wallet(page)
    page.choose(say("secret.bip39"))
    see("the entropy of words")
    page.push(say("make.create"), to=say("has.words.title"))
    page.wait_text(say("has.words.what"))
    page.push(say("back"), to=say("home.make"))
    choose_has(page, "own")
    choose_wallet(page)
    type_passphrase(page, PASSPHRASE, "passphrase.label", "passphrase.again")
    unfit, repeated = say("secret.unfit", bytes=32, words=20, fit=16), say("secret.repeated")
    for digits, doubts in [(SECRET * 2, unfit), (f"{SECRET}{SECRET[::-1]}", unfit), ("00" * 16, repeated), ("ab" * 32, f"{repeated} {unfit}"), (SECRET * 2, unfit)]:
        page.choose(say("secret.slip39"))
        for label in ("secret.digits", "secret.again"):
            page.retype(say(label), digits)
        page.retype(say("noted.label"), fingerprint_told(digits))
        page.push(say("make.create"))
        page.wait_text(f"{doubts} {say('secret.sure')}")
        see(f"what is in doubt of a secret {digits[:4]}")
    page.retype(say("noted.label"), FINGERPRINT)
    page.push(say("make.create"))
    page.wait_text(say("secret.other", fingerprint=fingerprint_told(SECRET * 2), noted=FINGERPRINT))
    page.retype(say("noted.label"), fingerprint_told(SECRET * 2))
    # Digits that were hidden are shown, if the owner wants that.
    page.push(f"{say('show')}: {say('secret.digits')}")
    if not page.is_true("(it) => it.type === 'text'", page.node("textbox", say("secret.digits"))):
        raise Failed("the digits don't show")
    page.push(say("make.create"), to=say("make.forms"))
    page.wait_text(say("secret.same"))
    page.push(say("forms.go"))
    if len(read_paper(page).split()) != 33:
        raise Failed("a secret of 32 bytes, which was meant, isn't in papers of 33 words")
    clear(page, is_asked=True)


def fingerprint_told(digits):
    """Returns the fingerprint of a secret, by the plain reading."""
    return plain.told(bytes.fromhex(digits), True)


# In place of the random bytes of the worker, these are drawn: 1, 8, 15, and so on. Before they are given, a script may change them.
DRAWN = bytes((at * 7 + 1) % 256 for at in range(32))
FOREKNOWN = """
{
  const Whole = window.Blob;
  const drawn = "let draws = 0; crypto.getRandomValues = (it) => { it.forEach((_, at) => (it[at] = at * 7 + 1)); %s return it; };";
  window.Blob = function (parts, options) { return new Whole(options?.type === 'text/javascript' ? [drawn, ...parts] : parts, options); };
}
null
"""
THROWS = "31415 26535 24426 43331 52364 26463 52313 25114 16155 31122 31415 26535 24426 43331 52364 26463 52313 25114 16155 31122 1"


def check_dice(page, see):
    """Throws of a die are mixed into the random bytes of a new secret, if they are enough. On the way back, the page says that it emptied them."""
    page.evaluate(FOREKNOWN % "")
    for count, words in [(50, 20), (101, 33)]:
        throws = THROWS.replace(" ", "")[:count]
        begin(page, "make")
        page.choose(say("plan.own"))
        fewer = f"{say('plan.fewer')}: {say('plan.members', group=0)}"
        for change in (say("plan.drop"), say("plan.drop"), fewer, fewer):
            page.push(change)
        page.push(say("continue"))
        page.push(say("plan.sure.yes"))
        page.choose(say("wallet.older"))
        page.choose(say("entry.words", count=words))
        page.push(say("continue"))
        page.tick(say("passphrase.none"))
        page.evaluate("document.querySelector('details').open = true; null")
        for typed, text in [(throws[:49], say("more.dice.few", count=49, least=count // 50 * 50)), ("7", say("more.dice.wrong")), (throws, "")]:
            page.retype(say("more.dice"), typed)
            if text:
                page.push(say("make.create"))
                page.wait_text(text)
        page.push(say("back"), to=say("make.wallet"))
        page.push(say("continue"), to=say("make.secret"))
        page.wait_text(say("more.dice.emptied"))
        page.tick(say("passphrase.none"))
        page.fill(say("more.dice"), throws)
        see("throws of a die")
        page.push(say("make.create"), to=say("make.forms"))
        page.wait_text(say("more.dice.mixed"))
        check_green(page, [])
        page.push(say("forms.go"))
        share = plain.parse(read_paper(page).encode())
        mixed = int(throws.translate(str.maketrans("123456", "012345")), 6) % 256 ** len(share["value"])
        wanted = bytes(a ^ b for a, b in zip(mixed.to_bytes(len(share["value"]), "big"), DRAWN))
        if plain.decrypt(share["value"], b"", share) != wanted:
            raise Failed(f"{count} throws and the random bytes give another secret than their xor")
        clear(page, is_asked=True)
    page.call("browsingContext.reload", wait="complete")
    page.wait_title(say("home.title"))


def check_dangers(page, see):
    """Two groups are both needed at first. A plan in which one paper decides is said in red, and asked about."""
    begin(page, "make")
    page.choose(say("plan.own"))
    for change in ("drop", "drop", "add"):
        page.push(say(f"plan.{change}"))
    page.node("group", f"{say('plan.groups_needed')}: 2")
    for number, said in [(2, say("plan.lost.one", names="1.0")), (1, say("plan.found.one", names="1.0"))]:
        page.wait(lambda: said == page.evaluate("document.querySelector('main .bad:not([hidden])')?.innerText ?? ''"), f"the danger {said!r} in red")
        see("a plan with a danger")
        page.push(say("continue"), to=say("plan.sure.title"))
        page.wait_text(said)
        check_green(page, [])
        see("whether the plan is meant")
        page.push(say("plan.sure.back"), to=say("make.plan"))
        if number == 2:
            page.push(f"{say('plan.fewer')}: {say('plan.groups_needed')}")
    page.push(say("continue"))
    page.push(say("plan.sure.yes"), to=say("make.wallet"))
    page.push(say("back"))
    page.choose(say("plan.two"))
    page.wait(lambda: not page.evaluate("document.querySelector('main .bad').checkVisibility()"), "the end of the danger")
    page.push(say("continue"), to=say("make.wallet"))
    clear(page)


def make_own(page):
    """Makes a backup of an own secret, up to its fingerprint."""
    begin(page, "make", "own")
    choose_wallet(page)
    type_digits(page, SECRET, SECRET, FINGERPRINT)
    type_passphrase(page, PASSPHRASE, "passphrase.label", "passphrase.again")
    page.push(say("make.create"), to=say("make.forms"))
    check_green(page, [say("secret.same")])
    page.push(say("forms.go"))

    def look(number):
        page.wait_title(say("paper.title", name=f"0.{number - 1}"))
        check_green(page, [])

    for number, line in enumerate(write_down(page, look)):
        page.wait_title(say("back.title", name=f"0.{number}"))
        paste(page, line)
    page.wait_title(say("noted.title.own"))
    page.wait_text(FINGERPRINT)


def check_notes(page, see):
    """What was noted is asked for, and compared, before a backup is made. A wrong passphrase and a wrong fingerprint are told apart."""
    make_own(page)
    page.push(say("noted.skip"), to=say("proof.title"))
    if FINGERPRINT in page.text() or not page.is_true("(it) => it.checked", page.node("checkbox", say("noted.none"))):
        raise Failed("the fingerprint is shown while it is asked for, or the page forgets that none was noted")
    page.push(say("proof.show"), to=say("noted.title.own"))
    page.push(say("noted.done"), to=say("proof.title"))
    answer_passphrase(page, PASSPHRASE, "01234567")
    page.wait_text(say("proof.other"))
    see("another fingerprint than the backup has")
    if not page.is_true(f"(it) => it.value === '{PASSPHRASE}'", page.node("textbox", say("passphrase.label"))):
        raise Failed("a mistyped fingerprint empties the passphrase")
    for label, text in [("passphrase.label", ""), ("noted.label", FINGERPRINT)]:
        page.retype(say(label), text)
    for passphrase, text in [(None, "proof.passphrase.none"), ("TREZOr", "proof.passphrase")]:
        drill(page, passphrase, FINGERPRINT)
        page.wait_title(say("make.failed.title"))
        page.wait_text(say(text))
        check_green(page, [])
        see(f"what was noted is wrong {passphrase}")
        page.push(say("proof.again"), to=say("proof.title"))
    page.retype(say("noted.label"), "")
    drill(page, PASSPHRASE, None)
    page.wait_text(say("verdict.all.own", quorums=counted(3, "quorum"), fingerprint=FINGERPRINT))
    page.wait_title(say("make.done"))
    page.wait_text(say("make.restore"))
    check_green(page, [])
    end(page)


def check_looks_of_results(page, see):
    """Only a comparison with what was noted is green. Sound papers, open words and a drill without a fingerprint aren't."""
    noted = fingerprint_of([SOUND_PAPER], PASSPHRASE)
    begin(page, "check")
    type_paper(page, SOUND_PAPER)
    page.wait_text(say("collect.taken", name="0.0"))
    check_green(page, [])
    page.fill(say("entry.word", number=1), "acdemic ")
    page.wait_text(say("entry.unknown", number=1))
    page.fill(say("entry.word", number=2), "acid ")
    check_green(page, [])
    page.push(say("entry.empty"))
    page.push(say("collect.end"))
    # Inside one paper, nothing is compared.
    for fingerprint, which in [(None, "one.same"), (noted, "all.noted")]:
        said = say(f"verdict.{which}", quorums=counted(1, "quorum"), fingerprint=noted)
        drill(page, PASSPHRASE, fingerprint)
        page.wait_text(said)
        page.wait_title(say("check.done.good" if fingerprint else "check.done.one"))
        check_green(page, [said] if fingerprint else [])
        see(f"end of a drill, {which}")
        if not fingerprint:
            page.wait_text(say("noted.first"))
            check_small(page, noted)
            page.push(say("again"))
    end(page)


def told_of(page):
    """Returns the lines that tell what a paper is."""
    return page.evaluate("[...document.querySelectorAll('.told li')].map((it) => it.innerText).join('\\n')").split("\n")


def is_told(page, line):
    return set(said_kind(line, say, counted)) <= set(told_of(page))


def check_what(page, see):
    """One paper says what it is. A damaged one doesn't, nor does a phrase of BIP-39."""
    begin(page, "what")
    lines = [SOUND_PAPER, TWO[0], *THREE_GROUPS[2:4], changed(SOUND_PAPER, extendable=1, exponent=3), changed(THREE_GROUPS[0], group_threshold=1)]
    for line in lines:
        paste(page, line)
        page.wait_text(say("what.sound", name=name_of(line)))
        # The paper before may have the same name, and its answer may still stand there.
        page.wait(lambda: is_told(page, line), f"what {line!r} is")
        if len(told_of(page)) != 6:
            raise Failed(f"the page says of {line!r}: {told_of(page)}")
        if line == THREE_GROUPS[2]:
            see("what a paper is")
    check_green(page, [])
    page.size(*PHONE)
    paste(page, THREE_GROUPS[2])
    page.wait(lambda: is_told(page, THREE_GROUPS[2]), "what a paper is, on a phone")
    page.wait(lambda: page.evaluate(IN_SIGHT % "document.querySelector('.told')"), "what a paper is in sight of its fields")
    see("phone what a paper is")
    page.size(1200, 900)
    paste(page, BAD_CHECKSUM)
    page.wait_text(said(18, first=20))
    if page.evaluate("document.querySelectorAll('.told li').length"):
        raise Failed("what was said of another paper stays")
    page.push(say("entry.empty"))
    paste(page, THREE_GROUPS[2])
    page.wait(lambda: told_of(page) != [""], "what a paper is, before a phrase of BIP-39")
    paste(page, BIP39)
    page.wait_text(say("entry.bip39", count=12))
    if page.evaluate("document.querySelectorAll('.told li').length"):
        raise Failed("what was said of another paper stays beside a phrase of BIP-39")
    if page.evaluate("[...document.querySelectorAll('.offers')].some((it) => it.checkVisibility())"):
        raise Failed("words of SLIP-0039 are offered in place of those of BIP-39")
    see("a phrase of BIP-39")
    clear(page)


# Returns how many rows and columns things have, in the order down the columns, or why there is no such order.
COLUMNS = """
((all) => {
  const places = [...document.querySelectorAll(all)].map((it) => it.getBoundingClientRect());
  const columns = [...new Set(places.map(({ left }) => Math.round(left)))];
  const sorted = [...places].sort((a, b) => Math.round(a.left) - Math.round(b.left) || a.top - b.top);
  const isInOrder = places.every((it, at) => it === sorted[at]);
  const isShown = places.every(({ top, bottom }) => top >= 0 && bottom <= innerHeight);
  return `${isInOrder ? '' : 'not '}down ${columns.length} columns${isShown ? ', all shown' : ''}`;
})('%s')
"""
IN_SIGHT = "(({ top, bottom }) => top > -1 && bottom < innerHeight + 1)((%s).getBoundingClientRect())"
# Whether the field and the buttons for the number of words stand in one line, and none of them is two lines high.
ONE_LINE = """
(() => {
  const places = [...document.querySelectorAll('.counts input, .counts button')].map((it) => it.getBoundingClientRect());
  const ends = places.map(({ bottom }) => bottom);
  return places.length === 3 && Math.max(...ends) - Math.min(...ends) < 8 && places.every(({ height }) => height < 60);
})()
"""
# Whether the buttons that take papers out stand in the rows of these papers, and aren't below their names.
BESIDE = """
[...document.querySelectorAll('.found .rows li')]
  .every((it) => it.getBoundingClientRect().height < 2 * it.querySelector('button').getBoundingClientRect().height)
"""
PHONE = (390, 844)
# Low screens, each with a paper, what is said of it, and the number of the word from which Shift and Tab lead back to the first.
LOW = [
    ((1280, 800), with_words(LONG, {16: "lend"}), said(18, first=16), 16),
    ((1366, 625), with_words(SOUND_PAPER, {10: "lend"}), said(18, first=10), 10),
    *((size, with_words(SOUND_PAPER, {9: "lend"}), said(18, first=9), 9) for size in [(390, 664), (320, 568), (640, 400)]),
    ((390, 664), EXCHANGED, said(13), 2),
]
# Whether what is said stands above the field that has the focus, and both are in sight.
ABOVE = """
((said, field) => said.top > -1 && said.bottom <= field.top && field.bottom < innerHeight + 1)
  (...[document.querySelector('.answer'), document.activeElement].map((it) => it.getBoundingClientRect()))
"""
# Returns the texts that reach beyond their boxes.
CUT = """
[...document.querySelectorAll('#main button, #main li')].filter((it) => it.checkVisibility() && it.scrollHeight > it.clientHeight + 1)
  .map((it) => it.textContent.slice(0, 40)).join(' | ')
"""


def check_phone(page, see):
    """On a phone, the answer to a paper is in sight of its fields. Words run down two columns, and a shown paper is seen as a whole."""
    for what in ("home", "wallet"):
        if what == "wallet":
            page.size(1200, 900)
            begin(page, "make")
            page.push(say("continue"), to=say("make.wallet"))
        page.size(*PHONE)
        if page.evaluate(CUT):
            raise Failed(f"on a screen that got narrower, texts don't fit into their boxes: {page.evaluate(CUT)}")
    see("phone wallet")
    clear(page)
    begin(page, "check")
    if not page.evaluate(ONE_LINE):
        raise Failed("the numbers of words don't stand in one line")
    for line, text in [(SOUND_PAPER, say("collect.taken", name="0.0")), (BAD_CHECKSUM, said(18, first=20))]:
        paste(page, line)
        page.wait_text(text)
        for it in ("document.querySelector('.answer')", "document.activeElement"):
            if not page.evaluate(IN_SIGHT % it):
                raise Failed(f"with the answer {text!r}, this is out of sight: {it}")
        if not page.evaluate(COLUMNS % ".word").startswith("down 2 columns"):
            raise Failed(f"the fields run {page.evaluate(COLUMNS % '.word')}")
        # A picture of the whole page may scroll it, so it is taken last.
        if line == SOUND_PAPER and not page.evaluate(IN_SIGHT % "document.querySelector('#main button.primary')"):
            raise Failed("the button that goes on with papers that are enough is out of sight")
        see(f"phone {'sound' if line == SOUND_PAPER else 'wrong'} paper")
        if line == SOUND_PAPER:
            if not page.evaluate(BESIDE):
                raise Failed("the button that takes a paper out doesn't stand beside its name")
            page.go_to("button", say("collect.drop", name="0.0"))
            page.press("Enter")
            page.wait_text(say("collect.dropped", name="0.0"))
            page.wait(lambda: page.evaluate(IN_SIGHT % "document.querySelector('.answer')"), "the answer in sight")
    clear(page)
    begin(page, "make")
    choose_wallet(page)
    page.tick(say("passphrase.none"))
    create(page)
    read_paper(page)
    see("phone shown paper")
    if page.evaluate(COLUMNS % ".paper li") != "down 2 columns, all shown":
        raise Failed(f"the words of a shown paper run {page.evaluate(COLUMNS % '.paper li')}")
    beyond = page.evaluate("document.documentElement.scrollHeight - innerHeight")
    if beyond > 0:
        raise Failed(f"the screen of a paper is {beyond} pixels higher than a phone, so it scrolls a little")
    clear(page, is_asked=True)
    page.size(1200, 900)


def check_low(page, see):
    """On a low screen, what is said of a wrong word in the middle of a paper is in sight together with the word."""
    for size, line, told, word in LOW:
        page.size(*size)
        begin(page, "check")
        paste(page, line)
        page.wait_text(told)
        for steps in range(word - 1):
            page.wait(lambda: page.evaluate(ABOVE), f"what is said of a paper above its fields, {steps} fields back, on a screen of {size}")
            page.press_with("Shift", "Tab")
        see(f"wrong word on a screen of {size}")
        clear(page)
    page.size(1200, 900)


def check_help(page, see):
    """The first screen answers ten questions. No refusal names a number of the manual."""
    asked = page.evaluate("document.querySelectorAll('.help details').length")
    if asked != 10 or say("help.lost.answer") in page.text():
        raise Failed(f"the first screen has {asked} questions, or an answer that wasn't asked for")
    page.evaluate("for (const it of document.querySelectorAll('.help details')) it.open = true; null")
    page.wait_text(say("help.heir.answer"), say("help.lost.answer"))
    see("help")
    page.evaluate("for (const it of document.querySelectorAll('.help details')) it.open = false; null")
    begin(page, "what")
    paste(page, BAD_CHECKSUM)
    page.wait_text(said(18, first=20))
    if page.evaluate("document.querySelector('.answer').textContent") != said(18, first=20):
        raise Failed("a refusal has more than its sentence")
    clear(page)


CHECKS = [check_help, check_phone, check_low, check_has, check_doubts, check_wallet, check_dice, check_dangers, check_notes, check_looks_of_results, check_what]
