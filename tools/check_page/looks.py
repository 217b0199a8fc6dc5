"""How the page looks: nothing is cut, broken, overprinted or wider than a narrow screen, also with large text; what is chosen in forced colours;
contrast of each text; and what a hidden or a left page shows."""
import functools

from browsers import Failed, browser
from hands import Page
from samples import SOUND_PAPER
from tasks import begin, choose_has, choose_wallet, clear, create, found_words, type_damaged, type_paper
from texts import say

# The contrast that WCAG 2.2 asks for at level AA: of a text, and of a large one.
CONTRAST, LARGE_CONTRAST = 4.5, 3
SIZES = [(320, 640), (390, 844), (800, 900), (1280, 800)]
# How large the text is, in percent.
TEXTS = [100, 200]
ENLARGE = "document.documentElement.style.fontSize = '%s%%'; scrollTo(0, 0); null"
# Returns the texts that are overprinted, broken inside a word, or reach out of their box, and the fields that have no room for the longest word.
MISPLACED = """
(() => {
  const found = [];
  const texts = [];
  // What stays in sight covers what is behind it until the screen is scrolled.
  const isAbove = (it) => ['.go', '.answer'].some((which) => it.closest(which) && getComputedStyle(it.closest(which)).position === 'sticky');
  const within = (inner, outer) => inner.left > outer.left - 1.5 && inner.right < outer.right + 1.5;
  const walker = document.createTreeWalker(document.body, NodeFilter.SHOW_TEXT);
  for (let node = walker.nextNode(); node; node = walker.nextNode()) {
    const it = node.parentElement;
    if (node.data.trim() === '' || ['SCRIPT', 'STYLE'].includes(it.tagName) || !it.checkVisibility() || it.closest('.unseen, .ahead, .scroll') || isAbove(it)) continue;
    const range = document.createRange();
    for (const { index, 0: word } of node.data.matchAll(/\\S+/g)) {
      range.setStart(node, index);
      range.setEnd(node, index + word.length);
      const places = [...range.getClientRects()];
      if (new Set(places.map(({ top }) => Math.round(top))).size > 1 && !/[-.\\/,]/.test(word)) found.push(`broken: '${word}'`);
      for (const place of places) texts.push({ word, place, it });
      if (!places.every((place) => within(place, it.getBoundingClientRect()))) found.push(`out of its box: '${word}'`);
    }
  }
  for (const it of document.querySelectorAll('ol > li')) {
    // The number of a line that stands outside it.
    if (getComputedStyle(it).listStyleType === 'none' || !it.checkVisibility()) continue;
    const { left, top } = it.getBoundingClientRect();
    const size = parseFloat(getComputedStyle(it, '::marker').fontSize);
    texts.push({ word: 'the number of a line', place: { left: left - 2.2 * size, right: left, top, bottom: top + size }, it });
  }
  // Letters may be lower than their line.
  const lines = texts.map(({ word, place: { left, right, top, bottom }, it }) => ({ word, it, left: left + 1, right: right - 1, top: top + (bottom - top) / 4, bottom: bottom - (bottom - top) / 4 }));
  lines.forEach((one, at) => {
    for (const other of lines.slice(at + 1)) {
      if (one.left < other.right && other.left < one.right && one.top < other.bottom && other.top < one.bottom) found.push(`'${one.word}' over '${other.word}'`);
    }
  });
  const canvas = document.createElement('canvas').getContext('2d');
  for (const it of document.querySelectorAll('.word:not([hidden]) input')) {
    const style = getComputedStyle(it);
    canvas.font = `${style.fontSize} ${style.fontFamily}`;
    const edges = ['borderLeftWidth', 'borderRightWidth', 'paddingLeft', 'paddingRight'].reduce((sum, name) => sum + parseFloat(style[name]), 0);
    const room = it.getBoundingClientRect().width - edges;
    const number = it.closest('.word').querySelector('.number').getBoundingClientRect().right - it.getBoundingClientRect().left;
    if (room < canvas.measureText('remember').width) found.push(`no room in the field of a word: ${Math.round(room)} pixels`);
    if (number > parseFloat(style.paddingLeft)) found.push('the number of a word over its field');
  }
  for (const it of document.querySelectorAll('main button, main p, main li, main td, main h1')) {
    if (it.checkVisibility() && !it.closest('.scroll') && (it.scrollWidth > it.clientWidth + 1 || it.scrollHeight > it.clientHeight + 2) && it.clientWidth) found.push(`cut: '${it.textContent.slice(0, 30)}'`);
  }
  return [...new Set(found)].slice(0, 6).join('; ');
})()
"""
# Returns how far below the first screen the button that goes on ends.
BELOW = """
(() => {
  const it = [...document.querySelectorAll('main .go button')].find((button) => button.textContent === '%s' && button.checkVisibility());
  return it ? Math.max(0, Math.round(it.getBoundingClientRect().bottom - innerHeight)) : 0;
})()
""" % say("continue")
# Returns the choices whose edges are the same whether they are chosen or not. Of colours, whoever forces them may have only 2.
ALIKE = """
(() => {
  const drawn = (it) => [null, '::before'].map((part) => getComputedStyle(it, part)).map((own) => [own.borderTopWidth, own.borderTopStyle, own.content, own.fontWeight].join()).join(' ');
  return [...document.querySelectorAll('[role=radiogroup]')].filter((group) => {
    const [yes, no] = ['true', 'false'].map((is) => group.querySelector(`[aria-checked=${is}]`));
    return yes && no && yes.checkVisibility() && drawn(yes) === drawn(no);
  }).map((it) => it.innerText.slice(0, 40)).join('; ');
})()
"""
# Returns the texts whose contrast with their background is too low. A background may be half clear.
LOW = """
(() => {
  const parts = (colour) => { const it = colour.match(/[\\d.]+/g).map(Number); return colour.startsWith('color(') ? [it[0] * 255, it[1] * 255, it[2] * 255, it[3] ?? 1] : [it[0], it[1], it[2], it[3] ?? 1]; };
  const light = ([r, g, b]) => [r, g, b].map((it) => it / 255).map((it) => (it <= 0.04045 ? it / 12.92 : ((it + 0.055) / 1.055) ** 2.4)).reduce((sum, it, at) => sum + it * [0.2126, 0.7152, 0.0722][at], 0);
  const behind = (it) => { for (let at = it; at; at = at.parentElement) { const found = parts(getComputedStyle(at).backgroundColor); if (found[3] === 1) return found; } return [255, 255, 255, 1]; };
  const low = [];
  for (const it of document.querySelectorAll('body *')) {
    const own = [...it.childNodes].some((node) => node.nodeType === 3 && node.textContent.trim() !== '') || it.tagName === 'INPUT';
    if (!own || !it.checkVisibility() || it.closest('.unseen') || it.disabled || it.tagName === 'SCRIPT') continue;
    const style = getComputedStyle(it);
    const [a, b] = [light(parts(style.color)), light(behind(it))];
    const ratio = (Math.max(a, b) + 0.05) / (Math.min(a, b) + 0.05);
    const size = parseFloat(style.fontSize);
    const isLarge = size >= 24 || (size >= 18.66 && Number(style.fontWeight) >= 700);
    if (ratio < (isLarge ? %s : %s)) low.push(`${it.tagName} '${it.textContent.slice(0, 30)}' ${ratio.toFixed(2)}`);
  }
  return low.slice(0, 5).join('; ');
})()
""" % (LARGE_CONTRAST, CONTRAST)


def faults_of(page, what, see, mode):
    """Measures a screen in each size, and takes a picture. Returns what is wrong. In the dark and in forced colours, a narrow and a wide one are
    enough."""
    found = []
    for percent in TEXTS if mode == "light" else TEXTS[:1]:
        page.evaluate(ENLARGE % percent)
        for width, height in SIZES if mode == "light" else SIZES[::3]:
            page.size(width, height)
            wide = page.evaluate("document.documentElement.scrollWidth - document.documentElement.clientWidth")
            below = page.evaluate(BELOW) if width == 1280 and percent == 100 else 0
            told = [f"the screen is {wide} pixels too wide" if wide > 0 else "", page.evaluate(MISPLACED)]
            told += [f"{say('continue')!r} is {below} pixels below the first screen"] if below else []
            found += [f"{width} pixels, text at {percent}%: {it}" for it in told if it]
            # A picture of a screen that scrolls lacks as much of its right edge as the bar takes. So the window gets as high as the page.
            page.size(width, max(height, page.evaluate("document.documentElement.scrollHeight")))
            see(f"{what} {width} {percent}")
    page.evaluate(ENLARGE % 100)
    alike, low = (page.evaluate(ALIKE), "") if mode == "forced" else ("", page.evaluate(LOW))
    page.size(1200, 900)
    return found + ([f"no choice looks chosen: {alike}"] if alike else []) + ([f"the contrast is too low: {low}"] if low else [])


def check_screen(page, what, see, mode="light"):
    found = faults_of(page, what, see, mode)
    if found:
        raise Failed(f"{what}: {'; '.join(found)}")


# What is asked of the browser, whether it is so.
MODES = {"light": "prefers-color-scheme: light", "dark": "prefers-color-scheme: dark", "forced": "forced-colors: active"}


def check(name, url, see_page):
    for mode, is_so in MODES.items():
        with browser(name, mode) as it:
            page = Page(it, url)
            if not page.evaluate(f"matchMedia('({is_so})').matches"):
                raise Failed(f"{name} isn't in its mode {mode!r}")
            check_mode(page, mode, functools.partial(see_page, page))


def check_mode(page, mode, see):
    def look(what):
        check_screen(page, f"{mode} {what}", see, mode)

    page.wait_title(say("home.title"))
    look("first screen")
    unprinted = page.printed()
    page.push(say("home.check"), to=say("prepare.title"))
    look("before you begin")
    page.push(say("prepare.anyway"), to=say("prepare.sure.title"))
    look("are you sure")
    page.push(say("prepare.yes"), to=say("check.title"))
    type_paper(page, SOUND_PAPER)
    page.wait_text(say("collect.taken", name="0.0"))
    page.fill(say("entry.word", number=1), "acdemic ")
    page.wait_text(say("entry.unknown", number=1))
    look("papers")
    page.push(say("collect.end"))
    page.wait_text(say("collect.unread"))
    look("words that were not read")
    page.push(say("collect.unread.drop"), to=say("check.passphrase"))
    look("passphrase")
    page.push(say("continue"))
    page.wait_text(say("passphrase.missing"))
    look("no passphrase")
    clear(page)
    begin(page, "damaged")
    type_damaged(page, "? ? ? " + " ".join(SOUND_PAPER.split()[3:]))
    page.wait(lambda: found_words(page).count("\n") == 1, "the papers that fit")
    look("two papers that fit")
    check_hidden_words(page)
    begin(page, "make", None)
    look("whether there is money in the wallet")
    choose_has(page, "words", "has.words.title")
    look("12 or 24 words")
    page.push(say("back"), to=say("home.make"))
    choose_has(page, "own")
    choose_wallet(page)
    look("own secret")
    for title in ("make.wallet", "make.plan", "home.make"):
        page.push(say("back"), to=say(title))
    choose_has(page, "new")
    look("plan")
    page.choose(say("plan.own"))
    look("own plan")
    for change in ("drop", "drop", "add"):
        page.push(say(f"plan.{change}"))
    look("plan with a danger")
    page.choose(say("plan.two"))
    page.push(say("continue"), to=say("make.wallet"))
    look("wallet")
    page.push(say("back"))
    choose_wallet(page)
    page.tick(say("passphrase.none"))
    look("secret")
    create(page)
    page.wait_title(say("paper.title", name="0.0"))
    look("paper")
    check_printed(page, unprinted)
    check_hidden(page, lambda: look("clear half written papers"))
    check_left(page)


def check_printed(page, unprinted):
    """What the browser would print of a screen with a secret is what it would print of the first screen, which has none."""
    if words_shown(page) == 0 or not unprinted[0]:
        raise Failed("there is no paper on the screen, or nothing was printed, so nothing is shown")
    if page.printed() != unprinted or unprinted[1] != 1:
        raise Failed("something of a paper is printed")


def words_shown(page):
    return page.evaluate("document.querySelectorAll('.paper li').length")


def check_left(page):
    """A page that was left holds nothing, since a browser may keep it to show it again."""
    begin(page, "check")
    type_paper(page, SOUND_PAPER)
    page.wait_text(say("collect.taken", name="0.0"))
    page.fill(say("entry.word", number=1), "acid ")
    page.evaluate("window.dispatchEvent(new PageTransitionEvent('pagehide', { persisted: true })); null")
    page.wait_title(say("home.title"))
    page.wait_text(say("close"))
    if page.evaluate("document.querySelectorAll('main input').length"):
        raise Failed("a page that was left keeps its fields")
    begin(page, "check")
    page.push(say("collect.end"))
    page.wait_text(say("collect.none"))
    clear(page)


# Makes the page believe that its tab is hidden, or that it isn't.
HIDE = "Object.defineProperty(document, 'hidden', { configurable: true, get: () => %s }); document.dispatchEvent(new Event('visibilitychange')); null"


def check_hidden_words(page):
    """A hidden tab shows no words that were found, and 'Clear everything' leaves none."""
    page.evaluate(HIDE % "true")
    if found_words(page).strip():
        raise Failed("a hidden tab shows words that were found")
    page.evaluate(HIDE % "false")
    page.push(say("paper.show"))
    page.wait(lambda: found_words(page).strip(), "the found words again")
    clear(page)
    if page.evaluate("document.querySelectorAll('.fit, main input').length"):
        raise Failed("a cleared page shows words that were found")


def check_hidden(page, see=lambda: None):
    """A hidden tab shows nothing secret, and leaving asks first."""
    page.evaluate(HIDE % "true")
    if page.evaluate("document.querySelectorAll('.paper li').length") or page.evaluate("document.getElementById('main').checkVisibility()"):
        raise Failed("a hidden tab shows a paper")
    page.evaluate(HIDE % "false")
    if not page.evaluate("(() => { const it = new Event('beforeunload', { cancelable: true }); return !window.dispatchEvent(it) || it.defaultPrevented; })()"):
        raise Failed("leaving the page doesn't ask")
    page.push(say("paper.show"))
    page.wait(lambda: words_shown(page) == 20, "the words again")
    check_unfinished(page, see)


def check_unfinished(page, see):
    """While papers are half written, 'Clear everything' asks first, and shows no words meanwhile."""
    shown = page.title()
    page.push(say("clear"))
    page.wait_text(say("clear.unfinished"))
    if words_shown(page):
        raise Failed("the words stay while the page asks whether to clear them")
    see()
    page.push(say("clear.stay"))
    page.wait(lambda: say("clear.unfinished") not in page.text(), "the end of the question")
    if page.title() != shown:
        raise Failed("the answer that goes on with the papers leaves them")
    page.push(say("paper.show"))
    page.wait(lambda: words_shown(page) == 20, "the words again")
    clear(page, is_asked=True)
    if words_shown(page):
        raise Failed("a cleared page shows a paper")
