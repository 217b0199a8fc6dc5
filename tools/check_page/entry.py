"""The entry of a paper: keys that end a word, words that were not read, and what can be read of a damaged paper."""
from browsers import Failed
from choices import ABOVE
from hasty import ASK, UNDO
from refusals import said
from samples import BAD_CHECKSUM, BAD_PADDING, BIP39, BIP39_LONG, EXCHANGED, LONG, SOUND_PAPER, THREE_GROUPS, TWO, changed, name_of, with_words
from tasks import begin, begin_replace, clear, end, found_words, paste, take_all, type_damaged
from texts import counted, say


def check_unread(page, see):
    """Words that stand in the fields and were not read aren't dropped: the page asks. Of a backup with one group, it counts papers."""
    begin(page, "check")
    page.push(say("entry.read"))
    page.wait_text(say("entry.nothing"))
    page.fill(say("entry.word", number=1), "du")
    page.wait(lambda: say("entry.nothing") not in page.text(), "the end of an answer to empty fields")
    page.press("Backspace", "Backspace")
    paste(page, TWO[0])
    page.wait_text(say("status.not_enough", needed=counted(2, "paper"), here=1))
    page.lacks("roup", f"the page speaks of groups, and the backup has one: {page.text()!r}")
    for what, typed in [("a refused paper", BAD_CHECKSUM), ("half a paper", " ".join(TWO[1].split()[:9]))]:
        page.fill(say("entry.word", number=1), typed + " ")
        if what == "a refused paper":
            page.wait_text(said(18, first=20))
        page.push(say("collect.end"))
        page.wait_text(say("collect.unread"))
        page.push(say("collect.unread.stay"))
        stays = page.evaluate("document.querySelector('.word input').value")
        if page.title() != say("check.title") or stays != typed.split()[0] or say("collect.unread") in page.text():
            raise Failed(f"{what} doesn't stay in the fields: {page.title()!r}, {stays!r}")
        page.push(say("collect.end"))
        see("words that were not read")
        if what == "a refused paper":
            page.push(say("entry.empty"))
    page.push(say("collect.unread.drop"), to=say("check.done.few"))
    end(page)


def check_keys(page, _):
    """A key that ends a word ends no other one: four letters or whole words, each with Enter or Tab after it."""
    begin(page, "check")
    for key in ("Enter", "Tab"):
        for count in (4, 8):
            for at, word in enumerate(SOUND_PAPER.split()):
                page.type(word[:count])
                page.press(key)
                if at == 6 and not page.has_focus(page.node("textbox", say("entry.word", number=8))):
                    raise Failed(f"after {count} letters and {key}, the focus isn't in the next word")
            page.wait(lambda: page.evaluate("[...document.querySelectorAll('.word input')].every((it) => it.value === '')"), f"the end of a paper with {key}")
            page.wait_text(say("collect.taken", name="0.0"))
            page.push(say("collect.drop", name="0.0"))
            page.wait_text(say("collect.dropped", name="0.0"))
    clear(page)


# Papers whose words run together if only four letters of each are typed, or only as many as make a word.
CLOSE = [
    "national taught academic agency biology drift envy educate antenna often craft testify pumps laden artwork length system intimate alpha regret",
    "skin pink academic agency dismiss software traveler darkness prisoner elephant depend climate reaction evaluate observe ceiling devote testify adequate survive",
]


def check_next_screen(page, _):
    """What follows the letters that end a paper, the rest of its last word and a key, changes no field of the next screen."""
    line = changed(SOUND_PAPER, value=bytes([11] * 16))
    for keys in ([], ["Space"], ["Enter"], ["Tab"]):
        begin(page, "damaged")
        paste(page, with_words(line, {6: "?"}))
        page.push(say("damaged.write", name="0.0"))
        page.push(say("paper.written"), to=say("back.title", name="0.0"))
        # 'ter' begins another word.
        page.type(line.removesuffix("ter"))
        page.wait_title(say("damaged.check.title"))
        page.type("ter")
        page.press(*keys)
        page.type("acid academic ")
        typed = "[...document.querySelectorAll('.word input')].map((it) => it.value).join(' ').trim()"
        page.wait(lambda: page.evaluate(typed) == "acid academic", f"the first words of the next paper, after {keys}")
        clear(page, say("clear.repaired"))


# Presses Enter again and again once the last word is complete.
AGAIN = """
(() => {
  const last = [...document.querySelectorAll('.word input')].at(-1);
  const timer = setInterval(() => {
    if (!last.isConnected) clearInterval(timer);
    else if (last.value === 'sister') last.dispatchEvent(new KeyboardEvent('keydown', { key: 'Enter', bubbles: true }));
  }, 0);
})()
"""


def check_once(page, _):
    """A paper that was typed back is told on the next screen alone, whatever is pressed after its last word."""
    line = changed(SOUND_PAPER, value=bytes([11] * 16))
    begin(page, "damaged")
    paste(page, with_words(line, {6: "?"}))
    page.push(say("damaged.write", name="0.0"))
    page.push(say("paper.written"), to=say("back.title", name="0.0"))
    page.evaluate(AGAIN)
    page.type(line.removesuffix("ter"))
    page.wait_title(say("damaged.check.title"))
    page.push(say("damaged.another"), to=say("damaged.title"))
    page.lacks(say("back.same", name="0.0"))
    clear(page, say("clear.repaired"))


def check_after_button(page, _):
    """After a button, nothing more is awaited of a word that was typed on a screen before it."""
    begin_replace(page)
    take_all(page, [THREE_GROUPS[0], *THREE_GROUPS[3:]])
    # 'xy' is nearly the rest of 'skin', the last word of 0.1.
    for name, typed in [("0.1", THREE_GROUPS[1].removesuffix("n")), ("0.2", "xy ")]:
        page.wait_title(say("replace.which"))
        page.choose(say("which.paper", name=name))
        page.push(say("which.write"), to=say("paper.title", name=name))
        page.push(say("paper.written"), to=say("back.title", name=name))
        page.type(typed)
    page.wait(lambda: page.evaluate("document.querySelector('.word input').value") == "xy", "a word that is like the rest of another one")
    clear(page, say("clear.replaced"))


def check_last_word(page, _):
    """What comes after the first letters of a paper's last word, and is its rest, mistyped, changes no field of the next paper. The owner is told."""
    typed = "[...document.querySelectorAll('.word input')].map((it) => it.value).join(' ').trim()"
    for rest in ("zter", "tre", "te"):
        begin(page, "check")
        line = changed(SOUND_PAPER, value=bytes([11] * 16))
        page.type(line.removesuffix("ter"))
        page.wait_text(say("collect.taken", name="0.0"))
        page.type(rest + " acid academic ")
        page.wait(lambda: page.evaluate(typed) == "acid academic", f"the first words of the next paper, after a last word that ends with {rest!r}")
        if (say("entry.mistyped.last") in page.text()) != (rest not in "ter"):
            raise Failed(f"that {rest!r} is left out isn't told, or the rest of a word is said to be mistyped")
        clear(page)


def check_late_answer(page, see):
    """Letters that come before the answer to a paper, and after its last word is clear, change no field of the next paper or screen."""
    line = changed(SOUND_PAPER, value=bytes([11] * 16))
    # The last word is 'sister'. 'z' makes 'zero', 'ter' makes 'terminal', and 'item' is made by 'it'.
    for before, after in [("z", "ter "), ("zter ", ""), ("tz", "er "), ("it", "er ")]:
        begin(page, "check")
        page.evaluate(ASK % "add")
        page.type(line.removesuffix("ter") + before)
        page.evaluate(UNDO)
        page.wait_text(say("collect.taken", name="0.0"))
        page.type(after + "acid academic ")
        see("letters before the answer to a paper")
        page.wait(lambda: page.evaluate(FIELDS) == "acid academic", f"the first words of the next paper, after {before!r} before an answer, and {after!r} after it")
        clear(page)
    begin(page, "damaged")
    paste(page, with_words(line, {6: "?"}))
    page.push(say("damaged.write", name="0.0"))
    page.push(say("paper.written"), to=say("back.title", name="0.0"))
    page.evaluate(ASK % "typedBack")
    page.type(line.removesuffix("ter") + "z")
    page.evaluate(UNDO)
    page.wait_title(say("damaged.check.title"))
    page.type("ter acid academic ")
    page.wait(lambda: page.evaluate(FIELDS) == "acid academic", "the first words of the next screen, after a letter before an answer")
    clear(page, say("clear.repaired"))
    # The first word of the next paper, of which a letter comes before the answer.
    for paper, rest in [(line, "ter"), (LONG, "k")]:
        begin(page, "check")
        page.push(say("entry.words", count=len(paper.split())))
        page.evaluate(ASK % "add")
        page.type(paper.removesuffix(rest) + "z")
        page.evaluate(UNDO)
        page.wait_text(say("collect.taken", name=name_of(paper)))
        page.type("ero acid ")
        page.wait(lambda: page.evaluate(FIELDS) == "zero acid" and page.evaluate(MARKED) == "1", "the first words of the next paper, one letter of which came before an answer")
        clear(page)


def check_together(page, see):
    """Few letters that make several words, and nearly no word together, stay these words. The owner is told to look at them."""
    begin(page, "check")
    page.fill(say("entry.word", number=1), "acid assistzer academic ")
    page.wait_text(say("entry.together", number=2))
    if page.evaluate(FIELDS) != "acid aspect sister zero academic" or page.evaluate(MARKED) != "2 3 4":
        raise Failed(f"after few letters that make several words, the fields hold {page.evaluate(FIELDS)!r}; marked: {page.evaluate(MARKED)}")
    see("few letters that make several words")
    clear(page)


def check_offers(page, see):
    """What is said of a wrong word covers no word that is offered in place of another one, when Shift and Tab lead there."""
    page.size(1280, 720)
    begin(page, "check")
    paste(page, with_words(SOUND_PAPER, {3: "acadmic", 10: "frigde", 14: "hubsand"}))
    page.wait_text(said(11, first=3))
    page.go_to("button", say("entry.read"))
    first = page.node("textbox", say("entry.word", number=1))
    while not page.has_focus(first):
        page.press_with("Shift", "Tab")
        page.wait(lambda: page.evaluate(ABOVE), "what is said of a paper above what has the focus")
    see("words that are offered")
    clear(page)
    page.size(1200, 900)


def check_habits(page, _):
    """Four letters of each word, as many as make a word, and whole words, with nothing between them."""
    words = page.evaluate("in_client.Desk.launch().then((it) => it.end().then(() => it.begun.words.join(' ')))").split()
    least = {word: next(word[:count] for count in range(1, len(word) + 1) if sum(it.startswith(word[:count]) for it in words) == 1) for word in words}
    for line in CLOSE:
        for what, short in [("four letters", lambda word: word[:4]), ("whole words", lambda word: word), ("a part", least.get)]:
            # What was learnt of one owner's typing isn't true of the next.
            begin(page, "check")
            page.type("".join(short(word) for word in line.split()))
            page.wait(lambda: say("collect.taken", name=name_of(line)) in page.text(), f"the paper {line!r}, of which {what} of each word were typed")
            clear(page)


def check_mistyped(page, see):
    """A wrong letter in the rest of a word that is complete goes into no other field. The page says at which word to look."""
    words = SOUND_PAPER.split()
    begin(page, "check")
    for key in (" ", "Enter", "Tab"):
        page.fill(say("entry.word", number=1), " ".join(words[:7]) + (" soluton" if key != "Tab" else " solutios") + (key if key == " " else ""))
        if key != " ":
            page.press(key)
        page.wait_text(say("entry.mistyped", number=8))
        if not page.has_focus(page.node("textbox", say("entry.word", number=9))) or page.evaluate("document.activeElement.value") != "":
            raise Failed("the end of a word that was mistyped goes into the next field")
        if page.evaluate("[...document.querySelectorAll('.word')].map((it, at) => it.classList.contains('doubt') ? at + 1 : '').join('')") != "8":
            raise Failed("the word whose end was mistyped isn't marked, or another word is")
        see("a mistyped end of a word")
        page.type(" ".join(words[8:]) + " ")
        page.wait_text(say("collect.taken", name="0.0"))
        page.push(say("collect.drop", name="0.0"))
        page.wait_text(say("collect.dropped", name="0.0"))
    clear(page)


# What stands in the fields, and the numbers of the words that are marked.
FIELDS = "[...document.querySelectorAll('.word:not([hidden]) input')].map((it) => it.value).join(' ').trim()"
MARKED = "[...document.querySelectorAll('.word')].map((it, at) => it.matches('.doubt, .wrong') ? at + 1 : '').join(' ').trim()"
# What is typed in place of word 3, and what stands there then. The first letters of each typo make another word, and the others can make one more.
TYPOS = {"beling": "beling", "belixq": "believe", "acadenic": "academic", "acadmic": "academic", "distsnce": "distance", "trafvic": "traffic", "sistzer": "sister", "siszter": "sister", "bister": "bister", "zsister": "zsister"}


def take_out(page, name="0.0"):
    page.push(say("collect.drop", name=name))
    page.wait_text(say("collect.dropped", name=name))


def check_typo(page, see):
    """A typo after which the letters complete another word takes no other field. The word is marked, and all that follow stand in their fields."""
    words = SOUND_PAPER.split()
    begin(page, "check")
    for key in (" ", "Enter", "Tab"):
        for typo, stays in list(TYPOS.items())[: None if key == " " else 1]:
            page.go_to("textbox", say("entry.word", number=1))
            for at, word in enumerate([*words[:2], typo, *words[3:6]]):
                page.type(word + (key if key == " " else ""))
                if key != " ":
                    page.press(key)
            wanted = " ".join([*words[:2], stays, *words[3:6]])
            if page.evaluate(FIELDS) != wanted or page.evaluate(MARKED) != "3":
                raise Failed(f"after {typo!r} and {key!r}, the fields hold {page.evaluate(FIELDS)!r}, and not {wanted!r}; marked: {page.evaluate(MARKED)}")
            if typo == "beling" and key == " ":
                page.wait_text(say("entry.unknown", number=3))
                see("a typo that completes another word")
            page.push(say("entry.empty"))
    # The last word of a paper, which was read when its first letters completed another word.
    page.go_to("textbox", say("entry.word", number=1))
    page.type(" ".join([*words[:19], "beling", ""]))
    page.wait_text(said(11, first=20))
    if page.evaluate(FIELDS) != " ".join([*words[:19], "beling"]):
        raise Failed(f"after a typo in the last word, the fields hold {page.evaluate(FIELDS)!r}")
    clear(page)


def check_moves(page, see):
    """A word is put in or taken out, and all that follow move: by keys, and by the buttons for the field that had the focus last."""
    words = SOUND_PAPER.split()
    begin(page, "check")
    for is_by_key in (True, False):
        page.go_to("textbox", say("entry.word", number=1))
        page.type(" ".join([*words[:4], *words[5:], ""]))
        page.go_to("textbox", say("entry.word", number=5))
        if is_by_key:
            page.press_with("Control", "Enter")
        else:
            page.click(say("entry.put", number=5))
        page.wait(lambda: page.evaluate(FIELDS).split() == words[:4] + words[5:], "the words that moved on")
        if not page.has_focus(page.node("textbox", say("entry.word", number=5))) or page.evaluate("document.activeElement.value"):
            raise Failed("after a word was put in, its field is filled, or hasn't the focus")
        see("a word that is put in")
        page.type(words[4] + " ")
        page.wait_text(say("collect.taken", name="0.0"))
        take_out(page)
        page.go_to("textbox", say("entry.word", number=1))
        page.type(" ".join([*words[:4], "zero", *words[4:18], ""]))
        page.go_to("textbox", say("entry.word", number=5))
        if is_by_key:
            page.press_with("Control", "Delete")
        else:
            page.click(say("entry.take", number=5))
        page.wait(lambda: page.evaluate(FIELDS).split() == words[:18], "the words that moved back")
        page.go_to("textbox", say("entry.word", number=19))
        page.type(" ".join([*words[18:], ""]))
        page.wait_text(say("collect.taken", name="0.0"))
        take_out(page)
    # If all fields are full, one more comes, and goes with the next word that is taken out. Then the paper is read.
    paste(page, " ".join([*words[:4], "zero", *words[4:6], *words[7:]]))
    page.wait_text(said(13))
    page.go_to("textbox", say("entry.word", number=8))
    page.press_with("Control", "Enter")
    page.type(words[6] + " ")
    page.go_to("textbox", say("entry.word", number=5))
    page.press_with("Control", "Delete")
    page.wait_text(say("collect.taken", name="0.0"))
    if page.evaluate(COUNTED) != "true 20":
        raise Failed(f"a field that was put in stays: {page.evaluate(COUNTED)}")
    clear(page)


def check_beyond(page, see):
    """A paper of 33 words that is typed into 20 fields is told, and read as a whole. The number of words leaves the focus in the fields."""
    words = LONG.split()
    for key in (" ", "Tab"):
        begin(page, "check")
        for word in words:
            page.type(word + (key if key == " " else ""))
            if key != " ":
                page.press(key)
            if word is words[20]:
                page.wait_text(say("entry.beyond", few=20, many=33))
                see("more words than fields")
        page.wait_text(say("collect.taken", name=name_of(LONG)))
        clear(page)
    begin(page, "check")
    page.type(" ".join(words[:5]) + " ")
    page.push(say("entry.words", count=33))
    page.type(" ".join(words[5:]) + " ")
    page.wait_text(say("collect.taken", name=name_of(LONG)))
    clear(page)


def check_bip39(page, see):
    """Words of BIP-39 that are typed by hand are named, from some words on, and for good when their number is known."""
    begin(page, "check")
    for line in (BIP39, BIP39_LONG):
        words = line.split()
        page.go_to("textbox", say("entry.word", number=1))
        page.type(" ".join([*words[:6], ""]))
        page.wait_text(say("entry.other_list"))
        if page.evaluate("[...document.querySelectorAll('.offers')].some((it) => it.checkVisibility())"):
            raise Failed("words of SLIP-0039 are offered in place of those of BIP-39")
        see("words of BIP-39 that are typed by hand")
        page.type(" ".join([*words[6:], ""]))
        page.push(say("entry.read"))
        page.wait_text(say("entry.bip39", count=len(words)))
        page.push(say("entry.empty"))
        page.push(say("entry.words", count=20))
    clear(page)


def table(line, columns):
    """Returns the words of a paper as a table, each with its number. They run down the columns."""
    words = [f"{number}. {word}" for number, word in enumerate(line.split(), 1)]
    rows = -(-len(words) // columns)
    return "\n".join("\t".join(words[row::rows]) for row in range(rows))


def check_pasted(page, see):
    """Tables with numbers and several papers in one text are read. Where one paper is wanted, several are named."""
    begin(page, "check")
    for text in (table(TWO[0], 2), table(TWO[0], 3), table(TWO[0], 4).upper()):
        paste(page, text)
        page.wait_text(say("collect.taken", name=name_of(TWO[0])))
        take_out(page, name_of(TWO[0]))
    headed = "\n".join(f"SLIP-0039  Paper {name_of(line)}\n{table(line, 2)}" for line in TWO)
    beside = "\n".join("   ".join(rows) for rows in zip(table(TWO[0], 1).split("\n"), table(TWO[1], 1).split("\n")))
    for text in ("\n".join(TWO), " ".join(TWO), "\n\n".join(line.replace(" ", "\n") for line in TWO), headed, beside):
        paste(page, text)
        page.wait_text(say("collect.taken", name=name_of(TWO[1])), say("status.enough.check"))
        for line in TWO:
            take_out(page, name_of(line))
    paste(page, "\n".join([TWO[0], BAD_CHECKSUM, TWO[1]]))
    page.wait_text(said(18, first=20), say("entry.left", papers=counted(1, "paper")))
    see("several papers that were pasted")
    page.push(say("entry.empty"))
    clear(page)
    begin(page, "what")
    paste(page, "\n".join(TWO))
    page.wait_text(say("entry.several_papers", count=2))
    clear(page)


# Three letters make each of these words, and four are typed. The fourth letter of 'academic', with those of the last word, begins 'damage'.
FOUR = "daughter necklace lyrics briefing funding network keyboard moment academic amazing"


def check_guessed(page, see):
    """A word that can be read in two ways, between which only the typist's habit decides, is one to look at."""
    begin(page, "check")
    page.fill(say("entry.word", number=1), "".join(word[:4] for word in FOUR.split()))
    page.wait_text(say("entry.guessed", number=10))
    typed = page.evaluate("[...document.querySelectorAll('.word input')].map((it) => it.value).join(' ')").strip()
    if not typed.startswith(FOUR):
        raise Failed(f"four letters of each word are read as other words: {typed}")
    if page.evaluate("[...document.querySelectorAll('.word')].map((it, at) => it.classList.contains('doubt') ? at + 1 : '').join('')") != "10":
        raise Failed("the word that habit decided isn't marked, or another word is")
    see("a word that habit decided")
    clear(page)


LEAVING = """
(() => {
  const it = document.createEvent('BeforeUnloadEvent');
  it.initEvent('beforeunload', false, true);
  window.dispatchEvent(it);
  return it.defaultPrevented && it.returnValue !== '';
})()
"""


def check_kept(page, see):
    """Words that were typed aren't lost without a question: when there are fewer fields, on the way back, and when the page is left."""
    filled = "[...document.querySelectorAll('.word:not([hidden]) input')].filter((it) => it.value !== '').length"
    for task in ("check", "damaged"):
        begin(page, task)
        if page.evaluate(LEAVING):
            raise Failed("leaving a page with nothing on it asks")
        page.push(say("entry.words", count=33))
        paste(page, " ".join((SOUND_PAPER + " " + SOUND_PAPER).split()[:25]))
        if not page.evaluate(LEAVING):
            raise Failed("leaving a page on which words were pasted asks nothing")
        for count, number in [(20, 20), (33, 25)]:
            page.push(say("entry.words", count=count))
            page.wait(lambda: page.evaluate(filled) == number, f"{number} words in {count} fields")
        page.push(say("back"))
        page.wait_text(say("entry.lost"))
        see(f"words that would be lost, {task}")
        page.push(say("collect.unread.stay"))
        page.wait(lambda: say("entry.lost") not in page.text(), "the end of the question")
        if page.evaluate(filled) != 25:
            raise Failed("the answer that goes back to the words loses them")
        page.push(say("back"))
        page.push(say("entry.lost.go"), to=say("home.title"))


def of_sound(changes):
    """Returns the sound paper with other marks at some places."""
    return with_words(SOUND_PAPER, changes)


def listed(changes, line=SOUND_PAPER):
    """Returns what the page lists of words that were found at these places."""
    return ", ".join(f"{say('entry.word', number=place)} {line.split()[place - 1]}" for place in changes)


OTHER = of_sound({1: "therapy", 2: "heat", 3: "device"})
# What can be read of a paper, and what the page says: the words that it found in each paper that fits, or why it found none. The
# first ones are typed, and the others pasted.
TYPED = 3
DAMAGED = [
    (of_sound({7: "le?", 8: "so?"}), [listed([7, 8])], ""),
    (" ".join(f"{word[:4]}?" for word in SOUND_PAPER.split()), [listed(range(1, 21))], ""),
    (of_sound({1: "?", 2: "?", 3: "?"}), [listed([1, 2, 3]), listed([1, 2, 3], OTHER)], ""),
    (f"{SOUND_PAPER} ?", [], said(12, first=21)),
    (of_sound({5: "?", 12: "?"}), [listed([5, 12])], ""),
    (of_sound({18: "?", 19: "?", 20: "?"}), [listed([18, 19, 20])], ""),
    (SOUND_PAPER, [say("damaged.whole")], ""),
    (of_sound({17: "?", 18: "?", 19: "?", 20: "?"}), [], say("damaged.refused.19", first=4)),
    (of_sound({7: "lend"}), [], say("damaged.refused.18", first=7)),
    (of_sound({20: "kidney"}), [], say("damaged.refused.18", first=20)),
    (EXCHANGED, [], say("damaged.refused.13")),
    (of_sound({7: "ze?"}), [], say("damaged.refused.18", first=7)),
    (of_sound({5: "?", 7: "solution", 8: "length"}), [], say("damaged.refused.17")),
    (BAD_PADDING, [], said(14)),
    (changed(SOUND_PAPER, group_threshold=16), [], said(15)),
]


def deny(page, answer, line):
    """Says that the words that were found can't be right. What was typed stays, and what was found goes."""
    page.push(say(answer))
    page.wait_text(say("damaged.no.then"))
    typed = page.evaluate("[...document.querySelectorAll('.word:not([hidden]) input')].map((it) => it.value).join(' ')")
    if found_words(page) or typed != line:
        raise Failed(f"after {say(answer)!r}, the page shows {found_words(page)!r}, and the fields {typed!r}")


def check_open(page, see):
    """Where no word is found, a question mark stays at its place, and the page says which task finds words."""
    begin(page, "check")
    paste(page, with_words(SOUND_PAPER, {6: "?", 16: "du?"}))
    page.wait_text(say("refused.11", first=6), say("entry.unread"))
    if page.evaluate("document.querySelectorAll('.offers button').length"):
        raise Failed("words are offered for a question mark where none is found")
    see("a word that can't be read where none is found")
    page.push(say("entry.empty"))
    # The page completes word 7 by itself, and letters of it could still come.
    page.go_to("textbox", say("entry.word", number=1))
    page.type(" ".join([*SOUND_PAPER.split()[:6], SOUND_PAPER.split()[6][:4], ""]).rstrip() + "? fridge ")
    page.wait(lambda: page.evaluate("[...document.querySelectorAll('.word input')].slice(6, 9).map((it) => it.value).join()") == "length,?,fridge", "a question mark at its place")
    clear(page)


def check_damaged(page, see):
    """What is found of a damaged paper, and each refusal. Words in fields that the page marks itself."""
    begin(page, "damaged")
    for number, (line, found, text) in enumerate(DAMAGED):
        if number < TYPED:
            type_damaged(page, line)
        else:
            page.push(say("entry.empty"))
            paste(page, line)
        wanted = "\n".join(found)
        page.wait(lambda: found_words(page) == wanted and text in page.text(), f"the answer {wanted!r} {text!r} to {line!r}")
        if len(found) == 2:
            page.wait_text(say("damaged.two.which"))
        # 4 letters stand for one word, so such a word isn't open.
        if found and any(mark.endswith("?") and len(mark) < 5 for mark in line.split()):
            deny(page, "damaged.no.which" if len(found) == 2 else "damaged.no", line)
    page.push(say("entry.empty"))
    paste(page, of_sound({5: "?", 7: "leng?"}))
    page.wait_text(say("damaged.limits.1"))
    page.push(say("entry.empty"))
    paste(page, "slip39\nPaper 0.0\n" + of_sound({7: "lend"}))
    page.wait_text(say("damaged.refused.18", first=7))
    page.type("leng ")
    page.wait(lambda: found_words(page) == say("damaged.whole"), "a word that was typed anew")
    type_damaged(page, of_sound({7: "zz?"}))
    page.wait_text(say("damaged.mark", number=7))
    page.wait_text(say("damaged.refused.11", first=7))
    see("a mark that stands for no word")
    page.push(say("damaged.offer", mark="?"))
    page.wait(lambda: found_words(page) == listed([7]), "the word that was left open")
    type_damaged(page, of_sound({7: "le"}))
    page.wait_text(say("entry.several", number=7))
    see("a word that isn't complete")
    page.push(say("damaged.offer.rest", mark="le?"))
    page.wait(lambda: found_words(page) == listed([7]), "the word that was left open in part")
    clear(page)


# Whether the number of words is asked for, and how many fields are shown.
COUNTED = "`${[...document.querySelectorAll('.counts')].some((it) => it.checkVisibility())} ${document.querySelectorAll('.word:not([hidden])').length}`"


def check_known_count(page, see):
    """The number of words of a paper that is typed back is known. So it isn't asked for, unless more words than that are pasted."""
    begin(page, "damaged")
    if page.evaluate(COUNTED) != "true 20":
        raise Failed("the number of words of a damaged paper isn't asked for")
    paste(page, of_sound({6: "?"}))
    page.push(say("damaged.write", name="0.0"))
    page.push(say("paper.written"), to=say("back.title", name="0.0"))
    for typed, told, counted_as in [
        (" ".join(SOUND_PAPER.split()[:2]), say("back.missing", number=3, count=2, fields=20), "false 20"),
        (f"{SOUND_PAPER} acid", said(12, first=21), "true 21"),
    ]:
        paste(page, typed)
        page.wait_text(told)
        if page.evaluate(COUNTED) != counted_as:
            raise Failed(f"where a paper is typed back, {page.evaluate(COUNTED)!r} isn't {counted_as!r}, whether the number of words is asked for")
        see("a paper that is typed back with another number of words")
        page.push(say("entry.empty"))
        if page.evaluate(COUNTED) != "false 20":
            raise Failed("the number of words is asked for though nothing is typed of a paper that is typed back")
    paste(page, SOUND_PAPER)
    page.wait_title(say("damaged.check.title"))
    clear(page, say("clear.repaired"))


CHECKS = [check_unread, check_keys, check_next_screen, check_last_word, check_late_answer, check_together, check_once, check_after_button, check_offers, check_habits, check_guessed, check_mistyped, check_typo, check_moves, check_beyond, check_bip39, check_pasted, check_kept, check_open, check_damaged, check_known_count]
