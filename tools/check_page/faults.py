"""Faults that are planted in a copy of the sources. Each must make a check fail, or the check is worth nothing."""
import functools
import shutil
import sys

import agreement
import astray
import change
import choices
import decisions
import entry
import forms
import hands
import hasty
import journey
import long_drill
import looks
import planted
import privacy
import refusals
import samples
import second_thoughts
import sources
import steps
import tasks
import typists
import ways_out
import webkit
from browsers import browser
from hands import Page
from texts import ROOT, say
from tool import ran

# So many faults are looked for side by side.
AT_ONCE = 3


def of_page(check):
    """Turns a check of a page in a browser into one that starts a browser."""

    def checked(folder, url):
        with browser("chromium") as it:
            page = Page(it, url)
            page.wait_title(say("home.title"))
            check(page)

    return checked


def looked(mode):
    """Makes a check of how the page looks in one mode."""

    def checked(folder, url):
        with browser("chromium", mode) as it:
            looks.check_mode(Page(it, url), mode, unseen)

    return checked


def unseen(*_):
    pass


# What is planted, where, what stands there, what takes its place, and the check that must fail; then how often it stands there, if more than once.
FAULTS = [
    ("a request from the worker", "page/desk.js", "function clear() {\n", "function clear() {\n  fetch('http://127.0.0.1/');\n", lambda folder, url: sources.check(folder / "page")),
    ("a field that the browser keeps", "page/dom.js", '  autocomplete: "off",\n', "", lambda folder, url: sources.check(folder / "page")),
    ("the same, looked for in the profile", "page/dom.js", '  autocomplete: "off",\n', "", lambda folder, url: privacy.check("chromium", url, 1)),
    ("a policy that lets requests out", "shamir.html", "connect-src 'none'", "connect-src http:", lambda folder, url: ways_out.check("chromium", url)),
    ("letters of the last word are awaited after its space", "page/word_field.js", "    this.#moved();\n    if (!isBefore", "    if (!isBefore", of_page(lambda page: typists.check(page, unseen, 40, ["in turn, space"]))),
    ("the rest of a word isn't counted when it was mistyped", "page/word_field.js", "const typed = run.letters + tail;", 'const typed = run.letters + (isRest ? "" : tail);', of_page(lambda page: entry.check_typo(page, unseen))),
    ("letters before the answer to a paper stay in the next one", "page/word_field.js", "if (run) run.fields = run.fields.map(", "if (false) run.fields = run.fields.map(", of_page(lambda page: entry.check_late_answer(page, unseen))),
    ("few letters that make several words aren't told", "page/word_field.js", "if (isOfSeveral && typed.length <= TYPED_MOST)", "if (false)", of_page(lambda page: entry.check_together(page, unseen))),
    ("papers beyond the named ones aren't told", "page/missing.js", 'named("which.after").length ?', "false ?", of_page(lambda page: astray.check_untyped(page, unseen))),
    ("papers that aren't cleared", "page/backups.js", "    this.#papers.clear();\n    this.#rest = {", "    this.#papers = new Papers(this.#engine);\n    this.#rest = {", of_page(agreement.check_memory)),
    ("a paper that was left out isn't cleared", "page/backups.js", "zero(...dropped, ...left,", "zero(...dropped,", of_page(agreement.check_memory)),
    ("a paper that was left out is forgotten", "page/backups.js", "if (error instanceof Refusal) this.leaveOut(", "if (false) this.leaveOut(", of_page(lambda page: astray.check_left_out(page, unseen))),
    ("a paper that no backup has is offered", "page/kind.js", "isPossible: share.groupIndex < share.groupCount", "isPossible: true", of_page(lambda page: astray.check_impossible(page, unseen))),
    ("a good paper is blamed for a repaired one", "page/collect.js", "error instanceof Declined ? await this.#doubtful() : []", "[]", of_page(lambda page: astray.check_repaired(page, unseen))),
    ("a repaired paper is blamed beside a read one", "page/backups.js", "others.every(({ isRepaired }) => isRepaired) ? others", "true ? others.filter(({ isRepaired }) => isRepaired)", of_page(lambda page: astray.check_blamed(page, unseen))),
    ("a whole paper counts as repaired", "page/desk.js", 'line.includes(QUESTION_MARK) ? "repaired" : "read"', '"repaired"', of_page(lambda page: astray.check_blamed(page, unseen))),
    ("a repaired paper is blamed for a mistyped passphrase", "page/verdict.js", "right.length ? right : tried.filter(isTogether)", "right", of_page(lambda page: astray.check_blamed(page, unseen))),
    ("four letters of a word in a pasted paper are none", "page/paper_entry.js", "found.length === 1 ? found[0] : word", "word", of_page(lambda page: astray.check_blamed(page, unseen))),
    ("a repaired paper that no drill tried is called right", "page/result.js", "repaired.filter((name) => names.includes(name))", "repaired", of_page(lambda page: astray.check_untried(page, unseen))),
    ("without a noted fingerprint, a repaired paper is called right", "page/result.js", 'result === "good" && isNoted ? tried', 'result === "good" ? tried', of_page(lambda page: astray.check_untried(page, unseen))),
    ("a typed word is called wrong beside a paper that fits", "page/read_damaged.js", "...(possible.length ? [] : impossible.map((kind) => paragraph(saidImpossible(kind), \"bad\"))),", "...impossible.map((kind) => paragraph(saidImpossible(kind), \"bad\")),", of_page(lambda page: astray.check_impossible(page, unseen))),
    ("a read paper of the backup leaves repaired ones in doubt", "page/collect.js", "kinds.length === 1 && kinds[0].isRepaired", "kinds.some((it) => it.isRepaired)", of_page(lambda page: astray.check_several_repaired(page, unseen))),
    ("that a group needs one paper counts as shown", "page/missing.js", "it.isWritten && it.memberThreshold === 1", "false", of_page(lambda page: steps.check_which(page, unseen))),
    ("complete groups are asked for that there can't be", "page/missing.js", '? "all" : "";', '? "" : "";', of_page(lambda page: astray.check_lost(page, unseen))),
    ("a passphrase that wasn't typed is called mistyped", "page/desk.js", "hasPassphrase: () => held.passphrase.length > 0", "hasPassphrase: () => true", of_page(lambda page: astray.check_without(page, unseen))),
    ("the module's memory isn't cleared", "bindings/js/calls.js", ".fill(0", ".slice(0", of_page(agreement.check_memory), 3),
    ("a wrong word is replaced", "page/word_field.js", "    else {\n      this.#mark(true);\n", "    else {\n      this.set(nearest(this.#list, this.word)[0]);\n", of_page(lambda page: refusals.check_words(page, unseen))),
    ("another paper is taken for the right one", "page/desk.js", "const found = beside(engine, line, held.shown[index]);", 'const found = "same";', of_page(lambda page: tasks.check_make(page, unseen))),
    ("words that weren't read are left out", "page/collect.js", "if (!this.#entry.isEmpty) {", "if (false) {", of_page(lambda page: entry.check_unread(page, unseen))),
    ("a paper that was taken out is still called sound", "page/collect.js", 'this.#entry.say(say("collect.dropped", { name }));', "", of_page(lambda page: refusals.check_words(page, unseen))),
    ("the number of words is asked for though it is known", "page/show_paper.js", "    }, null, true);", "    });", of_page(lambda page: entry.check_known_count(page, unseen))),
    ("Enter and Tab end the next word", "page/word_field.js", "isEnding && arrived === this && ", "false && ", of_page(lambda page: entry.check_keys(page, unseen))),
    ("another try empties the fingerprint", "page/passphrase.js", 'field.value = noted ?? "";', 'field.value = "";', of_page(lambda page: tasks.check_papers(page, unseen))),
    ("a new secret is drawn for a wallet that holds money", "page/make_backup.js", "new SecretFields(desk, chosen)", 'new SecretFields(desk, { ...chosen, source: "new" })', of_page(lambda page: choices.check_has(page, unseen))),
    ("nobody asks whether there is money in the wallet", "page/make_backup.js", "has = made === \"words\" ? made : await askHas(has);", 'has = "new";', of_page(lambda page: choices.check_has(page, unseen))),
    ("the entropy of 12 or 24 words becomes papers", "page/make_backup.js", "if (secret.isEntropy) return null;", "", of_page(lambda page: choices.check_doubts(page, unseen))),
    ("a secret that doesn't fit the words is taken at once", "page/digits.js", "bytes === BYTES[words] ? []", "true ? []", of_page(lambda page: choices.check_doubts(page, unseen))),
    ("a secret of one repeated byte is taken at once", "page/digits.js", "isRepeated ? [say", "false ? [say", of_page(lambda page: choices.check_doubts(page, unseen))),
    ("what was in doubt of other digits isn't asked again", "page/make_backup.js", '(this.#asked = "")', "{}", of_page(lambda page: choices.check_doubts(page, unseen))),
    ("12 or 24 words become papers", "page/make_backup.js", '(has !== "words" && has !== "none") || (await agreeToNew(has))', "true", of_page(lambda page: choices.check_has(page, unseen))),
    ("papers of an empty wallet are made without a word on that", "page/make_backup.js", '    isOwn ? null : paragraph(say("make.empty"), "note"),\n', "", of_page(lambda page: tasks.check_make(page, unseen))),
    ("digits aren't compared with the noted fingerprint", "page/judge.js", 'fault: noted !== "" && noted !== fingerprint ? "other" : ""', 'fault: ""', of_page(lambda page: refusals.check_values(page, unseen))),
    ("digits are typed once", "page/make_backup.js", 'return typed === again ? this.#noted.missing() : say("secret.differ");', "return this.#noted.missing();", of_page(lambda page: refusals.check_values(page, unseen))),
    ("without a noted fingerprint, no fault is found", "page/result.js", '  if (!isNoted) return isAlone ? "one" : "same";\n', "", of_page(lambda page: tasks.check_replace(page, unseen))),
    ("no more papers can be typed", "page/collect.js", '{ key: "papers", label: say("collect.more"), kind: "primary" },', "", of_page(lambda page: refusals.check_papers(page, unseen))),
    ("digits of a wrong secret", "page/recover.js", 'which === "other" ? [] :', "false ? [] :", of_page(lambda page: tasks.check_recover(page, unseen)), 2),
    ("a bad checksum names no word", "page/kind.js", "zero(...engine.repairBytes(line));", "engine.version();", of_page(lambda page: refusals.check_papers(page, unseen))),
    ("a wrong word's place is counted from 0", "page/refusals.js", "[error.refused.details[0] - 1]", "[error.refused.details[0]]", of_page(lambda page: refusals.check_papers(page, unseen))),
    ("one of two papers that fit isn't shown", "page/read_damaged.js", "const fits = possible.map(", "const fits = possible.slice(0, 1).map(", of_page(lambda page: entry.check_damaged(page, unseen))),
    ("found words at other places", "page/read_damaged.js", "word === marks[at] ? []", "word !== marks[at] ? []", of_page(lambda page: tasks.check_damaged(page, unseen))),
    ("an answer stays beside other words", "page/read_damaged.js", "this.#found.replaceChildren();", "", of_page(lambda page: tasks.check_damaged(page, unseen))),
    ("a hidden tab shows words that were found", "page/show_paper.js", "concealLater(list, empty);", "", of_page(lambda page: hidden_words(page))),
    ("a damaged paper that isn't cleared", "page/desk.js", "isFitting: backups.fits(line) }));\n  } finally {\n    zero(line);", "isFitting: backups.fits(line) }));\n  } finally {", of_page(agreement.check_memory)),
    ("an engine that repairs nothing", "page/self_test.js", 'SOUND.replace("agency", "?")', 'SOUND.replace("agency", "zero")', of_page(unseen)),
    ("a paper of another backup is taken", "bindings/js/papers.js", "filter((it) => it.id === id)", "filter(() => true)", of_page(lambda page: astray.check_apart(page, unseen))),
    ("the drill says that all are right", "page/quorums.js", "return tried.expected ?? ", "return true ?? ", of_page(lambda page: refusals.check_mixed(page, unseen))),
    ("the noted fingerprint isn't compared", "bindings/js/shamir.js", "[form, textOrNone(own, expect", "[FORM_FINGERPRINTS, textOrNone(own, expect", of_page(lambda page: tasks.check_papers(page, unseen))),
    ("an engine that gives another secret", "page/self_test.js", 'const SOUND_SECRET = "bb', 'const SOUND_SECRET = "bc', of_page(unseen)),
    ("an engine that judges papers otherwise", "page/self_test.js", "!engine.judge([SOUND, TWO[0]]", "engine.judge([SOUND, TWO[0]]", of_page(unseen)),
    ("an engine that splits a backup anew otherwise", "page/self_test.js", "ascending(30,", "ascending(31,", of_page(unseen)),
    ("half written papers are cleared at once", "page/main.js", 'if (unfinishedKey() !== "") {', "if (false) {", of_page(lambda page: hidden(page))),
    ("Enter in a passphrase does nothing", "page/screen.js", 'if (event.key !== "Enter") return;', "return;", of_page(lambda page: steps.check_passphrase(page, unseen))),
    ("what wallets don't take is refused late", "page/desk.js", "error.code !== Code.NO_SHARES", "error.code < Code.NO_SHARES", of_page(lambda page: refusals.check_values(page, unseen))),
    ("too few papers are told late", "page/replace.js", "if (!mayDetermine(status)) {", "if (false) {", of_page(lambda page: refusals.check_mixed(page, unseen))),
    ("a space at the end of a passphrase isn't told", "page/passphrase.js", "if (typed === typed.trim() || isAsked) return null;", "if (true) return null;", of_page(lambda page: refusals.check_values(page, unseen))),
    ("a paper without which nothing is recovered isn't told", "page/plan_choice.js", "this.#dangers.textContent = dangers;", "", of_page(lambda page: steps.check_make(page, unseen))),
    ("one of two groups is enough", "page/plan_choice.js", "if (groups.length === 2) this.plan.needed = 2;", "", of_page(lambda page: choices.check_dangers(page, unseen))),
    ("a plan with a danger isn't asked about", "page/plan_choice.js", 'if (dangers === "") return true;', "if (true) return true;", of_page(lambda page: choices.check_dangers(page, unseen))),
    ("the wallet needn't be said", "page/wallet.js", 'chosen.wallet === null ? say("wallet.missing") : null', "null", of_page(lambda page: choices.check_wallet(page, unseen))),
    ("papers for an older wallet have the flag", "page/make_backup.js", 'extendable: wallet === "flag"', "extendable: true", of_page(lambda page: tasks.check_make(page, unseen))),
    ("a text promises that one paper tells nothing", "page/texts.js", "and a thief hasn't.", "and a thief learns nothing.", lambda folder, url: sources.check(folder / "page"), 2),
    ("a form sends whoever finds it to a website", "page/texts.js", "the software shamir (the file shamir.html)", "the software shamir (shamir.org)", lambda folder, url: sources.check_forms(folder / "page"), 2),
    ("a form doesn't keep its words from websites", "page/forms.js", '    element("p", { class: "heirs" }, element("strong", {}, say("blank.website"))),\n', "", of_page(lambda page: forms.check_blank(page, unseen))),
    ("without a noted fingerprint, old papers take a passphrase that is typed once", "page/change_plan.js", ", isTwice: true }", " }", of_page(lambda page: change.check_renewed(page, unseen))),
    ("that nothing was compared isn't said first", "page/change_plan.js", '    isUnproved ? paragraph(say("change.unnoted"), "bad") : null,\n    toldVerdict(verdict),\n', '    toldVerdict(verdict),\n    isUnproved ? paragraph(say("change.unnoted"), "bad") : null,\n', of_page(lambda page: change.check_renewed(page, unseen))),
    ("old and new papers are said to agree though nothing was compared", "page/change_plan.js", 'isUnproved ? null : paragraph(say("change.same"), "note")', 'paragraph(say("change.same"), "note")', of_page(lambda page: change.check_renewed(page, unseen))),
    ("what wasn't typed isn't named", "page/check_papers.js", "const more = isGood ?", "const more = false ?", of_page(lambda page: astray.check_untyped(page, unseen))),
    ("one paper is said to agree with itself", "page/verdict.js", 'right.length === 1 && right[0].names.length === 1', "false", of_page(lambda page: choices.check_looks_of_results(page, unseen))),
    ("the passphrase is blamed before words that were found", "page/result.js", "? repaired.filter(isTried) : [];", "? [] : [];", of_page(lambda page: astray.check_alone(page, unseen))),
    ("what rests on an answer is green", "page/check_papers.js", "verdict.isEqual && found.isRight", "verdict.isEqual", of_page(lambda page: steps.check_which(page, unseen))),
    ("after a wrong answer, no paper is missing", "page/which_paper.js", "const none = lone.length ?", "const none = false ?", of_page(lambda page: steps.check_wrong_answer(page, unseen))),
    ("a fingerprint that mustn't be noted is large", "page/recover.js", 'isSame ? element("p", { class: "fingerprint" }', 'true ? element("p", { class: "fingerprint" }', of_page(lambda page: tasks.check_recover(page, unseen))),
    ("the same after a check", "page/check_papers.js", 'isGood && !isNoted ? paragraph(say("noted.first")) : null', 'isGood && !isNoted ? paragraph(`${say("noted.first")} ${verdict.fingerprint}`, "fingerprint") : null', of_page(lambda page: choices.check_looks_of_results(page, unseen))),
    ("another fingerprint than the backup has is taken", "page/note_and_drill.js", 'given !== "" && given !== fingerprint', "false", of_page(lambda page: choices.check_notes(page, unseen))),
    ("the passphrase that was noted isn't tried", "page/passphrase.js", '  await desk.ask("passphrase", { passphrase: typed.passphrase }, [typed.passphrase.buffer]);\n', "", of_page(lambda page: choices.check_notes(page, unseen))),
    ("a new backup needs no noted fingerprint", "page/note_and_drill.js", "mayLack: isOwn", "mayLack: true", of_page(lambda page: tasks.check_make(page, unseen))),
    ("what wasn't compared is green", "page/drill.js", 'isEqual ? "good" : "note"', '"good"', of_page(lambda page: choices.check_looks_of_results(page, unseen))),
    ("a word of the list is green", "page/style.css", ".word.right input { border-color: var(--text);", ".word.right input { border-color: var(--good);", of_page(lambda page: choices.check_looks_of_results(page, unseen))),
    ("nothing but its colour tells a danger", "page/style.css", '.bad::before, .fault::before { content: "!"; content: "!" / "";', ".bad::before, .fault::before { content: none;", of_page(lambda page: choices.check_dangers(page, unseen))),
    ("typing back offers to read a damaged paper", "page/show_paper.js", 'saidError(error, "back")', "saidError(error)", of_page(lambda page: tasks.check_make(page, unseen))),
    ("a heading is read as words", "page/spelling.js", 'replace(HEADING, " ")', "trim()", of_page(lambda page: refusals.check_words(page, unseen))),
    ("papers that no quorum has aren't told in the title", "page/result.js", "isLeft || others.length > 0", "isLeft", of_page(lambda page: astray.check_untried(page, unseen))),
    ("on the way back, what was chosen is lost", "page/make_backup.js", ', take: keep }', " }", of_page(lambda page: steps.check_chosen(page, unseen))),
    ("a mistyped end goes into the next field", "page/word_field.js", 'if (isEnded && this.#isMistyped(letters, isRest)) return;', "", of_page(lambda page: entry.check_mistyped(page, unseen))),
    ("a typo that completes another word takes the next field", "page/spelling.js", "if (isNear || isWord || isOfSeveral) return isNear;", "if (isNear || isWord || isOfSeveral) return false;", of_page(lambda page: entry.check_typo(page, unseen))),
    ("letters after a word that are no word take the next field", "page/spelling.js", "letters.length < TYPED_LEAST || (", "(", of_page(lambda page: entry.check_typo(page, unseen))),
    ("letters of a typo stay in the fields that they completed", "page/word_field.js", "for (const field of others) field.#restore();", "", of_page(lambda page: entry.check_typo(page, unseen))),
    ("another word stands where one was mistyped", "page/paper_entry.js", "if (isNear) field.doubt(typed);\n    else field.set(typed);", "field.doubt(typed);", of_page(lambda page: entry.check_typo(page, unseen))),
    ("words don't move when one is put in", "page/paper_entry.js", "for (let to = this.count - 1; to > at; to -= 1)", "for (let to = this.count - 1; to > this.count; to -= 1)", of_page(lambda page: entry.check_moves(page, unseen))),
    ("a field that was put in stays", "page/paper_entry.js", "if (this.count > this.#base) this.setCount(", "if (false) this.setCount(", of_page(lambda page: entry.check_moves(page, unseen))),
    ("words after the last field are typed into it", "page/paper_entry.js", "if (at + 1 !== few || many === few", "if (true || many === few", of_page(lambda page: entry.check_beyond(page, unseen))),
    ("the number of words takes the focus", "page/paper_entry.js", "this.#chosen(it)", "this.setCount(it)", of_page(lambda page: entry.check_beyond(page, unseen))),
    ("words of BIP-39 that are typed by hand aren't named", "page/paper_entry.js", "if (seemsOther(this.#list, this.#asTyped)) this", "if (false) this", of_page(lambda page: entry.check_bip39(page, unseen))),
    ("a table is read across", "page/spelling.js", "papers.flat().length === words.length && ", "false && ", of_page(lambda page: entry.check_pasted(page, unseen))),
    ("papers in lines are one", "page/spelling.js", "[HEADING, /\\n\\s*\\n/, /\\n/]", "[HEADING]", of_page(lambda page: entry.check_pasted(page, unseen))),
    ("that papers weren't read isn't told", "page/paper_entry.js", '      this.say(`${this.#answer.textContent} ${say("entry.left"', '      if (false) this.say(`${this.#answer.textContent} ${say("entry.left"', of_page(lambda page: entry.check_pasted(page, unseen))),
    ("a late click presses a button of the next screen", "page/dom.js", "if (!(event.detail > 1 || isLate)) onPress();", "if (!(event.detail > 1)) onPress();", of_page(lambda page: hasty.check_late_click(page, unseen))),
    ("the bar of a long work stands still", "page/estimate.js", "(bar.isConnected ? move() : clearInterval(timer))", "clearInterval(timer)", of_page(lambda page: long_drill.check_stop(page, unseen))),
    ("fields run across", "page/style.css", "grid-auto-flow: column; ", "", of_page(lambda page: choices.check_phone(page, unseen))),
    ("a paper is longer than a phone", "page/style.css", "columns: 2 7.4em;", "columns: 1;", of_page(lambda page: choices.check_phone(page, unseen))),
    ("words to be written down run into each other", "page/style.css", "columns: 2 7.4em;", "columns: 2;", looked("light")),
    ("the fields of words stay beside each other where they have no room", "page/style.css", "  .words { grid-auto-flow: row;", "  .none { grid-auto-flow: row;", looked("light")),
    ("in forced colours, no choice looks chosen", "page/style.css", '  .choice button[aria-checked="true"] { border: 3px solid Highlight; }\n  .choice button[aria-checked="true"]::before', '  .choice button[aria-checked="none"]::before', looked("forced")),
    ("the way on is below the first screen", "page/style.css", ".go { position: sticky;", ".go { position: static;", looked("light")),
    ("the button that ends covers what is to be done", "page/style.css", ":is(.paper, .verdict) ~ .go", ".paper ~ .go", of_page(lambda page: change.check_renewed(page, unseen))),
    ("what is said of a wrong word covers a field", "page/style.css", "scroll-margin-top: var(--said);", "", of_page(lambda page: choices.check_low(page, unseen))),
    ("a question mark is taken for the end of a word", "page/spelling.js", 'letters.includes("?") || ', "", of_page(lambda page: entry.check_open(page, unseen))),
    ("letters after a taken paper are left out untold", "page/paper_entry.js", '${say("entry.mistyped.last")}', "", of_page(lambda page: entry.check_last_word(page, unseen))),
    ("after letters that are left out, a field stays empty", "page/word_field.js", "    others[0]?.focus();\n", "", of_page(lambda page: typists.check(page, unseen, 20, ["late, space"]))),
    ("the rest of a word comes into the next screen", "page/show_paper.js", "isTaken: !isSame,", "isTaken: true,", of_page(lambda page: entry.check_next_screen(page, unseen))),
    ("a key after the last word ends a word of the next screen", "page/paper_entry.js", "this.#fields[0].begin();", "this.#fields[0].focus();", of_page(lambda page: entry.check_next_screen(page, unseen))),
    ("a paper is told once more on a later screen", "page/show_paper.js", "isDone = true;", "", of_page(lambda page: entry.check_once(page, unseen))),
    ("after a button, the rest of a word is awaited", "page/main.js", 'target.closest("button") && forgetRest()', "false", of_page(lambda page: entry.check_after_button(page, unseen))),
    ("what is said of a wrong word covers what is offered", "page/style.css", ":is(input, button)", "input", of_page(lambda page: entry.check_offers(page, unseen))),
    ("what was shown to be right is asked for", "page/check_papers.js", 'if (hasDamaged) setUnfinished(isKept ? "clear.repaired" : "");', "", of_page(lambda page: astray.check_alike(page, unseen))),
    ("a question mark lets the words after it move up", "page/spelling.js", "return separated(text, /[^\\p{L}\\p{M}?]+/u)", "return separated(text, /[^\\p{L}\\p{M}]+/u)", of_page(lambda page: entry.check_open(page, unseen))),
    ("a repaired paper is cleared at once", "page/read_damaged.js", '      setUnfinished("clear.repaired");\n', "", of_page(lambda page: entry.check_known_count(page, unseen))),
    ("what is said of a wrong word is out of sight", "page/style.css", "position: sticky; top: 0; z-index: 2;", "", of_page(lambda page: choices.check_low(page, unseen))),
    ("a copy takes the place of another paper", "page/backups.js", ' && beside(this.#engine, it, line) !== "more"', "", of_page(lambda page: astray.check_alike(page, unseen))),
    ("a wrong copy is kept beside a right one", "page/backups.js", "isLike(it) || ", "", of_page(lambda page: astray.check_alike(page, unseen))),
    ("a drill shows of copies that it didn't try that they are right", "page/backups.js", "names.includes(kindOf(this.#engine, line).name)", "true", of_page(lambda page: astray.check_untried(page, unseen))),
    ("an answer is out of sight", "page/paper_entry.js", 'if (text !== "") this.#answer.scrollIntoView', 'if (false) this.#answer.scrollIntoView', of_page(lambda page: choices.check_phone(page, unseen))),
    ("too many other papers are asked for", "page/plan.js", 'counted(memberThreshold - 1, "paper")', 'counted(memberThreshold, "paper")', of_page(lambda page: choices.check_what(page, unseen))),
    ("what a paper was told to be stays", "page/tell_paper.js", "    this.#found.replaceChildren();\n", "", of_page(lambda page: choices.check_what(page, unseen))),
    ("how an owner types isn't learnt", "page/word_field.js", "if (isBySpelling && arrived === this", "if (false", of_page(lambda page: entry.check_habits(page, unseen))),
    ("forms of a plan that is refused", "page/blank_forms.js", 'kind: "primary", take }', 'kind: "primary" }', of_page(lambda page: forms.check_blank(page, unseen))),
    ("words that were pasted are left without a question", "page/word_field.js", "    setTouched(true);\n", "", of_page(lambda page: entry.check_kept(page, unseen))),
    ("the way back loses words", "page/paper_entry.js", "if (entry.isEmpty) onLeave();", "if (true) onLeave();", of_page(lambda page: entry.check_kept(page, unseen))),
    ("fewer fields lose words", "page/paper_entry.js", "for (const { box } of this.#spare) box.hidden = true;", "for (const it of this.#spare) { it.box.hidden = true; it.set(''); }", of_page(lambda page: entry.check_kept(page, unseen))),
    ("one misspelt word is taken for BIP-39", "page/spelling.js", "foreign(list, words) >= BIP39_FOREIGN * words.length", "foreign(list, words) > 0", of_page(lambda page: refusals.check_words(page, unseen))),
    ("a mark of one word is counted as open", "page/spelling.js", "mark.slice(0, -1)).length > 1", "mark.slice(0, -1)).length > 0", of_page(lambda page: entry.check_damaged(page, unseen))),
    ("an engine that isn't right begins a task", "page/main.js", " && own.begun.fault === null", "", of_page(lambda page: hasty.check_launch(page, unseen))),
    ("a task that was cleared begins", "page/main.js", " && mine === awaited", "", of_page(lambda page: hasty.check_launch(page, unseen))),
    ("a double click skips a paper", "page/dom.js", "if (!(event.detail > 1 || isLate)) onPress();", "onPress();", of_page(lambda page: hasty.check_double_click(page, unseen))),
    ("late words show under a question", "page/show_paper.js", "if (isWanted && list.isConnected && !document.hidden)", "if (true)", of_page(lambda page: hasty.check_double_click(page, unseen))),
    ("an early stop is lost", "page/client.js", "if (this.#isStopped) throw new Stopped();", "", of_page(lambda page: hasty.check_stop(page, unseen))),
    ("another secret than the noted one is held", "page/desk.js", 'if (noted !== "" && noted !== fingerprint) forgetSecret();', "", of_page(agreement.check_memory)),
    ("a hidden tab shows a paper", "page/main.js", "if (document.hidden) conceal();", "", of_page(lambda page: hidden(page))),
    ("steps begin anew", "page/note_and_drill.js", "setStep(7);", "setStep(1);", of_page(lambda page: journey.check_steps(page, unseen))),
    ("two buttons are to be pressed next", "page/collect.js", "this.#entry.isLeading = false;", "", of_page(lambda page: journey.check_steps(page, unseen))),
    ("a result is said twice", "page/check_papers.js", "    ...tried,\n", "    ...tried,\n    toldVerdict(verdict),\n", of_page(lambda page: journey.check_steps(page, unseen))),
    ("a paper that is here is taken for missing", "page/missing.js", "own?.names.includes(name) ?", "false ?", of_page(lambda page: steps.check_which(page, unseen))),
    ("a name between those that are here isn't offered", "page/missing.js", "filter((member) => !here.includes(member))", "filter((member) => member > last)", of_page(lambda page: steps.check_which(page, unseen))),
    ("one paper fewer may be lost", "page/plan_picture.js", "group.members - group.needed + 1", "group.members - group.needed", of_page(lambda page: journey.check_plans(page, unseen))),
    ("a thief needs all groups", "page/plan_picture.js", "group.needed), needed)", "group.needed), groups.length)", of_page(lambda page: journey.check_plans(page, unseen))),
    ("what a plan doesn't survive stands under what it survives", "page/plan_picture.js", 'heading: "survives.not"', 'heading: "survives"', of_page(lambda page: journey.check_plans(page, unseen))),
    ("cards of other papers", "page/plan_picture.js", "marked.includes(name) ?", "!marked.includes(name) ?", of_page(lambda page: journey.check_plans(page, unseen))),
    ("a missing paper looks as if it was here", "page/picture.js", 'names[at] ?? say("card.missing")', 'names[at] ?? ""', of_page(lambda page: journey.check_plans(page, unseen))),
    ("the columns of a form touch", "page/style.css", "column-gap: 36pt", "column-gap: 2pt", of_page(lambda page: forms.check_blank(page, unseen))),
    ("a form tells heirs nothing", "page/forms.js", '    paragraph(say(isOnly ? "blank.heirs.one" : "blank.heirs"), "heirs"),\n', "", of_page(lambda page: forms.check_blank(page, unseen))),
    ("a single paper is one of several", "page/forms.js", "planNames(plan).length === 1", "false", of_page(lambda page: forms.check_single(page, unseen))),
    ("forms stay beside words", "page/forms.js", "  clearForms();\n  return", "  return", of_page(lambda page: forms.check_offered(page, unseen))),
    ("a label is lost", "page/forms.js", "kept.set(name, typed(name))", 'kept.set(name, "")', of_page(lambda page: forms.check_offered(page, unseen))),
    ("a paper that is put back is lost", "page/backups.js", "dropped;\n    this.#papers.add(line);\n", "dropped;\n", of_page(lambda page: second_thoughts.check_put_back(page, unseen))),
    ("a paper that was taken out isn't cleared", "page/backups.js", "zero(...dropped, ", "zero(", of_page(agreement.check_memory)),
    ("emptied words come back over others", "page/paper_entry.js", "    this.#remember([]);\n", "", of_page(lambda page: second_thoughts.check_emptied(page, unseen))),
    ("a mistyped fingerprint empties all fields", "page/make_backup.js", " ?? (await secret.refusal(desk, plan))", "", of_page(lambda page: refusals.check_values(page, unseen))),
    ("no words are offered as one is typed", "page/word_field.js", "    this.#suggest(letters);\n", "", of_page(lambda page: second_thoughts.check_offered(page, unseen))),
    ("a screen reader isn't told which words are near", "page/word_field.js", 'announce(`${told} ${offered.join(", ")}`)', "announce(told)", of_page(lambda page: second_thoughts.check_offered(page, unseen))),
    ("a number that is too large to be counted is told as the right one", "page/verdict.js", "number === COUNTED_MOST ?", "false ?", of_page(lambda page: long_drill.check_most(page, unseen))),
    ("numbers in several formats", "page/say.js", 'value.toLocaleString("en")', "String(value)", of_page(lambda page: long_drill.check_big(page, unseen))),
    ("'33 words' stands in a second line", "page/style.css", ".counts button.small { min-height: 2.9rem; white-space: nowrap; }", ".counts button.small { min-height: 2.9rem; width: 9rem; }", of_page(lambda page: choices.check_phone(page, unseen))),
    ("throws of a die take the place of random bytes", "page/dice.js", "byte ^ own[at]", "own[at]", of_page(lambda page: choices.check_dice(page, unseen))),
    ("throws of a die aren't mixed in", "page/desk.js", "  else mix(secret, dice);\n", "", of_page(lambda page: choices.check_dice(page, unseen))),
    ("old papers aren't cleared", "page/desk.js", "...held.old, ", "", of_page(agreement.check_memory), 2),
    ("the secret is shown while the plan changes", "page/change_plan.js", 'paragraph(say("change.thief"))', f'paragraph(say("change.thief") + " {tasks.SECRET}")', of_page(lambda page: change.check_bare(page, unseen))),
    ("a new backup is made with another passphrase", "page/anew.js", "{ passphrase, exponent, extendable });", "{ exponent, extendable });", of_page(lambda page: change.check_renewed(page, unseen))),
    ("a new backup has another exponent", "page/anew.js", "{ passphrase, exponent, extendable });", "{ passphrase, exponent: 1, extendable });", of_page(lambda page: change.check_renewed(page, unseen))),
    ("a new backup has the flag for an older wallet", "page/change_plan.js", 'extendable: chosen.wallet === "flag"', "extendable: true", of_page(lambda page: change.check_renewed(page, unseen))),
    ("new papers have the old identifier", "page/anew.js", 'while (beside(engine, made[0], papers[0]) !== "apart")', "while (false)", of_page(lambda page: change.check_identifier(page, unseen))),
    ("papers are made of another secret than the noted one", "page/anew.js", 'if (noted !== "" && noted !== fingerprint)', "if (false)", of_page(lambda page: change.check_renewed(page, unseen))),
    ("new papers aren't compared with the old ones", "page/change_plan.js", 'noted: old.fingerprint, isOwn: noted === "", isNew: true', 'noted, isOwn: noted === ""', of_page(lambda page: change.check_renewed(page, unseen))),
    ("old papers aren't compared with the noted fingerprint", "page/change_plan.js", 'title: say("change.work"), noted, isOld', 'title: say("change.work"), noted: "", isOld', of_page(lambda page: change.check_extendable(page, unseen))),
    ("only the new papers are tried", "page/desk.js", "return isOld ? held.old : backups.lines;", "return backups.lines;", of_page(lambda page: change.check_wrong(page, unseen))),
    ("new papers are taken though the old ones don't agree", "page/change_plan.js", '  if (old.result !== "good") return', "  if (false) return", of_page(lambda page: change.check_wrong(page, unseen))),
    ("a plan that was changed without a noted fingerprint is green", "page/change_plan.js", 'isOwn: noted === ""', "isOwn: false", of_page(lambda page: change.check_bare(page, unseen))),
    ("a passphrase that isn't here is taken from before", "page/change_plan.js", 'if (given === null) await desk.ask("passphrase", { passphrase: new Uint8Array() });', "", of_page(lambda page: change.check_bare(page, unseen))),
    ("old papers are to be destroyed before a wallet read the new ones", "page/change_plan.js", '    paragraph(say("change.restore"), "note"),\n', "", of_page(lambda page: change.check_bare(page, unseen))),
    ("old papers aren't to be marked", "page/change_plan.js", 'first: say("change.mark"), ', "", of_page(lambda page: change.check_bare(page, unseen))),
    ("new papers are called by the words for old ones", "page/change_plan.js", ", isNew: true", "", of_page(lambda page: change.check_bare(page, unseen))),
    ("a paper that is written again isn't named", "page/result.js", "anew: told.map(", "anew: told.slice(0, 0).map(", of_page(lambda page: tasks.check_replace(page, unseen))),
    ("the way on is out of sight of the fields", "page/collect.js", "if (status.enough && !isOther) this.#offerEnd(own);", "", of_page(lambda page: choices.check_phone(page, unseen))),
    ("a picture stands between a choice and its buttons", "page/which_paper.js", "asked.element];", 'asked.element, picture(status, kind.groupCount, "replace")];', of_page(lambda page: steps.check_which(page, unseen))),
    ("old papers stay among the new ones", "page/backups.js", "    this.clear();\n    return lines;", "    return lines;", of_page(lambda page: change.check_bare(page, unseen))),
    ("new papers that are half written are cleared at once", "page/change_plan.js", 'unfinished: "clear.changed"', 'unfinished: ""', of_page(lambda page: change.check_extendable(page, unseen))),
    ("an extendable backup is made of its secret", "page/change_plan.js", "kinds[0].extendable ? split", "false ? split", of_page(lambda page: change.check_bare(page, unseen))),
    ("a change of the plan can't be stopped", "page/change_plan.js", "await desk.askLong(\"renew\", given)", "await desk.ask(\"renew\", given)", of_page(lambda page: change.check_stop(page, unseen))),
    ("two questions have one step", "page/wallet.js", "  setStep(step);", "  setStep(2);", of_page(lambda page: journey.check_steps(page, unseen))),
    ("the steps of an extendable backup are counted as those of another", "page/change_plan.js", "return extendable ? 6 : STEPS_MOST", "return STEPS_MOST", of_page(lambda page: change.check_extendable(page, unseen))),
    ("the way back stands elsewhere", "page/collect.js", "show(title, this.#back, ", "show(title, null, this.#back, ", of_page(lambda page: steps.check_first_steps(page, unseen))),
    ("a longer screen moves the way back", "page/style.css", " scrollbar-gutter: stable;", "", of_page(lambda page: steps.check_first_steps(page, unseen))),
    ("a result doesn't say what a quorum is", "page/drill.js", ', paragraph(say("quorum.what"), "hint"));', ");", of_page(lambda page: tasks.check_papers(page, unseen))),
    ("words that were found can't be denied", "page/read_damaged.js", "open && fits.length ? this.#denial(isOneOfTwo) : null", "null", of_page(lambda page: entry.check_damaged(page, unseen))),
    ("words that were denied stay", "page/read_damaged.js", '      this.#changed();\n      this.#entry.say(say("damaged.no.then")', '      this.#entry.say(say("damaged.no.then")', of_page(lambda page: entry.check_damaged(page, unseen))),
    ("the wallet's number of words doesn't count", "page/make_backup.js", "this.#bytes = BYTES[words];", "this.#bytes = 16;", of_page(lambda page: choices.check_wallet(page, unseen))),
    ("what a paper is stands out of sight", "page/tell_paper.js", "this.#entry.below.append(this.#found);", "this.#entry.element.append(this.#found);", of_page(lambda page: choices.check_what(page, unseen))),
    ("a screen scrolls a little", "page/style.css", "main { padding-bottom: 1.5rem;", "main { padding-bottom: 4rem;", of_page(lambda page: choices.check_phone(page, unseen))),
    ("the button of a paper wraps", "page/style.css", ".rows li { display: flex;", ".rows li { display: flex; flex-wrap: wrap; ", of_page(lambda page: choices.check_phone(page, unseen))),
    ("what was said of another paper stays beside a phrase of BIP-39", "page/tell_paper.js", "    this.#entry.onMissing = () => this.#found.replaceChildren();\n", "", of_page(lambda page: choices.check_what(page, unseen))),
    ("a number in letters", "page/texts.js", "3 papers are at home", "Three papers are at home", lambda folder, url: sources.check(folder / "page")),
    ("a recovery ends without what is to be done next", "page/recover.js", '    ...(which === "other" ? [] : [element("h2", {}, say("recover.next.title")), paragraph(say("recover.next"))]),\n', "", of_page(lambda page: tasks.check_recover(page, unseen))),
    ("the name of a paper isn't told where it is to be written", "page/show_paper.js", 'say("paper.how", { name })', 'say("paper.how", { name: "of the paper" })', of_page(lambda page: tasks.check_make(page, unseen))),
    ("a word that only habit decided isn't marked", "page/word_field.js", "    if (isGuessed) this.#events.guessed(this.#at);\n", "", of_page(lambda page: entry.check_guessed(page, unseen))),
    ("papers of another backup than the chosen one are tried", "page/backups.js", "this.#rest.chosen ?? this.#papers.ids[0]", "this.#papers.ids[0]", of_page(lambda page: astray.check_apart(page, unseen))),
    ("papers of another backup aren't told", "page/backups.js", "filter(([line]) => !own.includes(line))", "filter(() => false)", of_page(lambda page: astray.check_apart(page, unseen))),
    ("papers of two backups with one name are both taken out", "page/backups.js", "[this.#all, this.#papers.lines(id)]", "[this.#all, this.#all]", of_page(lambda page: astray.check_apart(page, unseen))),
    ("the first paper of another backup is told as any other", "page/collect.js", "isNew && this.#isApart && own.kinds.length === 1", "false", of_page(lambda page: astray.check_apart(page, unseen))),
    ("a damaged paper that can't be of the others' backup is offered", "page/backups.js", "      this.#engine.judge(this.#all, line);\n", "", of_page(lambda page: astray.check_several_repaired(page, unseen))),
    ("a repaired paper that a right quorum has is blamed", "page/result.js", "tried.filter((name) => !right.includes(name))", "tried", of_page(lambda page: astray.check_several_repaired(page, unseen))),
    ("a repaired paper is taken for one that was read", "page/backups.js", "if (how) this.#rest[how].push(line.slice());", "", of_page(lambda page: astray.check_repaired(page, unseen))),
    ("what is no fingerprint is taken for one", "page/desk.js", "return error.code !== Code.BAD_FINGERPRINT;", "return true;", of_page(lambda page: refusals.check_recovery(page, unseen))),
    ("a paper of an old backup is told as one of the new", "page/desk.js", 'isForeign: found === "conflict" || found === "apart"', "isForeign: false", of_page(lambda page: change.check_extendable(page, unseen))),
    ("a plan survives one loss more", "page/plan_picture.js", "group.members - group.needed + 1", "group.members - group.needed + 2", lambda folder, url: decisions.check(folder)),
    ("a slow drill shows nothing until a part of it is listed", "page/drill.js", "isSlow: seconds > SLOW_FROM", "isSlow: false", of_page(lambda page: long_drill.check_slow_drill(page, unseen))),
    ("how far a quorum is doesn't show", "page/trial.js", "if (secret === null) tell(rounds);", "if (secret === null) continue;", of_page(lambda page: long_drill.check_slow_drill(page, unseen))),
    ("a quorum of a slow drill is left out", "page/quorums.js", "at + count <= names.length", "at + count < names.length", lambda folder, url: decisions.check(folder)),
    ("a slow drill derives each key anew", "page/trial.js", "    found.push(its);\n", "", lambda folder, url: decisions.check(folder)),
    ("a secret is taken for another one", "page/trial.js", "encrypted.every((byte, at) => byte === value[at])", "encrypted.length === value.length", lambda folder, url: decisions.check(folder)),
    ("papers of right quorums are suspected", "page/quorums.js", "!inRight.has(name) && ", "", lambda folder, url: decisions.check(folder)),
    ("digits stay after a task that was cleared", "page/client.js", ", ...arraysOf(this.#given)", "", of_page(lambda page: hasty.check_given(page, unseen))),
    ("a task that fails doesn't say what becomes of papers", "page/main.js", '"bad"), half]', '"bad")]', of_page(lambda page: hasty.check_fault(page, unseen))),
    ("found words are told beside others", "page/read_damaged.js", "marks);\n      if (changes !== this.#changes) return OUTDATED;\n", "marks);\n", of_page(lambda page: hasty.check_late_answer(page, unseen))),
    ("throws of a die are lost on the way back", "page/make_backup.js", "      chosen.hasThrows ||= more.hasThrows;\n", "", of_page(lambda page: choices.check_dice(page, unseen))),
    ("a time is told for an exponent that there isn't", "page/make_backup.js", "this.isExponent ? say(", "true ? say(", of_page(lambda page: steps.check_chosen(page, unseen))),
    ("an old question forgets a paper", "page/collect.js", "    dropQuestion();\n", "", of_page(lambda page: second_thoughts.check_question(page, unseen))),
    ("a long paste is compared as a whole", "page/spelling.js", "typed.slice(0, COMPARED_MOST)", "typed", of_page(lambda page: second_thoughts.check_long_paste(page, unseen))),
    ("a hidden tab keeps what a screen reader was told", "page/screen.js", '  announce("");\n', "", of_page(lambda page: second_thoughts.check_offered(page, unseen))),
    ("an input that doesn't say its kind is left unread", "page/word_field.js", "event?.inputType?.", "event?.inputType.", of_page(lambda page: second_thoughts.check_offered(page, unseen))),
    ("the way back from the other task ends this one", "page/change_plan.js", 'return "back";', 'return "end";', of_page(lambda page: tasks.check_replace(page, unseen))),
    ("halves of seconds are left out", "page/say.js", "Math.round(seconds), ", "Math.floor(seconds), ", lambda folder, url: decisions.check(folder)),
]

if not webkit.missing():
    FAULTS.append(("texts don't fit if a window gets narrower, looked for in WebKit", "page/style.css", "display: flex; flex-direction: column; gap: .75rem;", "display: grid; gap: .75rem;", lambda folder, url: webkit.check(url, lambda page, what: None, [choices.check_phone])))
    FAULTS.append(("a result is said twice, looked for in WebKit", "page/check_papers.js", "    ...tried,\n", "    ...tried,\n    toldVerdict(verdict),\n", lambda folder, url: webkit.check(url, lambda page, what: None)))


def hidden_words(page):
    tasks.begin(page, "damaged")
    tasks.type_damaged(page, samples.SOUND_PAPER.replace("agency", "?"))
    page.wait(lambda: tasks.found_words(page), "the words that fit")
    looks.check_hidden_words(page)


def hidden(page):
    tasks.begin(page, "make")
    tasks.choose_wallet(page)
    page.tick(say("passphrase.none"))
    tasks.create(page)
    page.wait_title(say("paper.title", name="0.0"))
    tasks.read_paper(page)
    looks.check_hidden(page)


def plant(engine, folder, path, old, new, check_it, times=1):
    """Plants a fault in a copy of the sources, or in the page that is made of them. Returns what looks for it."""
    shutil.copytree(ROOT / "page", folder / "page", ignore=shutil.ignore_patterns("out"))
    shutil.copytree(ROOT / "bindings/js", folder / "bindings/js")
    target, made = folder / path, folder / "shamir.html"
    build = [sys.executable, ROOT / "tools/page", "--sources", folder / "page", "--engine", engine, "--output", made]
    if target == made:
        ran(build)
    target.write_text(planted.changed(target.read_text(), old, new, path, times))
    if target != made:
        ran(build)
    return lambda: check_it(folder, made.as_uri())


def check_places():
    """Checks that each fault still has its place."""
    for _, path, old, new, _, *times in FAULTS:
        # Some faults are planted in the page that is made.
        if (ROOT / path).parent != ROOT:
            planted.changed((ROOT / path).read_text(), old, new, path, *times)


def check(engine):
    """Plants each fault."""
    # What a fault keeps from coming is awaited for less.
    hands.PATIENCE = 20
    planted.check(FAULTS, functools.partial(plant, engine), AT_ONCE)
