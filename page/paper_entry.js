// The entry of a paper: a numbered field for each word, and the answer to the whole.
import { button, element, labelled, tellChanged } from "./dom.js";
import { counted, say } from "./say.js";
import { announce, askAbove } from "./screen.js";
import { beginning, nearest, seemsBip39, seemsOther } from "./spelling.js";
import { bringIntoSight, forgetRest, WordField } from "./word_field.js";

/**
 * An answer to a whole paper. If it is taken, the fields are emptied for the next one. `words` are those to look at, counted from 0.
 *
 * @typedef {{isTaken: boolean, text: string, isFault?: boolean, words?: number[]}} Answer
 */

/** Papers have one of these numbers of words, if their secret has a usual length. */
export const USUAL_WORDS = [20, 33];
const COUNT_MAX = 128;

export class PaperEntry {
  #list;
  #onPaper;
  #onChange;
  /** @type {WordField[]} */
  #fields = [];
  /** @type {WordField[]} those that are hidden, since the paper has fewer words, the last one first. What was typed stays in them */
  #spare = [];
  // The field that has the focus, or had it last.
  #current = 0;
  #grid = element("div", { class: "words", focusin: () => this.#isAt() });
  #reading = button(say("entry.read"), () => this.#read(), "primary read");
  #answer = element("p", { class: "answer" });
  // What is done if words are missing, so that nobody is asked about the paper.
  onMissing = () => {};
  // Whether several papers may be pasted at once. Then each is taken after the other.
  takesSeveral = false;
  // What stands directly below the answer.
  below = element("div", { class: "buttons", focusin: bringIntoSight });
  #count = labelled(say("entry.count"), "number", {
    attributes: { min: "1", max: String(COUNT_MAX), class: "count", change: () => this.#counted() },
  });
  // The question for the number of words. It isn't asked while the fields are as many as the paper is known to have.
  #counts = element("div", { class: "counts" }, this.#count.box);
  /** @type {number | null} */
  #known = null;
  // How many fields there are, apart from those that were put in.
  #base = 0;
  // Moves the words from the current field on.
  #putting = button("", () => this.#put(this.#current), "small");
  #taking = button("", () => this.#take(this.#current), "small");
  #moving = element("div", { hidden: true }, element("div", { class: "buttons" }, this.#putting, this.#taking), element("p", { class: "hint" }, say("entry.keys")));
  #isAsked = false;
  // Whether the paper was to be read once more before the answer came.
  #again = false;
  #restoring = button(say("entry.undo"), () => this.#restored(), "hide");
  // The words that were emptied last, until something else is typed.
  /** @type {string[]} */
  #last = [];
  // Whether the answer says only what is missing, so that it ends with the next change.
  #isMissing = false;

  /**
   * @param {readonly string[]} list the word list
   * @param {number} count how many words the paper has at first
   * @param {(line: Uint8Array) => Promise<Answer>} onPaper takes the bytes of a paper over, and answers
   * @param {(() => void) | null} [onChange] only for a damaged paper, in which a question mark may stand for letters: it is called
   *   when a field changes
   * @param {boolean} [isKnown] whether the paper is known to have so many words
   */
  constructor(list, count, onPaper, onChange = null, isKnown = false) {
    this.#list = list;
    this.#onPaper = onPaper;
    this.#onChange = onChange;
    this.#known = isKnown ? count : null;
    const quick = USUAL_WORDS.map((it) => button(say("entry.words", { count: it }), () => this.#chosen(it), "small"));
    this.element = element(
      "div",
      { class: "entry" },
      element("p", { class: "hint" }, say(onChange ? "damaged.hint" : "entry.hint")),
      this.#counts,
      this.#answer,
      this.below,
      this.#grid,
      element("div", { class: "buttons", focusin: bringIntoSight }, this.#reading, button(say("entry.empty"), () => this.#emptied()), this.#restoring),
      this.#moving,
    );
    this.#counts.append(...quick);
    this.#putting.setAttribute("aria-keyshortcuts", "Control+Enter");
    this.#taking.setAttribute("aria-keyshortcuts", "Control+Delete");
    new ResizeObserver(() => this.#measure()).observe(this.#answer);
    // Before the field itself hears of it, since the field may ask for a new answer.
    this.element.addEventListener("input", () => this.#changed(), true);
    this.setCount(count);
  }

  /** Whether the button that reads the paper is the one to press next. On each screen, at most one button looks so. */
  set isLeading(/** @type {boolean} */ is) {
    this.#reading.classList.toggle("primary", is);
  }

  get count() {
    return this.#fields.length;
  }

  /** Whether nothing is typed. */
  get isEmpty() {
    return [...this.#fields, ...this.#spare].every((field) => field.word === "");
  }

  /** What stands in each field that is shown. */
  get words() {
    return this.#fields.map((field) => field.word);
  }

  get #typed() {
    return this.words.filter((word) => word !== "");
  }

  /** What was typed, also where the page completed a word before its end was mistyped. */
  get #asTyped() {
    return [...this.#fields, ...this.#spare].map((field) => field.typed).filter((word) => word !== "");
  }

  /** Takes the answer away that an earlier state of the fields got. What the engine refused stays until the next answer. */
  #changed() {
    this.#remember([]);
    this.element.classList.remove("foreign");
    this.#moving.hidden = this.isEmpty;
    if (this.#isMissing || this.#onChange) this.say("");
    this.#onChange?.();
  }

  /** Takes into account which field has the focus. */
  #isAt() {
    this.#current = Math.max(0, this.#fields.findIndex(({ field }) => field === document.activeElement));
    const number = this.#current + 1;
    this.#putting.textContent = say("entry.put", { number });
    this.#taking.textContent = say("entry.take", { number });
  }

  /** Moves the focus to the first field. The letters of a word may have led to the screen of this entry. */
  focus() {
    this.#fields[0].begin();
  }

  /**
   * Shows so many fields.
   *
   * @param {number} count
   * @param {number} [base] how many of them weren't put in
   */
  setCount(count, base = count) {
    this.#base = base;
    /** @type {import("./word_field.js").Events} */
    const events = {
      completed: (at, isBySpelling) => this.#completed(at, isBySpelling),
      back: (at) => this.#fields[Math.max(0, at - 1)].focus(),
      spread: (at, words) => void this.#spread(at, words),
      guessed: (at) => this.#guessed(at),
      together: (fields) => this.#together(fields),
      pasted: (at, papers) => this.#pasted(at, papers),
      beyond: (at, letters) => this.#goBeyond(at, letters),
      put: (at) => this.#put(at),
      take: (at) => this.#take(at),
      ended: () => this.#ended(),
      mistyped: (field, typed) => this.#mistyped(field, typed),
    };
    while (this.#fields.length > count) this.#spare.push(/** @type {WordField} */ (this.#fields.pop()));
    while (this.#fields.length < count) {
      const added = this.#spare.pop() ?? new WordField(this.#fields.length, this.#list, this.#onChange !== null, events);
      this.#fields.push(added);
      if (!added.box.isConnected) this.#grid.append(added.box);
    }
    for (const { box } of this.#fields) box.hidden = false;
    for (const { box } of this.#spare) box.hidden = true;
    // The words run down two columns, as on the forms.
    this.#grid.style.setProperty("--rows", String(Math.ceil(count / 2)));
    this.#count.field.value = String(count);
    this.#counts.hidden = count === this.#known;
    this.#changed();
  }

  #counted() {
    const count = Number(this.#count.field.value);
    if (Number.isInteger(count) && count >= 1 && count <= COUNT_MAX) this.setCount(count);
    else this.#count.field.value = String(this.count);
  }

  /**
   * Shows so many fields, and goes on with the first that is empty.
   *
   * @param {number} count
   */
  #chosen(count) {
    this.setCount(count);
    (this.#fields.find((field) => field.word === "") ?? this.#fields[count - 1]).focus();
  }

  /**
   * Goes on with a paper of the other usual length, after whose first words the fields end, or with the next paper, before the answer to this one.
   *
   * @param {number} at
   * @param {string} letters what was typed after the last word
   */
  #goBeyond(at, letters) {
    const [short, long] = USUAL_WORDS;
    const few = this.count;
    const many = Math.min(few + long - short, COUNT_MAX);
    if (at + 1 !== few || many === few || this.#known !== null || !(few === short || this.#isAsked)) return false;
    this.setCount(many, few);
    this.say(say("entry.beyond", { few, many }));
    this.#fields[few].takeOver(letters);
    return true;
  }

  /**
   * Begins the next paper with words that came before the answer to the paper before.
   *
   * @param {number} count how many words that paper had
   * @param {WordField[]} came the fields that took these words. The last one may not be complete
   */
  #begin(count, came) {
    const last = came.length - 1;
    const letters = came[last].field.value;
    came.slice(0, last).forEach((field, at) => this.#fields[at].takeWord(field));
    for (const field of [...this.#fields.slice(last), ...this.#spare]) field.set("");
    this.setCount(count);
    this.#fields[last].takeOver(letters);
  }

  /**
   * Puts an empty field in, so that the words from there on move by one.
   *
   * @param {number} at
   */
  #put(at) {
    if (this.#fields[this.count - 1].word !== "" && this.count < COUNT_MAX) this.setCount(this.count + 1, this.#base);
    for (let to = this.count - 1; to > at; to -= 1) this.#fields[to].set(this.#fields[to - 1].word, this.#fields[to - 1].isDoubted);
    this.#moved(at, "entry.put.done");
  }

  /**
   * Takes a field out, so that the words after it move back by one.
   *
   * @param {number} at
   */
  #take(at) {
    for (let to = at; to < this.count - 1; to += 1) this.#fields[to].set(this.#fields[to + 1].word, this.#fields[to + 1].isDoubted);
    this.#moved(this.count - 1, "entry.take.done");
    if (this.count > this.#base) this.setCount(this.count - 1, this.#base);
    this.#fields[Math.min(at, this.count - 1)].focus();
    if (this.#isFull) this.#read();
  }

  /**
   * Empties the field that words moved away from.
   *
   * @param {number} emptied
   * @param {string} key what a screen reader says
   */
  #moved(emptied, key) {
    forgetRest();
    this.#fields[emptied].set("");
    this.#changed();
    this.#fields[emptied].focus();
    announce(say(key));
  }

  /** Empties the fields, and shows as many as the paper is known to have. */
  clear() {
    if (this.#known !== null && this.count !== this.#known) this.setCount(this.#known);
    for (const field of [...this.#fields, ...this.#spare]) field.set("");
  }

  #emptied() {
    const { words, isEmpty } = this;
    this.say("");
    this.#changed();
    this.clear();
    this.#remember(isEmpty ? [] : words);
    this.focus();
  }

  /** @param {string[]} words */
  #remember(words) {
    this.#last = words;
    this.#restoring.classList.toggle("hide", words.length === 0);
  }

  /** Brings the words back that were emptied. */
  #restored() {
    const words = this.#last;
    this.setCount(words.length);
    words.forEach((word, at) => this.#fields[at].set(word));
    this.focus();
  }

  /**
   * Takes the papers that were pasted, one after the other, until one is refused.
   *
   * @param {number} at
   * @param {string[][]} papers
   */
  async #pasted(at, papers) {
    if (papers.length > 1 && !this.takesSeveral) {
      this.say(say("entry.several_papers", { count: papers.length }), true);
      return;
    }
    for (const [index, words] of papers.entries()) {
      const isTaken = await this.#spread(papers.length > 1 ? 0 : at, words);
      const left = papers.length - index - 1;
      if (isTaken || left === 0) continue;
      this.say(`${this.#answer.textContent} ${say("entry.left", { papers: counted(left, "paper") })}`, true);
      return;
    }
  }

  /**
   * Puts words into the fields. Returns whether they were taken as a paper.
   *
   * @param {number} at
   * @param {string[]} words
   */
  async #spread(at, words) {
    this.#changed();
    const isWhole = at === 0 && words.length >= USUAL_WORDS[0];
    if (isWhole || at + words.length > this.count) this.setCount(Math.min(COUNT_MAX, at + words.length));
    words.slice(0, COUNT_MAX - at).forEach((word, index) => {
      const found = beginning(this.#list, word);
      this.#fields[at + index].set(found.length === 1 ? found[0] : word);
    });
    const after = at + words.length;
    if (after < this.count) this.#fields[after].focus();
    else this.#fields[this.count - 1].focus();
    return at === 0 || this.#isFull ? this.#read() : false;
  }

  /**
   * @param {number} at
   * @param {boolean} isBySpelling
   */
  #completed(at, isBySpelling) {
    this.#changed();
    if (this.#isFull) {
      this.#read(isBySpelling);
      return;
    }
    this.#go(this.#next(at), isBySpelling);
    if (seemsOther(this.#list, this.#asTyped)) this.#tellOther(say("entry.other_list"));
  }

  /**
   * Says that the words are of another standard, and offers none of the list in their places.
   *
   * @param {string} told
   */
  #tellOther(told) {
    this.element.classList.add("foreign");
    if (this.#answer.textContent === told) return;
    this.say(told, true);
    this.#isMissing = true;
  }

  /**
   * Moves the focus to a field. `isArriving` says that it comes there by itself, after the letters of a word.
   *
   * @param {WordField | undefined} field
   * @param {boolean} isArriving
   */
  #go(field, isArriving) {
    if (isArriving) field?.arrive();
    else field?.focus();
  }

  /**
   * Returns the field after this one, or the first that has no right word if this one is the last.
   *
   * @param {number} at
   */
  #next(at) {
    return this.#fields[at + 1] ?? this.#fields.find((field) => !field.isRight);
  }

  #ended() {
    if (this.#isFull) this.#read();
  }

  /**
   * A word was mistyped, and its first letters completed another one. If that is the nearest word, it stays, to be looked at. Otherwise what was
   * typed stands there. If the paper was taken meanwhile, the owner is told that letters were left out.
   *
   * @param {WordField} field
   * @param {string} typed
   */
  #mistyped(field, typed) {
    const at = this.#fields.indexOf(field);
    if (at < 0 || field.word === "") {
      this.say(`${this.#answer.textContent} ${say("entry.mistyped.last")}`.trim(), this.#answer.classList.contains("fault"));
      return;
    }
    const isNear = nearest(this.#list, typed, 1)[0] === field.word;
    if (isNear) field.doubt(typed);
    else field.set(typed);
    if (this.#isAsked) this.#again = true;
    else this.#endBeyond(this.#base);
    // Of a word that stays, a whole paper was read already.
    if (!isNear || !this.#isFull) this.#completed(at, false);
    if (isNear && !this.#isMissing) this.say(say("entry.mistyped", { number: at + 1 }), true);
  }

  /**
   * Shows only so many fields again, if none of the others has a word.
   *
   * @param {number} count
   */
  #endBeyond(count) {
    if (this.count > count && this.#fields.slice(count).every(({ word }) => word === "")) this.setCount(count);
  }

  /**
   * A word was read as the owner types most words, and can be read in another way. The paper may have been taken meanwhile.
   *
   * @param {number} at
   */
  #guessed(at) {
    const field = this.#fields[at];
    if (!field.word) return;
    field.doubt();
    if (!this.#isFull) this.say(say("entry.guessed", { number: at + 1 }));
  }

  /**
   * Few letters completed several words, so they may be one word, mistyped. The owner looks at these words. The paper may have been taken
   * meanwhile.
   *
   * @param {WordField[]} fields
   */
  #together(fields) {
    const here = fields.filter((field) => this.#fields.includes(field) && field.word !== "");
    for (const field of here) field.doubt();
    if (here.length && !this.#isFull) this.say(say("entry.together", { number: this.#fields.indexOf(here[0]) + 1 }));
  }

  get #isFull() {
    return this.#fields.every((field) => field.word !== "");
  }

  /**
   * Says an answer, which a screen reader reads too.
   *
   * @param {string} text
   * @param {boolean} [isFault]
   */
  say(text, isFault = false) {
    this.#isMissing = false;
    this.#answer.textContent = text;
    this.#answer.classList.toggle("fault", isFault);
    this.#measure();
    // On a phone, the fields and what is below them are higher than the screen.
    if (text !== "") this.#answer.scrollIntoView({ block: "nearest" });
    // The answer may cover the field that has the focus.
    if (isFault && this.#grid.contains(document.activeElement)) document.activeElement?.scrollIntoView({ block: "nearest" });
    announce(text);
  }

  /** Tells the fields how much of the screen the answer can cover. */
  #measure() {
    this.element.style.setProperty("--said", `${Math.ceil(this.#answer.getBoundingClientRect().height) + 1}px`);
  }

  /** Returns the words as the bytes of a line. */
  line() {
    const words = this.#typed;
    const bytes = new Uint8Array(words.reduce((sum, word) => sum + 4 * word.length + 1, 0));
    let end = 0;
    for (const word of words) {
      if (end) bytes[end++] = 32;
      end += new TextEncoder().encodeInto(word, bytes.subarray(end)).written ?? 0;
    }
    const line = bytes.slice(0, end);
    bytes.fill(0);
    return line;
  }

  /**
   * Returns what is wrong before the engine is asked, and the field to go to if there is one, or null.
   *
   * @returns {{told: string, field?: WordField, isForeign?: boolean} | null}
   */
  #missing() {
    const words = this.#typed;
    if (seemsBip39(this.#list, this.#asTyped)) return { told: say("entry.bip39", { count: words.length }), isForeign: true };
    const empty = this.#fields.findIndex((field) => field.word === "");
    if (empty < 0) return seemsOther(this.#list, this.#asTyped) ? { told: say("entry.other_list") } : null;
    if (words.length === 0) return { told: say("entry.nothing") };
    const told = say(this.#onChange ? "damaged.missing" : this.#counts.hidden ? "back.missing" : "entry.missing", { number: empty + 1, count: words.length, fields: this.count });
    return { told, field: this.#fields[empty] };
  }

  /**
   * Asks for the answer to the whole paper, and returns whether it was taken.
   *
   * @param {boolean} [isBySpelling] whether the letters of a word ended the paper
   * @returns {Promise<boolean>}
   */
  async #read(isBySpelling = false) {
    if (this.#isAsked) {
      this.#again = true;
      return false;
    }
    const missing = this.#missing();
    if (missing !== null) {
      missing.field?.focus();
      this.element.classList.toggle("foreign", missing.isForeign === true);
      this.onMissing();
      this.say(missing.told, true);
      this.#isMissing = true;
      return false;
    }
    this.#isAsked = true;
    this.#again = false;
    const { count, words: asked } = this;
    const { isTaken, text, isFault = !isTaken, words = [] } = await this.#onPaper(this.line()).finally(() => (this.#isAsked = false));
    if (!this.element.isConnected) return isTaken;
    const beyond = this.#fields.slice(count, this.#current + 1);
    // Other words came than were asked about, or more.
    if (!isTaken && beyond.some(({ word }) => word !== "")) return false;
    if (!isTaken && beyond.length) {
      this.#endBeyond(count);
      this.#fields[count - 1].focus();
    }
    if (this.#again && !isTaken && this.words.some((word, at) => word !== asked[at])) return this.#read(isBySpelling);
    this.say(text, isFault);
    // What is said moves the buttons.
    tellChanged();
    if (isTaken && beyond.length) {
      this.#begin(count, beyond);
      return true;
    }
    if (isTaken) this.clear();
    for (const word of words) this.#fields[word]?.doubt();
    // Letters of the last word may still come. They must not replace the word to look at.
    if (words.length && !isBySpelling) this.#fields[words[0]]?.select();
    else if (isTaken || words.length) this.#go(this.#fields[words[0] ?? 0], isBySpelling);
    return isTaken;
  }
}

/**
 * Leaves the screen of an entry. Words that were typed and not read would be lost, so the owner is asked first.
 *
 * @param {PaperEntry} entry
 * @param {() => void} onLeave
 */
export function leaveEntry(entry, onLeave) {
  if (entry.isEmpty) onLeave();
  else askAbove(say("entry.lost"), say("collect.unread.stay"), say("entry.lost.go"), onLeave);
}
