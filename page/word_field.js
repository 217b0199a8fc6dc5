// The field of one word. A word is complete when only one word of the list begins with its letters. What is typed after these is left
// out if it is the rest of that word. If it is nearly the rest, it is left out too, and the owner is told to look at that word. No other
// letters are changed into a word unless the owner chooses it.
//
// In a field of a damaged paper, a question mark stands for letters that can't be read. There the owner ends each word, since a
// question mark may still follow its letters.
import { button, element, input } from "./dom.js";
import { say } from "./say.js";
import { announce, setTouched } from "./screen.js";
import { beginning, endsBefore, habitOf, isMark, isRestWhole, isTail, marksOf, nearest, NO_REST, NOTHING_SEEN, papersOf, readings, seenWith, TYPED_MOST, wordsOf } from "./spelling.js";

/**
 * @typedef {object} Events
 * @property {(at: number, isBySpelling: boolean) => void} completed the word has ended, by its letters alone or by a key after it
 * @property {(at: number) => void} back Backspace in an empty field
 * @property {(at: number, words: string[]) => void} spread several words came
 * @property {(at: number, papers: string[][]) => void} pasted the words of a paper came, or those of several
 * @property {() => void} ended Enter
 * @property {(at: number, letters: string) => boolean} beyond letters came after the word, which has ended. Returns whether another field took them
 * @property {(at: number) => void} guessed the letters of the word can be read in another way too, and only the habit of the typist decided
 * @property {(fields: WordField[]) => void} together few letters completed these words with no key between them
 * @property {(field: WordField, typed: string) => void} mistyped letters completed a word, and what came after them until a key isn't its
 *   rest, so it is left out: all of it is one word, which is mistyped
 * @property {(at: number) => void} put a word is to be put in before this one
 * @property {(at: number) => void} take this word is to be taken out
 */

const OFFERED = 8;
const SUGGESTED_FROM = 2;
// After one of these keys, no letter comes that belongs to the word before.
const MOVES = ["Tab", "Enter", "Escape", "Backspace", "Delete", "Home", "End", "PageUp", "PageDown", "ArrowLeft", "ArrowRight", "ArrowUp", "ArrowDown"];

// What may still come of the last word that was completed, in its own field or in the next one.
let rest = NO_REST;

/**
 * The field that the focus came to by itself, since the word before was complete. A key that ends a word ends the one before there.
 *
 * @type {WordField | null}
 */
let arrived = null;

// How the typist types, as far as the last words show it.
let seen = NOTHING_SEEN;

/**
 * The letters since the last key that ends a word, the fields whose words they completed, and these words. A field may be empty by then, as its
 * paper was taken.
 *
 * @typedef {{letters: string, fields: WordField[], words: string[]}} Run
 */

/** @type {Run | null} */
let run = null;

/**
 * Brings what gets the focus into sight. Firefox leaves what is in part below an answer where it is.
 *
 * @param {Event} event
 */
export function bringIntoSight({ target }) {
  /** @type {HTMLElement} */ (target).scrollIntoView({ block: "nearest" });
}

/** Forgets the letters that may still come of the last word. */
export function forgetRest() {
  rest = NO_REST;
  arrived = null;
  run = null;
}

/** Forgets what was typed, and how. */
export function forgetTyping() {
  forgetRest();
  seen = NOTHING_SEEN;
}

export class WordField {
  #at;
  #list;
  #isDamaged;
  #events;
  #offers = element("div", { class: "offers" });
  // Words that begin with the letters so far, for whoever goes by touch. At the keyboard, the next letter is nearer.
  #ahead = element("div", { class: "ahead", "aria-hidden": "true" });
  // What stood here when the word was completed or the focus came. Letters after it may belong to the last completed word.
  #whole = "";
  // The word that stood here, and whether it was one to look at, until the letters that came after another word are known to be a word.
  #before = { word: "", isDoubted: false };
  // The word that is marked and for which words are offered, or nothing.
  #marked = "";
  // What was typed in place of the word, if that was mistyped.
  #typedAs = "";

  /**
   * @param {number} at
   * @param {readonly string[]} list
   * @param {boolean} isDamaged whether a question mark may stand for letters
   * @param {Events} events
   */
  constructor(at, list, isDamaged, events) {
    this.#at = at;
    this.#list = list;
    this.#isDamaged = isDamaged;
    this.#events = events;
    this.field = input("text", {
      "aria-label": say("entry.word", { number: at + 1 }),
      inputmode: "text",
      input: (/** @type {InputEvent} */ event) => this.#typed(event),
      keydown: (/** @type {KeyboardEvent} */ event) => this.#pressed(event),
      paste: (/** @type {ClipboardEvent} */ event) => this.#pasted(event),
      blur: () => this.#left(),
    });
    this.box = element("div", { class: "word", focusin: bringIntoSight }, element("span", { "aria-hidden": "true", class: "number" }, String(at + 1)), this.field, this.#ahead, this.#offers);
  }

  /** The word or the mark, in small letters. */
  get word() {
    return this.field.value.trim().toLowerCase();
  }

  /** Whether this is a word of the list, or stands for some of them. */
  get isRight() {
    return this.#list.includes(this.word) || (this.#isDamaged && isMark(this.#list, this.word));
  }

  /** What was typed here: another word than the one that stands here, if it was mistyped. */
  get typed() {
    return this.#typedAs || this.word;
  }

  /** Whether the word is one to look at. */
  get isDoubted() {
    return this.box.classList.contains("doubt");
  }

  /**
   * Puts a word into the field.
   *
   * @param {string} word
   * @param {boolean} [isDoubted] whether it is one to look at
   */
  set(word, isDoubted = false) {
    this.#trust();
    this.#suggest("");
    this.field.value = word;
    this.#whole = this.isRight ? word : "";
    this.#mark(word !== "" && !this.isRight);
    if (isDoubted) this.doubt();
  }

  /**
   * Takes the word of a field over that took it for this one, while this one wasn't empty yet.
   *
   * @param {WordField} other
   */
  takeWord(other) {
    this.set(other.word, other.isDoubted);
    this.#before = { word: "", isDoubted: false };
    if (run) run.fields = run.fields.map((it) => (it === other ? this : it));
  }

  /** Takes letters that came in the field before, and goes on with them here. */
  takeOver(/** @type {string} */ letters) {
    this.arrive();
    this.field.value = letters;
    this.#typed();
  }

  /** Moves the focus here. */
  focus() {
    this.#whole = this.word;
    this.field.focus();
    // A field that has the focus already doesn't come into sight by getting it.
    this.field.scrollIntoView({ block: "nearest" });
    this.field.setSelectionRange(this.field.value.length, this.field.value.length);
  }

  /** Moves the focus here, and selects the word, so that what is typed replaces it. */
  select() {
    this.focus();
    this.field.select();
  }

  /** Moves the focus here after a word that its letters completed. More of its letters may come, and a key that ends it. */
  arrive() {
    // What may still come doesn't end with the focus of the field before.
    arrived = null;
    this.focus();
    arrived = this;
    this.#before = { word: this.word, isDoubted: this.isDoubted };
  }

  /** Moves the focus here on a new screen. If the letters of a word led to it, more of them may come, and a key that ends it. */
  begin() {
    if (rest === NO_REST) this.focus();
    else this.arrive();
  }

  /**
   * Marks the word as one to look at, until it is changed.
   *
   * @param {string} [typed] what was typed in its place
   */
  doubt(typed = "") {
    this.#typedAs = typed;
    this.box.classList.add("doubt");
  }

  #trust() {
    this.#typedAs = "";
    this.box.classList.remove("doubt");
  }

  /** @param {InputEvent} [event] */
  #typed(event) {
    const whole = this.#whole;
    let value = this.field.value.toLowerCase();
    // A line stands for what can't be read, as a question mark does.
    if (this.#isDamaged && value.includes("_")) this.field.value = value = value.replace(/[?_]+/g, "?");
    if (this.#isRestOfOwn(value)) return;
    if (whole !== "" && value.startsWith(whole) && value !== whole) {
      const more = value.slice(whole.length);
      // The owner types the word anew, or goes on. No word of the list begins with another one.
      if (this.isDoubted || arrived === this) this.field.value = value = more;
      else {
        this.field.value = whole;
        if (this.#events.beyond(this.#at, more)) return;
        this.field.value = value;
      }
    }
    this.#trust();
    const words = this.#isDamaged ? marksOf(value) : wordsOf(value);
    if (words.length > 1) {
      this.#events.spread(this.#at, words);
      return;
    }
    const letters = words[0] ?? "";
    const isEnded = letters !== value;
    const isRest = isRestWhole(this.#list, letters, rest, isEnded);
    if (isEnded && this.#isMistyped(letters, isRest)) return;
    if (isEnded) arrived = run = null;
    if (isEnded && letters === "") rest = NO_REST;
    if (isRest) {
      if (!isEnded) this.#goOn(letters);
      rest = NO_REST;
      this.set("");
    } else if (letters === "") {
      this.field.value = "";
      this.#mark(false);
    } else if (isEnded) {
      this.field.value = letters;
      this.finish();
    } else {
      this.#grown(letters, !event?.inputType?.startsWith("delete"));
    }
  }

  /**
   * Takes the rest of the word before into account, which was typed here.
   *
   * @param {string} letters
   */
  #goOn(letters) {
    seen = seenWith(seen, letters.length, rest);
    if (run) run.letters += letters;
  }

  /**
   * Whether all that was typed since the last key is one word, which is mistyped, and whose first letters completed another. Then what came
   * of it into this field and others is left out.
   *
   * @param {string} letters what a key ended in this field
   * @param {boolean} isRest whether these are the rest of the word before
   */
  #isMistyped(letters, isRest) {
    if (run === null) return false;
    const { fields, words } = run;
    const word = /** @type {string} */ (words.at(-1));
    // From the last field, the focus has nowhere to go.
    const isOwn = arrived !== this && fields.at(-1) === this && letters.startsWith(word);
    if (arrived !== this && !isOwn) return false;
    const tail = isOwn ? letters.slice(word.length) : letters;
    const typed = run.letters + tail;
    const isOfSeveral = fields.length > 1;
    if (!isTail(this.#list, isRest ? "" : tail, rest, typed, isOfSeveral)) {
      if (isOfSeveral && typed.length <= TYPED_MOST) this.#events.together(fields);
      return false;
    }
    forgetRest();
    if (isOwn) this.set(word);
    else this.#restore();
    const [, ...others] = fields;
    for (const field of others) field.#restore();
    others[0]?.focus();
    this.#events.mistyped(fields[0], typed);
    return true;
  }

  #restore() {
    this.set(this.#before.word, this.#before.isDoubted);
  }

  /**
   * Whether letters came that belong to this field's word, which is complete.
   *
   * @param {string} value
   */
  #isRestOfOwn(value) {
    const whole = this.#whole;
    this.#whole = "";
    if (whole === "" || !value.startsWith(whole) || value === whole) return false;
    const more = value.slice(whole.length);
    if (more.trim() !== "" && !rest.letters.startsWith(more)) return false;
    this.field.value = whole;
    this.#whole = whole;
    const count = more.trim().length;
    rest = { letters: rest.letters.slice(count), toFour: Math.max(0, rest.toFour - count) };
    if (run) run.letters += more.trim();
    if (more.trim() !== "") return true;
    const isBefore = arrived === this;
    if (this.#isMistyped(isBefore ? "" : whole, true)) return true;
    // A space ends the last word, so nothing more of it comes, not even on the next screen.
    this.#moved();
    if (!isBefore && this.isRight) this.#events.completed(this.#at, false);
    return true;
  }

  /**
   * @param {string} letters
   * @param {boolean} isAdded
   */
  #grown(letters, isAdded) {
    this.#suggest(letters);
    if (this.#isDamaged) {
      this.#mark(!this.isRight && beginning(this.#list, letters).length === 0);
      return;
    }
    if (rest.letters.startsWith(letters)) {
      this.#mark(false);
      return;
    }
    const found = readings(this.#list, letters, rest, habitOf(seen));
    this.#mark(found.length === 0 || (found.length > 1 && letters.length > 4));
    if (found.length !== 1 || !isAdded) return;
    const isGuessed = readings(this.#list, letters, rest).length > 1;
    this.#complete(found[0], letters, true);
    if (isGuessed) this.#events.guessed(this.#at);
  }

  /**
   * Shows the words that letters may become, if these are few.
   *
   * @param {string} letters
   */
  #suggest(letters) {
    const found = letters.length < SUGGESTED_FROM ? [] : readings(this.#list, letters, rest);
    const few = found.length > 1 && found.length <= OFFERED ? found : [];
    const made = few.map((word) => {
      const it = button(word, () => this.#complete(word, word, false), "small offer");
      it.tabIndex = -1;
      // The field keeps the focus, so that the words stay until one of them is pressed.
      it.addEventListener("pointerdown", (event) => event.preventDefault());
      return it;
    });
    this.#ahead.replaceChildren(...made);
  }

  /**
   * @param {string} word
   * @param {string} letters what was typed of it, perhaps after letters of the word before
   * @param {boolean} isBySpelling whether its letters alone completed it
   */
  #complete(word, letters, isBySpelling) {
    this.set(word);
    let count = Math.min(letters.length, word.length);
    while (!letters.endsWith(word.slice(0, count))) count -= 1;
    if (isBySpelling && arrived === this && rest.letters !== "") seen = seenWith(seen, letters.length - count, rest);
    const on = arrived === this && this.#before.word === "" ? run : null;
    run = isBySpelling ? { letters: (on?.letters ?? "") + letters, fields: [...(on?.fields ?? []), this], words: [...(on?.words ?? []), word] } : null;
    arrived = null;
    rest = isBySpelling ? { letters: word.slice(count), toFour: Math.max(0, 4 - count) } : NO_REST;
    this.#events.completed(this.#at, isBySpelling);
  }

  /** Ends the word, as a space does. A word that isn't right stays as it is, and is marked. */
  finish() {
    run = null;
    const found = beginning(this.#list, this.word);
    if (this.isRight) this.#complete(this.word, this.word, false);
    else if (found.length === 1) this.#complete(found[0], found[0], false);
    else {
      this.#mark(true);
      this.#whole = this.word;
      this.#events.completed(this.#at, false);
    }
  }

  #left() {
    this.#suggest("");
    if (isRestWhole(this.#list, this.word, rest, true)) this.set("");
    if (arrived === this) this.#moved();
    if (this.word === "" || this.isRight) return;
    this.#whole = "";
    const found = beginning(this.#list, this.word);
    if (this.#isDamaged && found.length === 1) this.set(found[0]);
    else this.#mark(true);
  }

  /**
   * Marks a word that isn't in the list, and offers words in its place.
   *
   * @param {boolean} isWrong
   */
  #mark(isWrong) {
    if (isWrong) this.#suggest("");
    // The focus may be on its way to one of the offers, so these stay as they are.
    if (isWrong && this.#marked === this.word) return;
    const isNew = isWrong && this.#marked === "";
    this.#marked = isWrong ? this.word : "";
    this.field.toggleAttribute("aria-invalid", false);
    this.box.classList.toggle("right", this.isRight);
    this.box.classList.toggle("open", this.isRight && this.word.endsWith("?"));
    this.box.classList.toggle("wrong", isWrong);
    this.#offers.replaceChildren();
    if (!isWrong) return;
    this.field.setAttribute("aria-invalid", "true");
    const found = readings(this.#list, this.word, rest);
    const isUnread = this.word.includes("?");
    const offered = found.length ? found.slice(0, OFFERED) : isUnread && !this.#isDamaged ? [] : this.#nearest();
    const key = found.length ? "entry.several" : !isUnread ? "entry.unknown" : this.#isDamaged ? "damaged.mark" : "entry.unread";
    const told = say(key, { number: this.#at + 1 });
    if (isNew) announce(`${told} ${offered.join(", ")}`);
    this.#offers.append(
      element("p", {}, told),
      ...offered.map((word) => button(word, () => this.#complete(word, word, false), "small offer")),
    );
    if (this.#isDamaged) this.#offers.append(this.#unread(found.length ? `${this.word}?` : "?"));
  }

  #nearest() {
    const letters = this.word.replaceAll("?", "");
    return letters === "" ? [] : nearest(this.#list, letters);
  }

  /**
   * Makes the button that says of a word that its letters, or some of them, can't be read.
   *
   * @param {string} mark
   */
  #unread(mark) {
    return button(say(mark === "?" ? "damaged.offer" : "damaged.offer.rest", { mark }), () => this.#complete(mark, mark, false), "small offer");
  }

  /** @param {KeyboardEvent} event */
  #pressed(event) {
    const isEnding = event.key === "Enter" || (event.key === "Tab" && !event.shiftKey);
    const isBefore = isEnding && arrived === this && endsBefore(this.#list, this.word, this.#whole, rest);
    const came = arrived === this && this.word === this.#whole ? "" : this.word;
    if (event.ctrlKey && (event.key === "Enter" || event.key === "Delete")) {
      event.preventDefault();
      if (event.key === "Enter") this.#events.put(this.#at);
      else this.#events.take(this.#at);
    } else if (isEnding && this.#isMistyped(came, isBefore)) {
      event.preventDefault();
    } else if (isBefore) {
      // This key ends the word before, from which the focus has already come here.
      event.preventDefault();
      if (this.word !== this.#whole) this.set("");
    } else if (event.key === "Tab" && isEnding && run?.fields.at(-1) === this) {
      // It ends this word, the last one, from which the focus has nowhere to go.
      event.preventDefault();
    } else if (event.key === "Backspace" && this.field.value === "") {
      event.preventDefault();
      this.#events.back(this.#at);
    } else if (event.key === "Enter") {
      event.preventDefault();
      if (this.word !== "") this.finish();
      this.#events.ended();
    }
    if (MOVES.includes(event.key)) this.#moved();
  }

  /** No more letters of the word before come now. */
  #moved() {
    rest = NO_REST;
    run = null;
    if (arrived === this) arrived = null;
  }

  /** @param {ClipboardEvent} event */
  #pasted(event) {
    event.preventDefault();
    this.#moved();
    // No field hears of this as of typing.
    setTouched(true);
    const papers = papersOf(event.clipboardData?.getData("text") ?? "", this.#isDamaged ? marksOf : wordsOf);
    if (papers.length) this.#events.pasted(this.#at, papers);
  }
}
