// The task 'Read a damaged paper': the engine finds the words that can't be read, or says where a wrong word is. The owner compares
// them with the paper, writes it anew, types it back, and checks it together with other papers.
import { collectAndCheck } from "./check_papers.js";
import { BACK, button, element, paragraph } from "./dom.js";
import { leaveEntry, PaperEntry, USUAL_WORDS } from "./paper_entry.js";
import { saidTakesAlone } from "./plan.js";
import { saidError, wordsToLookAt } from "./refusals.js";
import { counted, say } from "./say.js";
import { setStep, setSteps, setTouched, setUnfinished, show } from "./screen.js";
import { shownWords, writeAndTypeBack } from "./show_paper.js";
import { isOpen } from "./spelling.js";

/** @typedef {import("./client.js").Desk} Desk */
/** @typedef {import("./desk.js").Kind} Kind */
/** @typedef {import("./paper_entry.js").Answer} Answer */
/** @typedef {Kind & {isFitting: boolean}} Found what a paper is that fits what was typed, and whether it can be of one backup with the papers that are here */
/** @typedef {{index: number, kind: Found}} Fit a paper that fits, and its number among those that the worker keeps to be shown */

/**
 * Reads a damaged paper.
 *
 * @param {Desk} desk
 */
export async function readDamaged(desk) {
  setSteps(6);
  const titles = { title: say("damaged.check.title"), passphrase: say("damaged.passphrase"), drill: say("damaged.drill") };
  const what = { ...titles, intro: say("damaged.check.intro"), steps: [4, 5, 6], hasDamaged: true };
  do {
    setStep(1);
    const fit = await askWhatIsRead(desk);
    if (fit) {
      await writeAndTypeBack(desk, { index: fit.index, name: fit.kind.name, takes: saidTakesAlone(fit.kind) }, fit.kind.words, 2);
      setUnfinished("clear.repaired");
    } else if ((await desk.ask("backups")).length === 0) return;
  } while (await collectAndCheck(desk, what, () => [paragraph(say("damaged.too_few"), "note")]));
}

/**
 * Lets the owner type what can be read, until a paper that fits is chosen to be written anew. Returns null if the owner goes back.
 *
 * @param {Desk} desk
 * @returns {Promise<Fit | null>}
 */
function askWhatIsRead(desk) {
  return new Promise((resolve) => new Damaged(desk, resolve).show());
}

/**
 * Says why a paper that fits what was typed can't be right.
 *
 * @param {Found} kind
 */
function saidImpossible({ name, groupCount, isPossible }) {
  return isPossible ? say("damaged.apart", { name }) : say("damaged.impossible", { name, groups: counted(groupCount, "group") });
}

/** @param {Found} kind */
function mayBeRight({ isPossible, isFitting }) {
  return isPossible && isFitting;
}

/**
 * Returns what the fields are told of the papers that fit.
 *
 * @param {Found[]} kinds
 */
function answerOf(kinds) {
  const possible = kinds.filter(mayBeRight);
  if (possible.length === 0) return { isFault: true, text: saidImpossible(kinds[0]) };
  return { isFault: false, text: say(possible.length > 1 ? "damaged.two" : "damaged.one", { name: possible[0].name }) };
}

/** @type {Answer} */
const OUTDATED = { isTaken: false, text: "" };

class Damaged {
  #desk;
  #onChosen;
  #found = element("section", { class: "fits" });
  // How often the fields were changed. An answer to what stood there before isn't shown.
  #changes = 0;
  #entry;

  /**
   * @param {Desk} desk
   * @param {(fit: Fit | null) => void} onChosen
   */
  constructor(desk, onChosen) {
    this.#desk = desk;
    this.#onChosen = onChosen;
    this.#entry = new PaperEntry(desk.begun.words, USUAL_WORDS[0], (line) => this.#take(line), () => this.#changed());
  }

  show() {
    const marks = element("ul", {}, ...["letters", "nothing"].map((key) => element("li", {}, say(`damaged.${key}`))));
    const back = button(say("back"), () => leaveEntry(this.#entry, () => this.#onChosen(null)), BACK);
    show(say("damaged.title"), back, paragraph(say("damaged.intro")), marks, paragraph(say("damaged.first")), this.#entry.element, this.#found);
    this.#entry.focus();
  }

  #changed() {
    this.#changes += 1;
    // The entry itself tells of its first fields before it is here.
    if (this.#entry) this.#entry.isLeading = true;
    this.#found.replaceChildren();
  }

  /**
   * @param {Uint8Array} line
   * @returns {Promise<Answer>}
   */
  async #take(line) {
    this.#changed();
    const [marks, changes] = [this.#entry.words, this.#changes];
    try {
      const kinds = await this.#desk.ask("repair", { line }, [line.buffer]);
      if (changes !== this.#changes) return OUTDATED;
      await this.#tell(kinds, marks);
      if (changes !== this.#changes) return OUTDATED;
      return { isTaken: false, ...answerOf(kinds) };
    } catch (error) {
      if (changes !== this.#changes) return OUTDATED;
      return { isTaken: false, text: saidError(error, "damaged"), words: wordsToLookAt(error) };
    }
  }

  /**
   * Shows the words of each paper that fits, where they differ from what was typed.
   *
   * @param {Found[]} kinds
   * @param {string[]} marks
   */
  async #tell(kinds, marks) {
    setTouched(true);
    const open = marks.filter((mark) => isOpen(this.#desk.begun.words, mark)).length;
    const [possible, impossible] = [kinds.filter(mayBeRight), kinds.filter((kind) => !mayBeRight(kind))];
    const isOneOfTwo = possible.length > 1;
    const fits = possible.map((kind) => this.#fit({ index: kinds.indexOf(kind), kind }, marks, isOneOfTwo));
    const heading = element("h2", { tabindex: "-1" }, say("damaged.found"));
    this.#found.replaceChildren(
      heading,
      // If another paper fits, the words that were typed can be right.
      ...(possible.length ? [] : impossible.map((kind) => paragraph(saidImpossible(kind), "bad"))),
      ...(isOneOfTwo ? [paragraph(say("damaged.two.why")), paragraph(say("damaged.two.which"), "note")] : []),
      ...fits.map(({ box }) => box),
      ...(open && fits.length ? [paragraph(say("damaged.compare"), "note")] : []),
      ...(open ? [paragraph(say("damaged.limits", { case: say(`damaged.limits.${open}`) }))] : []),
      ...(fits.length ? [paragraph(say("damaged.next"))] : []),
      ...(open && fits.length ? [paragraph(say(isOneOfTwo ? "damaged.sure.which" : "damaged.sure", { name: possible[0].name }), "legend")] : []),
      element("div", { class: "buttons" }, ...fits.map(({ write }) => write), open && fits.length ? this.#denial(isOneOfTwo) : null),
    );
    this.#entry.isLeading = fits.length !== 1;
    await Promise.all(fits.map(({ fill }) => fill()));
    heading.focus();
  }

  /**
   * Makes what is shown of a paper that fits, what fills it with words, and the button that chooses it.
   *
   * @param {Fit} fit
   * @param {string[]} marks
   * @param {boolean} isOneOfTwo whether another paper fits too
   */
  #fit(fit, marks, isOneOfTwo) {
    const { index, kind } = fit;
    const list = element("ul", { class: "rows", translate: "no" });
    const row = (/** @type {string} */ word, /** @type {number} */ at) =>
      word === marks[at] ? [] : [element("li", {}, element("span", {}, say("entry.word", { number: at + 1 })), element("strong", {}, word))];
    const none = () => [element("li", {}, say("damaged.whole"))];
    const { fill, again } = shownWords(this.#desk, index, list, (words) => {
      const rows = words.flatMap(row);
      return rows.length ? rows : none();
    });
    const which = isOneOfTwo ? element("h3", {}, say("damaged.which", { number: index + 1, name: kind.name })) : null;
    const write = button(say(isOneOfTwo ? "damaged.write.which" : "damaged.write", { number: index + 1, name: kind.name }), () => this.#onChosen(fit), isOneOfTwo ? "" : "primary");
    return { fill, write, box: element("div", { class: "fit" }, which, list, again) };
  }

  /**
   * Makes the button that says that what was found can't be right. It leads back to the words that were typed.
   *
   * @param {boolean} isOneOfTwo
   */
  #denial(isOneOfTwo) {
    return button(say(isOneOfTwo ? "damaged.no.which" : "damaged.no"), () => {
      this.#changed();
      this.#entry.say(say("damaged.no.then"), true);
      this.#entry.focus();
    });
  }
}
