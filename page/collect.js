// The screen on which papers are typed, one after the other. Those of several backups are kept apart, and the owner goes on with those of one.
import { Declined } from "./client.js";
import { BACK, button, element, paragraph } from "./dom.js";
import { leaveEntry, PaperEntry, USUAL_WORDS } from "./paper_entry.js";
import { picture, saidWhole } from "./picture.js";
import { saidForeign, wordsToLookAt } from "./refusals.js";
import { counted, formOf, say } from "./say.js";
import { ask, dropQuestion, show } from "./screen.js";

/** @typedef {import("./client.js").Desk} Desk */
/** @typedef {import("./desk.js").Status} Status */
/** @typedef {import("./desk.js").Kind} Kind */
/** @typedef {import("./desk.js").Backup} Backup */
/** @typedef {import("./paper_entry.js").Answer} Answer */

/** @typedef {{status: Status, kinds: Kind[]}} Collected the papers of the backup that the owner goes on with */
/**
 * What a task adds: `task` has its own words for what is enough, and `onDamaged` is called before the end if the owner has another damaged
 * paper. Without it, none is asked for.
 *
 * @typedef {{task?: string, onDamaged?: (() => void) | null}} More
 */
/** @typedef {{button: HTMLButtonElement, place: HTMLElement}} End the button that goes on with a backup, and where it stands */

/**
 * Lets the owner type papers, beside those that the worker holds already, and returns those of the backup that the owner goes on with.
 * Before the first paper, the owner can go back: then it returns null, as it does if the owner has another damaged paper.
 *
 * @param {Desk} desk
 * @param {{title: string, intro: string} & More} what
 * @returns {Promise<Collected | null>}
 */
export async function collectPapers(desk, { title, intro, ...more }) {
  /** @type {Backup[]} */
  const backups = await desk.ask("backups");
  return new Promise((resolve) => new Collection(desk, backups, more, resolve).show(title, intro));
}

/**
 * Says that the papers aren't enough, and what is missing. Returns whether the owner wants to type more.
 *
 * @param {string} title
 * @param {(Node | null)[]} told
 * @param {Status} status
 * @param {Kind[]} kinds
 * @param {string} [task]
 * @returns {Promise<"papers" | "end">}
 */
export function askForMore(title, told, status, kinds, task = "") {
  return ask(title, [...told, picture(status, kinds[0].groupCount, task), paragraph(say("close"))], [
    { key: "papers", label: say("collect.more"), kind: "primary" },
    { key: "end", label: say("end") },
  ]);
}

/**
 * Says how a task ended. Returns whether the owner wants to end it, to try again with the same papers, or to go back to the papers.
 *
 * @param {string} title
 * @param {(Node | null)[]} told
 * @param {string} likely the answer that most owners give then
 * @param {boolean} [isGood] whether the result is good, so that there is nothing to try again
 * @returns {Promise<"end" | "again" | "papers">}
 */
export function askWhatNext(title, told, likely, isGood = false) {
  const answers = /** @type {const} */ ([["end", "end"], ["again", "again"], ["papers", "collect.back"]]);
  const ordered = answers.filter(([key]) => key !== "again" || !isGood).sort(([a], [b]) => Number(b === likely) - Number(a === likely));
  return ask(title, told, ordered.map(([key, label]) => ({ key, label: say(label), kind: key === likely ? "primary" : "" })));
}

class Collection {
  #desk;
  #backups;
  #task;
  #onDamaged;
  #onEnd;
  #found = element("div", { class: "found" });
  // The way back after a paper was taken out.
  #undo = element("div", { class: "buttons undo" });
  #fault = element("p", { class: "fault", role: "alert" });
  // What is asked if words were typed and not read.
  #question = element("div", { class: "buttons" });
  #back = button(say("back"), () => leaveEntry(this.#entry, () => this.#onEnd(null)), BACK);
  #another = button(say("damaged.another"), () => leaveEntry(this.#entry, () => this.#endDamaged()));
  #buttons = element("div", { class: "buttons" });
  /** @type {Map<Backup | null, End>} what goes on with each backup, or with none if no paper was read yet */
  #ends = new Map();
  #entry;

  /**
   * @param {Desk} desk
   * @param {Backup[]} backups the papers that the worker holds
   * @param {More} more
   * @param {(found: Collected | null) => void} onEnd
   */
  constructor(desk, backups, { task = "", onDamaged = null }, onEnd) {
    this.#desk = desk;
    this.#backups = backups;
    this.#task = task;
    this.#onDamaged = onDamaged;
    this.#onEnd = onEnd;
    this.#entry = new PaperEntry(desk.begun.words, backups[0]?.kinds[0].words ?? USUAL_WORDS[0], (line) => this.#take(line));
    this.#entry.takesSeveral = true;
  }

  /**
   * @param {string} title
   * @param {string} intro
   */
  show(title, intro) {
    // A paper is read by itself after its last word.
    this.#entry.isLeading = false;
    show(title, this.#back, paragraph(intro), this.#undo, this.#entry.element, this.#found, this.#fault, this.#question, this.#buttons);
    this.#draw();
    this.#entry.focus();
  }

  get #isApart() {
    return this.#backups.length > 1;
  }

  /**
   * @param {Uint8Array} line
   * @returns {Promise<Answer>}
   */
  async #take(line) {
    try {
      const { kind, isNew, status, backups } = await this.#desk.ask("add", { line }, [line.buffer]);
      this.#backups = backups;
      this.#draw();
      const own = this.#backupOf(kind);
      const isOther = isNew && this.#isApart && own.kinds.length === 1;
      if (status.enough && !isOther) this.#offerEnd(own);
      const text = isOther ? this.#saidOther(kind) : `${this.#saidTaken(kind, isNew)} ${saidWhole(status, kind.groupCount, this.#task)}`;
      return { isTaken: true, isFault: isOther, text };
    } catch (error) {
      this.#offerEnd(null);
      return { isTaken: false, text: saidForeign(error, error instanceof Declined ? await this.#doubtful() : []), words: wordsToLookAt(error) };
    }
  }

  /** Returns the names of the papers that don't fit the one in the fields, if words of each of them were found. */
  #doubtful() {
    const line = this.#entry.line();
    return this.#desk.ask("doubtful", { line }, [line.buffer]);
  }

  /**
   * Returns the backup of a paper.
   *
   * @param {Kind} kind
   */
  #backupOf({ id }) {
    return /** @type {Backup} */ (this.#backups.find((it) => it.id === id));
  }

  /**
   * @param {Kind} kind
   * @param {boolean} isNew
   */
  #saidTaken({ name, begin, groupCount, isPossible }, isNew) {
    if (!isPossible) return say("what.impossible", { name, groups: counted(groupCount, "group") });
    if (!isNew) return say("collect.repeated", { name });
    return this.#isApart ? say("collect.taken.of", { name, begin }) : say("collect.taken", { name });
  }

  /**
   * Says that a paper is the first one of another backup. If words of the only paper of a backup were found, it may be that some are wrong.
   *
   * @param {Kind} kind
   */
  #saidOther({ name, begin, groupCount, isPossible }) {
    if (!isPossible) return say("what.impossible", { name, groups: counted(groupCount, "group") });
    const unsure = this.#backups.filter(({ kinds }) => kinds.length === 1 && kinds[0].isRepaired);
    const names = unsure.map(({ kinds: [it] }) => say("backup.paper", { name: it.name, begin: it.begin }));
    const apart = say("collect.taken.apart", { name, begin });
    return names.length ? `${apart} ${say(`collect.unsure.${formOf(names)}`, { names: names.join(", ") })}` : apart;
  }

  /** @param {Kind} kind */
  async #drop({ id, name }) {
    this.#backups = await this.#desk.ask("drop", { id, name });
    this.#draw();
    this.#undo.replaceChildren(button(say("collect.undo", { name }), () => this.#putBack(), "small"));
    this.#entry.say(say("collect.dropped", { name }));
    this.#entry.focus();
  }

  async #putBack() {
    // It is put back once, also if the button is pressed twice.
    this.#undo.replaceChildren();
    const { kind, backups } = await this.#desk.ask("putBack");
    this.#backups = backups;
    this.#draw();
    this.#entry.say(say("collect.undone", { name: kind.name }));
    this.#entry.focus();
  }

  /**
   * Puts the button that goes on with a backup below an answer that says that its papers are enough, and each other one to its place.
   *
   * @param {Backup | null} enough
   */
  #offerEnd(enough) {
    for (const [backup, { button, place }] of this.#ends) {
      if (enough !== null && backup === enough) this.#entry.below.append(button);
      else place.prepend(button);
    }
  }

  #draw() {
    this.#say("");
    // The answer to a question about words that were typed before would forget the papers, too.
    dropQuestion();
    this.#undo.replaceChildren();
    this.#back.classList.toggle("hide", this.#backups.length > 0);
    for (const it of this.#ends.values()) it.button.remove();
    this.#ends.clear();
    if (this.#backups.length === 0) this.#addEnd(null, this.#buttons);
    const told = this.#isApart ? [paragraph(say("collect.apart", { count: this.#backups.length }), "bad")] : [];
    const heading = this.#backups.length ? [element("h2", {}, say("collect.found"))] : [];
    this.#found.replaceChildren(...heading, ...told, ...this.#backups.map((it) => this.#section(it)));
    this.#offerEnd(null);
    if (this.#onDamaged) this.#buttons.append(this.#another);
  }

  /**
   * Makes the list of the papers of a backup, and the picture of what is complete.
   *
   * @param {Backup} backup
   */
  #section(backup) {
    const { begin, kinds, status } = backup;
    const section = element("section", {}, this.#isApart ? element("h3", {}, say("status.backup", { begin })) : null);
    section.append(element("ul", { class: "rows" }, ...kinds.map((kind) => this.#row(kind))), picture(status, kinds[0].groupCount, this.#task));
    if (this.#isApart) section.append(element("div", { class: "buttons" }));
    this.#addEnd(backup, this.#isApart ? /** @type {HTMLElement} */ (section.lastElementChild) : this.#buttons);
    return section;
  }

  /** @param {Kind} kind */
  #row(kind) {
    const { name, words, begin, isRepaired } = kind;
    const drop = button(say("collect.drop", { name }), () => this.#drop(kind), "small");
    // Papers of two backups may have one name.
    if (this.#isApart) drop.setAttribute("aria-label", say("collect.drop.of", { name, begin }));
    return element("li", {}, say(isRepaired ? "collect.row.repaired" : "collect.row", { name, words }), drop);
  }

  /**
   * Makes the button that goes on with a backup. Of several, none is said to be the usual choice.
   *
   * @param {Backup | null} backup
   * @param {HTMLElement} place
   */
  #addEnd(backup, place) {
    const label = this.#isApart ? say("collect.end.of", { begin: backup?.begin ?? "" }) : say("collect.end");
    this.#ends.set(backup, { button: button(label, () => this.#end(backup), this.#isApart ? "" : "primary"), place });
  }

  /**
   * Says what keeps the owner here, and asks for an answer if there are answers.
   *
   * @param {string} fault
   * @param {HTMLButtonElement[]} answers
   */
  #say(fault, ...answers) {
    this.#fault.textContent = fault;
    this.#question.replaceChildren(...answers);
    answers[0]?.focus();
  }

  /**
   * Ends the typing. Words that weren't read as a paper would be lost, so the owner is asked first.
   *
   * @param {Backup | null} backup
   */
  async #end(backup) {
    if (!this.#entry.isEmpty) {
      this.#say(say("collect.unread"), button(say("collect.unread.stay"), () => this.#stay(), "small"), button(say("collect.unread.drop"), () => this.#leaveOut(backup), "small"));
    } else if (backup) {
      await this.#desk.ask("choose", { id: backup.id });
      this.#onEnd({ status: backup.status, kinds: backup.kinds });
    } else {
      this.#say(say("collect.none"));
    }
  }

  #endDamaged() {
    this.#onDamaged?.();
    this.#onEnd(null);
  }

  #stay() {
    this.#say("");
    this.#entry.focus();
  }

  /** @param {Backup | null} backup */
  async #leaveOut(backup) {
    const line = this.#entry.line();
    this.#entry.clear();
    await this.#desk.ask("leaveOut", { line }, [line.buffer]);
    this.#end(backup);
  }
}
