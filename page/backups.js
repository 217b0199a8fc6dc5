// The papers that the worker holds, of one backup or of several, and those that were begun and not taken. The engine judges each of them.
import { Papers } from "../bindings/js/papers.js";
import { Refusal } from "../bindings/js/shamir.js";
import { zero } from "./bytes.js";
import { beside, kindOf, located, nameOf } from "./kind.js";
import { isBegun, resembles } from "./left_out.js";

/** @typedef {import("../bindings/js/shamir.js").Engine} Engine */
/** @typedef {import("./desk.js").Kind} Kind */
/** @typedef {import("./desk.js").Status} Status */
/** @typedef {import("./desk.js").Backup} Backup */
/** @typedef {import("./desk.js").LeftOut} LeftOut */
/**
 * What is held: all papers, the identifier of the backup that the task goes on with, if one was chosen, the paper that was put away last,
 * those that were begun and not taken, the copies of damaged ones of which words were found, and of those that were read in full, and those
 * that were written again from others.
 *
 * @typedef {{papers: Uint8Array[], chosen: number | null, dropped: Uint8Array[], left: Uint8Array[], repaired: Uint8Array[], read: Uint8Array[], written: Uint8Array[]}} Kept
 */

/**
 * Returns what is complete, and how many quorums there are, or 2^64 - 1 if there are more.
 *
 * @param {Engine} engine
 * @param {Uint8Array[]} lines
 * @returns {Status}
 */
export function statusOf(engine, lines) {
  return { ...shownStatus(engine.status(lines)), quorums: engine.quorums(lines) };
}

/** @param {import("../bindings/js/types.js").Status} status */
function shownStatus({ complete, required, enough, groups }) {
  return { complete, required, enough, groups: groups.map(({ group, threshold, names }) => ({ group, threshold, names: [...names] })) };
}

/** Papers of several backups, kept apart, one of which the task goes on with. */
export class Backups {
  #engine;
  #papers;
  /** @type {Omit<Kept, "papers">} */
  #rest = { chosen: null, dropped: [], left: [], repaired: [], read: [], written: [] };

  /** @param {Engine} engine */
  constructor(engine) {
    this.#engine = engine;
    this.#papers = new Papers(engine);
  }

  /** The lines of all papers. */
  get #all() {
    return this.#papers.ids.flatMap((id) => this.#papers.lines(id));
  }

  /** The lines of the backup that was chosen, or else of the first one. */
  get lines() {
    return this.#papers.lines(this.#rest.chosen ?? this.#papers.ids[0]);
  }

  /** What the papers of that backup are. */
  get kinds() {
    return this.lines.map((line) => this.#kind(line));
  }

  /** @returns {Backup[]} what each backup has */
  get list() {
    return this.#papers.ids.map((id) => {
      const lines = this.#papers.lines(id);
      const kinds = lines.map((line) => this.#kind(line));
      return { id, begin: kinds[0].begin, kinds, status: statusOf(this.#engine, lines) };
    });
  }

  /**
   * @param {Uint8Array} line
   * @returns {Kind}
   */
  #kind(line) {
    const isAmong = (/** @type {Uint8Array[]} */ lines) => lines.some((it) => beside(this.#engine, line, it) === "same");
    return { ...kindOf(this.#engine, line), isRepaired: isAmong(this.#rest.repaired), isRead: isAmong(this.#rest.read), isWritten: isAmong(this.#rest.written) };
  }

  /**
   * Takes a paper. `isNew` is false if it was typed before. `status` is that of its backup. A paper that is refused is taken note of.
   *
   * @param {Uint8Array} line
   */
  add(line) {
    try {
      const { again, status } = located(this.#engine, line, () => this.#papers.add(line));
      this.#forget(line);
      return { kind: this.#kind(line), isNew: !again, status: shownStatus(status), backups: this.list };
    } catch (error) {
      if (error instanceof Refusal) this.leaveOut(line.slice());
      throw error;
    }
  }

  /**
   * Returns the names of the papers that don't fit a sound one of their backup, if words of each of them were found.
   *
   * @param {Uint8Array} line
   */
  repairedBeside(line) {
    try {
      const { id } = kindOf(this.#engine, line);
      const others = this.#papers.lines(id).filter((it) => beside(this.#engine, line, it) === "conflict").map((it) => this.#kind(it));
      return others.every(({ isRepaired }) => isRepaired) ? others.map(({ name }) => name) : [];
    } catch (error) {
      if (error instanceof Refusal) return [];
      throw error;
    }
  }

  /** Whether there are copies of damaged papers of which no drill has shown that they are right. */
  get hasCopies() {
    return this.#rest.repaired.length + this.#rest.read.length > 0;
  }

  /**
   * Forgets that papers are copies of damaged ones, as a drill has shown that they are right.
   *
   * @param {string[]} names those of the backup that was chosen
   */
  prove(names) {
    const right = this.lines.filter((line) => names.includes(kindOf(this.#engine, line).name));
    this.#forgetCopies((it) => right.some((line) => beside(this.#engine, it, line) === "same"));
  }

  /**
   * Forgets an earlier copy of the same damaged paper.
   *
   * @param {Uint8Array} line
   */
  #replace(line) {
    const isSame = (/** @type {Kind} */ one, /** @type {Kind} */ other) => one.id === other.id && one.name === other.name;
    const kind = kindOf(this.#engine, line);
    // Two papers of one backup can have most words in common, too.
    const isLike = (/** @type {Uint8Array} */ it) => resembles(it, line) && beside(this.#engine, it, line) !== "more";
    this.#forgetCopies((it) => isLike(it) || isSame(kindOf(this.#engine, it), kind));
  }

  /** @param {(line: Uint8Array) => boolean} isMeant */
  #forgetCopies(isMeant) {
    for (const how of /** @type {const} */ (["repaired", "read"])) {
      const gone = this.#rest[how].filter(isMeant);
      this.#rest[how] = this.#rest[how].filter((it) => !gone.includes(it));
      zero(...gone);
    }
  }

  /**
   * Takes a paper that was typed back as it was shown. `how` says how it was made. The copy of a damaged one takes the place of an earlier one.
   *
   * @param {Uint8Array} line
   * @param {import("./desk.js").How} how
   */
  addShown(line, how) {
    this.#papers.add(line);
    if (how === "repaired" || how === "read") this.#replace(line);
    if (how) this.#rest[how].push(line.slice());
  }

  /**
   * Whether a sound paper can be of one backup with each paper here that it says is of its own.
   *
   * @param {Uint8Array} line
   */
  fits(line) {
    try {
      this.#engine.judge(this.#all, line);
      return true;
    } catch (error) {
      if (error instanceof Refusal) return false;
      throw error;
    }
  }

  /**
   * Chooses the backup that the task goes on with.
   *
   * @param {number} id
   */
  choose(id) {
    this.#rest.chosen = id;
  }

  /**
   * Puts a paper away. It can be put back until another one is put away.
   *
   * @param {number} id
   * @param {string} name
   */
  drop(id, name) {
    const [all, own] = [this.#all, this.#papers.lines(id)];
    const dropped = own.filter((line) => kindOf(this.#engine, line).name === name);
    // It may be gone already, by a press before this one.
    if (dropped.length === 0) return this.list;
    zero(...this.#rest.dropped);
    this.#rest.dropped = dropped.map((line) => line.slice());
    this.#hold(all.filter((line) => !dropped.includes(line)));
    return this.list;
  }

  /**
   * Holds these papers, and no others.
   *
   * @param {Uint8Array[]} lines
   */
  #hold(lines) {
    const papers = new Papers(this.#engine);
    for (const line of lines) papers.add(line);
    this.#papers.clear();
    this.#papers = papers;
  }

  /** Takes the paper again that was put away last. */
  putBack() {
    const [line] = this.#rest.dropped;
    this.#papers.add(line);
    const kind = this.#kind(line);
    zero(line);
    this.#rest.dropped = [];
    return { kind, backups: this.list };
  }

  /**
   * Takes note of a paper that was begun, and that isn't taken. A few words are no paper.
   *
   * @param {Uint8Array} line
   */
  leaveOut(line) {
    if (!isBegun(line)) return zero(line);
    this.#forget(line);
    this.#rest.left.push(line);
  }

  /**
   * Forgets what was begun of a paper, as it was typed once more.
   *
   * @param {Uint8Array} line
   */
  #forget(line) {
    const earlier = this.#rest.left.filter((it) => resembles(it, line));
    this.#rest.left = this.#rest.left.filter((it) => !earlier.includes(it));
    zero(...earlier);
  }

  /**
   * Returns how many papers were begun and aren't here because they aren't sound, the names of those that are sound, and of those that are
   * of another backup than the chosen one.
   *
   * @returns {LeftOut}
   */
  get leftOut() {
    const [all, own] = [this.#all, this.lines];
    const left = this.#rest.left.filter((line) => !all.some((paper) => resembles(line, paper)));
    const names = left.flatMap((line) => nameOf(this.#engine, line));
    const others = this.#papers.ids.map((id) => this.#papers.lines(id)).filter(([line]) => !own.includes(line));
    const apart = others.map((lines) => lines.map((line) => kindOf(this.#engine, line)));
    return { unsound: left.length - names.length, names, apart: apart.map((kinds) => ({ begin: kinds[0].begin, names: kinds.map(({ name }) => name) })) };
  }

  /** Returns copies of the papers of the backup that was chosen, and holds nothing then. */
  moveOut() {
    const lines = this.lines.map((line) => line.slice());
    this.clear();
    return lines;
  }

  /** @returns {Kept} what is held, for another worker */
  get kept() {
    return { ...this.#rest, papers: this.#all };
  }

  /**
   * Takes what an earlier worker held.
   *
   * @param {Kept} kept
   */
  restore({ papers, ...rest }) {
    this.#hold(papers);
    this.#rest = rest;
    zero(...papers);
  }

  /** Clears all, and forgets it. */
  clear() {
    const { dropped, left, repaired, read, written } = this.#rest;
    zero(...dropped, ...left, ...repaired, ...read, ...written);
    this.#papers.clear();
    this.#rest = { chosen: null, dropped: [], left: [], repaired: [], read: [], written: [] };
  }
}
