/** Mnemonics of several backups, kept apart. */
import { wholeNumber } from "./copies.js";
import { Code, Refusal } from "./refusal.js";

/** @typedef {import("./shamir.js").Engine} TheEngine */
/** @typedef {import("./types.js").Judgement} Judgement */
/** @typedef {import("./types.js").RecoverOptions} RecoverOptions */
/** @typedef {import("./types.js").Recovered} Recovered */
/** @typedef {import("./types.js").Text} Text */
/** @typedef {{ id: number, name: string, line: Uint8Array }} Paper */

// A recovery from papers tries so many quorums at most.
const QUORUMS_TRIED = 65536;

/**
 * Returns what to tell of a mnemonic that was added: the text of its status, after a line `again` if it was here already.
 * @param {Judgement} found
 * @returns {string}
 */
export function told({ again, status }) {
  return `${again ? "again\n" : ""}${status.text}`;
}

/**
 * Recovers from the papers of a backup, as `recover` of `Papers` does.
 * @param {TheEngine} engine
 * @param {Pick<Paper, "name" | "line">[]} papers
 * @param {RecoverOptions} options
 * @returns {Recovered}
 */
export function recovered(engine, papers, options) {
  const lines = papers.map(({ line }) => line);
  try {
    return { secret: engine.recover(lines, options), failed: [], doubtful: [] };
  } catch (error) {
    if (!(error instanceof Refusal) || error.code !== Code.DIGEST_MISMATCH) throw error;
    /** @type {string[][]} */
    const [failed, right] = [[], []];
    const { passphrase, maxExponent } = options;
    for (const { names, mismatch } of engine.drill(lines, { passphrase, maxExponent, fingerprints: true })) {
      (mismatch === null ? right : failed).push(names);
      if (failed.length + right.length === QUORUMS_TRIED) break;
    }
    if (right.length === 0) throw error;
    const chosen = right[0].split("+");
    const secret = engine.recover(papers.filter(({ name }) => chosen.includes(name)).map(({ line }) => line), options);
    const sound = new Set(right.flatMap((names) => names.split("+")));
    const doubtful = new Set(failed.flatMap((names) => names.split("+")).filter((name) => !sound.has(name)));
    return { secret, failed, doubtful: [...doubtful].sort((one, other) => placeOf(one) - placeOf(other)) };
  }
}

/**
 * Returns a number by which names are in ascending order.
 * @param {string} name
 */
function placeOf(name) {
  const [group, member] = name.split(".").map(Number);
  return 16 * group + member;
}

/** The papers that are here, and the backup of the one that came last. Whoever keeps them tells it what the engine answered. */
export class Kept {
  /** @type {Paper[]} */
  #papers = [];
  /** @type {number | null} */
  #last = null;
  isEnough = false;

  /** All lines, in the order in which they came. */
  get lines() {
    return this.#papers.map(({ line }) => line);
  }

  get ids() {
    return [...new Set(this.#papers.map(({ id }) => id))];
  }

  /** The papers of the backup of the mnemonic that came last. */
  get ofLast() {
    return this.#papers.filter(({ id }) => id === this.#last);
  }

  /** @param {number} id */
  of(id) {
    return this.#papers.filter((it) => it.id === id).map(({ line }) => line);
  }

  /**
   * @param {Judgement} found
   * @param {Uint8Array | null} line The spelling of a mnemonic that wasn't here.
   */
  take({ share: { id, groupIndex, memberIndex }, status }, line) {
    if (line !== null) this.#papers.push({ id, name: `${groupIndex}.${memberIndex}`, line });
    this.#last = id;
    this.isEnough = status.enough;
  }

  /**
   * Returns the lines that the backup of the last mnemonic has without a paper, or null if that paper isn't here.
   * @param {number} id
   * @param {string} name
   */
  without(id, name) {
    wholeNumber(id, "the identifier", 2 ** 16 - 1);
    if (typeof name !== "string") throw new TypeError("the name isn't a string");
    const left = this.#papers.filter((it) => it.id !== id || it.name !== name);
    return left.length === this.#papers.length ? null : left.filter((it) => it.id === this.#last).map(({ line }) => line);
  }

  /**
   * @param {number} id
   * @param {string} name
   * @param {boolean} isEnough What is left of the backup of the last mnemonic.
   */
  remove(id, name, isEnough) {
    for (const it of this.#papers) if (it.id === id && it.name === name) it.line.fill(0);
    this.#papers = this.#papers.filter((it) => it.id !== id || it.name !== name);
    this.isEnough = isEnough;
  }

  clear() {
    for (const { line } of this.#papers) line.fill(0);
    [this.#papers, this.#last, this.isEnough] = [[], null, false];
  }
}

/**
 * Mnemonics as they come, one after the other, of one backup or of several. The engine decides about each.
 *
 *     const papers = new Papers(shamir);
 *     for await (const told of papers.collect(lines)) console.log(told);
 *     if (papers.enough) ({ secret } = papers.recover({ passphrase: "TREZOR" }));
 *
 * If the first ones are of another backup than the rest, they stay apart from it. The lines are kept as bytes, which `clear` clears.
 */
export class Papers {
  #engine;
  #kept = new Kept();

  /** @param {TheEngine} engine */
  constructor(engine) {
    this.#engine = engine;
  }

  /**
   * Judges a mnemonic beside all that are here, as `judge` of the engine does, and keeps it unless it is here already.
   *
   * It is kept in lower-case words with single spaces. If it is refused, a `Refusal` is thrown, and nothing is kept.
   * @param {Text} mnemonic
   * @returns {Judgement}
   */
  add(mnemonic) {
    const found = this.#engine.judge(this.#kept.lines, mnemonic);
    this.#kept.take(found, found.again ? null : this.#engine.repairBytes(mnemonic)[0]);
    return found;
  }

  /**
   * Adds a mnemonic as `add` does, and returns what to tell of it: the text of its status, after a line `again` if it is here already, or
   * the message of the refusal, which isn't thrown.
   * @param {Text} mnemonic
   * @returns {string}
   */
  addAndTell(mnemonic) {
    try {
      return told(this.add(mnemonic));
    } catch (error) {
      if (error instanceof Refusal) return error.message;
      throw error;
    }
  }

  /**
   * Adds mnemonics as they come until the backup of one has enough, and yields what `addAndTell` returns for each.
   * @param {Iterable<Text> | AsyncIterable<Text>} mnemonics
   * @returns {AsyncGenerator<string, void, void>}
   */
  async *collect(mnemonics) {
    for await (const mnemonic of mnemonics) {
      yield this.addAndTell(mnemonic);
      if (this.enough) return;
    }
  }

  /**
   * Takes out the mnemonic with this name, such as `0.1`, in the backup with an identifier, clears it, and returns whether it was here.
   * So a forged one can make room for the right one, which is refused with 28 beside it.
   * @param {number} id
   * @param {string} name
   * @returns {boolean}
   */
  remove(id, name) {
    const left = this.#kept.without(id, name);
    if (left === null) return false;
    this.#kept.remove(id, name, left.length > 0 && this.#engine.quorums(left) > 0n);
    return true;
  }

  /**
   * Whether the backup of the mnemonic that came last has enough for a recovery. A mnemonic that is refused changes nothing.
   * @returns {boolean}
   */
  get enough() {
    return this.#kept.isEnough;
  }

  /**
   * Recovers the secret of the backup of the mnemonic that came last, and returns what that shows of its papers.
   *
   * If a digest of the first quorum doesn't match, the other quorums are tried too, but at most 65,536, and the secret is that of the first
   * whose digests match. So one wrong paper doesn't hide what the others give. If none matches, the refusal is that of the first quorum
   * (51). Otherwise it throws what `recover` of the engine throws.
   * @param {RecoverOptions} [options]
   * @returns {Recovered}
   */
  recover(options = {}) {
    return recovered(this.#engine, this.#kept.ofLast, options);
  }

  /**
   * The identifiers of the backups, in the order in which they came.
   * @returns {number[]}
   */
  get ids() {
    return this.#kept.ids;
  }

  /**
   * Returns the mnemonics of the backup with an identifier, in the order in which they came. Calls that take lines take them. They are
   * the object's own: `clear` clears them.
   * @param {number} id
   * @returns {Uint8Array[]}
   */
  lines(id) {
    return this.#kept.of(id);
  }

  /** Clears all lines, and forgets them. */
  clear() {
    this.#kept.clear();
  }
}
