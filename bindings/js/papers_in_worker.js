/** Mnemonics of several backups, kept apart, beside an engine in a worker. */
import { copiedIn } from "./arguments.js";
import { Copies, copied } from "./copies.js";
import { Kept, told } from "./papers.js";
import { Refusal } from "./refusal.js";

/** @typedef {import("./types.js").Judgement} Judgement */
/** @typedef {import("./types.js").RecoverOptions} RecoverOptions */
/** @typedef {import("./types.js").Recovered} Recovered */
/** @typedef {import("./types.js").Text} Text */
/** @typedef {(name: string, given: unknown[], signal: AbortSignal | undefined) => Promise<any>} Ask */

/**
 * `Papers` whose engine is in a worker: each method that asks it returns a promise, and takes an `AbortSignal` as its last argument. `papers`
 * of `InWorker` gives one.
 *
 *     const papers = new InWorker().papers();
 *     for await (const told of papers.collect(lines)) console.log(told);
 *     if (papers.enough) ({ secret } = await papers.recover({ passphrase: "TREZOR" }));
 *
 * What it was asked for is done one after the other. The papers are kept on this side, so they stay if the worker ends.
 */
export class PapersInWorker {
  #ask;
  #kept = new Kept();
  /** @type {Promise<unknown>} */
  #before = Promise.resolve();

  /** @param {Ask} ask */
  constructor(ask) {
    this.#ask = ask;
  }

  /**
   * @param {Text} mnemonic
   * @param {AbortSignal} [signal]
   * @returns {Promise<Judgement>}
   */
  async add(mnemonic, signal) {
    const own = new Copies();
    const line = typeof mnemonic === "string" ? mnemonic : own.text(mnemonic, "the mnemonic");
    return this.#after(async () => {
      const found = await this.#ask("judge", [this.#kept.lines, line], signal);
      this.#kept.take(found, found.again ? null : copied((await this.#ask("repairBytes", [line], signal))[0]));
      return found;
    }).finally(() => own.clear());
  }

  /**
   * @param {Text} mnemonic
   * @param {AbortSignal} [signal]
   * @returns {Promise<string>}
   */
  addAndTell(mnemonic, signal) {
    return this.add(mnemonic, signal).then(told, (error) => {
      if (error instanceof Refusal) return error.message;
      throw error;
    });
  }

  /**
   * @param {Iterable<Text> | AsyncIterable<Text>} mnemonics
   * @param {AbortSignal} [signal]
   * @returns {AsyncGenerator<string, void, void>}
   */
  async *collect(mnemonics, signal) {
    for await (const mnemonic of mnemonics) {
      yield await this.addAndTell(mnemonic, signal);
      if (this.enough) return;
    }
  }

  /**
   * @param {number} id
   * @param {string} name
   * @param {AbortSignal} [signal]
   * @returns {Promise<boolean>}
   */
  remove(id, name, signal) {
    return this.#after(async () => {
      const left = this.#kept.without(id, name);
      if (left === null) return false;
      this.#kept.remove(id, name, left.length > 0 && (await this.#ask("quorums", [left], signal)) > 0n);
      return true;
    });
  }

  /** @returns {boolean} */
  get enough() {
    return this.#kept.isEnough;
  }

  /**
   * @param {RecoverOptions} [options]
   * @param {AbortSignal} [signal]
   * @returns {Promise<Recovered>}
   */
  async recover(options = {}, signal) {
    const own = new Copies();
    try {
      const given = copiedIn(own, options);
      return await this.#after(() => this.#ask("recovered", [this.#kept.ofLast, given], signal));
    } finally {
      own.clear();
    }
  }

  /** @returns {number[]} */
  get ids() {
    return this.#kept.ids;
  }

  /**
   * @param {number} id
   * @returns {Uint8Array[]}
   */
  lines(id) {
    return this.#kept.of(id);
  }

  /** Clears all lines, and forgets them, once what was asked for before is done. */
  clear() {
    return this.#after(async () => this.#kept.clear());
  }

  /**
   * @template T
   * @param {() => Promise<T>} run
   * @returns {Promise<T>}
   */
  #after(run) {
    const answer = this.#before.then(run);
    this.#before = answer.then(() => {}, () => {});
    return answer;
  }
}
