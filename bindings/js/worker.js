/**
 * The engine in a worker, so that a page or a server goes on while a call runs. A call can be stopped by an AbortSignal.
 *
 *     import { InWorker } from "shamir/worker.js";
 *
 *     const shamir = new InWorker();
 *     const secret = await shamir.recover(mnemonics, { passphrase: "TREZOR" }, AbortSignal.timeout(60_000));
 *     shamir.end();
 *
 * Each call copies its arguments at once (`drill` and `decryptRounds` at the first `next`), so they may change or be cleared after it.
 * Nobody can clear the copies in the worker: `end` drops them all.
 */
import { copiedIn } from "./arguments.js";
import { Copies, plain } from "./copies.js";
import { PapersInWorker } from "./papers_in_worker.js";
import { started } from "./side.js";

/** @typedef {import("./types.js").CreateOptions} CreateOptions */
/** @typedef {import("./types.js").DecryptOptions} DecryptOptions */
/** @typedef {import("./types.js").DrillOptions} DrillOptions */
/** @typedef {import("./types.js").EncryptedSecret} EncryptedSecret */
/** @typedef {import("./types.js").Judgement} Judgement */
/** @typedef {import("./types.js").Lines} Lines */
/** @typedef {import("./types.js").Outcome} Outcome */
/** @typedef {import("./types.js").RecoverOptions} RecoverOptions */
/** @typedef {import("./types.js").ResplitOptions} ResplitOptions */
/** @typedef {import("./types.js").Share} Share */
/** @typedef {import("./types.js").Status} Status */
/** @typedef {import("./types.js").Text} Text */

/**
 * Settles as a promise does, or fails as soon as a signal aborts.
 * @param {Promise<any>} answer
 * @param {AbortSignal} signal
 */
async function unlessAborted(answer, signal) {
  let stop = () => {};
  const aborted = new Promise((_, reject) => {
    stop = () => reject(signal.reason);
    signal.addEventListener("abort", stop);
    if (signal.aborted) stop();
  });
  try {
    return await Promise.race([answer, aborted]);
  } finally {
    signal.removeEventListener("abort", stop);
  }
}

/** @param {(AbortSignal | undefined)[]} signals */
function heed(signals) {
  for (const it of signals) it?.throwIfAborted();
}

/**
 * Yields outcomes until a signal aborts. If whoever takes them leaves, it clears the secrets of the others.
 * @param {Outcome[]} outcomes
 * @param {(AbortSignal | undefined)[]} signals
 */
function* untilLeft(outcomes, signals) {
  const left = [...outcomes];
  try {
    for (const outcome of outcomes) {
      heed(signals);
      left.shift();
      yield outcome;
    }
  } finally {
    for (const { secret } of left) secret?.fill(0);
  }
}

/** The engine in a worker of its own, which starts at the first call. Calls run one after the other. */
export class InWorker {
  /** @type {Promise<import("./side.js").Side> | undefined} */
  #side;
  /** @type {Promise<unknown>} */
  #before = Promise.resolve();
  #ending = new AbortController();
  #drills = 0;
  #module;

  /** @param {URL} [module] Where the module of the engine is, if it isn't beside the package's files. */
  constructor(module) {
    this.#module = module === undefined ? undefined : new URL(module).href;
  }

  /** Ends the worker, and with it what its memory holds. Unanswered calls fail with an `AbortError`. The next call starts another worker. */
  end() {
    this.#ending.abort();
    this.#drop(this.#ending.signal.reason);
    this.#ending = new AbortController();
  }

  /**
   * Returns papers that are judged, and from which a secret is recovered, in this worker.
   * @returns {PapersInWorker}
   */
  papers() {
    return new PapersInWorker((name, given, signal) => this.#call(name, given, signal));
  }

  /** @returns {Promise<import("./side.js").Side>} */
  #start() {
    const forget = () => {
      if (side === this.#side) this.#side = undefined;
    };
    const side = started(forget);
    side.catch(forget);
    return side;
  }

  /** @param {unknown} reason what a call that runs fails with */
  #drop(reason) {
    this.#side?.then((side) => side.end(reason), () => {});
    this.#side = undefined;
  }

  /**
   * @param {Text} plan
   * @param {Uint8Array} secret
   * @param {CreateOptions} [options]
   * @param {AbortSignal} [signal]
   * @returns {Promise<string[]>}
   */
  create(plan, secret, options = {}, signal) {
    return this.#call("create", [plan, secret, options], signal);
  }

  /**
   * @param {Lines} lines
   * @param {RecoverOptions} [options]
   * @param {AbortSignal} [signal]
   * @returns {Promise<Uint8Array>}
   */
  recover(lines, options = {}, signal) {
    return this.#call("recover", [lines, options], signal);
  }

  /**
   * @param {Lines} lines
   * @param {AbortSignal} [signal]
   * @returns {Promise<EncryptedSecret>}
   */
  encrypted(lines, signal) {
    return this.#call("encrypted", [lines], signal);
  }

  /**
   * @param {EncryptedSecret} encrypted
   * @param {DecryptOptions} [options]
   * @param {AbortSignal} [signal]
   * @returns {Promise<Uint8Array>}
   */
  decrypt(encrypted, options = {}, signal) {
    return this.#call("decrypt", [encrypted, options], signal);
  }

  /**
   * @param {EncryptedSecret} encrypted
   * @param {number} round
   * @param {Pick<DecryptOptions, "passphrase">} [options]
   * @param {AbortSignal} [signal]
   * @returns {Promise<Uint8Array>}
   */
  decryptRound(encrypted, round, options = {}, signal) {
    return this.#call("decryptRound", [encrypted, round, options], signal);
  }

  /**
   * Yields null after each of the first three rounds, and then the secret, as `decryptRounds` of the engine does.
   * @param {EncryptedSecret} encrypted
   * @param {Pick<DecryptOptions, "passphrase">} [options]
   * @param {AbortSignal} [signal]
   * @returns {AsyncGenerator<Uint8Array | null, void, void>}
   */
  async *decryptRounds(encrypted, options = {}, signal) {
    const own = new Copies();
    const ending = this.#ending.signal;
    try {
      const [first, kept] = copiedIn(own, [encrypted, options]);
      let text = first;
      for (const round of [3, 2, 1]) {
        text = { ...first, value: own.keep(await this.#call("decryptRound", [text, round, kept], signal, ending)) };
        yield null;
      }
      yield await this.#call("decryptRound", [text, 0, kept], signal, ending);
    } finally {
      own.clear();
    }
  }

  /**
   * Yields what each quorum recovers, as `drill` of the engine does. The worker computes it in parts of about a fifth of a second.
   * @param {Lines} lines
   * @param {DrillOptions} [options]
   * @param {AbortSignal} [signal]
   * @returns {AsyncGenerator<Outcome, void, void>}
   */
  async *drill(lines, options = {}, signal) {
    const own = new Copies();
    const ending = this.#ending.signal;
    try {
      plain(options);
      const [given, kept] = copiedIn(own, [lines, options]);
      const drill = ++this.#drills;
      for (let after = kept.after, isEnd = false; !isEnd; ) {
        const part = await this.#call("drill", [given, { ...kept, after }, drill], signal, ending);
        isEnd = part.isEnd;
        after = part.outcomes.at(-1)?.names ?? after;
        yield* untilLeft(part.outcomes, [ending, signal]);
      }
    } finally {
      own.clear();
    }
  }

  /**
   * @param {Lines} lines
   * @param {AbortSignal} [signal]
   * @returns {Promise<Status>}
   */
  status(lines, signal) {
    return this.#call("status", [lines], signal);
  }

  /**
   * @param {Lines} lines
   * @param {Text} mnemonic
   * @param {AbortSignal} [signal]
   * @returns {Promise<Judgement>}
   */
  judge(lines, mnemonic, signal) {
    return this.#call("judge", [lines, mnemonic], signal);
  }

  /**
   * @param {Lines} lines
   * @param {AbortSignal} [signal]
   * @returns {Promise<bigint>}
   */
  quorums(lines, signal) {
    return this.#call("quorums", [lines], signal);
  }

  /**
   * @param {Text} plan
   * @param {Text} names
   * @param {Lines} lines
   * @param {AbortSignal} [signal]
   * @returns {Promise<string[]>}
   */
  reissue(plan, names, lines, signal) {
    return this.#call("reissue", [plan, names, lines], signal);
  }

  /**
   * @param {Text} plan
   * @param {Lines} lines
   * @param {ResplitOptions} [options]
   * @param {AbortSignal} [signal]
   * @returns {Promise<string[]>}
   */
  resplit(plan, lines, options = {}, signal) {
    return this.#call("resplit", [plan, lines, options], signal);
  }

  /**
   * @param {Text} plan
   * @param {EncryptedSecret} encrypted
   * @param {ResplitOptions} [options]
   * @param {AbortSignal} [signal]
   * @returns {Promise<string[]>}
   */
  createFromEncrypted(plan, encrypted, options = {}, signal) {
    return this.#call("createFromEncrypted", [plan, encrypted, options], signal);
  }

  /**
   * @param {Text} line
   * @param {AbortSignal} [signal]
   * @returns {Promise<string[]>}
   */
  repair(line, signal) {
    return this.#call("repair", [line], signal);
  }

  /**
   * @param {Text} mnemonic
   * @param {AbortSignal} [signal]
   * @returns {Promise<Share>}
   */
  parse(mnemonic, signal) {
    return this.#call("parse", [mnemonic], signal);
  }

  /**
   * @param {Uint8Array} secret
   * @param {AbortSignal} [signal]
   * @returns {Promise<string>}
   */
  fingerprint(secret, signal) {
    return this.#call("fingerprint", [secret], signal);
  }

  /**
   * @param {Text} letters
   * @param {AbortSignal} [signal]
   * @returns {Promise<string[]>}
   */
  words(letters, signal) {
    return this.#call("words", [letters], signal);
  }

  /**
   * Makes a call after those before it. If the signal stops it, its worker ends.
   * @param {string} name
   * @param {unknown[]} given
   * @param {AbortSignal | undefined} signal
   * @param {AbortSignal} [ending] aborts if the worker to which the call belongs is ended
   * @returns {Promise<any>}
   */
  async #call(name, given, signal, ending = this.#ending.signal) {
    const own = new Copies();
    const stop = () => this.#drop(signal?.reason);
    try {
      const copies = copiedIn(own, given);
      const run = async () => {
        heed([ending, signal]);
        const side = await (this.#side ??= this.#start());
        heed([ending, signal]);
        signal?.addEventListener("abort", stop);
        const answer = side.ask({ name, given: copies, module: this.#module });
        own.clear();
        return answer.finally(() => signal?.removeEventListener("abort", stop));
      };
      const answer = this.#before.then(run);
      this.#before = answer.then(() => {}, () => {});
      return await (signal ? unlessAborted(answer, signal) : answer);
    } finally {
      own.clear();
    }
  }
}
