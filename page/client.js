// The page's side of the worker: it starts the worker, asks it one thing after the other, stops it and ends it.
import { zero } from "./bytes.js";
import { derivationSeconds } from "./estimate.js";

/** @typedef {import("./desk.js").Tried} Tried */
/** @typedef {import("./desk.js").Tell} Tell */
/** @typedef {import("./desk.js").Held} Held */
/** @typedef {import("./desk.js").Refused} Refused */

/** The engine refuses what was asked. */
export class Declined extends Error {
  /** @param {Refused} refused */
  constructor(refused) {
    super(refused.text);
    this.refused = refused;
  }
}

/** The owner stopped what was asked. */
export class Stopped extends Error {}

/** @typedef {{resolve: (value: any) => void, reject: (error: Error) => void, onPart: Tell}} Waiting */

/**
 * Returns the bytes that a block of the page holds: packed by zlib, in base64.
 *
 * @param {string} id
 */
async function unpacked(id) {
  const text = document.getElementById(id)?.textContent ?? "";
  const packed = Uint8Array.from(atob(text.trim()), (letter) => letter.charCodeAt(0));
  const stream = new Blob([packed]).stream().pipeThrough(new DecompressionStream("deflate"));
  return new Uint8Array(await new Response(stream).arrayBuffer());
}

export class Desk {
  /** @type {Map<number, Waiting>} */
  #waiting = new Map();
  #asked = 0;
  /** @type {Worker} */
  #worker = this.#started();
  /** @type {Uint8Array | null} */
  #module = null;
  /** @type {Held | null} */
  #kept = null;
  /** @type {Record<string, any> | null} what the last long call was given, until it ends */
  #given = null;
  // Whether the owner stopped the last long call.
  #isStopped = false;
  /** @type {Error | null} why there is no worker any more */
  #fault = null;

  /**
   * What the worker said when it began.
   *
   * @type {{fault: string | null, milliseconds: number, version: string, words: string[], exponentMax: number}}
   */
  begun = { fault: null, milliseconds: 0, version: "", words: [], exponentMax: 0 };

  /** Starts a worker, and the engine in it. */
  static async launch() {
    const desk = new Desk();
    try {
      desk.begun = await desk.#begin(null);
    } catch (error) {
      desk.#worker.terminate();
      throw error;
    }
    return desk;
  }

  /**
   * Returns how many seconds one key derivation takes, from what was measured at the start.
   *
   * @param {{exponent: number, secretBytes: number}} kind
   */
  secondsFor({ exponent, secretBytes }) {
    return derivationSeconds(this.begun.milliseconds / 1000, exponent, secretBytes);
  }

  #started() {
    const source = document.getElementById("worker")?.textContent ?? "";
    const url = URL.createObjectURL(new Blob([source], { type: "text/javascript" }));
    const worker = new Worker(url);
    URL.revokeObjectURL(url);
    worker.onmessage = ({ data }) => this.#answered(data);
    worker.onerror = (event) => this.#fail(new Error(event.message));
    return worker;
  }

  /** @param {Held | null} kept */
  async #begin(kept) {
    this.#module ??= await unpacked("engine");
    return this.ask("begin", { module: this.#module, kept }, kept ? buffersOf(kept) : []);
  }

  /** @param {{id: number, value?: any, part?: Tried[], rounds?: number, refused?: Refused | null, fault?: string | null}} data */
  #answered({ id, value, part, rounds = 0, refused, fault }) {
    const waiting = this.#waiting.get(id);
    if (!waiting) return;
    if (part) {
      waiting.onPart(part, rounds);
      return;
    }
    this.#waiting.delete(id);
    if (refused) waiting.reject(new Declined(refused));
    else if (fault) waiting.reject(new Error(fault));
    else waiting.resolve(value);
  }

  /** @param {Error} error */
  #fail(error) {
    for (const { reject } of this.#waiting.values()) reject(error);
    this.#waiting.clear();
  }

  /**
   * Asks the worker.
   *
   * @param {string} call
   * @param {Record<string, any>} [given]
   * @param {ArrayBufferLike[]} [taken] the buffers that the worker takes over
   * @param {Tell} [onPart]
   * @returns {Promise<any>}
   */
  ask(call, given = {}, taken = [], onPart = () => {}) {
    if (this.#fault) return Promise.reject(this.#fault);
    this.#asked += 1;
    const id = this.#asked;
    return new Promise((resolve, reject) => {
      this.#waiting.set(id, { resolve, reject, onPart });
      this.#worker.postMessage({ id, call, given }, { transfer: /** @type {Transferable[]} */ (taken) });
    });
  }

  /**
   * Asks for something that `stop` can stop. Until it is answered, the page keeps a copy of what the worker holds.
   *
   * @param {string} call
   * @param {Record<string, any>} [given]
   * @param {Tell} [onPart]
   */
  async askLong(call, given = {}, onPart = () => {}) {
    this.#isStopped = false;
    this.#given = given;
    const kept = await this.ask("keep");
    this.#kept = kept;
    try {
      // The owner may have stopped it while the copy was under way.
      if (this.#isStopped) throw new Stopped();
      return await this.ask(call, given, [], onPart);
    } finally {
      if (this.#kept === kept) this.#forget();
    }
  }

  /** Overwrites what is kept, and what the call was given: if the task ends before the answer comes, whoever asked doesn't do that. */
  #forget() {
    zero(...arraysOf(this.#kept), ...arraysOf(this.#given));
    this.#kept = null;
    this.#given = null;
  }

  /** Stops what `askLong` asked for: it throws `Stopped`, and a new worker holds what the old one held. */
  async stop() {
    this.#isStopped = true;
    const kept = this.#kept;
    if (!kept) return;
    this.#kept = null;
    this.#worker.terminate();
    const waiting = [...this.#waiting.values()];
    this.#waiting.clear();
    try {
      this.#worker = this.#started();
      await this.#begin(kept);
    } catch (error) {
      zero(...arraysOf(kept));
      this.#fault = /** @type {Error} */ (error);
    }
    for (const { reject } of waiting) reject(this.#fault ?? new Stopped());
  }

  /** Ends the worker, after it has cleared what it holds. If it is at work, it ends at once, and its memory goes with it. */
  async end() {
    const worker = this.#worker;
    const cleared = this.#waiting.size === 0 ? this.ask("clear").catch(() => {}) : Promise.resolve();
    await Promise.race([cleared, new Promise((resolve) => setTimeout(resolve, 500))]);
    worker.terminate();
    this.#waiting.clear();
    this.#forget();
  }
}

/**
 * Returns the arrays that are held, except those that a worker has taken over, which have no length any more.
 *
 * @param {unknown} held
 * @returns {Uint8Array[]}
 */
function arraysOf(held) {
  if (held instanceof Uint8Array) return held.length > 0 ? [held] : [];
  return typeof held === "object" && held !== null ? Object.values(held).flatMap(arraysOf) : [];
}

/** @param {Held} held */
function buffersOf(held) {
  return arraysOf(held).map((bytes) => bytes.buffer);
}
