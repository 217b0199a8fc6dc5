/**
 * Calls of the module of the engine.
 *
 * The memory of the module has the stack at its lowest addresses, then the constants, and then free room from `__heap_base`.
 * The arguments of a call go there. A call writes to its outputs and to the stack, and nowhere else.
 */

import { copied } from "./copies.js";

// tools/wasm links the module with this size of stack. After each call all of it is cleared, as no call tells how much it used. That
// takes less than 0.03 ms.
const STACK_BYTES = 524288;
const PAGE_BYTES = 65536;
// A memory can't shrink. So if it grew beyond this length, the next call uses a new instance.
const LARGE_BYTES = 4194304;
export const ANSWER_BYTES = 40;

/** An output of a call: the engine gets its address and its length. */
export class Room {
  /** @param {number} length */
  constructor(length) {
    this.length = length;
  }
}

/** A struct that a call reads or writes: the engine gets its address alone. */
export class Struct {
  /** @param {Uint8Array} bytes */
  constructor(bytes) {
    this.bytes = bytes;
  }
}

/**
 * An argument of a call: bytes, a number of 32 bits, a number of 64 bits, an output, or a struct.
 * @typedef {Uint8Array | number | bigint | Room | Struct} Part
 */

/**
 * What a call answers, and what it wrote to its output. The fields are those of `shamir_answer`.
 * @typedef {{ code: number, line: number, first: number, second: number, whole: bigint, output: Uint8Array }} Answer
 */

/**
 * Where the parts of a call are in the memory: the answer at `base`, and the other parts from there to `end`.
 * @typedef {{ words: (number | bigint)[], slots: { part: Uint8Array | Room | Struct, at: number }[], base: number, end: number }} Places
 */

/**
 * @param {number} address
 */
function aligned(address) {
  return Math.ceil(address / 8) * 8;
}

/**
 * Gives each part a place from the address `heap` on, and returns the words that the call takes.
 * @param {number} heap
 * @param {Part[]} parts
 * @returns {Places}
 */
function placed(heap, parts) {
  const base = aligned(heap);
  /** @type {Places} */
  const places = { words: [BigInt(base)], slots: [], base, end: base + ANSWER_BYTES };
  for (const part of parts) {
    if (typeof part === "number" || typeof part === "bigint") {
      places.words.push(part);
      continue;
    }
    const at = aligned(places.end);
    const length = part instanceof Struct ? part.bytes.length : part.length;
    places.words.push(BigInt(at));
    if (!(part instanceof Struct)) places.words.push(BigInt(length));
    places.slots.push({ part, at });
    places.end = at + length;
  }
  return places;
}

/**
 * Makes the memory reach to an address. Some hosts take the number of pages of a 64-bit memory as a BigInt.
 * @param {any} memory
 * @param {number} end
 */
function grow(memory, end) {
  const pages = Math.ceil((end - memory.buffer.byteLength) / PAGE_BYTES);
  if (pages <= 0) return;
  try {
    memory.grow(pages);
  } catch (error) {
    if (!(error instanceof TypeError)) throw error;
    memory.grow(BigInt(pages));
  }
}

/**
 * Copies what a call answered and wrote out of the memory.
 * @param {Uint8Array} memory
 * @param {Places} places
 * @returns {Answer}
 */
function answered(memory, { slots, base }) {
  const view = new DataView(memory.buffer, base, ANSWER_BYTES);
  const [line, first, second, written] = [8, 16, 24, 32].map((at) => Number(view.getBigUint64(at, true)));
  let output = new Uint8Array();
  for (const { part, at } of slots) {
    if (part instanceof Room) output = copied(memory.subarray(at, at + written));
    if (part instanceof Struct) part.bytes.set(memory.subarray(at, at + part.bytes.length));
  }
  return { code: view.getUint32(0, true), line, first, second, whole: view.getBigUint64(16, true), output };
}

const CALLS = ["create", "create_from_encrypted", "decrypt", "decrypt_round", "drill", "encrypted", "fingerprint", "judge", "parse", "quorums", "random_needed", "recover", "reissue", "repair", "resplit", "status", "text", "version", "words"];
const EXPORTS = ["memory", "__heap_base", ...CALLS.map((name) => `shamir_${name}`)];

/** A compiled module, and an instance of it. */
export class Calls {
  #module;
  /** @type {WebAssembly.Instance | null} */
  #instance = null;

  /** @param {WebAssembly.Module} module */
  constructor(module) {
    this.#module = module;
    const exports = this.#exports();
    const missing = EXPORTS.find((name) => !(name in exports));
    if (missing) throw new TypeError(`this module isn't the engine, or is another version of it: it has no ${missing}`);
  }

  /**
   * Makes a call, and clears all that it may have written. If the call traps, the whole memory is cleared, and the next call
   * uses a new instance. So it does after a call that needed a large memory.
   * @param {string} name
   * @param {Part[]} parts
   * @returns {Answer}
   */
  run(name, parts) {
    const exports = this.#exports();
    const places = placed(Number(exports.__heap_base.value), parts);
    grow(exports.memory, places.end);
    try {
      const memory = new Uint8Array(exports.memory.buffer);
      for (const { part, at } of places.slots) {
        if (!(part instanceof Room)) memory.set(part instanceof Struct ? part.bytes : part, at);
      }
      exports[name](...places.words);
      return answered(memory, places);
    } catch (error) {
      this.#instance = null;
      new Uint8Array(exports.memory.buffer).fill(0);
      throw error;
    } finally {
      new Uint8Array(exports.memory.buffer).fill(0, 0, STACK_BYTES).fill(0, places.base, places.end);
      if (exports.memory.buffer.byteLength > LARGE_BYTES) this.#instance = null;
    }
  }

  /** @returns {any} */
  #exports() {
    this.#instance ??= new WebAssembly.Instance(this.#module);
    return this.#instance.exports;
  }
}
