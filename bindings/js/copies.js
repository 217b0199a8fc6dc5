/**
 * Checked copies of what a caller passes. They are cleared when the call ends. No error of this file holds a value.
 *
 * A JavaScript engine may move a small array that has no buffer of its own, and leave its old bytes behind. So each copy here
 * gets a buffer of its own.
 */

const LINE_FEED = 10;

// These getters tell the type and the length of an array, whatever its class and its own fields say about it.
const [kindOf, lengthOf] = [Symbol.toStringTag, "length"].map(
  (name) => /** @type {(this: unknown) => any} */ (Object.getOwnPropertyDescriptor(Object.getPrototypeOf(Uint8Array.prototype), name)?.get)
);

/**
 * Returns whether a value is a Uint8Array. It may be one of another window.
 * @param {unknown} value
 * @returns {value is Uint8Array}
 */
function isBytes(value) {
  return kindOf.call(value) === "Uint8Array";
}

/**
 * Returns the bytes in an array with a buffer of its own. An array whose buffer was transferred elsewhere looks empty, and `set`
 * refuses it with a TypeError.
 * @param {Uint8Array} bytes
 * @returns {Uint8Array}
 */
export function copied(bytes) {
  const copy = new Uint8Array(new ArrayBuffer(lengthOf.call(bytes)));
  copy.set(bytes);
  return copy;
}

/**
 * Returns whether a string holds half of a surrogate pair. A regular expression would leave the string in `RegExp.input`.
 * @param {string} text
 */
function isHalved(text) {
  for (const sign of text) {
    const point = Number(sign.codePointAt(0));
    if (point >= 0xd800 && point <= 0xdfff) return true;
  }
  return false;
}

/**
 * @param {unknown} value
 * @param {string} what
 * @param {number} most
 * @returns {number}
 */
export function wholeNumber(value, what, most) {
  if (typeof value !== "number") throw new TypeError(`${what} isn't a number`);
  if (!Number.isInteger(value) || value < 0 || value > most) throw new RangeError(`${what} isn't a whole number from 0 to ${most}`);
  return value;
}

/**
 * @param {unknown} value
 * @param {string} what
 * @returns {boolean}
 */
export function flag(value, what) {
  if (typeof value !== "boolean") throw new TypeError(`${what} is neither true nor false`);
  return value;
}

/**
 * Refuses what isn't an object, and an object that inherits from another one than `Object.prototype`: a copy of it, as a worker gets one,
 * lacks what it inherits. So does an object with a field that `Object.keys` doesn't list.
 * @param {unknown} options
 * @param {string} what
 */
export function plain(options, what = "the options of this call") {
  if (typeof options !== "object" || options === null) throw new TypeError(`${what} aren't in an object`);
  const above = Object.getPrototypeOf(options);
  if (above !== null && !(Object.getPrototypeOf(above) === null && Object.hasOwn(above, "hasOwnProperty"))) {
    throw new TypeError(`${what} aren't in a plain object`);
  }
  if (Reflect.ownKeys(options).length !== Object.keys(options).length) throw new TypeError(`${what} have fields that can't be listed`);
}

/**
 * Returns the options of a call, or the fields of an object. Another name than these is refused, because a misspelt `passphrase` would
 * stand for no passphrase, and a share isn't an encrypted secret. So is one of these that somebody put into `Object.prototype`.
 * @template T
 * @param {T} options
 * @param {(keyof T)[]} names
 * @param {string} what
 * @returns {T}
 */
export function known(options, names, what = "the options of this call") {
  plain(options, what);
  const given = /** @type {(keyof T)[]} */ (Object.keys(/** @type {object} */ (options)));
  if (!given.every((name) => names.includes(name))) throw new TypeError(`${what} are ${names.join(", ")}`);
  if (names.some((name) => name in Object.prototype)) throw new TypeError(`Object.prototype has one of ${names.join(", ")}`);
  return options;
}

export class Copies {
  /** @type {Set<Uint8Array>} */
  #kept = new Set();

  /**
   * Keeps an array, to clear it at the end.
   * @param {Uint8Array} bytes
   * @returns {Uint8Array}
   */
  keep(bytes) {
    this.#kept.add(bytes);
    return bytes;
  }

  /**
   * @param {unknown} value
   * @param {string} what
   */
  data(value, what) {
    if (!isBytes(value)) throw new TypeError(`${what} isn't a Uint8Array`);
    return this.keep(copied(value));
  }

  /**
   * @param {unknown} value
   * @param {string} what
   */
  text(value, what) {
    if (typeof value === "string") {
      if (isHalved(value)) throw new RangeError(`${what} holds half of a surrogate pair, which UTF-8 can't encode`);
      return this.keep(new TextEncoder().encode(value));
    }
    if (!isBytes(value)) throw new TypeError(`${what} is neither a string nor a Uint8Array`);
    return this.data(value, what);
  }

  /**
   * Returns a line without the line feed that may end it. The engine takes none.
   * @param {unknown} value
   * @param {string} what
   */
  line(value, what) {
    const bytes = this.text(value, what);
    return bytes[bytes.length - 1] === LINE_FEED ? bytes.subarray(0, -1) : bytes;
  }

  /** @param {unknown} lines */
  lines(lines) {
    if (typeof lines === "string" || isBytes(lines)) return this.text(lines, "the text of lines");
    if (typeof lines !== "object" || lines === null || lines instanceof String || !(Symbol.iterator in lines)) {
      throw new TypeError("the lines are neither a text nor an iterable of texts");
    }
    const all = Array.from(/** @type {Iterable<unknown>} */ (lines), (line, index) => this.#oneLine(line, `line ${index + 1} of the list`));
    const joined = this.keep(new Uint8Array(new ArrayBuffer(all.reduce((length, line) => length + line.length + 1, 0)))).fill(LINE_FEED);
    let end = 0;
    for (const line of all) {
      joined.set(line, end);
      end += line.length + 1;
    }
    return joined;
  }

  /**
   * Returns a line of a list, which holds no other line feed.
   * @param {unknown} value
   * @param {string} what
   */
  #oneLine(value, what) {
    const line = this.line(value, what);
    if (line.includes(LINE_FEED)) throw new RangeError(`${what} holds a line feed, so it is several lines`);
    return line;
  }

  /**
   * Clears one of these arrays before the end.
   * @param {Uint8Array} bytes
   */
  release(bytes) {
    this.#kept.delete(bytes);
    bytes.fill(0);
  }

  clear() {
    for (const bytes of this.#kept) this.release(bytes);
  }
}

/**
 * Runs a function with copies, which are cleared at its end.
 * @template T
 * @param {(own: Copies) => T} use
 * @returns {T}
 */
export function withCopies(use) {
  const own = new Copies();
  try {
    return use(own);
  } finally {
    own.clear();
  }
}
