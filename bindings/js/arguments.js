/** Copies of what is asked of a worker. */
import { plain } from "./copies.js";

/**
 * Returns a copy of an argument, whose arrays have buffers of their own. Options, or an encrypted secret, whose copy would lack what they
 * inherit are refused, and String objects. What else the engine refuses stays as it is.
 * @param {import("./copies.js").Copies} own
 * @param {any} it
 * @returns {any}
 */
export function copiedIn(own, it) {
  if (it instanceof String) throw new TypeError("an argument is a String object");
  if (typeof it !== "object" || it === null) return it;
  if (ArrayBuffer.isView(it)) return own.data(it, "an argument");
  if (Symbol.iterator in it) return Array.from(it, (part) => copiedIn(own, part));
  plain(it);
  return Object.fromEntries(Object.entries(it).map(([name, part]) => [name, copiedIn(own, part)]));
}
