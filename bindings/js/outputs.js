/** Reads what the engine writes. The lines that these functions return are parts of the output, and are cleared with it. */
import { OF_GROUPS } from "./refusal.js";

/** @typedef {import("./types.js").GroupStatus} GroupStatus */
/** @typedef {import("./types.js").Outcome} Outcome */

const LINE_FEED = 10;
const SPACE = 32;
const DECODER = new TextDecoder();
const AS_EXPECTED = "as expected";
const OTHER_SECRET = "other secret";

// A part of a drill has room for this many bytes of output: the first part, and the greatest.
export const FIRST_ROOM = 4096;
const GREATEST_ROOM = 1048576;

/** @param {Uint8Array} bytes */
export function decoded(bytes) {
  return DECODER.decode(bytes);
}

/**
 * Returns the text of bytes, and clears them.
 * @param {Uint8Array} bytes
 */
export function taken(bytes) {
  const text = decoded(bytes);
  bytes.fill(0);
  return text;
}

/**
 * Returns the lines of an output, without the line feeds that end them.
 * @param {Uint8Array} output
 * @returns {Uint8Array[]}
 */
export function linesOf(output) {
  const lines = [];
  for (let start = 0; start < output.length; ) {
    const found = output.indexOf(LINE_FEED, start);
    const end = found < 0 ? output.length : found;
    lines.push(output.subarray(start, end));
    start = end + 1;
  }
  return lines;
}

/**
 * Returns the bytes that lower-case hexadecimal digits spell.
 * @param {Uint8Array} digits
 */
function spelled(digits) {
  const value = (/** @type {number} */ digit) => (digit <= 57 ? digit - 48 : digit - 87);
  const bytes = new Uint8Array(new ArrayBuffer(digits.length / 2));
  for (let i = 0; i < bytes.length; i++) bytes[i] = 16 * value(digits[2 * i]) + value(digits[2 * i + 1]);
  return bytes;
}

/**
 * Reads a line of a drill. After the names it has digits; or whether the secret is the expected one; or several words, the last of
 * which is a group or `groups`.
 * @param {Uint8Array} line
 * @param {boolean} fingerprints
 * @returns {Outcome}
 */
export function outcome(line, fingerprints) {
  const end = line.indexOf(SPACE);
  const last = line.lastIndexOf(SPACE);
  const outcome = { names: decoded(line.subarray(0, end)), secret: null, fingerprint: null, expected: null, mismatch: null };
  const found = line.subarray(end + 1);
  if (last === end) return fingerprints ? { ...outcome, fingerprint: decoded(found) } : { ...outcome, secret: spelled(found) };
  const told = decoded(found);
  if (told === AS_EXPECTED || told === OTHER_SECRET) return { ...outcome, expected: told === AS_EXPECTED };
  const group = decoded(line.subarray(last + 1));
  return { ...outcome, mismatch: group === "groups" ? OF_GROUPS : Number(group) };
}

/**
 * Reads a line `group G members N of T NAMES`.
 * @param {Uint8Array} line
 * @returns {GroupStatus}
 */
export function groupStatus(line) {
  const [, group, , , , threshold, names] = decoded(line).split(" ");
  return { group: Number(group), threshold: Number(threshold), names: names.split("+") };
}

/**
 * Returns the room of the next part of a drill. Each part decrypts anew, so few parts are quick. But outcomes come only at the end
 * of a part, and if the quorums give many encrypted secrets, each takes as long as `recover`. So the room grows only while a part
 * takes less than a tenth of a second.
 * @param {number} room
 * @param {number} milliseconds How long the last part took.
 */
export function nextRoom(room, milliseconds) {
  if (milliseconds > 400) return Math.max(FIRST_ROOM, room / 2);
  return milliseconds < 100 ? Math.min(GREATEST_ROOM, 2 * room) : room;
}
