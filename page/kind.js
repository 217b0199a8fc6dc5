// What a paper is, and what it is beside another one. The engine says both.
import { Papers } from "../bindings/js/papers.js";
import { Code, Refusal } from "../bindings/js/shamir.js";
import { shownText, wordsIn, zero } from "./bytes.js";

/** @typedef {import("../bindings/js/shamir.js").Engine} Engine */
/** @typedef {import("./desk.js").Kind} Kind */

/** All papers of a backup begin with so many words, and those of another backup with others. */
const BEGIN_WORDS = 2;

/**
 * Returns what `read` reads of a paper. If its checksum is wrong, the refusal is the one by which the engine says where to look. If the
 * line is too long, it is what is wrong with the words, as nobody counts bytes.
 *
 * @template T
 * @param {Engine} engine
 * @param {Uint8Array} line
 * @param {() => T} read
 */
export function located(engine, line, read) {
  try {
    return read();
  } catch (error) {
    if (error instanceof Refusal && error.code === Code.BAD_CHECKSUM) zero(...engine.repairBytes(line));
    if (error instanceof Refusal && error.code === Code.LINE_TOO_LONG) zero(engine.parse(line).value);
    throw error;
  }
}

/**
 * Returns the first words of a line, which aren't secret.
 *
 * @param {Uint8Array} line
 */
function beginOf(line) {
  let end = 0;
  for (let words = 0; end < line.length && words < BEGIN_WORDS; words += 1) {
    while (line[end] <= 32) end += 1;
    while (line[end] > 32) end += 1;
  }
  return shownText(line.subarray(0, end)).trim().toLowerCase().split(/\s+/).join(" ");
}

/**
 * Returns what a paper is, without its value. No backup can have it if its group isn't one of the groups that it says there are.
 *
 * @param {Engine} engine
 * @param {Uint8Array} line
 * @returns {Kind}
 */
export function kindOf(engine, line) {
  const share = located(engine, line, () => engine.parse(line));
  zero(share.value);
  return {
    name: `${share.groupIndex}.${share.memberIndex}`,
    words: wordsIn(line),
    begin: beginOf(line),
    id: share.id,
    secretBytes: share.value.length,
    exponent: share.exponent,
    extendable: share.extendable,
    groupCount: share.groupCount,
    groupThreshold: share.groupThreshold,
    memberThreshold: share.memberThreshold,
    isPossible: share.groupIndex < share.groupCount,
    isRepaired: false,
    isRead: false,
    isWritten: false,
  };
}

/**
 * Returns the name of a paper, or none if it isn't sound.
 *
 * @param {Engine} engine
 * @param {Uint8Array} line
 */
export function nameOf(engine, line) {
  try {
    return [kindOf(engine, line).name];
  } catch (error) {
    if (error instanceof Refusal) return [];
    throw error;
  }
}

/**
 * Returns what a sound paper is beside another one: the same, one more of its backup, one that can't be of its backup although it says so
 * ("conflict"), or one of another backup ("apart").
 *
 * @param {Engine} engine
 * @param {Uint8Array} line
 * @param {Uint8Array} other
 * @returns {"same" | "more" | "conflict" | "apart"}
 */
export function beside(engine, line, other) {
  const papers = new Papers(engine);
  try {
    papers.add(other);
    if (papers.add(line).again) return "same";
    return papers.ids.length === 1 ? "more" : "apart";
  } catch (error) {
    if (error instanceof Refusal && error.code >= Code.OTHER_IDENTIFIER && error.code <= Code.CONFLICTING_SHARE) return "conflict";
    throw error;
  } finally {
    papers.clear();
  }
}
