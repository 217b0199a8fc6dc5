// Papers that were begun and that weren't taken, until they are typed soundly. The worker keeps their lines.
import { wordsIn } from "./bytes.js";

/** The first letters of a word, so many, identify it. */
const IDENTIFYING = 4;
/** From so many words on, what was typed is a paper that was begun. */
const BEGUN_LEAST = 10;

/**
 * Returns a number for each word of a line.
 *
 * @param {Uint8Array} line
 */
function numbersOf(line) {
  /** @type {Set<number>} */
  const found = new Set();
  let [number, count] = [0, 0];
  line.forEach((byte, at) => {
    if (byte > 32 && count < IDENTIFYING) [number, count] = [number * 256 + byte, count + 1];
    if (count > 0 && (byte <= 32 || at + 1 === line.length)) {
      found.add(number);
      [number, count] = [0, 0];
    }
  });
  return found;
}

/**
 * Whether two lines are most likely of one paper: they have most words in common. Most papers of one backup share only the first words.
 *
 * @param {Uint8Array} one
 * @param {Uint8Array} other
 */
export function resembles(one, other) {
  const [its, others] = [numbersOf(one), numbersOf(other)];
  const common = [...its].filter((number) => others.has(number)).length;
  return 2 * common > Math.min(its.size, others.size);
}

/**
 * Whether a line has enough words to be a paper that was begun.
 *
 * @param {Uint8Array} line
 */
export function isBegun(line) {
  return wordsIn(line) >= BEGUN_LEAST;
}
