// What was typed or pasted, as words; and words of the list that look like another word.

// What a blank form prints above the words. 'paper' is a word of the list too.
const HEADING = /slip-?0*39|paper\s+\d+\.\d+/gi;

/**
 * Returns the words of a text: capitals become small letters, and numbers, commas and line feeds separate. The heading of a paper is
 * skipped. A question mark stays at its place, so that no word takes that of one that can't be read.
 *
 * @param {string} text
 */
export function wordsOf(text) {
  return separated(text, /[^\p{L}\p{M}?]+/u);
}

/**
 * Returns the marks of a text of a damaged paper: words, and question marks with the letters before them. A line that stands for what
 * can't be read is a question mark, and so are several of both.
 *
 * @param {string} text
 */
export function marksOf(text) {
  return separated(text.replace(/[_?]+/g, "?"), /[^\p{L}\p{M}?]+/u);
}

/** @param {string} text */
function bare(text) {
  return text.replace(HEADING, " ");
}

/**
 * @param {string} text
 * @param {RegExp} separator
 */
function separated(text, separator) {
  return bare(text).toLowerCase().split(separator).filter((part) => part !== "");
}

// A paper has at least so many words.
const LEAST = 20;

/**
 * Returns the words of each paper that a text has. Papers stand apart by a heading, by an empty line, or each in a line. Numbers before all words
 * say their order, as in a table with two columns. Without these, the same 2 words at the beginning tell the papers of a backup.
 *
 * @param {string} text
 * @param {(text: string) => string[]} read returns the words of a text
 * @returns {string[][]}
 */
export function papersOf(text, read) {
  for (const separator of [HEADING, /\n\s*\n/, /\n/]) {
    const parts = text.split(separator).filter((part) => read(part).length > 0);
    if (parts.length > 1 && parts.every((part) => read(part).length >= LEAST)) return parts.flatMap((part) => inOrder(part, read));
  }
  return inOrder(text, read);
}

/**
 * @param {string} text
 * @param {(text: string) => string[]} read
 * @returns {string[][]}
 */
function inOrder(text, read) {
  const words = read(text);
  /** @type {string[][]} */
  const places = [];
  for (const [, number, part] of bare(text).matchAll(/(?:(\d+)[^\p{L}\p{M}\d?_]*)?([\p{L}\p{M}?_]+)/gu)) {
    if (number !== undefined && Number(number) <= words.length) (places[Number(number) - 1] ??= []).push(...read(part));
  }
  const papers = places[0]?.map((_, paper) => places.map((found) => found[paper]));
  // Each number from 1 on stands as often before a word as any other one.
  if (papers && papers.flat().length === words.length && papers.flat().every((word) => word !== undefined)) return papers;
  const begins = words.flatMap((word, at) => (word === words[0] && words[at + 1] === words[1] ? [at] : []));
  const ends = [...begins.slice(1), words.length];
  if (begins.length > 1 && begins.every((at, paper) => ends[paper] - at >= LEAST)) return begins.map((at, paper) => words.slice(at, ends[paper]));
  return words.length ? [words] : [];
}

/**
 * Returns the words of the list that begin with these letters.
 *
 * @param {readonly string[]} list
 * @param {string} letters
 */
export function beginning(list, letters) {
  return list.filter((word) => word.startsWith(letters));
}

/**
 * Whether a mark ends with a question mark, and stands for at least one word.
 *
 * @param {readonly string[]} list
 * @param {string} mark
 */
export function isMark(list, mark) {
  return mark.endsWith("?") && beginning(list, mark.slice(0, -1)).length > 0;
}

/**
 * Whether a mark stands for more than one word.
 *
 * @param {readonly string[]} list
 * @param {string} mark
 */
export function isOpen(list, mark) {
  return mark.endsWith("?") && beginning(list, mark.slice(0, -1)).length > 1;
}

/**
 * Letters that may still come of a word that is complete: a typist may type four letters of each word, or whole words. `toFour` is
 * how many of them are missing to four letters.
 *
 * @typedef {{letters: string, toFour: number}} Rest
 */

/** @type {Rest} */
export const NO_REST = { letters: "", toFour: 0 };

/**
 * What a typist who types no space goes on with after the letters that make a word: nothing, letters up to four, or the whole word.
 *
 * @typedef {"none" | "four" | "whole"} Habit
 */

/**
 * Returns how many letters of the rest a typist with this habit types.
 *
 * @param {Habit} habit
 * @param {Rest} rest
 */
function usual(habit, { letters, toFour }) {
  return { none: 0, four: toFour, whole: letters.length }[habit];
}

/** @type {Habit[]} */
const HABITS = ["none", "four", "whole"];

// A habit counts after so many words.
const HABIT_WORDS = 5;

/**
 * The habits that the last words show, and how many words these are.
 *
 * @typedef {{shown: Habit[], words: number}} Seen
 */

/** @type {Seen} */
export const NOTHING_SEEN = { shown: HABITS, words: 0 };

/**
 * Returns what is seen after one more word, of whose rest so many letters were typed.
 *
 * @param {Seen} seen
 * @param {number} count
 * @param {Rest} rest
 * @returns {Seen}
 */
export function seenWith({ shown, words }, count, rest) {
  const fits = HABITS.filter((habit) => usual(habit, rest) === count);
  const both = shown.filter((habit) => fits.includes(habit));
  if (both.length) return { shown: both, words: words + 1 };
  return fits.length ? { shown: fits, words: 1 } : NOTHING_SEEN;
}

/**
 * Returns the one habit that enough words show, or null.
 *
 * @param {Seen} seen
 * @returns {Habit | null}
 */
export function habitOf({ shown, words }) {
  return shown.length === 1 && words >= HABIT_WORDS ? shown[0] : null;
}

/**
 * Returns the words of the list that the letters of a field may be the beginning of. The first of these letters may still belong to
 * the word before: if the typist's habit gives any word, only as many as the habit says.
 *
 * @param {readonly string[]} list
 * @param {string} letters
 * @param {Rest} rest
 * @param {Habit | null} [habit]
 */
export function readings(list, letters, rest, habit = null) {
  const counts = [0, rest.toFour, rest.letters.length].filter((count) => count === 0 || (count < letters.length && letters.startsWith(rest.letters.slice(0, count))));
  const likely = habit === null ? -1 : usual(habit, rest);
  const found = counts.includes(likely) ? beginning(list, letters.slice(likely)) : [];
  if (found.length) return found;
  return [...new Set(counts.flatMap((count) => beginning(list, letters.slice(count))))];
}

/**
 * Whether the letters of a field are only what was left of the word before. `isEnded` says that they are ended, as by a space.
 *
 * @param {readonly string[]} list
 * @param {string} letters
 * @param {Rest} rest
 * @param {boolean} isEnded
 */
export function isRestWhole(list, letters, rest, isEnded) {
  if (letters === "") return false;
  if (letters === rest.letters) {
    // After four letters of a word, what follows them may be the next word.
    const mayBegin = [0, rest.toFour].filter((count) => count < letters.length);
    return isEnded || mayBegin.every((count) => beginning(list, letters.slice(count)).length === 0);
  }
  if (!isEnded || !rest.letters.startsWith(letters)) return false;
  return letters.length === rest.toFour || beginning(list, letters).length !== 1;
}

/**
 * Whether a key that ends a word ends the word before, and not that of the field that the focus came to by itself. `whole` is what
 * stood in this field then.
 *
 * @param {readonly string[]} list
 * @param {string} letters
 * @param {string} whole
 * @param {Rest} rest
 */
export function endsBefore(list, letters, whole, rest) {
  return letters === whole || isRestWhole(list, letters, rest, true);
}

// So many letters may be wrong in a word.
const MISTYPED_MAX = 2;
// Nobody types so many letters for one word of the list, and so few are no word.
export const TYPED_MOST = 10;
const TYPED_LEAST = 4;

/**
 * Whether letters that a key ended are the end of the word before, mistyped. If they make a word, or are the rest of one, they are so only if all
 * that was typed is nearly one word. A question mark is none.
 *
 * @param {readonly string[]} list
 * @param {string} letters none if they are the rest of the word before
 * @param {Rest} rest
 * @param {string} typed all that was typed since the last key
 * @param {boolean} isOfSeveral whether that completed several words
 */
export function isTail(list, letters, rest, typed, isOfSeveral) {
  if (letters.includes("?") || typed.length > TYPED_MOST || (letters === "" && !isOfSeveral)) return false;
  const isWord = letters === "" || beginning(list, letters).length === 1;
  const isNear = list.some((word) => distance(typed, word) <= (isWord ? 1 : MISTYPED_MAX));
  if (isNear || isWord || isOfSeveral) return isNear;
  return letters.length < TYPED_LEAST || (letters.length <= rest.letters.length + 1 && distance(letters, rest.letters) <= MISTYPED_MAX);
}

/**
 * Returns how many letters must be added, left out, changed or exchanged with their neighbour to turn one word into the other.
 *
 * @param {string} one
 * @param {string} other
 */
export function distance(one, other) {
  const rows = [Array.from({ length: other.length + 1 }, (_, at) => at)];
  for (let i = 1; i <= one.length; i += 1) {
    rows.push([i]);
    for (let j = 1; j <= other.length; j += 1) {
      const changed = rows[i - 1][j - 1] + (one[i - 1] === other[j - 1] ? 0 : 1);
      let least = Math.min(rows[i - 1][j] + 1, rows[i][j - 1] + 1, changed);
      const isExchanged = i > 1 && j > 1 && one[i - 1] === other[j - 2] && one[i - 2] === other[j - 1];
      if (isExchanged) least = Math.min(least, rows[i - 2][j - 2] + 1);
      rows[i].push(least);
    }
  }
  return rows[one.length][other.length];
}

// No word of the list is nearly as long, and to compare hundreds of letters with each of them would take seconds.
const COMPARED_MOST = 20;

/**
 * Returns the words of the list that are nearest to a word that isn't in it, the nearest first. They are offered, and never
 * taken by themselves.
 *
 * @param {readonly string[]} list
 * @param {string} typed
 * @param {number} [count]
 */
export function nearest(list, typed, count = 5) {
  const word = typed.slice(0, COMPARED_MOST);
  const rows = list.map((it) => {
    // Four letters identify a word, so a word that was cut short is near to the words that begin like it.
    const beginsLike = distance(word, it.slice(0, word.length)) + 0.5;
    return { it, far: Math.min(distance(word, it), beginsLike) };
  });
  rows.sort((a, b) => a.far - b.far || (a.it < b.it ? -1 : 1));
  return rows.slice(0, count).map(({ it }) => it);
}

// A BIP-39 backup most often has one of these numbers of words, and at least a quarter of them aren't in the list.
const BIP39_COUNTS = [12, 24];
const BIP39_FOREIGN = 0.25;
// From so many words on, more than this part of them tells another list.
const OTHER_LEAST = 4;
const OTHER_FOREIGN = 1 / 3;

/**
 * Returns how many words aren't in the list. Letters with which only one word of the list begins stand for that word.
 *
 * @param {readonly string[]} list
 * @param {readonly string[]} words
 */
function foreign(list, words) {
  return words.filter((word) => !word.endsWith("?") && !list.includes(word) && beginning(list, word).length !== 1).length;
}

/**
 * Whether words are likely to be a BIP-39 backup.
 *
 * @param {readonly string[]} list
 * @param {readonly string[]} words
 */
export function seemsBip39(list, words) {
  return BIP39_COUNTS.includes(words.length) && foreign(list, words) >= BIP39_FOREIGN * words.length;
}

/**
 * Whether the words so far are likely to be of another list.
 *
 * @param {readonly string[]} list
 * @param {readonly string[]} words
 */
export function seemsOther(list, words) {
  return words.length >= OTHER_LEAST && foreign(list, words) > OTHER_FOREIGN * words.length;
}
