// What a drill shows of the papers that were typed, and what an owner does next.
import { formOf } from "./say.js";

/** @typedef {import("./verdict.js").Verdict} Verdict */
/** @typedef {"end" | "again" | "papers"} Next to end, to try again with the same papers, or to go back to the papers */
/** @typedef {{key: string, names: string[], kind: "note" | "good" | "bad" | ""}} Told the key of a sentence, the papers that it names, and how it looks */
/**
 * The papers: the names of all that are here, of those of which words were found and not read, and of those that were written again, from
 * others or as they could be read; of those from others the ones whose group needs one paper, as nothing but the owner's answer says; and
 * whether any paper was left out.
 *
 * @typedef {{here: string[], repaired: string[], written: string[], lone: string[], isLeft: boolean}} Papers
 */
/**
 * What a drill shows of papers: the key of the heading, what the owner does next, what is said before all else, which papers were tried, and
 * what that shows of those that were repaired or written again. `isRight` says that what equals the note may be called right.
 *
 * @typedef {{title: string, next: Next, first: Told[], tried: Told[], anew: Told[], isRight: boolean}} Shown
 */

/** @type {Record<Verdict["result"], Next>} */
const NEXT = { good: "end", stopped: "again", other: "again", none: "again", some: "papers", several: "papers" };

/**
 * Makes a sentence, unless it would name nothing.
 *
 * @param {string} key
 * @param {string[]} names
 * @param {Told["kind"]} kind
 * @returns {Told[]}
 */
function naming(key, names, kind) {
  return names.length ? [{ key, names, kind }] : [];
}

/**
 * Makes a sentence of one paper, or of many, unless it would name nothing.
 *
 * @param {string} key
 * @param {string[]} names
 * @param {Told["kind"]} kind
 */
function form(key, names, kind) {
  return naming(`${key}.${formOf(names)}`, names, kind);
}

/**
 * Returns what a drill shows of papers. Only the noted fingerprint shows that papers are right, and nothing does that rests on an answer.
 *
 * @param {Pick<Verdict, "result" | "names" | "right" | "hasPassphrase" | "part">} verdict
 * @param {boolean} isNoted whether a fingerprint was noted
 * @param {Papers} papers
 * @returns {Shown}
 */
export function resultOf(verdict, isNoted, { here, repaired, written, lone, isLeft }) {
  const { result, names } = verdict;
  const isTried = (/** @type {string} */ name) => names.includes(name);
  const others = names.length > 0 && result !== "stopped" ? here.filter((name) => !isTried(name)) : [];
  const again = result === "good" ? written.filter(isTried) : [];
  const right = again.filter((name) => !lone.includes(name));
  const told = [...ofRepaired(verdict, isNoted, repaired), ...form(isNoted ? "replace.right" : "replace.tried", right, isNoted ? "good" : "note")];
  const isRight = lone.length === 0;
  // Inside one paper alone, nothing is compared, so words that were found are in doubt before all else.
  const isAlone = names.length === 1;
  const doubted = isAlone && (result === "other" || (result === "good" && !isNoted)) ? repaired.filter(isTried) : [];
  const kindOf = (/** @type {Told["kind"]} */ kind) => (kind === "good" && !isRight ? "note" : kind);
  return {
    title: `check.done.${doubted.length ? "doubt" : titleOf(verdict, isNoted, isLeft || others.length > 0, { isRight, isAlone, isWritten: right.length > 0 })}`,
    next: NEXT[result],
    first: [...form("replace.lone", lone, "bad"), ...naming("damaged.doubt", doubted, "bad")],
    tried: [...naming("verdict.papers", here.filter(isTried), ""), ...naming("verdict.papers.none", others, "")],
    anew: told.map((it) => ({ ...it, kind: kindOf(it.kind) })),
    isRight,
  };
}

/**
 * Returns the end of the key of the heading.
 *
 * @param {Pick<Verdict, "result" | "hasPassphrase">} verdict
 * @param {boolean} isNoted
 * @param {boolean} isUntried whether not all papers were tried
 * @param {{isRight: boolean, isAlone: boolean, isWritten: boolean}} papers `isRight` says that no paper rests on an answer, `isAlone` that one paper was tried by itself, and `isWritten` that papers were written again, and tried
 */
function titleOf({ result, hasPassphrase }, isNoted, isUntried, { isRight, isAlone, isWritten }) {
  if (result !== "good") return result === "other" && !hasPassphrase ? "other.none" : result;
  if (!isRight) return "answered";
  // Without a noted fingerprint, no result is known to be good.
  if (!isNoted) return isAlone ? "one" : "same";
  return isUntried ? "left_out" : isWritten ? "written" : "good";
}

/**
 * Says what a drill shows of repaired papers. Only a quorum that has one, and that gives the noted fingerprint, shows that its words are
 * right.
 *
 * @param {Pick<Verdict, "result" | "names" | "right" | "part">} verdict
 * @param {boolean} isNoted
 * @param {string[]} repaired
 */
function ofRepaired({ result, names, right, part }, isNoted, repaired) {
  const tried = repaired.filter((name) => names.includes(name));
  const proved = result === "good" && isNoted ? tried : [];
  // A quorum that wasn't tried may be right.
  const suspect = !part && ["none", "some"].includes(result) ? tried.filter((name) => !right.includes(name)) : [];
  const kept = /** @type {Told[]} */ (proved.length < repaired.length ? [{ key: "damaged.keep", names: [], kind: "note" }] : []);
  return [...form("damaged.right", proved, "good"), ...form("damaged.suspect", suspect, "bad"), ...kept];
}
