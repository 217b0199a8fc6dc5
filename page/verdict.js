// What the outcomes of a drill say together.
import { OF_GROUPS } from "../bindings/js/refusal.js";
import { COUNTED_MOST, fingerprints, isRight, suspects, TRIED_FIRST, TRIED_WHOLE } from "./quorums.js";
import { counted, formOf, say } from "./say.js";

/** @typedef {import("./desk.js").Tried} Tried */
/** @typedef {"good" | "stopped" | "other" | "none" | "some" | "several"} Result */
/**
 * What a drill found: no fault, or that it was stopped, or that all quorums give another secret than the expected one, that none
 * gives it, that some don't, or that they give several secrets. With it how many quorums were tried, if not all were, the sentences that
 * say what was found, the papers that were tried, those of them that are in a right quorum, or, without one, belong together as a digest
 * says, the fingerprint of the right secret as far as it is known, whether a passphrase was typed, whether the secret was compared with
 * what the owner noted, and is equal, whether something is wrong, and whether all quorums that were tried give one other secret.
 *
 * @typedef {{result: Result, fingerprint: string, part: string, sentences: string[], names: string[], right: string[], hasPassphrase: boolean, isEqual: boolean, isWrong: boolean, isOther: boolean}} Verdict
 */
/**
 * What a verdict depends on beside the outcomes: the fingerprint that is expected, or none; whether it is that of the secret that was just
 * backed up, and not noted; whether the papers take the place of others; whether a passphrase was typed, and whether the owner stopped.
 *
 * @typedef {{noted: string, isOwn: boolean, isNew: boolean, hasPassphrase: boolean, isStopped: boolean}} Asked
 */

/**
 * Says a number of quorums, up to the one up to which the engine counts.
 *
 * @param {bigint | number} number
 */
export function saidNumber(number) {
  const text = number.toLocaleString("en");
  return number === COUNTED_MOST ? say("number.least", { number: text }) : text;
}

/**
 * Says how many quorums papers have, and which of them are tried.
 *
 * @param {bigint} total
 */
export function saidCount(total) {
  return say(total <= TRIED_WHOLE ? "drill.count" : "drill.count_part", { total: saidNumber(total), first: TRIED_FIRST });
}

/**
 * Says how many quorums were tried so far.
 *
 * @param {number} tried
 * @param {bigint} total
 */
export function saidTried(tried, total) {
  return say("drill.tried", { tried: saidNumber(tried), total: saidNumber(total) });
}

/**
 * Says what a quorum gave. `noted` is the fingerprint that is expected, or empty.
 *
 * @param {Tried} tried
 * @param {string} noted
 */
export function saidOutcome({ fingerprint, expected, mismatch }, noted) {
  if (mismatch === OF_GROUPS) return say("drill.mismatch_groups");
  if (mismatch !== null) return say("drill.mismatch", { group: mismatch });
  if (fingerprint !== null) return say("drill.fingerprint", { fingerprint });
  return expected ? say("drill.expected", { fingerprint: noted }) : say("drill.other");
}

/**
 * Whether a digest says that the papers of a quorum belong together. A quorum of one paper has none.
 *
 * @param {Tried} outcome
 */
function isTogether({ names, mismatch }) {
  return mismatch === null && names.length > 1;
}

/**
 * Returns the papers of quorums, each once.
 *
 * @param {readonly Tried[]} tried
 */
function namesOf(tried) {
  return [...new Set(tried.flatMap(({ names }) => names))];
}

/**
 * Returns what a drill found, and says it.
 *
 * @param {readonly Tried[]} tried
 * @param {bigint} total how many quorums the papers have
 * @param {Asked} asked
 * @returns {Verdict}
 */
export function verdictOf(tried, total, asked) {
  const { noted, isOwn, isStopped, hasPassphrase } = asked;
  const fingerprint = noted || (fingerprints(tried)[0]?.[0] ?? "");
  const right = tried.filter((it) => isRight(it, fingerprint));
  const wrong = tried.filter((it) => !isRight(it, fingerprint));
  const isWhole = BigInt(tried.length) === total;
  const { result, sentences } = tried.length ? judged(right, wrong, fingerprint, isWhole, asked) : { result: /** @type {const} */ ("none"), sentences: [] };
  return {
    result: isStopped ? "stopped" : result,
    fingerprint,
    part: isWhole && !isStopped ? "" : saidTried(tried.length, total),
    sentences,
    names: namesOf(tried),
    right: namesOf(right.length ? right : tried.filter(isTogether)),
    hasPassphrase,
    isEqual: result === "good" && !isStopped && noted !== "" && !isOwn,
    isWrong: result !== "good" && tried.length > 0,
    isOther: result === "other",
  };
}

/**
 * Returns what outcomes say, and says it.
 *
 * @param {Tried[]} right
 * @param {Tried[]} wrong
 * @param {string} fingerprint that of the right secret
 * @param {boolean} isWhole
 * @param {Asked} asked
 * @returns {Pick<Verdict, "result" | "sentences">}
 */
function judged(right, wrong, fingerprint, isWhole, asked) {
  const { noted, isOwn, isNew } = asked;
  const quorums = counted(right.length + wrong.length, "quorum");
  if (wrong.length > 0) return right.length ? someWrong(right, wrong, noted, quorums) : noneRight(wrong, asked, quorums);
  const which = noted === "" ? "same" : isOwn ? "own" : "noted";
  // Inside one paper alone, nothing is compared.
  const isAlone = right.length === 1 && right[0].names.length === 1 && (noted === "" || (isOwn && isNew));
  return { result: "good", sentences: [say(`verdict.${isAlone ? "one" : isWhole ? "all" : "tried"}.${which}${isNew ? ".new" : ""}`, { quorums, fingerprint })] };
}

/**
 * Says that no quorum is right.
 *
 * @param {Tried[]} wrong
 * @param {Asked} asked
 * @param {string} quorums
 * @returns {Pick<Verdict, "result" | "sentences">}
 */
function noneRight(wrong, { noted, hasPassphrase }, quorums) {
  const mismatched = wrong.filter((it) => it.mismatch !== null).length;
  // The passphrase changes nothing about papers that don't belong together.
  if (mismatched === wrong.length) return { result: "some", sentences: [say("verdict.nothing", { quorums })] };
  const result = mismatched === 0 ? "other" : "none";
  const key = result === "other" && !hasPassphrase ? "other.none" : result;
  return { result, sentences: [say(`verdict.${key}`, { quorums, noted })] };
}

/**
 * Says which quorums are wrong, and which papers may be.
 *
 * @param {Tried[]} right
 * @param {Tried[]} wrong
 * @param {string} noted
 * @param {string} quorums
 * @returns {Pick<Verdict, "result" | "sentences">}
 */
function someWrong(right, wrong, noted, quorums) {
  const secrets = fingerprints([...right, ...wrong]).length;
  if (secrets > 1) return { result: "several", sentences: [say("verdict.several", { quorums, secrets: counted(secrets, "secret") })] };
  const sentences = [say(noted === "" ? "verdict.some.unnoted" : "verdict.some", { wrong: wrong.length, quorums })];
  const names = suspects(right, wrong);
  if (names.length) sentences.push(say(`verdict.suspects.${formOf(names)}`, { names: names.join(", ") }));
  return { result: "some", sentences };
}
