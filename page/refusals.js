// What a refusal of the engine means to an owner, and what to do.
import { Code, OF_GROUPS } from "../bindings/js/refusal.js";
import { Declined } from "./client.js";
import { counted, formOf, hasText, say } from "./say.js";

/** @typedef {import("./desk.js").Refused} Refused */

/**
 * The refusals whose first detail is the place of a word.
 *
 * @type {number[]}
 */
const LOCATED = [Code.UNKNOWN_WORD, Code.WRONG_WORD];

/**
 * Says what a paper that isn't determined takes: papers of its group, or complete groups besides it and one paper fewer. A group's only
 * paper takes complete groups alone.
 *
 * @param {number[]} details
 * @param {string} task "only" if the backup has one group, and "all" if each of several is needed, so that only papers of its group
 *   give a paper
 */
function saidUndetermined([first, second], task) {
  const [members, threshold, groups, required] = [24, 16, 8, 0].map((bits) => Math.floor(second / 2 ** bits) % 256);
  const [group, missing] = [Math.floor(first / 256), threshold - members];
  const lost = threshold === 1 ? "all.refused.66.lost" : "all.refused.66";
  const other = threshold === 1 ? "refused.66.only" : missing > 1 ? "refused.66.fewer" : "refused.66";
  const key = task === "only" ? "only.refused.66" : task === "all" ? lost : other;
  return say(key, { group, more: counted(missing, "paper"), fewer: counted(missing - 1, "paper"), whole: counted(required, "whole"), groups: Math.min(groups, required) });
}

/**
 * Says a refusal in words.
 *
 * @param {Refused} refused
 * @param {string} [task] the task, if it has its own words for some refusals
 */
export function saidRefusal({ code, details, text }, task = "") {
  const [first, second] = details;
  const name = `refused.${code}${ofGroups(code, details)}`;
  const key = [`${task}.${name}`, name, "refused.other"].find(hasText) ?? "";
  return code === Code.UNDETERMINED ? saidUndetermined(details, task) : say(key, { first, second, text });
}

/**
 * Returns what the details change in the text of a refusal.
 *
 * @param {number} code
 * @param {number[]} details
 */
function ofGroups(code, [first]) {
  return code === Code.DIGEST_MISMATCH && first === OF_GROUPS ? ".groups" : "";
}

/**
 * Says what an error means: a refusal in words, and anything else as a fault of the page.
 *
 * @param {unknown} error
 * @param {string} [task]
 */
export function saidError(error, task = "") {
  return error instanceof Declined ? saidRefusal(error.refused, task) : say("fault.other");
}

/**
 * Says why a paper isn't taken. If words of another one were found and not read, most likely that one is wrong.
 *
 * @param {unknown} error
 * @param {string[]} repaired
 */
export function saidForeign(error, repaired) {
  if (!(error instanceof Declined) || repaired.length === 0) return saidError(error);
  const { code } = error.refused;
  // These refusals, and those between them, are of papers that aren't of one backup.
  if (code < Code.OTHER_IDENTIFIER || code > Code.CONFLICTING_SHARE) return saidError(error);
  return say(`refused.repaired.${formOf(repaired)}`, { names: repaired.join(", ") });
}

/**
 * Returns the words of a paper that an error tells the owner to look at, counted from 0: one or none.
 *
 * @param {unknown} error
 */
export function wordsToLookAt(error) {
  if (!(error instanceof Declined) || !LOCATED.includes(error.refused.code)) return [];
  return [error.refused.details[0] - 1];
}
