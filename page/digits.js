// What is wrong with the digits of a secret that were typed, or in doubt, in words.
import { say } from "./say.js";

/**
 * How many bytes a secret has, by the number of words on each of its papers.
 *
 * @type {Record<number, number>}
 */
export const BYTES = { 20: 16, 33: 32 };

/** @typedef {import("./judge.js").Judged} Judged */

/**
 * Says what is wrong with digits, or nothing. `noted` is the fingerprint that they are compared with.
 *
 * @param {Judged} judged
 * @param {number} digits how many were typed
 * @param {string} noted
 */
export function saidDigits({ fault, fingerprint, place = 0 }, digits, noted) {
  return fault === "" ? "" : say(`secret.${fault}`, { digits, fingerprint, place, noted });
}

/**
 * Says what is in doubt of a secret, or nothing: it is no random one, or it doesn't fit the number of words that the wallet asks for.
 *
 * @param {Judged} judged
 * @param {number} words
 */
export function saidDoubts({ bytes = 0, isRepeated = false }, words) {
  const repeated = isRepeated ? [say("secret.repeated")] : [];
  const unfit = bytes === BYTES[words] ? [] : [say("secret.unfit", { bytes, words, fit: BYTES[words] })];
  return [...repeated, ...unfit].join(" ");
}
