// What is wrong with the digits of a secret, before any paper is made of them.
import { digitValue, faultOf, unhex, zero } from "./bytes.js";

/** @typedef {import("../bindings/js/shamir.js").Engine} Engine */
/** @typedef {{fault: import("./bytes.js").Fault | "other", fingerprint: string, place?: number, bytes?: number, isRepeated?: boolean}} Judged `isRepeated` says that all bytes are the same */

/**
 * Returns what is wrong with the digits of a secret, or an empty text: they have another fingerprint than the one that was noted ("other"),
 * or stand for no bytes. Keeps nothing of them.
 *
 * @param {Engine} engine
 * @param {{plan: string, digits: Uint8Array, noted: string}} given
 * @returns {Judged}
 */
export function judge(engine, { plan, digits, noted }) {
  const fault = faultOf(digits);
  const place = digits.findIndex((digit) => digitValue(digit) < 0) + 1;
  const secret = unhex(digits);
  zero(digits);
  try {
    if (fault !== "") return { fault, fingerprint: "", place };
    // The engine refuses a secret that no backup can have before it is compared.
    engine.randomNeeded(plan, secret.length);
    const fingerprint = engine.fingerprint(secret);
    const isRepeated = secret.every((byte) => byte === secret[0]);
    return { fault: noted !== "" && noted !== fingerprint ? "other" : "", fingerprint, bytes: secret.length, isRepeated };
  } finally {
    zero(secret);
  }
}
