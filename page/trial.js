// What each quorum gives, one after the other. Where one recovery takes long, the engine undoes the cipher of each encrypted secret round by
// round, and of each only once, so that the owner sees how far a drill is.
import { Code, Refusal } from "../bindings/js/shamir.js";
import { zero } from "./bytes.js";
import { kindOf } from "./kind.js";
import { quorumsOf } from "./quorums.js";

/** @typedef {import("./desk.js").Tried} Tried */
/** @typedef {import("../bindings/js/shamir.js").Engine} Engine */
/** @typedef {{encrypted: Uint8Array, fingerprint: string}} Found an encrypted secret, and the fingerprint of the secret */
/** @typedef {{passphrase: Uint8Array, expect: string, tell: (rounds: number) => void}} Asked what a quorum is tried with, and what hears how many of four rounds are undone */

/**
 * Yields what each quorum of papers gives: whether its secret has the fingerprint that is expected, or its fingerprint if none is.
 *
 * @param {Engine} engine
 * @param {Uint8Array[]} papers
 * @param {Asked} asked
 * @returns {Generator<Tried, void, void>}
 */
export function* oneByOne(engine, papers, asked) {
  const named = new Map(papers.map((paper) => [kindOf(engine, paper).name, paper]));
  /** @type {Found[]} */
  const found = [];
  try {
    for (const names of quorumsOf(engine.status(papers))) {
      const lines = names.map((name) => /** @type {Uint8Array} */ (named.get(name)));
      yield { names, ...outcome(engine, lines, found, asked) };
    }
  } finally {
    zero(...found.map(({ encrypted }) => encrypted));
  }
}

/**
 * Returns what one quorum gives.
 *
 * @param {Engine} engine
 * @param {Uint8Array[]} lines
 * @param {Found[]} found
 * @param {Asked} asked
 * @returns {Omit<Tried, "names">}
 */
function outcome(engine, lines, found, { passphrase, expect, tell }) {
  let kept;
  try {
    kept = engine.encrypted(lines);
  } catch (error) {
    if (!(error instanceof Refusal) || error.code !== Code.DIGEST_MISMATCH) throw error;
    return { fingerprint: null, expected: null, mismatch: error.details[0] };
  }
  const { value } = kept;
  let its = found.find(({ encrypted }) => encrypted.every((byte, at) => byte === value[at]));
  if (its) zero(value);
  else {
    its = { encrypted: value, fingerprint: decrypted(engine, kept, passphrase, tell) };
    found.push(its);
  }
  const { fingerprint } = its;
  return expect === "" ? { fingerprint, expected: null, mismatch: null } : { fingerprint: null, expected: fingerprint === expect, mismatch: null };
}

/**
 * Returns the fingerprint of a secret.
 *
 * @param {Engine} engine
 * @param {import("../bindings/js/shamir.js").EncryptedSecret} kept
 * @param {Uint8Array} passphrase
 * @param {(rounds: number) => void} tell
 */
function decrypted(engine, kept, passphrase, tell) {
  let rounds = 0;
  let fingerprint = "";
  for (const secret of engine.decryptRounds(kept, { passphrase })) {
    rounds += 1;
    if (secret === null) tell(rounds);
    else {
      fingerprint = engine.fingerprint(secret);
      zero(secret);
    }
  }
  return fingerprint;
}
