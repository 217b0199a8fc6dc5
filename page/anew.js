// New papers in place of old ones. What is computed of the secret isn't kept.
import { zero } from "./bytes.js";
import { beside, kindOf } from "./kind.js";

/** @typedef {import("../bindings/js/shamir.js").Engine} Engine */

/**
 * Makes a backup of the secret that papers give, with their exponent and with the same passphrase, and returns the fingerprint of the
 * secret. If another one was noted, no papers are made.
 *
 * @param {Engine} engine
 * @param {Uint8Array[]} papers
 * @param {Uint8Array} passphrase
 * @param {{plan: string, noted: string, extendable: boolean}} given
 * @returns {{fingerprint: string, made: Uint8Array[]}}
 */
export function renewed(engine, papers, passphrase, { plan, noted, extendable }) {
  const secret = engine.recover(papers, { passphrase });
  try {
    const fingerprint = engine.fingerprint(secret);
    if (noted !== "" && noted !== fingerprint) return { fingerprint, made: [] };
    const { exponent } = kindOf(engine, papers[0]);
    const create = () => engine.createBytes(plan, secret, { passphrase, exponent, extendable });
    let made = create();
    // With the old identifier, papers of both backups would be taken for one.
    while (beside(engine, made[0], papers[0]) !== "apart") {
      zero(...made);
      made = create();
    }
    return { fingerprint, made };
  } finally {
    zero(secret);
  }
}
