/** The vectors published for SLIP-0039, in both orders of their mnemonics. */
import assert from "node:assert/strict";
import test from "node:test";
import { Refusal } from "../shamir.js";
import { file, hex, shamir } from "./given.js";

// The table has the vectors after empty lines. A vector is what comes of its mnemonics, and the mnemonics, one a line. What comes
// of them is their quorum and the secret, or a refusal; where their order tells, a second for the other order.
const TABLE = file("crates/s39_tests_backups/src/published.rt").toString();
const [, PUBLISHED] = /^const PUBLISHED: &str = "([^"]*)";/m.exec(TABLE);
const VECTORS = PUBLISHED.split("\n\n").map((vector) => vector.trimEnd().split("\n"));

function recovered(lines) {
  try {
    return hex(shamir.recover(lines, { passphrase: "TREZOR" }));
  } catch (error) {
    if (!(error instanceof Refusal)) throw error;
    return error.message;
  }
}

function drilled(lines) {
  try {
    return [...shamir.drill(lines, { passphrase: "TREZOR" })].map(({ names, secret, mismatch }) =>
      secret ? `${names} ${hex(secret)}` : `51 digest mismatch ${mismatch === 16 ? "of groups" : `in group ${mismatch}`}`
    );
  } catch (error) {
    if (!(error instanceof Refusal)) throw error;
    return [error.message];
  }
}

test("there are 45 vectors", () => assert.equal(VECTORS.length, 45));

for (const [told, ...mnemonics] of VECTORS) {
  const [first, other = first] = told.split("; ");
  for (const [outcome, lines] of [[first, mnemonics], [other, mnemonics.slice().reverse()]]) {
    test(outcome, () => {
      assert.equal(recovered(lines), /^\d+\.\d/.test(outcome) ? outcome.split(" ")[1] : outcome);
      assert.deepEqual(drilled(lines), [outcome]);
    });
  }
}
