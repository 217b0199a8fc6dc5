/** Drills that say how far they are. */

import { Copies } from "./copies.js";

/** @typedef {import("./shamir.js").Engine} TheEngine */
/** @typedef {import("./worker.js").InWorker} InWorker */
/** @typedef {import("./types.js").DrillOptions} DrillOptions */
/** @typedef {import("./types.js").Lines} Lines */
/** @typedef {import("./types.js").Outcome} Outcome */
/** @typedef {Outcome & { number: number, quorums: bigint }} NumberedOutcome */

// After this time, other tasks of the host run.
const TURN_MILLISECONDS = 10;

/**
 * Yields the outcomes of `drill` of the engine, each with its `number`, from 1, and with what `quorums` of the engine counts.
 *
 *     for await (const { names, number, quorums } of drillWithProgress(shamir, mnemonics, { passphrase: "TREZOR" })) {
 *       console.log(`${number} of ${quorums}: ${names}`);
 *       if (stopped) break;
 *     }
 *
 * Between outcomes, other tasks of the host run, such as one that stops the drill. While the engine decrypts, they run only if it is in a
 * worker: give an `InWorker` as the engine. The arguments are looked at at the first `next`, which then throws any refusal.
 * @param {TheEngine | InWorker} engine
 * @param {Lines} lines
 * @param {DrillOptions} [options]
 * @param {AbortSignal} [signal]
 * @returns {AsyncGenerator<NumberedOutcome, void, void>}
 */
export async function* drillWithProgress(engine, lines, options = {}, signal) {
  const own = new Copies();
  try {
    const given = own.lines(lines);
    let number = 0;
    let quorums = 0n;
    let start = performance.now();
    for await (const outcome of engine.drill(given, options, signal)) {
      signal?.throwIfAborted();
      if (number === 0) quorums = await engine.quorums(given, signal);
      number++;
      yield { ...outcome, number, quorums };
      if (performance.now() - start < TURN_MILLISECONDS) continue;
      // After a long call, Node takes a timer before it looks at signals, so one turn isn't enough.
      for (let turn = 0; turn < 2; turn++) await new Promise((done) => setTimeout(done));
      start = performance.now();
    }
  } finally {
    own.clear();
  }
}
