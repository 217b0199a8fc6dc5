/**
 * Yields the outcomes of `drill` of the engine, each with its `number`, from 1, and with what `quorums` of the engine counts.
 *
 *     for await (const { names, number, quorums } of drillWithProgress(shamir, mnemonics, { passphrase: "TREZOR" })) {
 *       console.log(`${number} of ${quorums}: ${names}`);
 *       if (stopped) break;
 *     }
 *
 * Between outcomes, other tasks of the host run, such as one that stops the drill. While the engine decrypts, they run only if it is in a
 * worker: give an `InWorker` as the engine. The arguments are looked at at the first `next`, which then throws any refusal.
 * @param {TheEngine | InWorker} engine
 * @param {Lines} lines
 * @param {DrillOptions} [options]
 * @param {AbortSignal} [signal]
 * @returns {AsyncGenerator<NumberedOutcome, void, void>}
 */
export function drillWithProgress(engine: TheEngine | InWorker, lines: Lines, options?: import("./types.js").DrillOptions | undefined, signal?: AbortSignal | undefined): AsyncGenerator<NumberedOutcome, void, void>;
export type TheEngine = import("./shamir.js").Engine;
export type InWorker = import("./worker.js").InWorker;
export type DrillOptions = import("./types.js").DrillOptions;
export type Lines = import("./types.js").Lines;
export type Outcome = import("./types.js").Outcome;
export type NumberedOutcome = Outcome & {
    number: number;
    quorums: bigint;
};
