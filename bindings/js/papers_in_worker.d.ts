/** @typedef {import("./types.js").Judgement} Judgement */
/** @typedef {import("./types.js").RecoverOptions} RecoverOptions */
/** @typedef {import("./types.js").Recovered} Recovered */
/** @typedef {import("./types.js").Text} Text */
/** @typedef {(name: string, given: unknown[], signal: AbortSignal | undefined) => Promise<any>} Ask */
/**
 * `Papers` whose engine is in a worker: each method that asks it returns a promise, and takes an `AbortSignal` as its last argument. `papers`
 * of `InWorker` gives one.
 *
 *     const papers = new InWorker().papers();
 *     for await (const told of papers.collect(lines)) console.log(told);
 *     if (papers.enough) ({ secret } = await papers.recover({ passphrase: "TREZOR" }));
 *
 * What it was asked for is done one after the other. The papers are kept on this side, so they stay if the worker ends.
 */
export class PapersInWorker {
    /** @param {Ask} ask */
    constructor(ask: Ask);
    /**
     * @param {Text} mnemonic
     * @param {AbortSignal} [signal]
     * @returns {Promise<Judgement>}
     */
    add(mnemonic: Text, signal?: AbortSignal | undefined): Promise<Judgement>;
    /**
     * @param {Text} mnemonic
     * @param {AbortSignal} [signal]
     * @returns {Promise<string>}
     */
    addAndTell(mnemonic: Text, signal?: AbortSignal | undefined): Promise<string>;
    /**
     * @param {Iterable<Text> | AsyncIterable<Text>} mnemonics
     * @param {AbortSignal} [signal]
     * @returns {AsyncGenerator<string, void, void>}
     */
    collect(mnemonics: Iterable<Text> | AsyncIterable<Text>, signal?: AbortSignal | undefined): AsyncGenerator<string, void, void>;
    /**
     * @param {number} id
     * @param {string} name
     * @param {AbortSignal} [signal]
     * @returns {Promise<boolean>}
     */
    remove(id: number, name: string, signal?: AbortSignal | undefined): Promise<boolean>;
    /** @returns {boolean} */
    get enough(): boolean;
    /**
     * @param {RecoverOptions} [options]
     * @param {AbortSignal} [signal]
     * @returns {Promise<Recovered>}
     */
    recover(options?: import("./types.js").RecoverOptions | undefined, signal?: AbortSignal | undefined): Promise<Recovered>;
    /** @returns {number[]} */
    get ids(): number[];
    /**
     * @param {number} id
     * @returns {Uint8Array[]}
     */
    lines(id: number): Uint8Array[];
    /** Clears all lines, and forgets them, once what was asked for before is done. */
    clear(): Promise<void>;
    #private;
}
export type Judgement = import("./types.js").Judgement;
export type RecoverOptions = import("./types.js").RecoverOptions;
export type Recovered = import("./types.js").Recovered;
export type Text = import("./types.js").Text;
export type Ask = (name: string, given: unknown[], signal: AbortSignal | undefined) => Promise<any>;
