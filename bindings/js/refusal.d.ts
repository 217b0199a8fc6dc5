/** What the engine answers if it refuses the arguments of a call. */
/**
 * In the `mismatch` of an outcome and the details of `Code.DIGEST_MISMATCH`, this number stands for the digest of the group
 * shares, to which the members of the groups combine.
 */
export const OF_GROUPS: 16;
/**
 * The codes of an answer, and what each means.
 * @type {Readonly<import("./types.js").Codes>}
 */
export const Code: Readonly<import("./types.js").Codes>;
/** The engine refuses the arguments of a call. No field of it holds a secret, a passphrase or a word of a mnemonic. A clone keeps them in `cause`. */
export class Refusal extends Error {
    /**
     * @param {number} code
     * @param {number | null} line
     * @param {[number, number]} details
     * @param {string} text
     */
    constructor(code: number, line: number | null, details: [number, number], text: string);
    /** The cause, one of `Code`. */
    code: number;
    /** The number of the refused line, counted from 1, or null. */
    line: number | null;
    /** Two numbers; `Codes` says for each code what they mean. */
    details: [number, number];
    /** The cause in words. */
    text: string;
}
