/** What the engine answers if it refuses the arguments of a call. */

/**
 * In the `mismatch` of an outcome and the details of `Code.DIGEST_MISMATCH`, this number stands for the digest of the group
 * shares, to which the members of the groups combine.
 */
export const OF_GROUPS = 16;

/**
 * The codes of an answer, and what each means.
 * @type {Readonly<import("./types.js").Codes>}
 */
export const Code = Object.freeze({
  DONE: 0,
  TOO_SHORT: 1,
  OUT_OF_RANGE: 2,
  HIGH_EXPONENT: 3,
  NO_MEMORY: 4,
  UNKNOWN_WORD: 11,
  WORD_COUNT: 12,
  BAD_CHECKSUM: 13,
  BAD_PADDING: 14,
  GROUP_THRESHOLD: 15,
  NO_MNEMONIC: 17,
  WRONG_WORD: 18,
  UNREADABLE_WORDS: 19,
  OTHER_IDENTIFIER: 21,
  OTHER_EXTENDABLE: 22,
  OTHER_EXPONENT: 23,
  OTHER_GROUP_THRESHOLD: 24,
  OTHER_GROUP_COUNT: 25,
  OTHER_LENGTH: 26,
  OTHER_MEMBER_THRESHOLD: 27,
  CONFLICTING_SHARE: 28,
  NO_SHARES: 29,
  INCOMPLETE: 30,
  BAD_PLAN: 31,
  PLAN_GROUPS: 32,
  PLAN_MEMBERS: 33,
  ONE_OF_MANY: 34,
  PASSPHRASE: 41,
  SECRET_LENGTH: 42,
  RANDOM_LENGTH: 43,
  BAD_FINGERPRINT: 44,
  DIGEST_MISMATCH: 51,
  OTHER_SECRET: 52,
  BAD_CURSOR: 61,
  NOT_A_QUORUM: 62,
  BAD_NAMES: 63,
  NOT_IN_PLAN: 64,
  OTHER_PLAN: 65,
  UNDETERMINED: 66,
  NOT_EXTENDABLE: 67,
  SAME_IDENTIFIER: 68,
  LINE_TOO_LONG: 71,
});

/** The engine refuses the arguments of a call. No field of it holds a secret, a passphrase or a word of a mnemonic. A clone keeps them in `cause`. */
export class Refusal extends Error {
  /**
   * @param {number} code
   * @param {number | null} line
   * @param {[number, number]} details
   * @param {string} text
   */
  constructor(code, line, details, text) {
    super(`${line === null ? "" : `line ${line}: `}${code} ${text}`, { cause: { code, line, details, text } });
    this.name = "Refusal";
    /** The cause, one of `Code`. */
    this.code = code;
    /** The number of the refused line, counted from 1, or null. */
    this.line = line;
    /** Two numbers; `Codes` says for each code what they mean. */
    this.details = details;
    /** The cause in words. */
    this.text = text;
  }}
