/**
 * Compiles the module of the engine, and returns the engine.
 *
 *     const shamir = await load(await readFile("shamir32.wasm"));
 *
 * It takes both forms of the module. The form with 32-bit memory runs in every host that has BigInt.
 * @param {BufferSource | WebAssembly.Module} module The bytes of the module, or the compiled module.
 * @returns {Promise<Engine>}
 */
export function load(module: BufferSource | WebAssembly.Module): Promise<Engine>;
/** The greatest iteration exponent. */
export const EXPONENT_MAX: 15;
/** The engine. `load` gives one. */
export class Engine {
    /** @param {WebAssembly.Module} module */
    constructor(module: WebAssembly.Module);
    /**
     * Returns the version of the engine.
     * @returns {string}
     */
    version(): string;
    /**
     * Reads one mnemonic, which is a line, and returns its fields and its value. A line feed may end it.
     *
     *     shamir.parse(mnemonics[2]).memberIndex; // 2
     *
     * Throws a `Refusal` with one of the codes 11 to 15.
     * @param {Text} mnemonic
     * @returns {Share}
     */
    parse(mnemonic: Text): Share;
    /**
     * Returns how many random bytes `create` takes for a plan and a secret of `secretBytes` bytes.
     *
     *     shamir.randomNeeded("2of3", 16); // 14
     *
     * Throws a `Refusal` with one of the codes 31 to 34, or 42.
     * @param {Text} plan
     * @param {number} secretBytes
     * @returns {number}
     */
    randomNeeded(plan: Text, secretBytes: number): number;
    /**
     * Creates a backup of a secret, and returns its mnemonics in the order of groups and members.
     *
     *     const mnemonics = shamir.create("2of3", secret, { passphrase: "TREZOR" });
     *
     * `plan` is TofN for one group, or GT/T1ofN1,T2ofN2,.. for up to 16 groups. GT is the group threshold, each T is the member
     * threshold of a group, and each N is its number of members. Each number is from 1 to 16. T may be 1 only if N is 1.
     * `secret` has an even number of bytes, 16 to 128. Random bytes must be unpredictable, and no other backup may use them.
     *
     * The call takes 10,000 * 2^exponent iterations of PBKDF2, and twice as many for a secret of more than 64 bytes.
     *
     * Throws a `Refusal` with one of the codes 2, 31 to 34, or 41 to 43.
     * @param {Text} plan
     * @param {Uint8Array} secret
     * @param {CreateOptions} [options]
     * @returns {string[]}
     */
    create(plan: Text, secret: Uint8Array, options?: import("./types.js").CreateOptions | undefined): string[];
    /**
     * Creates a backup as `create` does, and returns the bytes of each mnemonic. The caller can clear them.
     * @param {Text} plan
     * @param {Uint8Array} secret
     * @param {CreateOptions} [options]
     * @returns {Uint8Array[]}
     */
    createBytes(plan: Text, secret: Uint8Array, options?: import("./types.js").CreateOptions | undefined): Uint8Array[];
    /**
     * Recovers the secret from the first quorum of mnemonics, in the order of `drill`, and tries no mnemonics beyond it.
     *
     *     const secret = shamir.recover(mnemonics.slice(1), { passphrase: "TREZOR" });
     *
     * Each line is a mnemonic, or a comment, or blank. A comment starts with #, after any spaces, tabs and carriage returns. A
     * line has at most 1,024 bytes without its line feed, even if it is a comment.
     *
     * If `expect` is given, and the secret has another fingerprint, the call is refused (52). Without `expect` a wrong passphrase
     * isn't detected: it gives another secret. An empty `expect` is refused (44).
     *
     * The exponent of the mnemonics determines how long the call takes: 10,000 * 2^exponent iterations of PBKDF2, and twice as
     * many for a secret of more than 64 bytes. If the mnemonics have a quorum, an exponent above `maxExponent` is refused before
     * any iteration (3).
     *
     * Throws a `Refusal` with one of the codes 3, 11 to 15, 21 to 30, 41, 44, 51, 52 or 71.
     * @param {Lines} lines
     * @param {RecoverOptions} [options]
     * @returns {Uint8Array}
     */
    recover(lines: Lines, options?: import("./types.js").RecoverOptions | undefined): Uint8Array;
    /**
     * Combines the first quorum of mnemonics, in the order of `drill`, to the encrypted secret, and returns it with its parameters.
     *
     *     const kept = shamir.encrypted(mnemonics.slice(1));
     *     const secret = shamir.decrypt(kept, { passphrase: "TREZOR" });
     *
     * `lines` is as for `recover`, which gives what `decrypt` gives of the result. The call needs no passphrase, and makes no
     * iterations. So a program can keep the encrypted secret in place of the mnemonics, and ask for the passphrase each time.
     *
     * Throws a `Refusal` with one of the codes 11 to 15, 21 to 30, 51 or 71.
     * @param {Lines} lines
     * @returns {EncryptedSecret}
     */
    encrypted(lines: Lines): EncryptedSecret;
    /**
     * Decrypts what `encrypted` gave, and returns the secret. An object with other fields, such as a share, throws a TypeError.
     *
     * `passphrase` and `expect` are as for `recover`. The call takes the iterations of `recover`, and no `maxExponent`: the exponent is
     * a field of the encrypted secret.
     *
     * Throws a `Refusal` with one of the codes 2 (a field is out of range), 41, 42, 44 or 52.
     * @param {EncryptedSecret} encrypted
     * @param {DecryptOptions} [options]
     * @returns {Uint8Array}
     */
    decrypt(encrypted: EncryptedSecret, options?: import("./types.js").DecryptOptions | undefined): Uint8Array;
    /**
     * Undoes one of the four rounds of the cipher, and returns the text.
     *
     * The rounds 3, 2, 1 and 0, in this order and each with the text of the one before as the value, give the secret that `decrypt`
     * gives. Each takes a quarter of its iterations. `decryptRounds` makes the four calls, and clears the texts between them.
     *
     * Throws a `Refusal` with one of the codes 2 (a field is out of range, or the round is above 3), 41 or 42.
     * @param {EncryptedSecret} encrypted
     * @param {number} round
     * @param {Pick<DecryptOptions, "passphrase">} [options]
     * @returns {Uint8Array}
     */
    decryptRound(encrypted: EncryptedSecret, round: number, options?: Pick<import("./types.js").DecryptOptions, "passphrase"> | undefined): Uint8Array;
    /**
     * Returns an iterator that decrypts what `encrypted` gave round by round, so that a program can show how far it is, and stop.
     *
     *     let secret = null;
     *     for (secret of shamir.decryptRounds(kept, { passphrase: "TREZOR" })) console.log(secret === null ? "not yet" : "done");
     *
     * It gives null after each of the first three rounds, and then the secret. No fingerprint is compared: compare that of the secret. The
     * arguments are copied at once. The copies and the texts between the rounds are cleared as the copies of `drill` are.
     *
     * Throws a `Refusal` as `decryptRound` does, at the first `next`.
     * @param {EncryptedSecret} encrypted
     * @param {Pick<DecryptOptions, "passphrase">} [options]
     * @returns {Generator<Uint8Array | null, void, void>}
     */
    decryptRounds(encrypted: EncryptedSecret, options?: Pick<import("./types.js").DecryptOptions, "passphrase"> | undefined): Generator<Uint8Array | null, void, void>;
    /**
     * Returns an iterator over what each quorum of mnemonics recovers, in ascending order of their names.
     *
     *     for (const outcome of shamir.drill(mnemonics, { passphrase: "TREZOR", fingerprints: true })) {
     *       const where = outcome.mismatch === OF_GROUPS ? "groups" : outcome.mismatch;
     *       console.log(outcome.names, outcome.fingerprint ?? `digest mismatch ${where}`);
     *     }
     *
     * `lines`, `passphrase` and `maxExponent` are as for `recover`. An empty `after` is refused (61). If `expect` is given, outcomes
     * say whether their secrets have this fingerprint, and no secret is copied. A digest mismatch and another secret are no refusals
     * here. The engine computes the outcomes in parts, which grow while they take less than a tenth of a second.
     *
     * The arguments are copied at once. The copies are cleared when the iterator ends or its `return` is called; a `for` loop
     * that is left early calls it. The engine gets the arguments at the first `next`, which then throws any refusal.
     *
     * Throws a `Refusal` with one of the codes 3, 11 to 15, 21 to 30, 41, 44, 61, 62 or 71.
     * @param {Lines} lines
     * @param {DrillOptions} [options]
     * @returns {Generator<Outcome, void, void>}
     */
    drill(lines: Lines, options?: import("./types.js").DrillOptions | undefined): Generator<Outcome, void, void>;
    /**
     * Returns how many members of each group are among mnemonics, and whether the mnemonics are enough for `recover`.
     *
     *     shamir.status(mnemonics.slice(1)).enough; // true
     *
     * `lines` is as for `recover`. A repeated mnemonic counts once. The call needs no passphrase, and decrypts nothing. If the
     * mnemonics have no quorum, the call throws no `Refusal` for that.
     *
     * Throws a `Refusal` with one of the codes 11 to 15, 21 to 29 or 71.
     * @param {Lines} lines
     * @returns {Status}
     */
    status(lines: Lines): Status;
    /**
     * Judges a mnemonic beside those that came before it: whether it can be taken, whether it is there already, and what its backup has
     * with it.
     *
     *     shamir.judge(mnemonics.slice(0, 1), mnemonics[1]).status.enough; // true
     *
     * `lines` is as for `recover`, but its mnemonics may be of several backups. Those with the same identifier are taken for those of one
     * backup. `mnemonic` is as for `parse`. The status is that of the lines with its identifier, and of itself. If the mnemonic is
     * refused, the refusal's `line` is null. `Papers` keeps the lines.
     *
     * Throws a `Refusal` with one of the codes 11 to 15, 22 to 28, or 71.
     * @param {Lines} lines
     * @param {Text} mnemonic
     * @returns {Judgement}
     */
    judge(lines: Lines, mnemonic: Text): Judgement;
    /**
     * Returns how many quorums mnemonics have, or 2^64 - 1 if they have more.
     *
     *     shamir.quorums(mnemonics); // 3n
     *
     * `lines` is as for `recover`. A repeated mnemonic counts once. The call needs no passphrase, and decrypts nothing. The number
     * is that of the outcomes of `drill` without `after`. If the mnemonics have no quorum, it is 0.
     *
     * Throws a `Refusal` with one of the codes 11 to 15, 21 to 29 or 71.
     * @param {Lines} lines
     * @returns {bigint}
     */
    quorums(lines: Lines): bigint;
    /**
     * Computes lost mnemonics of a backup from other mnemonics of it, and returns them in the order of `names`.
     *
     *     const [lost] = shamir.reissue("2of3", "0.0", mnemonics.slice(1)); // mnemonics[0]
     *
     * `plan` is the text of the plan of the backup, or of that plan with more members in some groups. The added members are new
     * members of this backup. `names` are the names of the wanted mnemonics, each once and in ascending order, joined by plus
     * signs, such as `0.1+2.0`. `lines` is as for `recover`. The call needs no passphrase, and decrypts nothing.
     *
     * This call is for mnemonics that were destroyed. If somebody else may have a lost mnemonic, create a new backup. If that
     * person may have a quorum, use a new secret too.
     *
     * Throws a `Refusal` with one of the codes 11 to 15, 21 to 29, 31 to 34, 51, 63 to 66 or 71.
     * @param {Text} plan
     * @param {Text} names
     * @param {Lines} lines
     * @returns {string[]}
     */
    reissue(plan: Text, names: Text, lines: Lines): string[];
    /**
     * Computes lost mnemonics as `reissue` does, and returns the bytes of each. The caller can clear them.
     * @param {Text} plan
     * @param {Text} names
     * @param {Lines} lines
     * @returns {Uint8Array[]}
     */
    reissueBytes(plan: Text, names: Text, lines: Lines): Uint8Array[];
    /**
     * Splits the encrypted secret of an extendable backup anew, by another plan, and returns the mnemonics of this new backup.
     *
     *     const other = shamir.resplit("3of5", mnemonics.slice(1));
     *     const same = shamir.recover(other.slice(2), { passphrase: "TREZOR" }); // the bytes of the secret
     *
     * `plan` is the plan of the new backup, as for `create`. `lines` are mnemonics of the old backup that are enough, as for
     * `recover`. The call needs no passphrase, and decrypts nothing. The new backup has the extendable flag and the exponent of the
     * old one. With each passphrase, it gives the secret that the old one gives with it.
     *
     * If random bytes are left out, the call draws them, and draws others if they give the identifier of the old backup. If they are
     * given, this is refused (68).
     *
     * The old mnemonics go on giving the secret until they are destroyed. If somebody may have a quorum of them, use a new secret
     * too.
     *
     * Throws a `Refusal` with one of the codes 11 to 15, 21 to 34, 43, 51, 67, 68 or 71.
     * @param {Text} plan
     * @param {Lines} lines
     * @param {ResplitOptions} [options]
     * @returns {string[]}
     */
    resplit(plan: Text, lines: Lines, options?: import("./types.js").ResplitOptions | undefined): string[];
    /**
     * Splits a backup anew as `resplit` does, and returns the bytes of each mnemonic. The caller can clear them.
     * @param {Text} plan
     * @param {Lines} lines
     * @param {ResplitOptions} [options]
     * @returns {Uint8Array[]}
     */
    resplitBytes(plan: Text, lines: Lines, options?: import("./types.js").ResplitOptions | undefined): Uint8Array[];
    /**
     * Creates a backup of the encrypted secret of an extendable backup, by a plan, and returns its mnemonics.
     *
     *     const renewed = shamir.createFromEncrypted("3of5", shamir.encrypted(mnemonics.slice(1)));
     *     const same = shamir.recover(renewed.slice(2), { passphrase: "TREZOR" }); // the bytes of the secret
     *
     * `encrypted` is as for `decrypt`. The call needs no passphrase, and decrypts nothing. With each passphrase, the new backup gives what
     * `decrypt` gives. `encrypted` and this call after it give what `resplit` gives. Random bytes are as for `resplit`.
     *
     * Throws a `Refusal` with one of the codes 2 (a field is out of range), 31 to 34, 42, 43, 67 or 68.
     * @param {Text} plan
     * @param {EncryptedSecret} encrypted
     * @param {ResplitOptions} [options]
     * @returns {string[]}
     */
    createFromEncrypted(plan: Text, encrypted: EncryptedSecret, options?: import("./types.js").ResplitOptions | undefined): string[];
    /**
     * Creates a backup as `createFromEncrypted` does, and returns the bytes of each mnemonic. The caller can clear them.
     * @param {Text} plan
     * @param {EncryptedSecret} encrypted
     * @param {ResplitOptions} [options]
     * @returns {Uint8Array[]}
     */
    createFromEncryptedBytes(plan: Text, encrypted: EncryptedSecret, options?: import("./types.js").ResplitOptions | undefined): Uint8Array[];
    /**
     * Returns the mnemonics that fit a line of which some words can't be read, in ascending order of their words' indices.
     *
     * The line is a list of marks, separated as words are. A word of the word list stands for itself. Letters followed by one `?`
     * stand for every word that begins with them, and `?` alone stands for any word. A place is open if its mark stands for more
     * than one word. At most two mnemonics fit, and two only if the second word is open.
     *
     * Each open place uses up one of the three words of the checksum. With three open places, a wrong word elsewhere isn't always
     * found, and the answer may be another mnemonic. So compare the answer with all that can be read.
     *
     * Throws a `Refusal` with one of the codes 11 to 15 or 17 to 19. For `Code.WRONG_WORD` the first detail is the position
     * of the wrong word, counted from 1, if just one word is wrong.
     * @param {Text} line
     * @returns {string[]}
     */
    repair(line: Text): string[];
    /**
     * Finds mnemonics as `repair` does, and returns the bytes of each. The caller can clear them.
     * @param {Text} line
     * @returns {Uint8Array[]}
     */
    repairBytes(line: Text): Uint8Array[];
    /**
     * Returns the fingerprint of a secret, by which its owner can recognise the secret without seeing it.
     *
     *     shamir.fingerprint(Uint8Array.from({ length: 16 }, (_, i) => i)); // "2282bae5"
     *
     * It is the first four bytes of the HMAC-SHA256 of the secret with the key `shamir fingerprint`, in eight lower-case
     * hexadecimal digits. Whoever has it can test guesses of the secret with it.
     *
     * Throws a `Refusal` with the code 42.
     * @param {Uint8Array} secret
     * @returns {string}
     */
    fingerprint(secret: Uint8Array): string;
    /**
     * Returns the words of the word list that begin with these letters, in the order of the list. Capital letters count as small
     * ones. If there are no letters, these are all 1,024 words.
     *
     *     shamir.words("aca"); // ["academic"]
     *
     * @param {Text} letters
     * @returns {string[]}
     */
    words(letters: Text): string[];
    /**
     * Returns the text of a refusal, as its field `text` has it, from its code and its details.
     *
     *     shamir.text({ code: Code.UNKNOWN_WORD, details: [3, 0] }); // "unknown word 3"
     *
     * If no call of the engine gives this code, the text is "unknown answer".
     * @param {{ readonly code: number, readonly details: readonly [number, number] }} refusal
     * @returns {string}
     */
    text(refusal: {
        readonly code: number;
        readonly details: readonly [number, number];
    }): string;
    #private;
}
export type CreateOptions = import("./types.js").CreateOptions;
export type DecryptOptions = import("./types.js").DecryptOptions;
export type DrillOptions = import("./types.js").DrillOptions;
export type EncryptedSecret = import("./types.js").EncryptedSecret;
export type GroupStatus = import("./types.js").GroupStatus;
export type Judgement = import("./types.js").Judgement;
export type Lines = import("./types.js").Lines;
export type Outcome = import("./types.js").Outcome;
export type RecoverOptions = import("./types.js").RecoverOptions;
export type ResplitOptions = import("./types.js").ResplitOptions;
export type Share = import("./types.js").Share;
export type ShareFields = import("./types.js").ShareFields;
export type Status = import("./types.js").Status;
export type Text = import("./types.js").Text;
export { Code, OF_GROUPS, Refusal } from "./refusal.js";
