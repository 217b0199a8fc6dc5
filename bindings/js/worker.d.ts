/** The engine in a worker of its own, which starts at the first call. Calls run one after the other. */
export class InWorker {
    /** @param {URL} [module] Where the module of the engine is, if it isn't beside the package's files. */
    constructor(module?: URL | undefined);
    /** Ends the worker, and with it what its memory holds. Unanswered calls fail with an `AbortError`. The next call starts another worker. */
    end(): void;
    /**
     * Returns papers that are judged, and from which a secret is recovered, in this worker.
     * @returns {PapersInWorker}
     */
    papers(): PapersInWorker;
    /**
     * @param {Text} plan
     * @param {Uint8Array} secret
     * @param {CreateOptions} [options]
     * @param {AbortSignal} [signal]
     * @returns {Promise<string[]>}
     */
    create(plan: Text, secret: Uint8Array, options?: import("./types.js").CreateOptions | undefined, signal?: AbortSignal | undefined): Promise<string[]>;
    /**
     * @param {Lines} lines
     * @param {RecoverOptions} [options]
     * @param {AbortSignal} [signal]
     * @returns {Promise<Uint8Array>}
     */
    recover(lines: Lines, options?: import("./types.js").RecoverOptions | undefined, signal?: AbortSignal | undefined): Promise<Uint8Array>;
    /**
     * @param {Lines} lines
     * @param {AbortSignal} [signal]
     * @returns {Promise<EncryptedSecret>}
     */
    encrypted(lines: Lines, signal?: AbortSignal | undefined): Promise<EncryptedSecret>;
    /**
     * @param {EncryptedSecret} encrypted
     * @param {DecryptOptions} [options]
     * @param {AbortSignal} [signal]
     * @returns {Promise<Uint8Array>}
     */
    decrypt(encrypted: EncryptedSecret, options?: import("./types.js").DecryptOptions | undefined, signal?: AbortSignal | undefined): Promise<Uint8Array>;
    /**
     * @param {EncryptedSecret} encrypted
     * @param {number} round
     * @param {Pick<DecryptOptions, "passphrase">} [options]
     * @param {AbortSignal} [signal]
     * @returns {Promise<Uint8Array>}
     */
    decryptRound(encrypted: EncryptedSecret, round: number, options?: Pick<import("./types.js").DecryptOptions, "passphrase"> | undefined, signal?: AbortSignal | undefined): Promise<Uint8Array>;
    /**
     * Yields null after each of the first three rounds, and then the secret, as `decryptRounds` of the engine does.
     * @param {EncryptedSecret} encrypted
     * @param {Pick<DecryptOptions, "passphrase">} [options]
     * @param {AbortSignal} [signal]
     * @returns {AsyncGenerator<Uint8Array | null, void, void>}
     */
    decryptRounds(encrypted: EncryptedSecret, options?: Pick<import("./types.js").DecryptOptions, "passphrase"> | undefined, signal?: AbortSignal | undefined): AsyncGenerator<Uint8Array | null, void, void>;
    /**
     * Yields what each quorum recovers, as `drill` of the engine does. The worker computes it in parts of about a fifth of a second.
     * @param {Lines} lines
     * @param {DrillOptions} [options]
     * @param {AbortSignal} [signal]
     * @returns {AsyncGenerator<Outcome, void, void>}
     */
    drill(lines: Lines, options?: import("./types.js").DrillOptions | undefined, signal?: AbortSignal | undefined): AsyncGenerator<Outcome, void, void>;
    /**
     * @param {Lines} lines
     * @param {AbortSignal} [signal]
     * @returns {Promise<Status>}
     */
    status(lines: Lines, signal?: AbortSignal | undefined): Promise<Status>;
    /**
     * @param {Lines} lines
     * @param {Text} mnemonic
     * @param {AbortSignal} [signal]
     * @returns {Promise<Judgement>}
     */
    judge(lines: Lines, mnemonic: Text, signal?: AbortSignal | undefined): Promise<Judgement>;
    /**
     * @param {Lines} lines
     * @param {AbortSignal} [signal]
     * @returns {Promise<bigint>}
     */
    quorums(lines: Lines, signal?: AbortSignal | undefined): Promise<bigint>;
    /**
     * @param {Text} plan
     * @param {Text} names
     * @param {Lines} lines
     * @param {AbortSignal} [signal]
     * @returns {Promise<string[]>}
     */
    reissue(plan: Text, names: Text, lines: Lines, signal?: AbortSignal | undefined): Promise<string[]>;
    /**
     * @param {Text} plan
     * @param {Lines} lines
     * @param {ResplitOptions} [options]
     * @param {AbortSignal} [signal]
     * @returns {Promise<string[]>}
     */
    resplit(plan: Text, lines: Lines, options?: import("./types.js").ResplitOptions | undefined, signal?: AbortSignal | undefined): Promise<string[]>;
    /**
     * @param {Text} plan
     * @param {EncryptedSecret} encrypted
     * @param {ResplitOptions} [options]
     * @param {AbortSignal} [signal]
     * @returns {Promise<string[]>}
     */
    createFromEncrypted(plan: Text, encrypted: EncryptedSecret, options?: import("./types.js").ResplitOptions | undefined, signal?: AbortSignal | undefined): Promise<string[]>;
    /**
     * @param {Text} line
     * @param {AbortSignal} [signal]
     * @returns {Promise<string[]>}
     */
    repair(line: Text, signal?: AbortSignal | undefined): Promise<string[]>;
    /**
     * @param {Text} mnemonic
     * @param {AbortSignal} [signal]
     * @returns {Promise<Share>}
     */
    parse(mnemonic: Text, signal?: AbortSignal | undefined): Promise<Share>;
    /**
     * @param {Uint8Array} secret
     * @param {AbortSignal} [signal]
     * @returns {Promise<string>}
     */
    fingerprint(secret: Uint8Array, signal?: AbortSignal | undefined): Promise<string>;
    /**
     * @param {Text} letters
     * @param {AbortSignal} [signal]
     * @returns {Promise<string[]>}
     */
    words(letters: Text, signal?: AbortSignal | undefined): Promise<string[]>;
    #private;
}
export type CreateOptions = import("./types.js").CreateOptions;
export type DecryptOptions = import("./types.js").DecryptOptions;
export type DrillOptions = import("./types.js").DrillOptions;
export type EncryptedSecret = import("./types.js").EncryptedSecret;
export type Judgement = import("./types.js").Judgement;
export type Lines = import("./types.js").Lines;
export type Outcome = import("./types.js").Outcome;
export type RecoverOptions = import("./types.js").RecoverOptions;
export type ResplitOptions = import("./types.js").ResplitOptions;
export type Share = import("./types.js").Share;
export type Status = import("./types.js").Status;
export type Text = import("./types.js").Text;
import { PapersInWorker } from "./papers_in_worker.js";
