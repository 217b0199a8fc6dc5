/**
 * Returns what to tell of a mnemonic that was added: the text of its status, after a line `again` if it was here already.
 * @param {Judgement} found
 * @returns {string}
 */
export function told({ again, status }: Judgement): string;
/**
 * Recovers from the papers of a backup, as `recover` of `Papers` does.
 * @param {TheEngine} engine
 * @param {Pick<Paper, "name" | "line">[]} papers
 * @param {RecoverOptions} options
 * @returns {Recovered}
 */
export function recovered(engine: TheEngine, papers: Pick<Paper, "name" | "line">[], options: RecoverOptions): Recovered;
/** The papers that are here, and the backup of the one that came last. Whoever keeps them tells it what the engine answered. */
export class Kept {
    isEnough: boolean;
    /** All lines, in the order in which they came. */
    get lines(): Uint8Array[];
    get ids(): number[];
    /** The papers of the backup of the mnemonic that came last. */
    get ofLast(): Paper[];
    /** @param {number} id */
    of(id: number): Uint8Array[];
    /**
     * @param {Judgement} found
     * @param {Uint8Array | null} line The spelling of a mnemonic that wasn't here.
     */
    take({ share: { id, groupIndex, memberIndex }, status }: Judgement, line: Uint8Array | null): void;
    /**
     * Returns the lines that the backup of the last mnemonic has without a paper, or null if that paper isn't here.
     * @param {number} id
     * @param {string} name
     */
    without(id: number, name: string): Uint8Array[] | null;
    /**
     * @param {number} id
     * @param {string} name
     * @param {boolean} isEnough What is left of the backup of the last mnemonic.
     */
    remove(id: number, name: string, isEnough: boolean): void;
    clear(): void;
    #private;
}
/**
 * Mnemonics as they come, one after the other, of one backup or of several. The engine decides about each.
 *
 *     const papers = new Papers(shamir);
 *     for await (const told of papers.collect(lines)) console.log(told);
 *     if (papers.enough) ({ secret } = papers.recover({ passphrase: "TREZOR" }));
 *
 * If the first ones are of another backup than the rest, they stay apart from it. The lines are kept as bytes, which `clear` clears.
 */
export class Papers {
    /** @param {TheEngine} engine */
    constructor(engine: TheEngine);
    /**
     * Judges a mnemonic beside all that are here, as `judge` of the engine does, and keeps it unless it is here already.
     *
     * It is kept in lower-case words with single spaces. If it is refused, a `Refusal` is thrown, and nothing is kept.
     * @param {Text} mnemonic
     * @returns {Judgement}
     */
    add(mnemonic: Text): Judgement;
    /**
     * Adds a mnemonic as `add` does, and returns what to tell of it: the text of its status, after a line `again` if it is here already, or
     * the message of the refusal, which isn't thrown.
     * @param {Text} mnemonic
     * @returns {string}
     */
    addAndTell(mnemonic: Text): string;
    /**
     * Adds mnemonics as they come until the backup of one has enough, and yields what `addAndTell` returns for each.
     * @param {Iterable<Text> | AsyncIterable<Text>} mnemonics
     * @returns {AsyncGenerator<string, void, void>}
     */
    collect(mnemonics: Iterable<Text> | AsyncIterable<Text>): AsyncGenerator<string, void, void>;
    /**
     * Takes out the mnemonic with this name, such as `0.1`, in the backup with an identifier, clears it, and returns whether it was here.
     * So a forged one can make room for the right one, which is refused with 28 beside it.
     * @param {number} id
     * @param {string} name
     * @returns {boolean}
     */
    remove(id: number, name: string): boolean;
    /**
     * Whether the backup of the mnemonic that came last has enough for a recovery. A mnemonic that is refused changes nothing.
     * @returns {boolean}
     */
    get enough(): boolean;
    /**
     * Recovers the secret of the backup of the mnemonic that came last, and returns what that shows of its papers.
     *
     * If a digest of the first quorum doesn't match, the other quorums are tried too, but at most 65,536, and the secret is that of the first
     * whose digests match. So one wrong paper doesn't hide what the others give. If none matches, the refusal is that of the first quorum
     * (51). Otherwise it throws what `recover` of the engine throws.
     * @param {RecoverOptions} [options]
     * @returns {Recovered}
     */
    recover(options?: import("./types.js").RecoverOptions | undefined): Recovered;
    /**
     * The identifiers of the backups, in the order in which they came.
     * @returns {number[]}
     */
    get ids(): number[];
    /**
     * Returns the mnemonics of the backup with an identifier, in the order in which they came. Calls that take lines take them. They are
     * the object's own: `clear` clears them.
     * @param {number} id
     * @returns {Uint8Array[]}
     */
    lines(id: number): Uint8Array[];
    /** Clears all lines, and forgets them. */
    clear(): void;
    #private;
}
export type TheEngine = import("./shamir.js").Engine;
export type Judgement = import("./types.js").Judgement;
export type RecoverOptions = import("./types.js").RecoverOptions;
export type Recovered = import("./types.js").Recovered;
export type Text = import("./types.js").Text;
export type Paper = {
    id: number;
    name: string;
    line: Uint8Array;
};
