/**
 * SLIP-0039 backups of a master secret, by the engine of `shamir` compiled to WebAssembly.
 *
 *     import { readFile } from "node:fs/promises";
 *     import { load } from "./shamir.js";
 *
 *     const shamir = await load(await readFile("shamir32.wasm"));
 *     const secret = crypto.getRandomValues(new Uint8Array(16));
 *     const mnemonics = shamir.create("2of3", secret, { passphrase: "TREZOR" });
 *     const recovered = shamir.recover(mnemonics.slice(1), { passphrase: "TREZOR" }); // the bytes of the secret
 *
 * A backup consists of mnemonics, which are lines of words. Each mnemonic is a member of a group. Groups and members are
 * numbered from 0, and the name of a mnemonic has both numbers: 0.2 is member 2 of group 0. Names are ordered by group, and
 * then by member, as numbers: 0.2 comes before 0.10.
 *
 * A group is complete if the number of its members at hand is at least its member threshold. Mnemonics are enough if the
 * number of complete groups is at least the group threshold. A quorum is a minimal set of mnemonics that is enough.
 *
 * Each method passes its arguments to the engine, and throws a `Refusal` if the engine refuses them. A text is a string, which
 * is encoded as UTF-8, or a Uint8Array. A secret and random bytes are a Uint8Array. Another type, an option that the call
 * doesn't know, options that are inherited, two options that can't stand together, and an array whose buffer was transferred throw a
 * TypeError. A number that isn't whole or doesn't fit the engine's type, a string that UTF-8 can't encode, and a line feed inside a
 * line of a list throw a RangeError. If random bytes are left out and the host has no `crypto`, `create`, `resplit` and
 * `createFromEncrypted` throw an Error.
 *
 * Arguments are copied into the memory of the module. After each call, also after a refusal, everything that the call may have
 * written there is cleared, and so are the copies of the arguments. If a call traps, the whole memory is cleared. The next call
 * then uses a new instance of the module, as it does after one that needed more than 4 MiB. JavaScript can't clear strings. So if no
 * secret may stay in memory, pass texts as Uint8Array, use `createBytes`, `reissueBytes`, `resplitBytes`, `createFromEncryptedBytes`
 * and `repairBytes`, and clear these arrays after use.
 */
import { ANSWER_BYTES, Calls, Room, Struct } from "./calls.js";
import { Copies, copied, flag, known, wholeNumber, withCopies } from "./copies.js";
import { FIRST_ROOM, decoded, groupStatus, linesOf, nextRoom, outcome, taken } from "./outputs.js";
import { Code, Refusal } from "./refusal.js";

export { Code, OF_GROUPS, Refusal } from "./refusal.js";

/** The greatest iteration exponent. */
export const EXPONENT_MAX = 15;

/** @typedef {import("./types.js").CreateOptions} CreateOptions */
/** @typedef {import("./types.js").DecryptOptions} DecryptOptions */
/** @typedef {import("./types.js").DrillOptions} DrillOptions */
/** @typedef {import("./types.js").EncryptedSecret} EncryptedSecret */
/** @typedef {import("./types.js").GroupStatus} GroupStatus */
/** @typedef {import("./types.js").Judgement} Judgement */
/** @typedef {import("./types.js").Lines} Lines */
/** @typedef {import("./types.js").Outcome} Outcome */
/** @typedef {import("./types.js").RecoverOptions} RecoverOptions */
/** @typedef {import("./types.js").ResplitOptions} ResplitOptions */
/** @typedef {import("./types.js").Share} Share */
/** @typedef {import("./types.js").ShareFields} ShareFields */
/** @typedef {import("./types.js").Status} Status */
/** @typedef {import("./types.js").Text} Text */

// An output of this length is enough for each call. The names are those of shamir.h.
const SECRET_BYTES_MAX = 128;
const MNEMONICS_BYTES_MAX = 253440;
const STATUS_BYTES_MAX = 1638;
const FINGERPRINT_BYTES_MAX = 8;
const TEXT_BYTES_MAX = 64;
const WORDS_BYTES_MAX = 7231;
const REPAIRED_BYTES_MAX = 1980;
const FORM_DIGITS = 0;
const FORM_FINGERPRINTS = 1;
const FORM_EXPECTED = 2;

const SHARE_BYTES = 10;
// The fields of the share, and then whether it is there already.
const JUDGEMENT_BYTES = 12;
const PARAMETERS_BYTES = 4;
const NUMBER_MAX = 2 ** 32 - 1;
// `resplit` draws random bytes so often at most. One draw in 32,768 gives the identifier of the old backup.
const DRAWS = 10;
const MORE = "more after ";
// Each version that begins so has the calls of this package.
const VERSION = "1.";

/**
 * Returns a text that may be left out. For the engine an empty text is one that was left out. So one that was given, and is empty,
 * becomes a plus sign, which the engine refuses in its place.
 * @param {Copies} own
 * @param {Text | undefined} text
 * @param {string} what
 */
function textOrNone(own, text, what) {
  const copy = own.text(text === undefined ? "" : text, what);
  return text === undefined || copy.length > 0 ? copy : own.text("+", what);
}

/**
 * Returns the struct of the parameters of an encrypted secret, which has two bytes for the identifier.
 * @param {EncryptedSecret} encrypted
 */
function parametersOf(encrypted) {
  const { id, extendable, exponent } = known(encrypted, ["id", "extendable", "exponent", "value"], "the fields of an encrypted secret");
  const whole = wholeNumber(id, "the identifier", 2 ** 16 - 1);
  return new Struct(Uint8Array.of(whole & 255, whole >> 8, Number(flag(extendable, "extendable")), wholeNumber(exponent, "the exponent", 255)));
}

/**
 * Returns the fields of the struct of a share.
 * @param {Uint8Array} bytes
 * @returns {ShareFields}
 */
function fieldsOf(bytes) {
  const [low, high, extendable, exponent, groupIndex, groupThreshold, groupCount, memberIndex, memberThreshold] = bytes;
  return { id: low + 256 * high, extendable: extendable > 0, exponent, groupIndex, groupThreshold, groupCount, memberIndex, memberThreshold };
}

/**
 * Reads the text of a status.
 * @param {import("./calls.js").Answer} answer
 * @returns {Status}
 */
function statusOf({ output, first, second }) {
  const [head, ...rows] = linesOf(output);
  const text = [head, ...rows].map(decoded).join("\n");
  return { complete: first, required: second, enough: first >= second, groups: rows.map(groupStatus), text };
}

/** The engine. `load` gives one. */
export class Engine {
  #calls;

  /** @param {WebAssembly.Module} module */
  constructor(module) {
    this.#calls = new Calls(module);
    const version = this.version();
    if (!version.startsWith(VERSION)) throw new TypeError(`this module has version ${version} of the engine, and this package needs ${VERSION}x`);
  }

  /**
   * Returns the version of the engine.
   * @returns {string}
   */
  version() {
    return decoded(this.#output("shamir_version", [], TEXT_BYTES_MAX));
  }

  /**
   * Reads one mnemonic, which is a line, and returns its fields and its value. A line feed may end it.
   *
   *     shamir.parse(mnemonics[2]).memberIndex; // 2
   *
   * Throws a `Refusal` with one of the codes 11 to 15.
   * @param {Text} mnemonic
   * @returns {Share}
   */
  parse(mnemonic) {
    return withCopies((own) => {
      const fields = new Struct(new Uint8Array(SHARE_BYTES));
      const value = this.#output("shamir_parse", [own.line(mnemonic, "the mnemonic"), fields], SECRET_BYTES_MAX);
      return { ...fieldsOf(fields.bytes), value };
    });
  }

  /**
   * Returns how many random bytes `create` takes for a plan and a secret of `secretBytes` bytes.
   *
   *     shamir.randomNeeded("2of3", 16); // 14
   *
   * Throws a `Refusal` with one of the codes 31 to 34, or 42.
   * @param {Text} plan
   * @param {number} secretBytes
   * @returns {number}
   */
  randomNeeded(plan, secretBytes) {
    const length = BigInt(wholeNumber(secretBytes, "secretBytes", Number.MAX_SAFE_INTEGER));
    return withCopies((own) => this.#checked("shamir_random_needed", [own.text(plan, "the plan"), length]).first);
  }

  /**
   * Creates a backup of a secret, and returns its mnemonics in the order of groups and members.
   *
   *     const mnemonics = shamir.create("2of3", secret, { passphrase: "TREZOR" });
   *
   * `plan` is TofN for one group, or GT/T1ofN1,T2ofN2,.. for up to 16 groups. GT is the group threshold, each T is the member
   * threshold of a group, and each N is its number of members. Each number is from 1 to 16. T may be 1 only if N is 1.
   * `secret` has an even number of bytes, 16 to 128. Random bytes must be unpredictable, and no other backup may use them.
   *
   * The call takes 10,000 * 2^exponent iterations of PBKDF2, and twice as many for a secret of more than 64 bytes.
   *
   * Throws a `Refusal` with one of the codes 2, 31 to 34, or 41 to 43.
   * @param {Text} plan
   * @param {Uint8Array} secret
   * @param {CreateOptions} [options]
   * @returns {string[]}
   */
  create(plan, secret, options = {}) {
    return this.createBytes(plan, secret, options).map(taken);
  }

  /**
   * Creates a backup as `create` does, and returns the bytes of each mnemonic. The caller can clear them.
   * @param {Text} plan
   * @param {Uint8Array} secret
   * @param {CreateOptions} [options]
   * @returns {Uint8Array[]}
   */
  createBytes(plan, secret, options = {}) {
    const { passphrase = "", exponent = 1, extendable = true, random } = known(options, ["passphrase", "exponent", "extendable", "random"]);
    const numbers = [wholeNumber(exponent, "the exponent", NUMBER_MAX), Number(flag(extendable, "extendable"))];
    return withCopies((own) => {
      const given = [own.text(plan, "the plan"), own.data(secret, "the secret"), own.text(passphrase, "the passphrase")];
      const bytes = random === undefined ? this.#drawnFor(own, given[0], given[1].length) : own.data(random, "random");
      return this.#lines("shamir_create", [...given, ...numbers, bytes], MNEMONICS_BYTES_MAX);
    });
  }

  /**
   * Recovers the secret from the first quorum of mnemonics, in the order of `drill`, and tries no mnemonics beyond it.
   *
   *     const secret = shamir.recover(mnemonics.slice(1), { passphrase: "TREZOR" });
   *
   * Each line is a mnemonic, or a comment, or blank. A comment starts with #, after any spaces, tabs and carriage returns. A
   * line has at most 1,024 bytes without its line feed, even if it is a comment.
   *
   * If `expect` is given, and the secret has another fingerprint, the call is refused (52). Without `expect` a wrong passphrase
   * isn't detected: it gives another secret. An empty `expect` is refused (44).
   *
   * The exponent of the mnemonics determines how long the call takes: 10,000 * 2^exponent iterations of PBKDF2, and twice as
   * many for a secret of more than 64 bytes. If the mnemonics have a quorum, an exponent above `maxExponent` is refused before
   * any iteration (3).
   *
   * Throws a `Refusal` with one of the codes 3, 11 to 15, 21 to 30, 41, 44, 51, 52 or 71.
   * @param {Lines} lines
   * @param {RecoverOptions} [options]
   * @returns {Uint8Array}
   */
  recover(lines, options = {}) {
    const { passphrase = "", maxExponent = EXPONENT_MAX, expect } = known(options, ["passphrase", "maxExponent", "expect"]);
    const most = wholeNumber(maxExponent, "maxExponent", NUMBER_MAX);
    return withCopies((own) => {
      const given = [own.lines(lines), own.text(passphrase, "the passphrase"), most, textOrNone(own, expect, "expect")];
      return this.#output("shamir_recover", given, SECRET_BYTES_MAX);
    });
  }

  /**
   * Combines the first quorum of mnemonics, in the order of `drill`, to the encrypted secret, and returns it with its parameters.
   *
   *     const kept = shamir.encrypted(mnemonics.slice(1));
   *     const secret = shamir.decrypt(kept, { passphrase: "TREZOR" });
   *
   * `lines` is as for `recover`, which gives what `decrypt` gives of the result. The call needs no passphrase, and makes no
   * iterations. So a program can keep the encrypted secret in place of the mnemonics, and ask for the passphrase each time.
   *
   * Throws a `Refusal` with one of the codes 11 to 15, 21 to 30, 51 or 71.
   * @param {Lines} lines
   * @returns {EncryptedSecret}
   */
  encrypted(lines) {
    return withCopies((own) => {
      const found = new Struct(new Uint8Array(PARAMETERS_BYTES));
      const value = this.#output("shamir_encrypted", [own.lines(lines), found], SECRET_BYTES_MAX);
      const [low, high, extendable, exponent] = found.bytes;
      return { id: low + 256 * high, extendable: extendable > 0, exponent, value };
    });
  }

  /**
   * Decrypts what `encrypted` gave, and returns the secret. An object with other fields, such as a share, throws a TypeError.
   *
   * `passphrase` and `expect` are as for `recover`. The call takes the iterations of `recover`, and no `maxExponent`: the exponent is
   * a field of the encrypted secret.
   *
   * Throws a `Refusal` with one of the codes 2 (a field is out of range), 41, 42, 44 or 52.
   * @param {EncryptedSecret} encrypted
   * @param {DecryptOptions} [options]
   * @returns {Uint8Array}
   */
  decrypt(encrypted, options = {}) {
    const { passphrase = "", expect } = known(options, ["passphrase", "expect"]);
    const parameters = parametersOf(encrypted);
    return withCopies((own) => {
      const given = [own.data(encrypted.value, "the value"), own.text(passphrase, "the passphrase"), textOrNone(own, expect, "expect")];
      return this.#output("shamir_decrypt", [parameters, ...given], SECRET_BYTES_MAX);
    });
  }

  /**
   * Undoes one of the four rounds of the cipher, and returns the text.
   *
   * The rounds 3, 2, 1 and 0, in this order and each with the text of the one before as the value, give the secret that `decrypt`
   * gives. Each takes a quarter of its iterations. `decryptRounds` makes the four calls, and clears the texts between them.
   *
   * Throws a `Refusal` with one of the codes 2 (a field is out of range, or the round is above 3), 41 or 42.
   * @param {EncryptedSecret} encrypted
   * @param {number} round
   * @param {Pick<DecryptOptions, "passphrase">} [options]
   * @returns {Uint8Array}
   */
  decryptRound(encrypted, round, options = {}) {
    const { passphrase = "" } = known(options, ["passphrase"]);
    const parameters = parametersOf(encrypted);
    const number = wholeNumber(round, "the round", 255);
    return withCopies((own) => {
      const given = [own.data(encrypted.value, "the value"), own.text(passphrase, "the passphrase")];
      return this.#output("shamir_decrypt_round", [parameters, number, ...given], SECRET_BYTES_MAX);
    });
  }

  /**
   * Returns an iterator that decrypts what `encrypted` gave round by round, so that a program can show how far it is, and stop.
   *
   *     let secret = null;
   *     for (secret of shamir.decryptRounds(kept, { passphrase: "TREZOR" })) console.log(secret === null ? "not yet" : "done");
   *
   * It gives null after each of the first three rounds, and then the secret. No fingerprint is compared: compare that of the secret. The
   * arguments are copied at once. The copies and the texts between the rounds are cleared as the copies of `drill` are.
   *
   * Throws a `Refusal` as `decryptRound` does, at the first `next`.
   * @param {EncryptedSecret} encrypted
   * @param {Pick<DecryptOptions, "passphrase">} [options]
   * @returns {Generator<Uint8Array | null, void, void>}
   */
  decryptRounds(encrypted, options = {}) {
    const { passphrase = "" } = known(options, ["passphrase"]);
    const parameters = parametersOf(encrypted);
    const own = new Copies();
    try {
      const rounds = this.#rounds(own, parameters, own.data(encrypted.value, "the value"), own.text(passphrase, "the passphrase"));
      rounds.next();
      return rounds;
    } catch (error) {
      own.clear();
      throw error;
    }
  }

  /**
   * Returns an iterator over what each quorum of mnemonics recovers, in ascending order of their names.
   *
   *     for (const outcome of shamir.drill(mnemonics, { passphrase: "TREZOR", fingerprints: true })) {
   *       const where = outcome.mismatch === OF_GROUPS ? "groups" : outcome.mismatch;
   *       console.log(outcome.names, outcome.fingerprint ?? `digest mismatch ${where}`);
   *     }
   *
   * `lines`, `passphrase` and `maxExponent` are as for `recover`. An empty `after` is refused (61). If `expect` is given, outcomes
   * say whether their secrets have this fingerprint, and no secret is copied. A digest mismatch and another secret are no refusals
   * here. The engine computes the outcomes in parts, which grow while they take less than a tenth of a second.
   *
   * The arguments are copied at once. The copies are cleared when the iterator ends or its `return` is called; a `for` loop
   * that is left early calls it. The engine gets the arguments at the first `next`, which then throws any refusal.
   *
   * Throws a `Refusal` with one of the codes 3, 11 to 15, 21 to 30, 41, 44, 61, 62 or 71.
   * @param {Lines} lines
   * @param {DrillOptions} [options]
   * @returns {Generator<Outcome, void, void>}
   */
  drill(lines, options = {}) {
    const names = /** @type {(keyof DrillOptions)[]} */ (["passphrase", "maxExponent", "after", "fingerprints", "expect"]);
    const { passphrase = "", maxExponent = EXPONENT_MAX, after, fingerprints = false, expect } = known(options, names);
    const most = wholeNumber(maxExponent, "maxExponent", NUMBER_MAX);
    const isOfFingerprints = flag(fingerprints, "fingerprints");
    if (isOfFingerprints && expect !== undefined) throw new TypeError("fingerprints and expect can't be given together");
    const form = isOfFingerprints ? FORM_FINGERPRINTS : expect === undefined ? FORM_DIGITS : FORM_EXPECTED;
    const own = new Copies();
    try {
      const given = [own.lines(lines), own.text(passphrase, "the passphrase"), most];
      const outcomes = this.#outcomes(own, given, textOrNone(own, after, "after"), [form, textOrNone(own, expect, "expect")]);
      outcomes.next();
      return /** @type {Generator<Outcome, void, void>} */ (outcomes);
    } catch (error) {
      own.clear();
      throw error;
    }
  }

  /**
   * Returns how many members of each group are among mnemonics, and whether the mnemonics are enough for `recover`.
   *
   *     shamir.status(mnemonics.slice(1)).enough; // true
   *
   * `lines` is as for `recover`. A repeated mnemonic counts once. The call needs no passphrase, and decrypts nothing. If the
   * mnemonics have no quorum, the call throws no `Refusal` for that.
   *
   * Throws a `Refusal` with one of the codes 11 to 15, 21 to 29 or 71.
   * @param {Lines} lines
   * @returns {Status}
   */
  status(lines) {
    return withCopies((own) => {
      const answer = this.#checked("shamir_status", [own.lines(lines), new Room(STATUS_BYTES_MAX)]);
      own.keep(answer.output);
      return statusOf(answer);
    });
  }

  /**
   * Judges a mnemonic beside those that came before it: whether it can be taken, whether it is there already, and what its backup has
   * with it.
   *
   *     shamir.judge(mnemonics.slice(0, 1), mnemonics[1]).status.enough; // true
   *
   * `lines` is as for `recover`, but its mnemonics may be of several backups. Those with the same identifier are taken for those of one
   * backup. `mnemonic` is as for `parse`. The status is that of the lines with its identifier, and of itself. If the mnemonic is
   * refused, the refusal's `line` is null. `Papers` keeps the lines.
   *
   * Throws a `Refusal` with one of the codes 11 to 15, 22 to 28, or 71.
   * @param {Lines} lines
   * @param {Text} mnemonic
   * @returns {Judgement}
   */
  judge(lines, mnemonic) {
    return withCopies((own) => {
      const judgement = new Struct(new Uint8Array(JUDGEMENT_BYTES));
      const given = [own.lines(lines), own.line(mnemonic, "the mnemonic"), judgement, new Room(STATUS_BYTES_MAX)];
      const answer = this.#checked("shamir_judge", given);
      own.keep(answer.output);
      return { share: fieldsOf(judgement.bytes), again: judgement.bytes[SHARE_BYTES] > 0, status: statusOf(answer) };
    });
  }

  /**
   * Returns how many quorums mnemonics have, or 2^64 - 1 if they have more.
   *
   *     shamir.quorums(mnemonics); // 3n
   *
   * `lines` is as for `recover`. A repeated mnemonic counts once. The call needs no passphrase, and decrypts nothing. The number
   * is that of the outcomes of `drill` without `after`. If the mnemonics have no quorum, it is 0.
   *
   * Throws a `Refusal` with one of the codes 11 to 15, 21 to 29 or 71.
   * @param {Lines} lines
   * @returns {bigint}
   */
  quorums(lines) {
    return withCopies((own) => this.#checked("shamir_quorums", [own.lines(lines)]).whole);
  }

  /**
   * Computes lost mnemonics of a backup from other mnemonics of it, and returns them in the order of `names`.
   *
   *     const [lost] = shamir.reissue("2of3", "0.0", mnemonics.slice(1)); // mnemonics[0]
   *
   * `plan` is the text of the plan of the backup, or of that plan with more members in some groups. The added members are new
   * members of this backup. `names` are the names of the wanted mnemonics, each once and in ascending order, joined by plus
   * signs, such as `0.1+2.0`. `lines` is as for `recover`. The call needs no passphrase, and decrypts nothing.
   *
   * This call is for mnemonics that were destroyed. If somebody else may have a lost mnemonic, create a new backup. If that
   * person may have a quorum, use a new secret too.
   *
   * Throws a `Refusal` with one of the codes 11 to 15, 21 to 29, 31 to 34, 51, 63 to 66 or 71.
   * @param {Text} plan
   * @param {Text} names
   * @param {Lines} lines
   * @returns {string[]}
   */
  reissue(plan, names, lines) {
    return this.reissueBytes(plan, names, lines).map(taken);
  }

  /**
   * Computes lost mnemonics as `reissue` does, and returns the bytes of each. The caller can clear them.
   * @param {Text} plan
   * @param {Text} names
   * @param {Lines} lines
   * @returns {Uint8Array[]}
   */
  reissueBytes(plan, names, lines) {
    return withCopies((own) => {
      const given = [own.text(plan, "the plan"), own.text(names, "the names"), own.lines(lines)];
      return this.#lines("shamir_reissue", given, MNEMONICS_BYTES_MAX);
    });
  }

  /**
   * Splits the encrypted secret of an extendable backup anew, by another plan, and returns the mnemonics of this new backup.
   *
   *     const other = shamir.resplit("3of5", mnemonics.slice(1));
   *     const same = shamir.recover(other.slice(2), { passphrase: "TREZOR" }); // the bytes of the secret
   *
   * `plan` is the plan of the new backup, as for `create`. `lines` are mnemonics of the old backup that are enough, as for
   * `recover`. The call needs no passphrase, and decrypts nothing. The new backup has the extendable flag and the exponent of the
   * old one. With each passphrase, it gives the secret that the old one gives with it.
   *
   * If random bytes are left out, the call draws them, and draws others if they give the identifier of the old backup. If they are
   * given, this is refused (68).
   *
   * The old mnemonics go on giving the secret until they are destroyed. If somebody may have a quorum of them, use a new secret
   * too.
   *
   * Throws a `Refusal` with one of the codes 11 to 15, 21 to 34, 43, 51, 67, 68 or 71.
   * @param {Text} plan
   * @param {Lines} lines
   * @param {ResplitOptions} [options]
   * @returns {string[]}
   */
  resplit(plan, lines, options = {}) {
    return this.resplitBytes(plan, lines, options).map(taken);
  }

  /**
   * Splits a backup anew as `resplit` does, and returns the bytes of each mnemonic. The caller can clear them.
   * @param {Text} plan
   * @param {Lines} lines
   * @param {ResplitOptions} [options]
   * @returns {Uint8Array[]}
   */
  resplitBytes(plan, lines, options = {}) {
    const { random } = known(options, ["random"]);
    return withCopies((own) => {
      const given = [own.text(plan, "the plan"), own.lines(lines)];
      return this.#split(own, "shamir_resplit", given, random);
    });
  }

  /**
   * Creates a backup of the encrypted secret of an extendable backup, by a plan, and returns its mnemonics.
   *
   *     const renewed = shamir.createFromEncrypted("3of5", shamir.encrypted(mnemonics.slice(1)));
   *     const same = shamir.recover(renewed.slice(2), { passphrase: "TREZOR" }); // the bytes of the secret
   *
   * `encrypted` is as for `decrypt`. The call needs no passphrase, and decrypts nothing. With each passphrase, the new backup gives what
   * `decrypt` gives. `encrypted` and this call after it give what `resplit` gives. Random bytes are as for `resplit`.
   *
   * Throws a `Refusal` with one of the codes 2 (a field is out of range), 31 to 34, 42, 43, 67 or 68.
   * @param {Text} plan
   * @param {EncryptedSecret} encrypted
   * @param {ResplitOptions} [options]
   * @returns {string[]}
   */
  createFromEncrypted(plan, encrypted, options = {}) {
    return this.createFromEncryptedBytes(plan, encrypted, options).map(taken);
  }

  /**
   * Creates a backup as `createFromEncrypted` does, and returns the bytes of each mnemonic. The caller can clear them.
   * @param {Text} plan
   * @param {EncryptedSecret} encrypted
   * @param {ResplitOptions} [options]
   * @returns {Uint8Array[]}
   */
  createFromEncryptedBytes(plan, encrypted, options = {}) {
    const { random } = known(options, ["random"]);
    const parameters = parametersOf(encrypted);
    return withCopies((own) => {
      const given = [own.text(plan, "the plan"), parameters, own.data(encrypted.value, "the value")];
      return this.#split(own, "shamir_create_from_encrypted", given, random);
    });
  }

  /**
   * Returns the mnemonics that fit a line of which some words can't be read, in ascending order of their words' indices.
   *
   * The line is a list of marks, separated as words are. A word of the word list stands for itself. Letters followed by one `?`
   * stand for every word that begins with them, and `?` alone stands for any word. A place is open if its mark stands for more
   * than one word. At most two mnemonics fit, and two only if the second word is open.
   *
   * Each open place uses up one of the three words of the checksum. With three open places, a wrong word elsewhere isn't always
   * found, and the answer may be another mnemonic. So compare the answer with all that can be read.
   *
   * Throws a `Refusal` with one of the codes 11 to 15 or 17 to 19. For `Code.WRONG_WORD` the first detail is the position
   * of the wrong word, counted from 1, if just one word is wrong.
   * @param {Text} line
   * @returns {string[]}
   */
  repair(line) {
    return this.repairBytes(line).map(taken);
  }

  /**
   * Finds mnemonics as `repair` does, and returns the bytes of each. The caller can clear them.
   * @param {Text} line
   * @returns {Uint8Array[]}
   */
  repairBytes(line) {
    return withCopies((own) => this.#lines("shamir_repair", [own.line(line, "the line")], REPAIRED_BYTES_MAX));
  }

  /**
   * Returns the fingerprint of a secret, by which its owner can recognise the secret without seeing it.
   *
   *     shamir.fingerprint(Uint8Array.from({ length: 16 }, (_, i) => i)); // "2282bae5"
   *
   * It is the first four bytes of the HMAC-SHA256 of the secret with the key `shamir fingerprint`, in eight lower-case
   * hexadecimal digits. Whoever has it can test guesses of the secret with it.
   *
   * Throws a `Refusal` with the code 42.
   * @param {Uint8Array} secret
   * @returns {string}
   */
  fingerprint(secret) {
    return withCopies((own) => taken(this.#output("shamir_fingerprint", [own.data(secret, "the secret")], FINGERPRINT_BYTES_MAX)));
  }

  /**
   * Returns the words of the word list that begin with these letters, in the order of the list. Capital letters count as small
   * ones. If there are no letters, these are all 1,024 words.
   *
   *     shamir.words("aca"); // ["academic"]
   *
   * @param {Text} letters
   * @returns {string[]}
   */
  words(letters) {
    return withCopies((own) => this.#lines("shamir_words", [own.text(letters, "the letters")], WORDS_BYTES_MAX).map(taken));
  }

  /**
   * Returns the text of a refusal, as its field `text` has it, from its code and its details.
   *
   *     shamir.text({ code: Code.UNKNOWN_WORD, details: [3, 0] }); // "unknown word 3"
   *
   * If no call of the engine gives this code, the text is "unknown answer".
   * @param {{ readonly code: number, readonly details: readonly [number, number] }} refusal
   * @returns {string}
   */
  text(refusal) {
    const { code, details: [first, second] } = refusal;
    const view = new DataView(new ArrayBuffer(ANSWER_BYTES));
    view.setUint32(0, wholeNumber(code, "the code", NUMBER_MAX), true);
    view.setBigUint64(16, BigInt(wholeNumber(first, "the first detail", Number.MAX_SAFE_INTEGER)), true);
    view.setBigUint64(24, BigInt(wholeNumber(second, "the second detail", Number.MAX_SAFE_INTEGER)), true);
    return decoded(this.#calls.run("shamir_text", [new Struct(new Uint8Array(view.buffer)), new Room(TEXT_BYTES_MAX)]).output);
  }

  /**
   * Returns as many random bytes as a backup takes, or none if the engine refuses the plan or the length.
   * @param {Copies} own
   * @param {Uint8Array} plan
   * @param {number} secretBytes
   */
  #drawnFor(own, plan, secretBytes) {
    const { code, first } = this.#calls.run("shamir_random_needed", [plan, BigInt(secretBytes)]);
    return this.#drawn(own, code === Code.DONE ? first : 0);
  }

  /**
   * Splits an encrypted secret with random bytes, or with drawn ones. The engine says how many it takes if it gets none, unless it
   * refuses something else.
   * @param {Copies} own
   * @param {string} call
   * @param {import("./calls.js").Part[]} given
   * @param {Uint8Array | undefined} random
   * @returns {Uint8Array[]}
   */
  #split(own, call, given, random) {
    if (random !== undefined) return this.#lines(call, [...given, own.data(random, "random")], MNEMONICS_BYTES_MAX);
    const { code, first } = this.#calls.run(call, [...given, new Uint8Array(), new Room(0)]);
    for (let drawn = 1; ; drawn++) {
      const bytes = this.#drawn(own, code === Code.RANDOM_LENGTH ? first : 0);
      try {
        return this.#lines(call, [...given, bytes], MNEMONICS_BYTES_MAX);
      } catch (error) {
        if (!(error instanceof Refusal) || error.code !== Code.SAME_IDENTIFIER || drawn === DRAWS) throw error;
      }
    }
  }

  /**
   * @param {Copies} own
   * @param {number} count
   */
  #drawn(own, count) {
    if (!globalThis.crypto?.getRandomValues) throw new Error("crypto.getRandomValues isn't there, so the random bytes must be given");
    return crypto.getRandomValues(own.keep(new Uint8Array(new ArrayBuffer(count))));
  }

  /**
   * Yields undefined, and then the outcomes. Once the generator has yielded, leaving it clears the copies.
   * @param {Copies} own
   * @param {import("./calls.js").Part[]} given
   * @param {Uint8Array} cursor
   * @param {[number, Uint8Array]} form The form of the listing, and the expected fingerprint.
   * @returns {Generator<Outcome | undefined, void, void>}
   */
  *#outcomes(own, given, cursor, form) {
    try {
      yield undefined;
      let room = FIRST_ROOM;
      for (let last = MORE; last.startsWith(MORE); cursor = own.text(last.slice(MORE.length), "the cursor")) {
        const start = Date.now();
        const { output, second } = this.#checked("shamir_drill", [...given, cursor, NUMBER_MAX, ...form, new Room(room)]);
        room = nextRoom(room, Date.now() - start);
        own.keep(output);
        for (const line of linesOf(output.subarray(0, second))) yield outcome(line, form[0] === FORM_FINGERPRINTS);
        last = decoded(output.subarray(second, -1));
        own.release(output);
      }
    } finally {
      own.clear();
    }
  }

  /**
   * Yields null, then null after each of the first three rounds, and then the secret. Once the generator has yielded, leaving it clears
   * the copies and the texts between the rounds.
   * @param {Copies} own
   * @param {Struct} parameters
   * @param {Uint8Array} text
   * @param {Uint8Array} passphrase
   * @returns {Generator<Uint8Array | null, void, void>}
   */
  *#rounds(own, parameters, text, passphrase) {
    try {
      yield null;
      for (const round of [3, 2, 1, 0]) {
        text = own.keep(this.#output("shamir_decrypt_round", [parameters, round, text, passphrase], SECRET_BYTES_MAX));
        yield round > 0 ? null : copied(text);
      }
    } finally {
      own.clear();
    }
  }

  /**
   * Returns the lines that a call writes.
   * @param {string} name
   * @param {import("./calls.js").Part[]} given
   * @param {number} room
   */
  #lines(name, given, room) {
    return withCopies((own) => linesOf(own.keep(this.#output(name, given, room))).map(copied));
  }

  /**
   * Returns what a call writes into an output of this length.
   * @param {string} name
   * @param {import("./calls.js").Part[]} given
   * @param {number} room
   */
  #output(name, given, room) {
    return this.#checked(name, [...given, new Room(room)]).output;
  }

  /**
   * @param {string} name
   * @param {import("./calls.js").Part[]} parts
   * @returns {import("./calls.js").Answer}
   */
  #checked(name, parts) {
    const answer = this.#calls.run(name, parts);
    const { code, line, first, second } = answer;
    if (code === Code.DONE) return answer;
    throw new Refusal(code, line || null, [first, second], this.text({ code, details: [first, second] }));
  }
}

/**
 * Compiles the module of the engine, and returns the engine.
 *
 *     const shamir = await load(await readFile("shamir32.wasm"));
 *
 * It takes both forms of the module. The form with 32-bit memory runs in every host that has BigInt.
 * @param {BufferSource | WebAssembly.Module} module The bytes of the module, or the compiled module.
 * @returns {Promise<Engine>}
 */
export async function load(module) {
  return new Engine(module instanceof WebAssembly.Module ? module : await WebAssembly.compile(module));
}
