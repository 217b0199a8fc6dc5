// The worker. It holds what a task has of papers, secrets and passphrases, and asks the engine. The page sends it byte arrays,
// which it takes over, and gets names, counts, fingerprints and refusals. It gets words or digits only to show them.
import { Code, EXPONENT_MAX, load, Refusal } from "../bindings/js/shamir.js";
import { renewed } from "./anew.js";
import { Backups, statusOf } from "./backups.js";
import { hex, unhex, wordsIn, zero } from "./bytes.js";
import { mix } from "./dice.js";
import { judge } from "./judge.js";
import { beside, kindOf } from "./kind.js";
import { selfTest } from "./self_test.js";
import { oneByOne } from "./trial.js";

/** @typedef {import("../bindings/js/shamir.js").Engine} Engine */
/** @typedef {{group: number, threshold: number, names: string[]}} GroupStatus */
/** @typedef {{complete: number, required: number, enough: boolean, groups: GroupStatus[]}} Standing what is complete */
/** @typedef {Standing & {quorums: bigint}} Status */
/** @typedef {{names: string[], fingerprint: string | null, expected: boolean | null, mismatch: number | null}} Tried */
/** @typedef {{groupCount: number, groupThreshold: number, memberThreshold: number}} Counts */
/** @typedef {{id: number, secretBytes: number, exponent: number, extendable: boolean}} Parameters */
/** @typedef {{isPossible: boolean, isRepaired: boolean, isRead: boolean, isWritten: boolean}} Found whether a backup can have a paper, and whether it is the copy of a damaged one of which words were found, or all were read, or was written again from others */
/** @typedef {Counts & Parameters & Found & {name: string, words: number, begin: string}} Kind what a paper is. `begin` is its first words */
/** @typedef {{id: number, begin: string, kinds: Kind[], status: Status}} Backup the papers of a backup, all of which begin with the same words */
/** @typedef {{unsound: number, names: string[], apart: {begin: string, names: string[]}[]}} LeftOut */
/** @typedef {"" | "repaired" | "read" | "written"} How how the papers that are shown were made: as new ones, of a damaged one by words that were found or all read, or from others */
/** @typedef {{old: Uint8Array[], shown: Uint8Array[], how: How, passphrase: Uint8Array, secret: Uint8Array, fingerprint: string}} Own */
/** @typedef {Own & {backups: import("./backups.js").Kept}} Held */
/** @typedef {{code: number, details: number[], text: string}} Refused */
/** @typedef {(part: Tried[], rounds: number) => void} Tell what hears the outcomes of quorums, and how many of four rounds of the next one are undone */

const QUESTION_MARK = 63;

/** @type {Engine} */
let engine;
/** @type {Backups} */
let backups;
/** @type {Own} */
let held = nothing();

/** @returns {Own} */
function nothing() {
  return { old: [], shown: [], how: "", passphrase: new Uint8Array(), secret: new Uint8Array(), fingerprint: "" };
}

function clear() {
  backups?.clear();
  zero(...held.old, ...held.shown, held.passphrase, held.secret);
  held = nothing();
}

/**
 * Returns the papers of the backup that the task goes on with, or the old ones whose plan changes.
 *
 * @param {{isOld?: boolean}} given
 */
function papersOf({ isOld = false }) {
  return isOld ? held.old : backups.lines;
}

/**
 * Returns what a paper is, and keeps nothing of it.
 *
 * @param {{line: Uint8Array}} given
 */
function describe({ line }) {
  try {
    return kindOf(engine, line);
  } finally {
    zero(line);
  }
}

/**
 * Takes a paper, and says what its backup has with it.
 *
 * @param {{line: Uint8Array}} given
 */
function add({ line }) {
  try {
    return backups.add(line);
  } finally {
    zero(line);
  }
}

/**
 * Returns the names of the papers that don't fit one that was refused, if words of each of them were found.
 *
 * @param {{line: Uint8Array}} given
 */
function doubtful({ line }) {
  try {
    return backups.repairedBeside(line);
  } finally {
    zero(line);
  }
}

/** @param {{passphrase: Uint8Array}} given */
function passphrase({ passphrase }) {
  zero(held.passphrase);
  held.passphrase = passphrase;
}

/**
 * Throws the engine's refusal of a passphrase, if it refuses it. Without papers it derives no key.
 *
 * @param {{passphrase: Uint8Array}} given
 */
function tryPassphrase({ passphrase }) {
  try {
    engine.recover([], { passphrase });
  } catch (error) {
    if (!(error instanceof Refusal) || error.code !== Code.NO_SHARES) throw error;
  } finally {
    zero(passphrase);
  }
}

/**
 * Makes a backup of a new secret of `bytes` bytes, into which throws of a die are mixed, or of the secret with these digits. Returns what is wrong with the digits, or an
 * empty text: they have another fingerprint than the one that was noted ("other"), or stand for no bytes. `noted` may be empty. `place`
 * says which digit is none, and `words` how many words each paper has.
 *
 * @param {{plan: string, bytes: number, dice?: Uint8Array, digits: Uint8Array | null, noted?: string, exponent: number, extendable: boolean}} given
 * @returns {import("./judge.js").Judged & {words?: number}}
 */
function make({ plan, bytes, dice = new Uint8Array(), digits, noted = "", exponent, extendable }) {
  if (digits) {
    const judged = judge(engine, { plan, digits: digits.slice(), noted });
    if (judged.fault !== "") {
      zero(digits);
      return judged;
    }
  }
  const secret = digits ? unhex(digits) : crypto.getRandomValues(new Uint8Array(bytes));
  if (digits) zero(digits);
  else mix(secret, dice);
  zero(dice);
  try {
    const fingerprint = engine.fingerprint(secret);
    const shown = engine.createBytes(plan, secret, { passphrase: held.passphrase, exponent, extendable });
    zero(...held.shown);
    held.shown = shown;
    held.how = "";
    held.fingerprint = fingerprint;
    return { fault: "", fingerprint, words: wordsIn(shown[0]) };
  } finally {
    zero(secret);
  }
}

/**
 * Puts the papers aside as the old ones, and keeps new ones to be shown. What is typed from now on is of these. Returns how many words
 * each has.
 *
 * @param {Uint8Array[]} made
 */
function putAside(made) {
  zero(...held.old, ...held.shown);
  [held.old, held.shown] = [backups.moveOut(), made];
  held.how = "";
  return wordsIn(made[0]);
}

/**
 * Makes papers of the same encrypted secret by another plan, and returns how many words each has. The backup must be extendable.
 *
 * @param {{plan: string}} given
 */
function resplit({ plan }) {
  return putAside(engine.resplitBytes(plan, backups.lines));
}

/**
 * Makes papers of the secret that the papers give. Returns its fingerprint, and how many words each paper has, or none if another
 * fingerprint was noted.
 *
 * @param {{plan: string, noted: string, extendable: boolean}} given
 */
function renew(given) {
  const { fingerprint, made } = renewed(engine, backups.lines, held.passphrase, given);
  return { fingerprint, words: made.length ? putAside(made) : 0 };
}

/**
 * Computes one paper from those that were typed, and keeps it to be shown. Returns its place among those.
 *
 * @param {{plan: string, name: string}} given
 */
function reissue({ plan, name }) {
  held.shown.push(...engine.reissueBytes(plan, name, backups.lines));
  held.how = "written";
  return held.shown.length - 1;
}

/**
 * Finds the papers that fit what can be read of one, and keeps them to be shown. Returns what they are, and whether each can be of one
 * backup with the papers that are here.
 *
 * @param {{line: Uint8Array}} given
 */
function repair({ line }) {
  zero(...held.shown);
  held.shown = [];
  // Without a mark, no word is found.
  held.how = line.includes(QUESTION_MARK) ? "repaired" : "read";
  try {
    held.shown = engine.repairBytes(line);
    return held.shown.map((line) => ({ ...kindOf(engine, line), isFitting: backups.fits(line) }));
  } finally {
    zero(line);
  }
}

/**
 * Compares a paper that was typed back with the one that was shown, and takes it if they are the same. `isForeign` says that it is of
 * another backup.
 *
 * @param {{index: number, line: Uint8Array}} given
 */
function typedBack({ index, line }) {
  try {
    const kind = kindOf(engine, line);
    const found = beside(engine, line, held.shown[index]);
    if (found === "same") backups.addShown(line, held.how);
    return { kind, isSame: found === "same", isForeign: found === "conflict" || found === "apart" };
  } finally {
    zero(line);
  }
}

/**
 * Yields what each quorum of papers gives: whether its secret has the fingerprint `expect`, or its fingerprint if that is empty. What goes
 * on slowly tells how far it is.
 *
 * @param {Uint8Array[]} papers
 * @param {{expect: string, isSlow: boolean}} given
 * @param {(rounds: number) => void} tellRounds
 * @returns {Generator<Tried, void, void>}
 */
function* outcomes(papers, { expect, isSlow }, tellRounds) {
  if (isSlow) {
    yield* oneByOne(engine, papers, { passphrase: held.passphrase, expect, tell: tellRounds });
    return;
  }
  const form = expect === "" ? { fingerprints: true } : { expect };
  for (const { names, fingerprint, expected, mismatch } of engine.drill(papers, { passphrase: held.passphrase, ...form })) {
    yield { names: names.split("+"), fingerprint, expected, mismatch };
  }
}

/**
 * Tries every quorum, or the first `limit`, and passes on what they give in parts, and how many of four rounds of the next one are undone.
 *
 * @param {{limit: number, expect: string, isSlow: boolean, isOld?: boolean}} given
 * @param {Tell} tell
 */
function drill({ limit, isOld, ...given }, tell) {
  /** @type {Tried[]} */
  let part = [];
  let [tried, told] = [0, performance.now()];
  const pass = (rounds = 0) => {
    tell(part, rounds);
    [part, told] = [[], performance.now()];
  };
  for (const outcome of outcomes(papersOf({ isOld }), given, pass)) {
    part.push(outcome);
    tried += 1;
    if (performance.now() - told > 100) pass();
    if (tried === limit) break;
  }
  pass();
}

/**
 * Tries the one quorum that these papers are.
 *
 * @param {{names: string[], expect: string, isSlow: boolean, isOld?: boolean}} given
 * @param {Tell} tell
 * @returns {Tried[]}
 */
function tryOne({ names, isOld, ...given }, tell) {
  const papers = papersOf({ isOld }).filter((paper) => names.includes(kindOf(engine, paper).name));
  return [...outcomes(papers, given, (rounds) => tell([], rounds))];
}

/**
 * Recovers the secret, and returns its fingerprint. Unless another one was noted, the secret is held to be shown, until `forgetSecret`:
 * to derive it again could take minutes, and what it is derived from is held too.
 *
 * @param {{noted: string}} given
 */
function recover({ noted }) {
  forgetSecret();
  held.secret = engine.recover(backups.lines, { passphrase: held.passphrase });
  const fingerprint = engine.fingerprint(held.secret);
  if (noted !== "" && noted !== fingerprint) forgetSecret();
  return fingerprint;
}

function forgetSecret() {
  zero(held.secret);
  held.secret = new Uint8Array();
}

/**
 * Whether a text can be a fingerprint. Without papers the engine compares none.
 *
 * @param {{noted: string}} given
 */
function isFingerprint({ noted }) {
  try {
    engine.recover([], { expect: noted });
  } catch (error) {
    if (!(error instanceof Refusal)) throw error;
    return error.code !== Code.BAD_FINGERPRINT;
  }
  return true;
}

/**
 * Starts the engine, and tries it. `kept` is what an earlier worker held.
 *
 * @param {{module: Uint8Array, kept: Held | null}} given
 */
async function begin({ module, kept }) {
  engine = await load(module);
  backups = new Backups(engine);
  if (kept) {
    const { backups: papers, ...own } = kept;
    held = own;
    backups.restore(papers);
  }
  const tested = kept ? { fault: null, milliseconds: 0 } : selfTest(engine);
  return { ...tested, version: engine.version(), words: [...engine.words("")], exponentMax: EXPONENT_MAX };
}

/** @type {Record<string, (given: any, tell: Tell) => any>} */
const CALLS = {
  begin,
  describe,
  add,
  doubtful,
  hasCopies: () => backups.hasCopies,
  prove: ({ names }) => backups.prove(names),
  leaveOut: ({ line }) => backups.leaveOut(line),
  leftOut: () => backups.leftOut,
  backups: () => backups.list,
  choose: ({ id }) => backups.choose(id),
  drop: ({ id, name }) => backups.drop(id, name),
  putBack: () => backups.putBack(),
  passphrase,
  tryPassphrase,
  isFingerprint,
  make,
  resplit,
  renew,
  judge: (given) => judge(engine, given),
  reissue,
  repair,
  typedBack,
  drill,
  tryOne,
  recover,
  forgetSecret,
  digits: () => hex(held.secret),
  plan: ({ plan, bytes }) => engine.randomNeeded(plan, bytes),
  paper: ({ index }) => held.shown[index].slice(),
  status: (given) => statusOf(engine, papersOf(given)),
  kinds: () => backups.kinds,
  fingerprint: () => held.fingerprint,
  hasPassphrase: () => held.passphrase.length > 0,
  keep: () => ({ ...held, backups: backups.kept }),
  clear,
};

self.onmessage = async ({ data: { id, call, given } }) => {
  try {
    const value = await CALLS[call](given, (part, rounds) => self.postMessage({ id, part, rounds }));
    self.postMessage({ id, value }, { transfer: value instanceof Uint8Array ? [value.buffer] : [] });
  } catch (error) {
    const refused = error instanceof Refusal ? { code: error.code, details: error.details, text: error.text } : null;
    self.postMessage({ id, refused, fault: refused ? null : String(error) });
  }
};
