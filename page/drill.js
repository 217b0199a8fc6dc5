// The drill: each quorum of the papers that were typed, in a table that fills, and what they say together.
import { Code } from "../bindings/js/refusal.js";
import { Declined, Stopped } from "./client.js";
import { BACK, button, element, paragraph } from "./dom.js";
import { estimated, LONG_EXPONENT } from "./estimate.js";
import { quorumWith, TRIED_FIRST, TRIED_WHOLE } from "./quorums.js";
import { say, saidTime } from "./say.js";
import { announce, ask, show } from "./screen.js";
import { saidCount, saidOutcome, saidTried, verdictOf } from "./verdict.js";

/** @typedef {import("./client.js").Desk} Desk */
/** @typedef {import("./desk.js").Status} Status */
/** @typedef {import("./desk.js").Tried} Tried */
/** @typedef {import("./desk.js").Kind} Kind */
/** @typedef {import("./verdict.js").Asked} Asked */
/** @typedef {import("./verdict.js").Verdict & {table: HTMLElement | null}} Verdict what a drill found, and the table of quorums */

/** The table shows at most this many quorums that gave the expected secret, and as many others. */
const ROWS_MAX = 500;
// If a recovery takes more seconds, quorums are tried one by one.
const SLOW_FROM = 0.05;
const ROUNDS = 4;
/** A screen reader is told of the progress after so many milliseconds, and not at each change. */
const ANNOUNCED_EVERY = 5000;

/**
 * Returns a sentence on the time that one recovery takes if that is long, and else null.
 *
 * @param {Desk} desk
 * @param {Kind} kind
 */
export function warnedTime(desk, kind) {
  return kind.exponent < LONG_EXPONENT ? null : say("time.long", { exponent: kind.exponent, time: saidTime(desk.secondsFor(kind)) });
}

/**
 * Says how many quorums papers have, and which of them are tried.
 *
 * @param {Status} status
 */
export function toldCount({ quorums }) {
  return paragraph(saidCount(quorums));
}

/**
 * Says what a drill over papers tries. Returns whether to start it; if not, the owner goes back.
 *
 * @param {Desk} desk
 * @param {HTMLElement[]} counts what says how many quorums the papers have
 * @param {Kind} kind
 * @param {{title: string, hasBack: boolean}} what
 */
export async function askToDrill(desk, counts, kind, { title, hasBack }) {
  const intro = [paragraph(say("drill.what")), ...counts];
  const slow = warnedTime(desk, kind);
  if (slow) intro.push(paragraph(slow, "note"));
  const back = hasBack ? [{ key: "back", label: say("back"), kind: BACK }] : [];
  return (await ask(title, intro, [{ key: "go", label: say("drill.start"), kind: "primary" }, ...back])) === "go";
}

/**
 * Runs a drill over the papers that the worker holds, and returns the verdict, or the engine's refusal of the passphrase.
 *
 * @param {Desk} desk
 * @param {Status} status
 * @param {{title: string, noted: string, isOwn?: boolean, isOld?: boolean, isNew?: boolean}} what `noted` is the expected fingerprint, or
 *   empty. `isOwn` says that it is that of the secret that was just backed up, and that the owner noted none. `isOld` says that the papers
 *   are those whose plan changes, and `isNew` that they take the place of such papers
 * @returns {Promise<Verdict | {refused: import("./desk.js").Refused}>}
 */
export async function runDrill(desk, status, { title, noted, isOwn = false, isOld = false, isNew = false }) {
  const total = status.quorums;
  const isWhole = total <= TRIED_WHOLE;
  const hasPassphrase = await desk.ask("hasPassphrase");
  const [kind] = await desk.ask("kinds");
  const seconds = desk.secondsFor(kind);
  const table = new Table(title, total, noted, seconds, () => desk.stop());
  const what = { expect: noted, isSlow: seconds > SLOW_FROM, isOld };
  let isStopped = false;
  try {
    await desk.askLong("drill", { limit: isWhole ? 0 : TRIED_FIRST, ...what }, (part, rounds) => table.add(part, rounds));
    if (!isWhole) await tryEachPaper(desk, status, what, table);
  } catch (error) {
    if (error instanceof Declined && error.refused.code === Code.PASSPHRASE) return { refused: error.refused };
    if (!(error instanceof Stopped)) throw error;
    isStopped = true;
  }
  return table.end({ noted, isOwn, isNew, hasPassphrase, isStopped });
}

/**
 * Tries one quorum with each paper that no quorum so far had.
 *
 * @param {Desk} desk
 * @param {Status} status
 * @param {{expect: string, isSlow: boolean, isOld: boolean}} what
 * @param {Table} table
 */
async function tryEachPaper(desk, status, what, table) {
  const known = new Set(table.tried.map((it) => it.names.join("+")));
  for (const name of status.groups.flatMap((it) => it.names)) {
    const names = quorumWith(status, name);
    if (names === null || known.has(names.join("+"))) continue;
    known.add(names.join("+"));
    table.add(await desk.askLong("tryOne", { names, ...what }, (part, rounds) => table.add(part, rounds)));
  }
}

/** The table of a drill, and its progress. */
class Table {
  /** @type {Tried[]} */
  tried = [];
  #total;
  #noted;
  #rounds = 0;
  #rows = { expected: 0, other: 0 };
  #body = element("tbody");
  #scroll = element("div", { class: "scroll", tabindex: "0", role: "region", "aria-label": say("drill.caption") });
  #more = element("p", { class: "hint" });
  #progress = element("p", { class: "work" });
  #announced = performance.now();
  #bar = element("progress", { "aria-label": say("drill.progress") });
  // How far the first quorum is.
  #first;

  /**
   * @param {string} title
   * @param {bigint} total
   * @param {string} noted
   * @param {number} seconds how long a recovery takes, by the estimate
   * @param {() => void} onStop
   */
  constructor(title, total, noted, seconds, onStop) {
    this.#total = total;
    this.#noted = noted;
    this.#bar.max = Number(total <= TRIED_WHOLE ? total : BigInt(TRIED_FIRST));
    this.#bar.value = 0;
    const head = element("tr", {}, element("th", { scope: "col" }, say("drill.quorum")), element("th", { scope: "col" }, say("drill.gave")));
    this.#scroll.append(element("table", {}, element("thead", {}, head), this.#body));
    this.#first = estimated(seconds);
    const stop = element("div", { class: "buttons" }, button(say("stop"), onStop));
    show(title, null, this.#progress, this.#bar, this.#first, stop, this.#scroll, this.#more);
    this.#say();
  }

  /**
   * @param {Tried[]} part
   * @param {number} rounds how many of four rounds of the next quorum are undone
   */
  add(part, rounds = 0) {
    this.tried.push(...part);
    this.#rounds = rounds;
    for (const it of part) {
      const row = this.#row(it);
      if (row) this.#body.append(row);
    }
    this.#bar.value = this.tried.length + rounds / ROUNDS;
    if (this.tried.length) this.#first?.remove();
    this.#say();
  }

  #say() {
    this.#progress.textContent = this.#told;
    if (performance.now() - this.#announced < ANNOUNCED_EVERY) return;
    this.#announced = performance.now();
    announce(this.#told);
  }

  /** How many quorums were tried so far, and how far the next one is. */
  get #told() {
    const tried = saidTried(this.tried.length, this.#total);
    return this.#rounds ? `${tried} ${say("drill.next", { rounds: this.#rounds })}` : tried;
  }

  /** @param {Tried} tried */
  #row(tried) {
    const kind = tried.expected || tried.fingerprint !== null ? "expected" : "other";
    this.#rows[kind] += 1;
    if (this.#rows[kind] > ROWS_MAX) {
      this.#more.textContent = say("drill.more_rows", { rows: ROWS_MAX });
      return null;
    }
    return element("tr", { class: kind }, element("td", {}, tried.names.join(" + ")), element("td", {}, saidOutcome(tried, this.#noted)));
  }

  /**
   * Returns the verdict.
   *
   * @param {Asked} asked
   * @returns {Verdict}
   */
  end(asked) {
    const verdict = verdictOf(this.tried, this.#total, asked);
    return { ...verdict, table: this.tried.length ? this.#shown(verdict.result !== "good") : null };
  }

  /**
   * Returns the table, to be opened on the screen that tells the verdict.
   *
   * @param {boolean} isOpen
   */
  #shown(isOpen) {
    return element("details", { open: isOpen }, element("summary", {}, say("drill.caption")), this.#scroll, this.#more);
  }
}

/**
 * Returns what says what a drill found, and what a quorum is.
 *
 * @param {Pick<Verdict, "part" | "sentences" | "isEqual" | "isWrong">} verdict
 */
export function toldVerdict({ part, sentences, isEqual, isWrong }) {
  const kind = isWrong ? "bad" : isEqual ? "good" : "note";
  const tried = part ? paragraph(part, "note") : null;
  return element("div", { class: "verdict" }, tried, ...sentences.map((text) => paragraph(text, kind)), paragraph(say("quorum.what"), "hint"));
}
