// The task 'Make a backup': what the wallet holds, a plan, a wallet, a secret, a passphrase, the papers one by one, typed back, the
// fingerprint, and the drill.
import { bytesOf, typedDigits, zero } from "./bytes.js";
import { changePlan } from "./change_plan.js";
import { Declined, Stopped } from "./client.js";
import { THROWS_LEAST } from "./dice.js";
import { BACK, choice, element, hidden, labelled, paragraph } from "./dom.js";
import { BYTES, saidDigits, saidDoubts } from "./digits.js";
import { toldVerdict } from "./drill.js";
import { LONG_EXPONENT } from "./estimate.js";
import { noteAndDrill } from "./note_and_drill.js";
import { notedFields, passphraseFields } from "./passphrase.js";
import { notedPlan, planNames, planText } from "./plan.js";
import { askPlan, PlanChoice } from "./plan_choice.js";
import { saidError } from "./refusals.js";
import { say, saidTime } from "./say.js";
import { ask, setStep, setSteps, setTouched, setUnfinished, showWork, tellNext } from "./screen.js";
import { writeAll } from "./show_paper.js";
import { askWallet } from "./wallet.js";

/** @typedef {import("./client.js").Desk} Desk */
/** @typedef {import("./plan.js").Plan} Plan */
/** @typedef {import("./desk.js").Kind} Kind */
/** @typedef {"new" | "own"} Source */
/** @typedef {Source | "papers" | "words" | "none"} Has what the owner has: a new wallet, the digits of a secret, papers, words of BIP-39, or a wallet alone */
/** @typedef {{bytes: number, digits: Uint8Array | null, noted: string}} Secret */
/** @typedef {{secret: Secret, dice: Uint8Array, passphrase: Uint8Array}} Typed */
/** @typedef {"slip39" | "bip39"} From what digits are */
/** @typedef {{plan: Plan, words: number}} Made the plan of new papers, and how many words each has */
/** @typedef {import("./wallet.js").Asked & {source: Source, from: From | null, noted: string | null, exponent: number, hasThrows: boolean}} Chosen what was chosen and isn't secret. `hasThrows` says whether throws of a die were typed */

/**
 * A new backup has the exponent that the reference implementation gives it.
 *
 * @type {Chosen}
 */
const USUAL = { source: "new", from: null, noted: null, exponent: 1, hasThrows: false, wallet: null, words: 20 };

/**
 * Makes a backup, unless the wallet has one already.
 *
 * @param {Desk} desk
 */
export async function makeBackup(desk) {
  const [planned, chosen] = [new PlanChoice(), { ...USUAL }];
  /** @type {Has | null} */
  let has = null;
  /** @type {Made | "back" | "words"} */
  let made = "back";
  while (typeof made === "string") {
    setSteps(9);
    has = made === "words" ? made : await askHas(has);
    made = "back";
    if (has === null) return;
    if (has === "papers") {
      if ((await changePlan(desk)) === "end") return;
    } else if ((has !== "words" && has !== "none") || (await agreeToNew(has))) {
      chosen.source = has === "own" ? "own" : "new";
      made = await planAndCreate(desk, planned, chosen);
    }
  }
  await writeAll(desk, made.plan, made.words, { title: say("make.forms"), unfinished: "clear.unfinished", step: 5 });
  await noteAndEnd(desk, made.plan, chosen.source === "own");
}

/**
 * Asks what the owner has: papers of a new secret are no backup of a wallet that holds money. Returns null if the owner goes back.
 *
 * @param {Has | null} first what was said before, or null
 * @returns {Promise<Has | null>}
 */
async function askHas(first) {
  let has = first;
  const options = /** @type {const} */ (["new", "papers", "own", "words", "none"]).map((key) => ({ key, label: say(`has.${key}`), hint: say(`has.${key}.hint`) }));
  const answer = await ask(say("home.make"), [choice(say("has.legend"), options, first, (key) => (has = key))], [
    { key: "go", label: say("continue"), kind: "primary", take: () => (has === null ? say("has.missing") : null) },
    { key: "back", label: say("back"), kind: BACK },
  ]);
  return answer === "go" ? has : null;
}

/**
 * Says that what the owner has can't become papers. Returns whether the owner wants papers of a new wallet.
 *
 * @param {"words" | "none"} has
 */
async function agreeToNew(has) {
  const answer = await ask(say(`has.${has}.title`), [paragraph(say(`has.${has}.what`), "bad")], [
    { key: "new", label: say("has.make") },
    { key: "back", label: say("back"), kind: BACK },
  ]);
  return answer === "new";
}

/**
 * Asks for the plan, the wallet and the secret until the papers are made. Returns whether the owner goes back from the plan, or has only words
 * of BIP-39.
 *
 * @param {Desk} desk
 * @param {PlanChoice} planned
 * @param {Chosen} chosen
 * @returns {Promise<Made | "back" | "words">}
 */
async function planAndCreate(desk, planned, chosen) {
  while (await askPlan(desk, planned, { title: say("make.plan"), step: 2 })) {
    while (await askWallet(chosen, { title: say("make.wallet"), step: 3, asksWords: true })) {
      const words = await create(desk, planned.plan, chosen);
      if (words === "words") return words;
      if (words !== null) return { plan: planned.plan, words };
    }
  }
  return "back";
}

/**
 * The fields for the secret. The digits of the owner's own are typed twice, and compared with the fingerprint that was noted: a backup
 * of another secret looks like a right one. What is in doubt of them is asked about once, until they change.
 */
class SecretFields {
  #words;
  #asked = "";
  #digits = hidden(say("secret.digits"), { show: say("show"), hide: say("hide"), hint: say("secret.digits.hint") });
  #again = hidden(say("secret.again"), { show: say("show"), hide: say("hide") });
  #noted;
  #bytes;

  /**
   * @param {Desk} desk
   * @param {Chosen} first what is chosen at first
   */
  constructor(desk, { source, from, noted, words }) {
    this.source = source;
    this.from = from;
    this.#words = words;
    this.#noted = notedFields(desk, noted);
    this.#bytes = BYTES[words];
    const drawn = () => [paragraph(say("secret.new", { words, bytes: this.#bytes }))];
    const kinds = /** @type {const} */ (["slip39", "bip39"]).map((key) => ({ key, label: say(`secret.${key}`) }));
    const asked = () => choice(say("secret.from"), kinds, from, (key) => (this.from = key));
    const own = () => [asked(), this.#digits.box, this.#again.box, paragraph(say("secret.noted"), "hint"), this.#noted.box];
    this.element = element("div", {}, ...(source === "own" ? own() : drawn()));
    for (const { field } of [this.#digits, this.#again]) field.addEventListener("input", () => (this.#asked = ""));
  }

  /** Returns what is missing, or null. */
  async missing() {
    if (this.source !== "own") return null;
    if (this.from === null) return say("secret.from.missing");
    const [typed, again] = [this.#digits, this.#again].map(({ field }) => typedDigits(field.value));
    if (typed === "") return say("secret.missing");
    return typed === again ? this.#noted.missing() : say("secret.differ");
  }

  /** Returns the fingerprint that was noted, or an empty text if none was, or null if that isn't said yet. */
  async noted() {
    return (await this.#noted.missing()) === null ? this.#noted.read() : null;
  }

  /**
   * Returns what is wrong with the owner's digits, or in doubt and not asked about yet, or null. What was typed stays in its fields.
   *
   * @param {Desk} desk
   * @param {Plan} plan
   */
  async refusal(desk, plan) {
    const { digits, noted } = this.read();
    if (digits === null) return null;
    const count = digits.length;
    try {
      const judged = await desk.ask("judge", { plan: planText(plan), digits, noted }, [digits.buffer]);
      const fault = saidDigits(judged, count, noted);
      const doubts = saidDoubts(judged, this.#words);
      if (fault !== "" || doubts === this.#asked) return fault || null;
      this.#asked = doubts;
      return `${doubts} ${say("secret.sure")}`;
    } catch (error) {
      return saidError(error);
    }
  }

  /** Whether the digits are the entropy of words of BIP-39, which isn't the secret of their wallet. */
  get isEntropy() {
    return this.source === "own" && this.from === "bip39";
  }

  /** How many bytes the secret has. */
  get secretBytes() {
    return this.source === "new" ? this.#bytes : typedDigits(this.#digits.field.value).length / 2;
  }

  /** @returns {Secret} */
  read() {
    const digits = this.source === "own" ? bytesOf(typedDigits(this.#digits.field.value)) : null;
    return { bytes: this.#bytes, digits, noted: digits ? this.#noted.read() : "" };
  }
}

/** The fields under 'More'. */
class MoreFields {
  #exponent;
  #most;
  #secret;
  #dice = labelled(say("more.dice"), "text", { hint: say("more.dice.hint"), attributes: { inputmode: "numeric" } });

  /**
   * @param {Desk} desk
   * @param {Chosen} first
   * @param {SecretFields} secret
   */
  constructor(desk, { exponent, hasThrows }, secret) {
    this.#most = desk.begun.exponentMax;
    this.#secret = secret;
    const time = element("p", { class: "hint" });
    const tell = () => {
      const seconds = desk.secondsFor({ exponent: this.exponent, secretBytes: secret.secretBytes });
      time.textContent = this.isExponent ? say("more.time", { time: saidTime(seconds) }) : "";
      this.#dice.box.hidden = secret.source === "own";
    };
    this.#exponent = labelled(say("more.exponent"), "number", {
      hint: say("more.exponent.hint"),
      attributes: { min: "0", max: String(this.#most), value: String(exponent), class: "count", input: tell },
    });
    tell();
    for (const change of ["input", "click"]) secret.element.addEventListener(change, tell);
    if (hasThrows) this.#dice.box.append(paragraph(say("more.dice.emptied"), "note"));
    this.element = element("details", { open: hasThrows || exponent !== USUAL.exponent }, element("summary", {}, say("more.title")), this.#exponent.box, time, this.#dice.box);
  }

  get exponent() {
    return Number(this.#exponent.field.value);
  }

  /** Whether the exponent can be taken. */
  get isExponent() {
    const { value } = this.#exponent.field;
    return /^\d+$/.test(value) && Number(value) <= this.#most;
  }

  /** Whether throws were typed. */
  get hasThrows() {
    return typedDigits(this.#dice.field.value) !== "";
  }

  /** The throws that were typed for a new secret. */
  get #throws() {
    return this.#secret.source === "own" ? "" : typedDigits(this.#dice.field.value);
  }

  missing() {
    if (!this.isExponent) return say("more.exponent.wrong");
    const [throws, least] = [this.#throws, THROWS_LEAST.get(this.#secret.secretBytes) ?? 0];
    if (/[^1-6]/.test(throws)) return say("more.dice.wrong");
    return throws === "" || throws.length >= least ? null : say("more.dice.few", { count: throws.length, least });
  }

  /** Returns the throws. */
  read() {
    return bytesOf(this.#throws);
  }
}

/**
 * Asks for the secret and the passphrase, and makes the backup. Returns how many words each paper has, or null if the owner goes back, or
 * that the digits are the entropy of words. What was chosen stays then. If the owner stops it, what is secret is typed again.
 *
 * @param {Desk} desk
 * @param {Plan} plan
 * @param {Chosen} chosen
 * @returns {Promise<number | "words" | null>}
 */
async function create(desk, plan, chosen) {
  let fault = "";
  setStep(4);
  for (;;) {
    const secret = new SecretFields(desk, chosen);
    const [more, passphrase] = [new MoreFields(desk, chosen, secret), passphraseFields(desk, true)];
    /** @type {Typed | null} */
    let typed = null;
    const keep = async () => {
      chosen.from = secret.from;
      chosen.hasThrows ||= more.hasThrows;
      if (secret.source === "own") chosen.noted = (await secret.noted()) ?? chosen.noted;
      if (more.isExponent) chosen.exponent = more.exponent;
      return null;
    };
    const take = async () => {
      if (secret.isEntropy) return null;
      const lacks = (await secret.missing()) ?? passphrase.missing() ?? more.missing() ?? (await secret.refusal(desk, plan));
      if (lacks === null) typed = { secret: secret.read(), dice: more.read(), passphrase: passphrase.read() };
      return lacks ?? keep();
    };
    const refused = fault ? [paragraph(fault, "fault"), paragraph(say("passphrase.emptied"), "fault")] : [];
    const asked = [element("h2", {}, say("passphrase.heading")), paragraph(say("passphrase.new")), passphrase.box];
    const answer = await ask(say("make.secret"), [...refused, secret.element, ...asked, more.element], [
      { key: "go", label: say("make.create"), kind: "primary", take },
      { key: "back", label: say("back"), kind: BACK, take: keep },
    ]);
    if (answer === "back") return null;
    const given = /** @type {Typed | null} */ (/** @type {unknown} */ (typed));
    if (given === null) return "words";
    const made = await created(desk, plan, given, chosen);
    if (made.fault === "") return made.words;
    fault = made.fault;
  }
}

/**
 * Makes the backup, and returns what is wrong, or an empty text, and how many words each paper has.
 *
 * @param {Desk} desk
 * @param {Plan} plan
 * @param {Typed} typed
 * @param {Chosen} chosen
 */
async function created(desk, plan, { secret, dice, passphrase }, { exponent, wallet }) {
  setTouched(true);
  const digits = secret.digits?.length ?? 0;
  const seconds = desk.secondsFor({ exponent, secretBytes: digits / 2 || secret.bytes });
  const isLong = exponent >= LONG_EXPONENT;
  try {
    await desk.ask("passphrase", { passphrase }, [passphrase.buffer]);
    showWork(say("make.work"), isLong ? say("time.about", { time: saidTime(seconds) }) : say("time.moment"), seconds, isLong ? () => desk.stop() : null);
    const { fault, fingerprint, place = 0, words = 0 } = await desk.askLong("make", { plan: planText(plan), exponent, extendable: wallet === "flag", dice, ...secret });
    if (fault === "" && secret.noted !== "") tellNext(say("secret.same"), "good");
    if (dice.length) tellNext(say("more.dice.mixed"));
    return { fault: saidDigits({ fault, fingerprint, place }, digits, secret.noted), words };
  } catch (error) {
    if (error instanceof Stopped) return { fault: say("make.stopped"), words: 0 };
    if (!(error instanceof Declined)) throw error;
    return { fault: saidError(error), words: 0 };
  } finally {
    zero(dice);
    if (secret.digits) zero(secret.digits);
  }
}

/**
 * Lets the owner note the fingerprint, and drills with what was typed back and noted. Only then the backup is made.
 *
 * @param {Desk} desk
 * @param {Plan} plan
 * @param {boolean} isOwn
 */
async function noteAndEnd(desk, plan, isOwn) {
  const [fingerprint, hasPassphrase] = [await desk.ask("fingerprint"), await desk.ask("hasPassphrase")];
  const verdict = await noteAndDrill(desk, { fingerprint, isOwn, hasPassphrase });
  if (verdict === null) return;
  setUnfinished("");
  const keep = `${say(planNames(plan).length === 1 ? "make.keep.one" : "make.keep")} ${say(hasPassphrase ? "make.with" : "make.without")}`;
  const old = isOwn ? paragraph(say("make.own")) : null;
  const done = [
    isOwn ? null : paragraph(say("make.empty"), "note"),
    toldVerdict(verdict),
    paragraph(notedPlan(plan), "sentence"),
    paragraph(say("make.restore"), "note"),
    paragraph(keep),
    old,
    verdict.table,
    paragraph(say("close")),
  ];
  await ask(say("make.done"), done, [{ key: "end", label: say("end"), kind: "primary" }]);
}
