// The task 'Change the plan': enough old papers, a plan, new papers that are written and typed back, and a drill of them beside the old ones.
import { saidLeftOut } from "./check_papers.js";
import { Declined, Stopped } from "./client.js";
import { askForMore, askWhatNext, collectPapers } from "./collect.js";
import { element, paragraph } from "./dom.js";
import { askToDrill, runDrill, toldCount, toldVerdict, warnedTime } from "./drill.js";
import { askPassphrase } from "./passphrase.js";
import { notedPlan, planNames, planText } from "./plan.js";
import { askPlan, PlanChoice } from "./plan_choice.js";
import { saidError, saidRefusal } from "./refusals.js";
import { say } from "./say.js";
import { ask, setStep, setSteps, setUnfinished, showWork } from "./screen.js";
import { writeAll } from "./show_paper.js";
import { askWallet } from "./wallet.js";

/** @typedef {import("./client.js").Desk} Desk */
/** @typedef {import("./desk.js").Kind} Kind */
/** @typedef {import("./drill.js").Verdict} Verdict */
/** @typedef {import("./plan.js").Plan} Plan */
/** @typedef {import("./wallet.js").Asked & {planned: PlanChoice}} Chosen what was chosen, also on the way back */
/** @typedef {{plan: Plan, kind: Kind, words: number}} Made the plan of the new papers, what the old papers are, and how many words each new one has */

const STEPS_MOST = 8;

/**
 * Changes the plan. Returns whether the owner goes back from the first screen.
 *
 * @param {Desk} desk
 * @returns {Promise<"end" | "back">}
 */
export async function changePlan(desk) {
  const made = await makeAnew(desk);
  if (typeof made === "string") return made;
  const { plan, words, kind } = made;
  await writeAll(desk, plan, words, { title: say("change.forms"), first: say("change.mark"), unfinished: "clear.changed", step: stepsOf(kind) - 3 });
  await drillAndEnd(desk, made);
  return "end";
}

/**
 * Returns how many steps the task has. What isn't extendable also takes a wallet and a passphrase before there are new papers.
 *
 * @param {Kind} kind
 */
function stepsOf({ extendable }) {
  return extendable ? 6 : STEPS_MOST;
}

/**
 * Asks for the old papers and the plan until the new papers are made, or until the owner ends the task or goes back.
 *
 * @param {Desk} desk
 * @returns {Promise<Made | "end" | "back">}
 */
async function makeAnew(desk) {
  /** @type {Chosen} */
  const chosen = { planned: new PlanChoice(), wallet: null, words: 0 };
  for (;;) {
    setSteps(STEPS_MOST, true);
    const found = await collectPapers(desk, { title: say("change.title"), intro: say("change.intro") });
    if (found === null) return "back";
    const { status, kinds } = found;
    if (status.enough) setSteps(stepsOf(kinds[0]));
    const tooFew = async () => askForMore(say("recover.few"), [paragraph(say("recover.too_few")), await saidLeftOut(desk)], status, kinds);
    const make = () => (kinds[0].extendable ? split(desk, chosen) : renew(desk, chosen, kinds[0]));
    const answer = status.enough ? await make() : await tooFew();
    if (answer === "end") return answer;
    if (answer !== "papers") return { plan: chosen.planned.plan, kind: kinds[0], words: answer };
  }
}

/**
 * Asks for the plan, and splits an extendable backup by it. Returns how many words each paper has, or where the owner goes.
 *
 * @param {Desk} desk
 * @param {Chosen} chosen
 * @returns {Promise<number | "papers" | "end">}
 */
async function split(desk, { planned }) {
  if (!(await askPlan(desk, planned, { title: say("change.plan"), step: 2 }))) return "papers";
  try {
    return await desk.ask("resplit", { plan: planText(planned.plan) });
  } catch (error) {
    const told = [paragraph(saidError(error), "bad"), paragraph(say("close"))];
    return /** @type {"papers" | "end"} */ (await askWhatNext(say("change.failed"), told, "papers", true));
  }
}

/**
 * Asks for the plan, the wallet and what was noted, and makes papers of the secret. Returns how many words each has, or that the owner
 * goes back.
 *
 * @param {Desk} desk
 * @param {Chosen} chosen
 * @param {Kind} kind
 * @returns {Promise<number | "papers">}
 */
async function renew(desk, chosen, kind) {
  const { planned } = chosen;
  while (await askPlan(desk, planned, { title: say("change.plan"), step: 2 })) {
    while (await askWallet(chosen, { title: say("change.wallet"), step: 3 })) {
      const words = await renewWith(desk, { plan: planText(planned.plan), extendable: chosen.wallet === "flag" }, kind);
      if (words) return words;
    }
  }
  return "papers";
}

/**
 * Asks for what was noted of the old papers, and makes papers of the secret. Returns how many words each has, or none if the owner goes
 * back.
 *
 * @param {Desk} desk
 * @param {{plan: string, extendable: boolean}} made
 * @param {Kind} kind
 * @returns {Promise<number>}
 */
async function renewWith(desk, made, kind) {
  let fault = "";
  /** @type {string | null} */
  let noted = null;
  setStep(4);
  for (;;) {
    /** @type {string | null} */
    const given = await askPassphrase(desk, { title: say("change.passphrase"), why: say("change.passphrase.why"), fault, noted, isTwice: true });
    if (given === null) return 0;
    noted = given;
    const found = await renewed(desk, kind, { ...made, noted });
    if (found.made?.words) return found.made.words;
    const other = (await desk.ask("hasPassphrase")) ? "recover.other" : "recover.other.none";
    fault = found.made ? `${say(other, { noted })} ${found.made.fingerprint}` : found.fault;
  }
}

/**
 * Lets the worker make papers of the secret, and shows that it works. Returns its answer, or what is wrong.
 *
 * @param {Desk} desk
 * @param {Kind} kind
 * @param {{plan: string, extendable: boolean, noted: string}} given
 * @returns {Promise<{made: {fingerprint: string, words: number} | null, fault: string}>}
 */
async function renewed(desk, kind, given) {
  // The secret is recovered, and then encrypted.
  showWork(say("make.work"), warnedTime(desk, kind) ?? say("time.moment"), desk.secondsFor(kind) * 2, () => desk.stop());
  try {
    return { made: await desk.askLong("renew", given), fault: "" };
  } catch (error) {
    if (error instanceof Stopped) return { made: null, fault: say("change.stopped") };
    if (!(error instanceof Declined)) throw error;
    return { made: null, fault: saidError(error) };
  }
}

/**
 * Asks for what was noted, and tries the new papers beside the old ones until they agree, or until the owner ends the task. An extendable
 * backup needs no passphrase for that: if old and new agree with one, they agree with each.
 *
 * @param {Desk} desk
 * @param {Made} made
 */
async function drillAndEnd(desk, made) {
  const { extendable } = made.kind;
  const what = { title: say("change.noted"), why: say(extendable ? "change.noted.why" : "change.again.why"), back: extendable ? say("change.bare") : "" };
  let fault = "";
  /** @type {string | null} */
  let noted = null;
  for (;;) {
    setStep(stepsOf(made.kind) - 1);
    /** @type {string | null} */
    const given = await askPassphrase(desk, { ...what, fault, noted });
    if (given === null) await desk.ask("passphrase", { passphrase: new Uint8Array() });
    noted = given ?? "";
    setStep(stepsOf(made.kind));
    const { answer, told } = await drillBeside(desk, made, given);
    if (answer === "end") return;
    fault = told;
  }
}

/**
 * Drills with the old papers, and then with the new ones, which have to give what the old ones gave. Returns whether the owner ends the
 * task, or what to say before asking again for what was noted.
 *
 * @param {Desk} desk
 * @param {Made} made
 * @param {string | null} given the noted fingerprint, or an empty text if there is none, or null if the passphrase isn't here either
 * @returns {Promise<{answer: "end" | "again", told: string}>}
 */
async function drillBeside(desk, made, given) {
  const [status, oldStatus, noted] = [await desk.ask("status"), await desk.ask("status", { isOld: true }), given ?? ""];
  const counts = [element("h2", {}, say("change.old.title")), toldCount(oldStatus), element("h2", {}, say("change.new.title")), toldCount(status)];
  if (!(await askToDrill(desk, counts, made.kind, { title: say("change.drill"), hasBack: true }))) return { answer: "again", told: "" };
  const old = await runDrill(desk, oldStatus, { title: say("change.work"), noted, isOld: true });
  if ("refused" in old) return { answer: "again", told: saidRefusal(old.refused) };
  if (old.result === "other" || old.result === "none") return { answer: "again", told: old.sentences.join(" ") };
  if (old.result !== "good") return tellUnlike(old, say("change.old.wrong"), { papers: "old" });
  const verdict = await runDrill(desk, status, { title: say("change.work.new"), noted: old.fingerprint, isOwn: noted === "", isNew: true });
  if ("refused" in verdict) return { answer: "again", told: saidRefusal(verdict.refused) };
  if (verdict.result === "good") return { answer: await tellDone(verdict, made, given), told: "" };
  // An extendable backup gives another secret only if the engine failed.
  const isOther = verdict.result === "other" && !made.kind.extendable;
  if (!isOther) return tellUnlike(verdict, say("change.broken"));
  return tellUnlike({ ...verdict, sentences: [say("change.other")] }, say("change.other.then"), { mayRetry: true });
}

/**
 * Says that old and new papers agree, and what becomes of the old ones.
 *
 * @param {Verdict} verdict
 * @param {Made} made
 * @param {string | null} given
 */
function tellDone(verdict, { plan, kind: { extendable } }, given) {
  setUnfinished("");
  // Without the flag, the new papers are made with one passphrase. With a mistyped one, old and new papers give the same wrong secret.
  const isUnproved = !given && !extendable;
  const old = isUnproved ? "change.old.unproved" : extendable ? "change.old" : "change.old.renewed";
  const told = [
    isUnproved ? paragraph(say("change.unnoted"), "bad") : null,
    toldVerdict(verdict),
    isUnproved ? null : paragraph(say("change.same"), "note"),
    given ? null : paragraph(say(given === null ? "change.bare.noted" : "change.noted.first"), "note"),
    paragraph(say("change.restore"), "note"),
    element("h2", {}, say("change.new.title")),
    paragraph(notedPlan(plan), "sentence"),
    paragraph(say(planNames(plan).length === 1 ? "make.keep.one" : "make.keep")),
    verdict.table,
    element("h2", {}, say("change.old.title")),
    paragraph(say(old)),
    paragraph(say("change.mixed")),
    paragraph(say("change.thief")),
    paragraph(say("close")),
  ];
  return ask(say(isUnproved ? "change.done.unproved" : "change.done"), told, [{ key: "end", label: say("end"), kind: "primary" }]);
}

/**
 * Says why nothing shows that old and new papers agree. A drill that was stopped needs no screen of its own.
 *
 * @param {Verdict} verdict
 * @param {string} next what to do
 * @param {{papers?: "old" | "new", mayRetry?: boolean}} what which papers the drill was of, and whether another passphrase may show it
 * @returns {Promise<{answer: "end" | "again", told: string}>}
 */
async function tellUnlike(verdict, next, { papers = "new", mayRetry = false } = {}) {
  if (verdict.result === "stopped") return { answer: "again", told: say("change.stopped") };
  const again = { key: /** @type {const} */ ("again"), label: say("proof.again"), kind: "primary" };
  // Old and new papers have the same names.
  const told = [element("h2", {}, say(`change.${papers}.title`)), toldVerdict(verdict), verdict.table, paragraph(next, "note")];
  const answer = await ask(say("change.unproved"), told, [...(mayRetry ? [again] : []), { key: /** @type {const} */ ("end"), label: say("end") }]);
  return { answer, told: "" };
}
