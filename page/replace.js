// The task 'Replace a paper': papers that were destroyed are computed from the others, written down, typed back and drilled.
import { Code } from "../bindings/js/refusal.js";
import { changePlan } from "./change_plan.js";
import { drillWithPassphrase, saidLeftOut } from "./check_papers.js";
import { Declined } from "./client.js";
import { askForMore, collectPapers } from "./collect.js";
import { BACK, choice, paragraph } from "./dom.js";
import { answered, mayDetermine, taskOf } from "./missing.js";
import { planText, saidTakesAlone } from "./plan.js";
import { saidError } from "./refusals.js";
import { formOf, say } from "./say.js";
import { ask, setStep, setSteps } from "./screen.js";
import { writeAndTypeBack } from "./show_paper.js";
import { askWhich } from "./which_paper.js";

/** @typedef {import("./client.js").Desk} Desk */
/** @typedef {import("./desk.js").Status} Status */
/** @typedef {import("./desk.js").Kind} Kind */
/** @typedef {import("./which_paper.js").Wanted} Wanted */

/**
 * Replaces papers.
 *
 * @param {Desk} desk
 */
export async function replacePaper(desk) {
  for (;;) {
    setSteps(8);
    const why = await askWhy();
    if (why === "back") return;
    const answer = why === "other" ? await changeInstead(desk) : await replaceDestroyed(desk);
    if (answer !== "back") return;
  }
}

/**
 * Says that new papers are the right answer, and changes the plan if the owner wants that.
 *
 * @param {Desk} desk
 * @returns {Promise<"end" | "back">}
 */
async function changeInstead(desk) {
  while ((await tellNew()) === "change") {
    if ((await changePlan(desk)) === "end") return "end";
  }
  return "back";
}

/** @returns {Promise<"change" | "back">} */
function tellNew() {
  setSteps(0);
  const told = [paragraph(say("replace.new.change"), "note"), paragraph(say("replace.new.move"))];
  return ask(say("replace.new.title"), told, [
    { key: "change", label: say("replace.new.change.go"), kind: "primary" },
    { key: "back", label: say("back"), kind: BACK },
  ]);
}

/**
 * Replaces papers that were destroyed.
 *
 * @param {Desk} desk
 * @returns {Promise<"end" | "back">}
 */
async function replaceDestroyed(desk) {
  for (;;) {
    setStep(2);
    const collected = await collectPapers(desk, { title: say("replace.title"), intro: say("replace.intro"), task: "replace" });
    if (collected === null) return "back";
    const { status, kinds } = collected;
    if (!mayDetermine(status)) {
      const key = kinds[0].groupCount === 1 ? "replace.none_yet.only" : "replace.none_yet";
      if ((await tellFew(desk, status, kinds, key)) === "end") return "end";
      continue;
    }
    const next = await writeMissing(desk, kinds[0]);
    if (next === "drill" && (await drillRest(desk)) === "end") return "end";
  }
}

/**
 * Lets the owner write missing papers, as many as are wanted. Returns where the owner wants to go then.
 *
 * @param {Desk} desk
 * @param {Kind} kind
 * @returns {Promise<"papers" | "drill">}
 */
async function writeMissing(desk, kind) {
  let fault = "";
  for (;;) {
    /** @type {Kind[]} */
    const kinds = await desk.ask("kinds");
    const isWritten = areWritten(kinds);
    setStep(isWritten ? 6 : 3);
    /** @type {Wanted | "papers" | "drill"} */
    const wanted = await askWhich(await desk.ask("status"), kind, fault, { isWritten, lone: answered(kinds) });
    if (typeof wanted === "string") return wanted;
    const found = await computed(desk, wanted);
    fault = found.fault;
    if (fault !== "") continue;
    await writeAndTypeBack(desk, { index: found.index, name: wanted.name, takes: takesOf(wanted) }, kind.words, 4);
  }
}

/**
 * Whether any of these papers was written again.
 *
 * @param {Kind[]} kinds
 */
function areWritten(kinds) {
  return kinds.some(({ isWritten }) => isWritten);
}

/**
 * Lets the worker compute a missing paper, and keep it to be shown. Returns its number there, or what is wrong.
 *
 * @param {Desk} desk
 * @param {Wanted} wanted
 * @returns {Promise<{index: number, fault: string}>}
 */
async function computed(desk, { name, plan }) {
  try {
    return { index: await desk.ask("reissue", { plan: planText(plan), name }), fault: "" };
  } catch (error) {
    if (!(error instanceof Declined) || error.refused.code !== Code.UNDETERMINED) return { index: -1, fault: saidError(error) };
    return { index: -1, fault: `${say("which.untold", { name })} ${saidError(error, taskOf(plan))}` };
  }
}

/**
 * Says that the papers are too few. Returns whether the owner wants to type more.
 *
 * @param {Desk} desk
 * @param {Status} status
 * @param {Kind[]} kinds
 * @param {string} key what too few papers mean here
 */
async function tellFew(desk, status, kinds, key) {
  const lone = answered(kinds);
  const rests = lone.length ? paragraph(say(`replace.lone.${formOf(lone)}`, { names: lone.join(", ") }), "bad") : null;
  const told = [rests, paragraph(say(key), "note"), await saidLeftOut(desk)];
  return askForMore(say(areWritten(kinds) ? "replace.done" : "replace.few"), told, status, kinds, key === "replace.too_few" ? "" : "replace");
}

/**
 * Says what a paper takes to be of use. Nobody may know how many papers there were, so it doesn't count them.
 *
 * @param {Wanted} wanted
 */
function takesOf({ name, plan: { needed, groups } }) {
  return saidTakesAlone({ name, groupCount: groups.length, groupThreshold: needed, memberThreshold: groups[Number(name.split(".")[0])].needed });
}

/**
 * Asks what became of the paper, unless the owner goes back.
 *
 * @returns {Promise<"destroyed" | "other" | "back">}
 */
async function askWhy() {
  // Neither is chosen at first: whoever goes on in a hurry must not get the words of a lost paper again.
  /** @type {"destroyed" | "other" | null} */
  let why = null;
  const options = /** @type {const} */ (["destroyed", "other"]).map((key) => ({ key, label: say(`replace.${key}`), hint: say(`replace.${key}.hint`) }));
  const asked = choice(say("replace.why"), options, null, (key) => (why = key));
  const take = () => (why === null ? say("replace.why.missing") : null);
  const answer = await ask(say("replace.title"), [asked], [
    { key: "go", label: say("continue"), kind: "primary", take },
    { key: "back", label: say("back"), kind: BACK },
  ]);
  return answer === "back" ? answer : /** @type {any} */ (why);
}

/**
 * Drills with all papers that were typed, if they are enough. Returns whether the owner wants to go back to the papers.
 *
 * @param {Desk} desk
 */
async function drillRest(desk) {
  setStep(7);
  const [status, kinds] = [await desk.ask("status"), await desk.ask("kinds")];
  const what = { title: say("replace.drill"), passphrase: say("replace.passphrase"), steps: [7, 8] };
  if (status.enough) return drillWithPassphrase(desk, status, kinds, what);
  return tellFew(desk, status, kinds, "replace.too_few");
}
