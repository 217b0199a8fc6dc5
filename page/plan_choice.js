// The choice of a plan: proposals in plain words, or groups and members by buttons; and the screen that asks for it.
import { BACK, choice, element, paragraph } from "./dom.js";
import { GROUPS_MAX, MEMBERS_MAX, planText, saidDangers, saidPlan, saidSingles } from "./plan.js";
import { planPicture } from "./plan_picture.js";
import { saidError } from "./refusals.js";
import { say } from "./say.js";
import { announce, ask, setStep } from "./screen.js";

/** @typedef {import("./client.js").Desk} Desk */
/** @typedef {import("./plan.js").Plan} Plan */
/** @typedef {import("./plan.js").Group} Group */

/** @type {Record<"two" | "three" | "home", Plan>} */
const PROPOSALS = {
  two: { needed: 1, groups: [{ needed: 2, members: 3 }] },
  three: { needed: 1, groups: [{ needed: 3, members: 5 }] },
  home: { needed: 2, groups: [{ needed: 2, members: 3 }, { needed: 1, members: 1 }, { needed: 1, members: 1 }] },
};

/** The choice of a plan. `plan` is what is chosen. */
export class PlanChoice {
  /** @type {Plan} */
  plan = structuredClone(PROPOSALS.two);
  #own = element("div", { class: "groups" });
  #sentence = element("p", { class: "sentence" });
  #dangers = element("p", { class: "bad" });
  #picture = element("div");

  constructor() {
    const options = /** @type {const} */ (["two", "three", "home", "own"]).map((key) => ({
      key,
      label: say(`plan.${key}`),
      hint: say(`plan.${key}.hint`),
    }));
    this.element = element(
      "div",
      {},
      choice(say("plan.legend"), options, "two", (key) => this.#choose(key)),
      this.#own,
      this.#sentence,
      this.#dangers,
      this.#picture,
    );
    this.#tell();
  }

  /** @param {"two" | "three" | "home" | "own"} key */
  #choose(key) {
    if (key !== "own") this.plan = structuredClone(PROPOSALS[key]);
    this.#own.replaceChildren();
    if (key === "own") this.#draw();
    this.#tell();
  }

  #tell() {
    const [text, dangers] = [`${saidPlan(this.plan)} ${saidSingles(this.plan)}`.trim(), saidDangers(this.plan)];
    const isOther = this.#sentence.textContent !== text || this.#dangers.textContent !== dangers;
    if (this.#sentence.textContent && isOther) announce(`${text} ${dangers}`.trim());
    this.#sentence.textContent = text;
    this.#dangers.textContent = dangers;
    this.#dangers.hidden = dangers === "";
    this.#picture.replaceChildren(planPicture(this.plan));
    this.element.dispatchEvent(new Event("input", { bubbles: true }));
  }

  /** Draws the groups again, and puts the focus back on the button that was pressed, or beside it if it can't be pressed again. */
  #draw() {
    const { groups } = this.plan;
    const label = nameOf(document.activeElement);
    const rows = groups.map((group, at) => this.#group(group, at));
    const whole = stepper(say("plan.groups_needed"), this.plan.needed, 1, groups.length, (value) => this.#change(() => (this.plan.needed = value)));
    // An owner may press these fast, so a double click is two presses.
    const quick = (/** @type {string} */ text, /** @type {() => void} */ change) => element("button", { type: "button", class: "small", click: () => this.#change(change) }, text);
    const add = quick(say("plan.add"), () => this.#add());
    const drop = quick(say("plan.drop"), () => groups.pop());
    add.disabled = groups.length === GROUPS_MAX;
    drop.disabled = groups.length === 1;
    this.#own.replaceChildren(...rows, element("div", { class: "buttons" }, add, drop), ...(groups.length > 1 ? [whole] : []));
    const same = [...this.#own.querySelectorAll("button")].find((it) => nameOf(it) === label);
    const beside = [...(same?.parentElement?.querySelectorAll("button") ?? [])].find((it) => !it.disabled);
    (same?.disabled ? beside : same)?.focus();
  }

  /**
   * @param {Group} group
   * @param {number} at
   */
  #group(group, at) {
    const members = stepper(say("plan.members", { group: at }), group.members, 1, MEMBERS_MAX, (value) => this.#change(() => (group.members = value)));
    const needed = stepper(say("plan.needed", { group: at }), group.needed, 1, group.members, (value) => this.#change(() => (group.needed = value)));
    return element("fieldset", {}, element("legend", {}, say("status.group", { group: at })), members, needed);
  }

  /** Adds a group. With the second one, both are needed: if one were enough, its papers would be the whole secret. */
  #add() {
    const { groups } = this.plan;
    groups.push({ needed: 1, members: 1 });
    if (groups.length === 2) this.plan.needed = 2;
  }

  /** @param {() => void} change */
  #change(change) {
    change();
    this.plan.needed = Math.min(this.plan.needed, this.plan.groups.length);
    for (const group of this.plan.groups) group.needed = Math.min(group.needed, group.members);
    this.#draw();
    this.#tell();
  }
}

/**
 * Returns what the engine says against a plan, or an empty text. The length of the secret doesn't matter to it.
 *
 * @param {Desk} desk
 * @param {Plan} plan
 */
export async function planFault(desk, plan) {
  try {
    await desk.ask("plan", { plan: planText(plan), bytes: 16 });
    return "";
  } catch (error) {
    return saidError(error);
  }
}

/**
 * Asks for a plan that the engine takes, and about its dangers. Returns whether one is chosen; if not, the owner goes back.
 *
 * @param {Desk} desk
 * @param {PlanChoice} chosen
 * @param {{title: string, step: number}} what
 */
export async function askPlan(desk, chosen, { title, step }) {
  setStep(step);
  const take = () => planFault(desk, chosen.plan);
  for (;;) {
    const hints = ["plan.short", "names.sentence"].map((key) => paragraph(say(key), "hint"));
    const children = [paragraph(say("plan.what")), chosen.element, ...hints];
    const answer = await ask(title, children, [
      { key: "go", label: say("continue"), kind: "primary", take },
      { key: "back", label: say("back"), kind: BACK },
    ]);
    if (answer === "back") return false;
    if (await isMeant(chosen.plan)) return true;
  }
}

/**
 * Whether a plan is meant, although one paper of it may be the whole secret, or its loss may be the loss of the secret.
 *
 * @param {Plan} plan
 */
async function isMeant(plan) {
  const dangers = saidDangers(plan);
  if (dangers === "") return true;
  const told = [paragraph(saidPlan(plan), "sentence"), paragraph(dangers, "bad"), paragraph(say("plan.sure"))];
  const answer = await ask(say("plan.sure.title"), told, [
    { key: "back", label: say("plan.sure.back"), kind: "primary" },
    { key: "yes", label: say("plan.sure.yes") },
  ]);
  return answer === "yes";
}

/** @param {Element | null} it */
function nameOf(it) {
  return it?.getAttribute("aria-label") ?? it?.textContent;
}

/**
 * Makes a number that two buttons change.
 *
 * @param {string} label
 * @param {number} value
 * @param {number} least
 * @param {number} most
 * @param {(value: number) => void} onChange
 */
function stepper(label, value, least, most, onChange) {
  const step = (/** @type {string} */ sign, /** @type {string} */ told, /** @type {number} */ next) => {
    const made = element("button", { type: "button", class: "small", "aria-label": `${told}: ${label}`, click: () => onChange(next) }, sign);
    made.disabled = next < least || next > most;
    return made;
  };
  return element(
    "div",
    { class: "stepper", role: "group", "aria-label": `${label}: ${value}` },
    paragraph(label),
    step("−", say("plan.fewer"), value - 1),
    element("output", {}, String(value)),
    step("+", say("plan.more"), value + 1),
  );
}
