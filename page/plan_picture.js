// What a plan survives and what it doesn't: which losses and which thefts, each with a card for each paper.
import { element } from "./dom.js";
import { planNames } from "./plan.js";
import { say } from "./say.js";

/** @typedef {import("./plan.js").Plan} Plan */

/** Of more papers, no cards are drawn. The sentences say the same. */
const CARDS_MAX = 24;

/**
 * Returns papers of some groups, of each so many: the groups are those of which the fewest are needed.
 *
 * @param {number[]} each how many papers of each group
 * @param {number} count how many groups
 */
function cheapest(each, count) {
  const order = each.map((papers, group) => ({ papers, group })).sort((a, b) => a.papers - b.papers || a.group - b.group);
  return order.slice(0, count).flatMap(({ papers, group }) => Array.from({ length: papers }, (_, member) => `${group}.${member}`));
}

/**
 * Returns as few papers as can be lost so that the others aren't enough: of each of some groups as many that it is complete no more.
 *
 * @param {Plan} plan
 */
export function worstLoss({ needed, groups }) {
  return cheapest(groups.map((group) => group.members - group.needed + 1), groups.length - needed + 1);
}

/**
 * Returns as few papers as are enough.
 *
 * @param {Plan} plan
 */
export function worstTheft({ needed, groups }) {
  return cheapest(groups.map((group) => group.needed), needed);
}

/**
 * Draws a card for each paper, group by group.
 *
 * @param {Plan} plan
 * @param {string[]} marked
 * @param {string} kind how the marked ones look
 */
function cards(plan, marked, kind) {
  const names = planNames(plan);
  if (names.length > CARDS_MAX) return null;
  const groups = plan.groups.map((_, group) => {
    const own = names.filter((name) => Number(name.split(".")[0]) === group);
    return element("span", { class: "pile" }, ...own.map((name) => element("span", { class: marked.includes(name) ? `card ${kind}` : "card" }, name)));
  });
  return element("div", { class: "cards", "aria-hidden": "true" }, ...groups);
}

/**
 * Returns the rows under each heading: what is said of so many papers, and which of them are an example. In a plan of one group, what is
 * true of these is true of any others.
 *
 * @param {Plan} plan
 */
function rows(plan) {
  const risk = plan.groups.length === 1 ? "risk.only" : "risk";
  const said = (/** @type {string} */ key, /** @type {string[]} */ names) => ({ text: say(`${key}.${names.length === 1 ? "one" : "many"}`, { n: names.length }), names });
  const [loss, theft] = [worstLoss(plan), worstTheft(plan)];
  const safe = [{ kind: "lost", ...said("lost.safe", loss.slice(1)) }, { kind: "stolen", ...said("stolen.safe", theft.slice(1)) }];
  const not = [{ kind: "lost", ...said(`lost.${risk}`, loss) }, { kind: "stolen", ...said(`stolen.${risk}`, theft) }];
  return [
    { heading: "survives", lines: safe.filter(({ names }) => names.length > 0) },
    { heading: "survives.not", lines: not },
  ].filter(({ lines }) => lines.length > 0);
}

/**
 * Draws what a plan survives, and what it doesn't.
 *
 * @param {Plan} plan
 */
export function planPicture(plan) {
  const drawn = rows(plan).flatMap(({ heading, lines }) => [
    element("h2", {}, say(heading)),
    element("ul", {}, ...lines.map(({ kind, text, names }) => element("li", {}, element("span", {}, text), cards(plan, names, kind)))),
  ]);
  return element("div", { class: "survives" }, ...drawn);
}
