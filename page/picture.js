// What is complete and what is missing, group by group: a picture that is also text.
import { element } from "./dom.js";
import { counted, say } from "./say.js";

/** @typedef {import("./desk.js").Standing} Standing */
/** @typedef {import("./desk.js").GroupStatus} GroupStatus */

/**
 * Says how a group stands.
 *
 * @param {GroupStatus} group
 * @param {boolean} isOnly whether the backup has no other group
 */
function saidGroup({ threshold, names }, isOnly) {
  const here = say("status.here", { names: names.join(", ") });
  const missing = threshold - names.length;
  return missing > 0 ? `${here} ${say("status.missing", { more: counted(missing, "paper") })}` : `${here} ${say(isOnly ? "status.complete.only" : "status.complete")}`;
}

/**
 * Draws a card for each paper that the group needs, and for each one more that is here.
 *
 * @param {GroupStatus} group
 */
function boxes({ threshold, names }) {
  const count = Math.max(threshold, names.length);
  const drawn = Array.from({ length: count }, (_, at) => element("span", { class: at < names.length ? "card here" : "card missing" }, names[at] ?? say("card.missing")));
  return element("div", { class: "cards", "aria-hidden": "true" }, element("span", { class: "pile" }, ...drawn), names.length < threshold ? null : element("span", { class: "enough" }, say("card.enough")));
}

/**
 * Draws the groups of the papers that were typed. `groupCount` is how many groups their backup has. `task` has its own words for what is
 * enough.
 *
 * @param {Standing} status
 * @param {number} groupCount
 * @param {string} [task]
 */
export function picture(status, groupCount, task = "") {
  // A paper can be of a group beyond those that it says there are.
  const numbers = new Set([...Array(groupCount).keys(), ...status.groups.map((it) => it.group)]);
  const rows = Array.from(numbers, (group) => {
    const found = status.groups.find((it) => it.group === group);
    const isComplete = found !== undefined && found.names.length >= found.threshold;
    const told = found ? saidGroup(found, numbers.size === 1) : say("status.none");
    return element(
      "li",
      { class: isComplete ? "group complete" : "group" },
      element("strong", {}, numbers.size === 1 ? say("status.only") : say("status.group", { group })),
      found ? boxes(found) : null,
      element("span", {}, told),
    );
  });
  return element("div", { class: "picture" }, element("p", { class: "note" }, saidWhole(status, groupCount, task)), element("ul", {}, ...rows));
}

/**
 * Says whether the papers are enough. An owner whose backup has one group needn't know of groups.
 *
 * @param {Standing} status
 * @param {number} groupCount
 * @param {string} [task]
 */
export function saidWhole({ complete, required, enough, groups }, groupCount, task = "") {
  const [{ threshold, names }] = groups;
  const about = task === "replace" && groupCount === 1 && threshold > 1 ? "replace" : "status";
  // A backup of one paper has no others to be typed.
  const hasOthers = groupCount > 1 || threshold > 1;
  if (enough) return say(task === "check" && hasOthers ? "status.enough.check" : `${about}.enough`);
  if (groupCount > 1) return say("status.not_enough", { needed: counted(required, "whole"), here: complete });
  return say(`${about}.not_enough`, { needed: counted(threshold, "paper"), here: names.length });
}
