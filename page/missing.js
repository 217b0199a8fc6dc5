// Which papers may be missing, and how an owner names one. The words don't say how many there are.
import { MEMBERS_MAX } from "./plan.js";
import { counted, formOf, say } from "./say.js";

/** @typedef {import("./desk.js").Standing} Standing */
/** @typedef {import("./plan.js").Plan} Plan */
/** @typedef {{groupCount: number, groupThreshold: number}} Counts how many groups there are, and how many are needed */

// The name of a paper. If there is only one group, the number of the paper in it is enough.
const NAME = /^(?:(\d{1,4})\s*\.\s*)?(\d{1,4})$/;

/**
 * Returns the names that are likely to be missing, each with the key of why it is.
 *
 * @param {Standing} status
 * @param {number} groupCount
 */
export function candidates(status, groupCount) {
  return Array.from({ length: groupCount }, (_, group) => {
    const found = status.groups.find((it) => it.group === group);
    if (!found) return [{ name: `${group}.0`, why: "which.of_group" }];
    // A group that needs one paper has no other.
    if (found.threshold === 1) return [];
    const here = found.names.map((name) => Number(name.split(".")[1]));
    const last = Math.max(...here);
    const missing = Array.from({ length: Math.min(last + 2, MEMBERS_MAX) }, (_, member) => member).filter((member) => !here.includes(member));
    return missing.map((member) => ({ name: `${group}.${member}`, why: member < last ? "which.between" : "which.after" }));
  }).flat();
}

/**
 * Returns what wasn't typed, and so not tried: the keys of sentences, and the names that they have. Papers are known that come before others
 * of their group, and groups of which none is here. There may be others after them.
 *
 * @param {Standing} status
 * @param {number} groupCount
 * @returns {{key: string, names: string[]}[]}
 */
export function untried(status, groupCount) {
  const missing = candidates(status, groupCount);
  const named = (/** @type {string} */ why) => missing.filter((it) => it.why === why).map(({ name }) => name);
  const [papers, groups] = [named("which.between"), named("which.of_group").map((name) => name.split(".")[0])];
  const told = [
    { key: `verdict.untried.${formOf(papers)}`, names: papers },
    { key: `verdict.untried.group.${formOf(groups)}`, names: groups },
  ].filter(({ names }) => names.length);
  return named("which.after").length ? [...told, { key: "verdict.untried.others", names: [] }] : told;
}

/**
 * Reads the name of a missing paper: its group and its number there. `fault` says why it can't be one, or is null. `isNew` says that no
 * paper of the group is here, so that only the owner knows what it needs.
 *
 * @param {string} typed
 * @param {Standing} status
 * @param {number} groupCount
 * @returns {{group: number, name: string, isNew: boolean, fault: string | null}}
 */
export function readName(typed, status, groupCount) {
  const found = NAME.exec(typed.trim());
  const none = { group: -1, name: "", isNew: false };
  if (!found || Number(found[2]) >= MEMBERS_MAX || (found[1] === undefined && groupCount > 1)) return { ...none, fault: say("which.name.wrong") };
  const group = Number(found[1] ?? 0);
  const name = `${group}.${Number(found[2])}`;
  if (group >= groupCount) return { ...none, fault: say("which.beyond", { groups: counted(groupCount, "group") }) };
  const own = status.groups.find((it) => it.group === group);
  const fault = own?.names.includes(name) ? say("which.here", { name }) : own?.threshold === 1 ? say("which.only", { group }) : null;
  return { group, name, isNew: !own, fault };
}

/**
 * Returns a plan that has a paper. A group has as many papers as there can be, since no paper says how many there are: each has the same
 * words in all such plans.
 *
 * @param {Standing} status
 * @param {Counts} counts
 * @param {number} wanted the group of the paper
 * @param {number} needed how many papers that group needs, if none of them is here
 * @returns {Plan}
 */
export function planWith(status, { groupCount, groupThreshold }, wanted, needed) {
  const groups = Array.from({ length: groupCount }, (_, group) => {
    const threshold = status.groups.find((it) => it.group === group)?.threshold ?? (group === wanted ? needed : 1);
    return { needed: threshold, members: threshold === 1 ? 1 : MEMBERS_MAX };
  });
  return { needed: groupThreshold, groups };
}

/**
 * Returns the names of the papers that were written again, and whose group needs one paper, as only the owner said: no other paper of it was
 * here.
 *
 * @param {readonly import("./desk.js").Kind[]} kinds
 */
export function answered(kinds) {
  return kinds.filter((it) => it.isWritten && it.memberThreshold === 1).map(({ name }) => name);
}

/**
 * Whether papers may determine a missing one, whatever the plan is: they are enough, or a group of several is complete.
 *
 * @param {Standing} status
 */
export function mayDetermine({ enough, groups }) {
  return enough || groups.some(({ threshold, names }) => threshold > 1 && names.length >= threshold);
}

/**
 * Returns the task for which a paper of a plan that isn't determined has its own words: "only" if the backup has one group, and "all" if
 * each of several is needed, so that only papers of its group give it.
 *
 * @param {Plan} plan
 */
export function taskOf({ needed, groups }) {
  if (groups.length === 1) return "only";
  return needed === groups.length ? "all" : "";
}
