// A plan: how many groups are needed, and of each group how many members it has and needs. The engine decides which plans are
// right; this only writes their text and says them in words.
import { counted, formOf, say } from "./say.js";

export const GROUPS_MAX = 16;
export const MEMBERS_MAX = 16;

/** @typedef {{needed: number, members: number}} Group */
/** @typedef {{needed: number, groups: Group[]}} Plan */
/** @typedef {import("./desk.js").Kind} Kind */

/**
 * Returns the text of a plan, as the engine takes it.
 *
 * @param {Plan} plan
 */
export function planText(plan) {
  const parts = plan.groups.map(({ needed, members }) => `${needed}of${members}`);
  return plan.groups.length === 1 && plan.needed === 1 ? parts[0] : `${plan.needed}/${parts.join(",")}`;
}

/**
 * Returns the names of the papers of a plan, in ascending order.
 *
 * @param {Plan} plan
 */
export function planNames(plan) {
  return plan.groups.flatMap(({ members }, group) => Array.from({ length: members }, (_, member) => `${group}.${member}`));
}

/**
 * Says which members of a group are needed.
 *
 * @param {Group} group
 */
function saidMembers({ needed, members }) {
  if (members === 1) return say("plan.only");
  return needed === members ? say("plan.each", { members }) : say("plan.any", { needed, members });
}

/**
 * Says what recovers the secret.
 *
 * @param {Plan} plan
 */
export function saidPlan(plan) {
  if (plan.groups.length === 1) {
    const [group] = plan.groups;
    if (group.members === 1) return say("plan.sentence.one");
    if (group.needed === group.members) return say(group.members === 2 ? "plan.sentence.both" : "plan.sentence.each", { members: group.members });
    return say("plan.sentence.any", group);
  }
  const groups = plan.groups.map((group, at) => say("plan.group", { group: at, members: saidMembers(group) })).join("; ");
  const count = plan.groups.length;
  const which = plan.needed === count ? (count === 2 ? "both_groups" : "all_groups") : plan.needed === 1 ? "one_group" : "groups";
  const head = say(`plan.sentence.${which}`, { needed: plan.needed, count });
  return `${head} ${groups}.`;
}

/**
 * Says what to note of a plan: what recovers the secret, and the plan's text.
 *
 * @param {Plan} plan
 */
export function notedPlan(plan) {
  const said = saidPlan(plan);
  return say("make.note", { said: said[0].toLowerCase() + said.slice(1, -1), plan: planText(plan) });
}

/**
 * Returns the groups of which one paper is enough.
 *
 * @param {Plan} plan
 */
function singles({ groups }) {
  return groups.flatMap((group, at) => (group.needed === 1 ? [at] : []));
}

/**
 * Says which papers may not be lost, and which are the whole secret. If there are none, says nothing.
 *
 * @param {Plan} plan
 */
export function saidDangers(plan) {
  const { needed, groups } = plan;
  const said = [];
  if (needed === groups.length) {
    const alone = groups.flatMap(({ members }, at) => (members === 1 ? [`${at}.0`] : []));
    if (alone.length) said.push(say(`plan.lost.${formOf(alone)}`, { names: alone.join(", ") }));
    groups.forEach((group, at) => {
      if (group.members > 1 && group.needed === group.members) said.push(say(groups.length === 1 ? "plan.lost.any" : "plan.lost.group", { group: at }));
    });
  }
  const single = singles(plan);
  if (single.length && needed === 1) said.push(say(`plan.found.${formOf(single)}`, { names: single.map((at) => `${at}.0`).join(", ") }));
  return said.join(" ");
}

/**
 * Says of which groups one paper is enough, if that isn't the whole secret. If there are none, says nothing.
 *
 * @param {Plan} plan
 */
export function saidSingles(plan) {
  const single = singles(plan);
  return single.length && plan.needed > 1 ? say(`plan.found.group.${formOf(single)}`, { groups: single.join(", ") }) : "";
}

/**
 * Says what a paper of a plan takes to be of use.
 *
 * @param {Plan} plan
 * @param {string} name
 */
export function saidTakes(plan, name) {
  if (plan.groups.length === 1) return saidPlan(plan);
  const group = Number(name.split(".")[0]);
  return saidUse(group, plan.groups[group].needed, plan.needed);
}

/**
 * Says what a paper takes to be of use, as far as the paper itself says so.
 *
 * @param {Pick<Kind, "name" | "groupCount" | "groupThreshold" | "memberThreshold">} kind
 */
export function saidTakesAlone({ name, groupCount, groupThreshold, memberThreshold }) {
  if (groupCount > 1) return saidUse(Number(name.split(".")[0]), memberThreshold, groupThreshold);
  return memberThreshold === 1 ? say("plan.sentence.one") : say("takes.papers", { needed: memberThreshold });
}

/**
 * Says which other papers are needed besides this one, as far as the paper itself says so.
 *
 * @param {Pick<Kind, "name" | "groupCount" | "groupThreshold" | "memberThreshold">} kind
 */
export function saidOthers({ name, groupCount, groupThreshold, memberThreshold }) {
  const [group, papers, groups] = [Number(name.split(".")[0]), counted(memberThreshold - 1, "paper"), counted(groupThreshold - 1, "whole")];
  if (memberThreshold === 1) return groupThreshold === 1 ? say("what.others.none") : say("what.others.groups", { groups });
  if (groupThreshold > 1) return say("what.others.both", { papers, group, groups });
  return groupCount === 1 ? say("what.others.papers", { papers }) : say("what.others.group", { papers, group });
}

/**
 * @param {number} group
 * @param {number} needed how many papers the group needs
 * @param {number} groups how many groups the secret needs
 */
function saidUse(group, needed, groups) {
  const own = needed === 1 ? say("takes.alone", { group }) : say("takes.members", { needed, group });
  return groups === 1 ? own : `${own} ${say("takes.groups", { groups: counted(groups, "group") })}`;
}
