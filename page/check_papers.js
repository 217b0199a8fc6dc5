// The task 'Check papers': papers are typed, and every quorum among them is tried.
import { askForMore, askWhatNext, collectPapers } from "./collect.js";
import { element, paragraph } from "./dom.js";
import { askToDrill, runDrill, toldCount, toldVerdict } from "./drill.js";
import { answered, untried } from "./missing.js";
import { askPassphrase } from "./passphrase.js";
import { saidRefusal } from "./refusals.js";
import { resultOf } from "./result.js";
import { counted, formOf, say } from "./say.js";
import { setStep, setSteps, setUnfinished } from "./screen.js";

/** @typedef {import("./client.js").Desk} Desk */
/** @typedef {import("./desk.js").Status} Status */
/** @typedef {import("./desk.js").Kind} Kind */
/** @typedef {import("./desk.js").LeftOut} LeftOut */
/** @typedef {import("./drill.js").Verdict} Verdict */

/**
 * Checks papers.
 *
 * @param {Desk} desk
 */
export async function checkPapers(desk) {
  setSteps(3);
  const saidFew = (/** @type {Kind[]} */ kinds) => {
    const sound = say("check.sound", { papers: counted(kinds.length, "paper"), names: kinds.map((it) => it.name).join(", ") });
    return [paragraph(sound, "note"), paragraph(say("check.too_few"))];
  };
  await collectAndCheck(desk, { title: say("check.title"), intro: say("check.intro"), passphrase: say("check.passphrase"), drill: say("check.drill"), steps: [1, 2, 3] }, saidFew);
}

/**
 * Lets the owner type papers, and drills, until the owner is content. Returns whether the owner has another damaged paper.
 *
 * @param {Desk} desk
 * @param {{title: string, intro: string, passphrase: string, drill: string, steps: number[], hasDamaged?: boolean}} what `passphrase` is the
 *   title of the form for what was noted, and `drill` is that of the drill. `steps` are those of the papers, of what was noted, and of the
 *   drill. `hasDamaged` says that a damaged paper was read, and another one may be
 * @param {(kinds: Kind[]) => HTMLElement[]} saidFew says what too few papers show
 * @returns {Promise<boolean>}
 */
export async function collectAndCheck(desk, what, saidFew) {
  const [papers, ...steps] = what.steps;
  for (;;) {
    setStep(papers);
    let isDamaged = /** @type {boolean} */ (false);
    const onDamaged = what.hasDamaged ? () => (isDamaged = true) : null;
    const found = await collectPapers(desk, { ...what, task: "check", onDamaged });
    if (found === null) return isDamaged;
    const { status, kinds } = found;
    const tooFew = async () => askForMore(say("check.done.few"), [...saidFew(kinds), await saidLeftOut(desk)], status, kinds);
    const answer = status.enough ? await drillWithPassphrase(desk, status, kinds, { ...what, title: what.drill, steps }) : await tooFew();
    if (answer === "end") return false;
  }
}

/**
 * Returns what says which papers were begun and aren't among the others, or null if there are none.
 *
 * @param {Desk} desk
 */
export async function saidLeftOut(desk) {
  /** @type {LeftOut} */
  const { unsound, names, apart } = await desk.ask("leftOut");
  if (unsound + names.length + apart.length === 0) return null;
  const sound = names.length ? paragraph(say(`left.sound.${formOf(names)}`, { names: names.join(", ") }), "note") : null;
  const others = apart.map((it) => paragraph(say(`left.backup.${formOf(it.names)}`, { names: it.names.join(", "), begin: it.begin }), "note"));
  return element("div", {}, unsound ? paragraph(counted(unsound, "left"), "bad") : null, sound, ...others);
}

/**
 * Asks for the passphrase and the noted fingerprint, and drills. Returns whether the owner wants to go back to the papers.
 *
 * @param {Desk} desk
 * @param {Status} status
 * @param {Kind[]} kinds
 * @param {{title: string, passphrase: string, steps: number[], hasDamaged?: boolean}} what `passphrase` is the title of the form for what was
 *   noted, and `title` is that of the drill. `steps` are those of both. `hasDamaged` says that a damaged paper was read
 * @returns {Promise<"papers" | "end">}
 */
export async function drillWithPassphrase(desk, status, kinds, { title, passphrase, steps, hasDamaged = false }) {
  let fault = "";
  /** @type {string | null} */
  let noted = null;
  for (;;) {
    setStep(steps[0]);
    /** @type {string | null} */
    const given = await askPassphrase(desk, { title: passphrase, fault, noted });
    if (given === null) return "papers";
    noted = given;
    setStep(steps[1]);
    if (!(await askToDrill(desk, [toldCount(status)], kinds[0], { title, hasBack: true }))) {
      fault = "";
      continue;
    }
    const verdict = await runDrill(desk, status, { title, noted });
    if ("refused" in verdict) {
      fault = saidRefusal(verdict.refused);
      continue;
    }
    // If a drill gives the noted fingerprint, the copies of damaged papers that it tried are right.
    if (verdict.isEqual) await desk.ask("prove", { names: verdict.names });
    const isKept = hasDamaged && (await desk.ask("hasCopies"));
    if (hasDamaged) setUnfinished(isKept ? "clear.repaired" : "");
    const answer = await tellVerdict(verdict, noted, { status, kinds, left: await saidLeftOut(desk), isKept });
    if (answer !== "again") return answer;
    fault = "";
  }
}

/**
 * Says what a drill found, and what to do.
 *
 * @param {Verdict} verdict
 * @param {string} noted
 * @param {{status: Status, kinds: Kind[], left: HTMLElement | null, isKept: boolean}} papers `left` says which papers were left out, and
 *   `isKept` that a damaged paper is to be kept
 */
function tellVerdict(verdict, noted, { status, kinds, left, isKept }) {
  const { result, hasPassphrase, table } = verdict;
  const [isGood, isNoted] = [result === "good", noted !== ""];
  const namesOf = (/** @type {(kind: Kind) => boolean} */ isMeant) => kinds.filter(isMeant).map(({ name }) => name);
  const [repaired, written] = [namesOf((it) => it.isRepaired), namesOf((it) => it.isRead || it.isWritten)];
  const here = status.groups.flatMap(({ names }) => names);
  const found = resultOf(verdict, isNoted, { here, repaired, written, lone: answered(kinds), isLeft: left !== null });
  const [first, tried, anew] = [found.first, found.tried, found.anew].map((them) => them.map(({ key, names, kind }) => paragraph(say(key, { names: names.join(", ") }), kind)));
  const again = ["other", "none"].includes(result) ? `${say(hasPassphrase ? "check.again" : "check.again.none")} ` : "";
  const more = isGood ? untried(status, kinds[0].groupCount).map(({ key, names }) => say(key, { names: names.join(", ") })) : [];
  // What wasn't tried stands in the box that says what was found.
  const sentences = more.length ? [[...verdict.sentences, ...more].join(" ")] : verdict.sentences;
  const told = [
    ...first,
    toldVerdict({ ...verdict, sentences, isEqual: verdict.isEqual && found.isRight }),
    ...tried,
    left,
    ...anew,
    isKept && !found.anew.some(({ key }) => key === "damaged.keep") ? paragraph(say("damaged.keep"), "note") : null,
    isGood ? null : paragraph(again + say(`check.${result}`)),
    isGood && !isNoted ? paragraph(say("noted.first")) : null,
    table,
    paragraph(say("close")),
  ];
  return askWhatNext(say(found.title), told, found.next, isGood && isNoted);
}
