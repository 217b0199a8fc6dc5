// The end of 'Make a backup': the owner notes the fingerprint, types what was noted, and every quorum is tried with that.
import { element, paragraph } from "./dom.js";
import { askToDrill, runDrill, toldCount, toldVerdict } from "./drill.js";
import { askPassphrase } from "./passphrase.js";
import { saidRefusal } from "./refusals.js";
import { say } from "./say.js";
import { ask, setStep } from "./screen.js";

/** @typedef {import("./client.js").Desk} Desk */
/** @typedef {import("./drill.js").Verdict} Verdict */
/** @typedef {{fingerprint: string, isOwn: boolean, hasPassphrase: boolean}} Made the fingerprint of the backup's secret, and whether the owner had it before */

/**
 * Lets the owner note the fingerprint, asks for what was noted, and drills with it, until every quorum gives the secret. Returns the
 * verdict that says so, or null: then the backup isn't made.
 *
 * @param {Desk} desk
 * @param {Made} made
 */
export async function noteAndDrill(desk, made) {
  let [fault, noted] = ["", await letNote(made)];
  for (;;) {
    const given = await askNotes(desk, made, fault, noted);
    fault = "";
    if (given === null) {
      noted = await letNote(made);
    } else {
      noted = given;
      const { answer, refused } = await drillWith(desk, made, noted);
      if (answer !== "again") return answer;
      fault = refused;
    }
  }
}

/**
 * Shows the fingerprint to note. Returns null, or an empty text if the owner doesn't note it.
 *
 * @param {Made} made
 * @returns {Promise<string | null>}
 */
async function letNote({ fingerprint, isOwn, hasPassphrase }) {
  setStep(7);
  const where = paragraph(say(hasPassphrase ? "noted.apart" : "noted.papers"));
  const shown = element("p", { class: "fingerprint" }, fingerprint);
  const next = paragraph(say(hasPassphrase ? "proof.next.both" : "proof.next"), "hint");
  const noting = [paragraph(say("noted.new")), shown, paragraph(say(isOwn ? "noted.own" : "noted.drawn")), where, next];
  const skip = isOwn ? [{ key: "skip", label: say("noted.skip") }] : [];
  const answer = await ask(say(isOwn ? "noted.title.own" : "noted.title"), noting, [{ key: "go", label: say("noted.done"), kind: "primary" }, ...skip]);
  return answer === "skip" ? "" : null;
}

/**
 * Asks for the passphrase and the fingerprint as they were noted. Returns the fingerprint, or an empty text if it wasn't noted, or null if
 * the owner wants to see it again.
 *
 * @param {Desk} desk
 * @param {Made} made
 * @param {string} fault
 * @param {string | null} noted
 */
function askNotes(desk, { fingerprint, isOwn }, fault, noted) {
  setStep(8);
  const refuse = (/** @type {string} */ given) => (given !== "" && given !== fingerprint ? say("proof.other") : null);
  return askPassphrase(desk, { title: say("proof.title"), why: say("proof.why"), back: say("proof.show"), mayLack: isOwn, fault, noted, refuse });
}

/**
 * Drills with the passphrase that the worker holds. Returns the verdict if all is good, or that the notes are to be asked for again, with
 * what the engine refused, or null to end.
 *
 * @param {Desk} desk
 * @param {Made} made
 * @param {string} noted
 * @returns {Promise<{answer: Verdict | "again" | null, refused: string}>}
 */
async function drillWith(desk, made, noted) {
  setStep(9);
  const [status, kinds, title] = [await desk.ask("status"), await desk.ask("kinds"), say("make.drill")];
  if (!(await askToDrill(desk, [toldCount(status)], kinds[0], { title, hasBack: true }))) return { answer: "again", refused: "" };
  const verdict = await runDrill(desk, status, { title, noted: noted || made.fingerprint, isOwn: noted === "" });
  if ("refused" in verdict) return { answer: "again", refused: saidRefusal(verdict.refused) };
  if (verdict.result === "good") return { answer: verdict, refused: "" };
  return { answer: (await tellFailed(verdict, made)) === "again" ? "again" : null, refused: "" };
}

/**
 * Says why the backup isn't made. The papers are those that were shown, and the fingerprint is right. So if all quorums give one other
 * secret, the passphrase is another one than the papers were made with.
 *
 * @param {Verdict} verdict
 * @param {Made} made
 * @returns {Promise<"again" | "end">}
 */
function tellFailed(verdict, made) {
  const { result, sentences, hasPassphrase, table } = verdict;
  const which = !made.hasPassphrase ? "proof.passphrase.without" : hasPassphrase ? "proof.passphrase" : "proof.passphrase.none";
  const then = made.hasPassphrase ? "proof.passphrase.then" : "proof.passphrase.without.then";
  const [why, next, again] =
    verdict.isOther
      ? [[say(which)], say(then), say("proof.again")]
      : [sentences, say(result === "stopped" ? "make.unproved" : "make.failed"), result === "stopped" ? say("make.again") : ""];
  const ways = again ? [{ key: /** @type {const} */ ("again"), label: again, kind: "primary" }] : [];
  const told = [toldVerdict({ ...verdict, sentences: why }), paragraph(next), table];
  return ask(say("make.failed.title"), told, [...ways, { key: /** @type {const} */ ("end"), label: say("end") }]);
}
