// The task 'Recover': papers are typed, and the secret is compared by its fingerprint. A button shows its digits, and hides them again.
import { Code } from "../bindings/js/refusal.js";
import { shownText, zero } from "./bytes.js";
import { saidLeftOut } from "./check_papers.js";
import { Declined, Stopped } from "./client.js";
import { askForMore, askWhatNext, collectPapers } from "./collect.js";
import { button, concealLater, element, paragraph } from "./dom.js";
import { warnedTime } from "./drill.js";
import { askPassphrase } from "./passphrase.js";
import { saidError } from "./refusals.js";
import { say } from "./say.js";
import { setStep, setSteps, setTouched, showWork } from "./screen.js";

/** @typedef {import("./client.js").Desk} Desk */
/** @typedef {import("./desk.js").Kind} Kind */

/**
 * Recovers a secret.
 *
 * @param {Desk} desk
 */
export async function recoverSecret(desk) {
  setSteps(3);
  for (;;) {
    setStep(1);
    const found = await collectPapers(desk, { title: say("recover.title"), intro: say("recover.intro") });
    if (found === null) return;
    const { status, kinds } = found;
    const tooFew = async () => askForMore(say("recover.few"), [paragraph(say("recover.too_few")), await saidLeftOut(desk)], status, kinds);
    const answer = status.enough ? await recoverFrom(desk, kinds[0]) : await tooFew();
    if (answer === "end") return;
  }
}

/**
 * Asks for the passphrase, and recovers the secret. Returns whether the owner wants to go back to the papers.
 *
 * @param {Desk} desk
 * @param {Kind} kind
 * @returns {Promise<"papers" | "end">}
 */
async function recoverFrom(desk, kind) {
  let fault = "";
  /** @type {string | null} */
  let noted = null;
  for (;;) {
    setStep(2);
    /** @type {string | null} */
    const given = await askPassphrase(desk, { title: say("recover.passphrase"), fault, noted });
    if (given === null) return "papers";
    noted = given;
    setStep(3);
    const { fingerprint, refused, text } = await recovered(desk, kind, noted);
    fault = refused === Code.PASSPHRASE ? text : "";
    if (fault !== "") continue;
    const failed = [paragraph(text, refused ? "bad" : "note"), paragraph(say("close"))];
    const answer = fingerprint === "" ? await askWhatNext(say("recover.failed"), failed, refused ? "papers" : "again") : await tell(desk, noted, fingerprint);
    if (answer !== "again") return answer;
  }
}

/**
 * Recovers the secret, and returns its fingerprint, or what is wrong.
 *
 * @param {Desk} desk
 * @param {Kind} kind
 * @param {string} noted
 */
async function recovered(desk, kind, noted) {
  showWork(say("recover.work"), warnedTime(desk, kind) ?? say("time.moment"), desk.secondsFor(kind), () => desk.stop());
  try {
    return { fingerprint: /** @type {string} */ (await desk.askLong("recover", { noted })), refused: 0, text: "" };
  } catch (error) {
    if (error instanceof Stopped) return { fingerprint: "", refused: 0, text: say("recover.stopped") };
    if (!(error instanceof Declined)) throw error;
    return { fingerprint: "", refused: error.refused.code, text: saidError(error) };
  }
}

/**
 * Says which secret was recovered. Its digits are offered unless it is known to be another one than the owner's.
 *
 * @param {Desk} desk
 * @param {string} noted
 * @param {string} fingerprint
 */
async function tell(desk, noted, fingerprint) {
  const which = noted === "" ? "unnoted" : noted === fingerprint ? "same" : "other";
  const key = which === "other" && !(await desk.ask("hasPassphrase")) ? "recover.other.none" : `recover.${which}`;
  const offered = which === "other" ? [] : [element("h2", {}, say("digits.title")), paragraph(say("digits.what")), digits(desk)];
  const isSame = which === "same";
  // A fingerprint is large only where the owner may note it.
  const children = [
    paragraph(`${say(key, { noted })}${isSame ? "" : ` ${fingerprint}`}`, which === "other" ? "bad" : isSame ? "good" : "note"),
    isSame ? element("p", { class: "fingerprint" }, fingerprint) : null,
    ...offered,
    ...(which === "other" ? [] : [element("h2", {}, say("recover.next.title")), paragraph(say("recover.next"))]),
    paragraph(say("close")),
  ];
  const answer = await askWhatNext(say(`recover.done.${which}`), children, which === "other" ? "again" : "end", isSame);
  await desk.ask("forgetSecret");
  return answer;
}

/**
 * Makes the button that shows the digits, and that hides them again.
 *
 * @param {Desk} desk
 */
function digits(desk) {
  const shown = element("p", { class: "digits", translate: "no" });
  let isShown = false;
  const hide = () => {
    isShown = false;
    shown.textContent = "";
    toggle.textContent = say("digits.show");
  };
  const reveal = async () => {
    isShown = true;
    toggle.textContent = say("digits.hide");
    setTouched(true);
    const bytes = await desk.ask("digits");
    if (isShown && !document.hidden) shown.textContent = shownText(bytes).replace(/(.{8})/g, "$1 ").trim();
    zero(bytes);
  };
  const toggle = button(say("digits.show"), () => (isShown ? hide() : reveal()));
  concealLater(shown, hide);
  return element("div", {}, toggle, shown);
}
