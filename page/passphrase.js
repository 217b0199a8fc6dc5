// The questions for the passphrase and for the noted fingerprint.
import { bytesOf, typedDigits } from "./bytes.js";
import { BACK, element, hidden, labelled, paragraph, tick } from "./dom.js";
import { saidError } from "./refusals.js";
import { say } from "./say.js";
import { ask } from "./screen.js";

/** @typedef {import("./client.js").Desk} Desk */

/** How many characters a new passphrase has at most: as many bytes as the program `shamir` reads from a file. */
const LONGEST = 1024;

/**
 * Makes fields for a passphrase, which is typed once or twice. What wallets don't take is told as soon as it is typed.
 *
 * @param {Desk} desk
 * @param {boolean} isTwice
 * @param {() => boolean} [isAgain] whether it is to be typed again
 */
export function passphraseFields(desk, isTwice, isAgain = () => true) {
  const texts = { show: say("show"), hide: say("hide") };
  const first = hidden(say("passphrase.label"), { ...texts, hint: say("passphrase.hint") });
  const again = isTwice ? hidden(say("passphrase.again"), texts) : null;
  const none = tick(say("passphrase.none"));
  const fault = element("p", { class: "fault", role: "alert" });
  // Whether the owner was asked about a space that isn't seen.
  let isAsked = false;
  first.field.addEventListener("input", async () => {
    none.field.checked = false;
    isAsked = false;
    const told = await refusalOf(desk, first.field.value);
    if (fault.textContent !== told) fault.textContent = told;
  });
  const box = element("div", { class: "fields" }, first.box, fault, again?.box ?? null, none.box);
  /** Returns what is missing, or null. */
  const missing = () => {
    const typed = first.field.value;
    if (none.field.checked) return typed || again?.field.value ? say("passphrase.both") : null;
    if (typed === "") return say("passphrase.missing");
    if (fault.textContent !== "") return say("passphrase.unfit");
    if (isTwice && typed.length > LONGEST) return say("passphrase.long");
    if (again && isAgain() && again.field.value !== typed) return say("passphrase.differ");
    if (typed === typed.trim() || isAsked) return null;
    isAsked = true;
    return say("passphrase.space");
  };
  return { box, again: again?.box ?? null, missing, isNone: () => none.field.checked, read: () => bytesOf(first.field.value) };
}

/**
 * Returns what the engine says against a passphrase, or an empty text. It answers in the order in which it is asked.
 *
 * @param {Desk} desk
 * @param {string} typed
 */
async function refusalOf(desk, typed) {
  const passphrase = bytesOf(typed);
  try {
    await desk.ask("tryPassphrase", { passphrase }, [passphrase.buffer]);
    return "";
  } catch (error) {
    return saidError(error);
  }
}

/**
 * Makes the field for the noted fingerprint, and the box that says that none was noted.
 *
 * @param {Desk} desk
 * @param {string | null} noted what was said before, or null
 * @param {boolean} [mayLack] whether the owner may have noted none
 */
export function notedFields(desk, noted, mayLack = true) {
  const none = tick(say("noted.none"));
  const { box, field } = labelled(say("noted.label"), "text", { hint: say("noted.hint"), attributes: { maxlength: "16", input: () => (none.field.checked = false) } });
  field.value = noted ?? "";
  none.field.checked = noted === "";
  const read = () => typedDigits(field.value);
  /** Returns what is missing, or null. */
  const missing = async () => {
    const typed = read();
    if (none.field.checked) return typed === "" ? null : say("noted.both");
    if (typed === "") return say(mayLack ? "noted.missing" : "proof.missing");
    // If the worker has failed, the next step tells it.
    const isRight = await desk.ask("isFingerprint", { noted: typed }).catch(() => true);
    return isRight ? null : say(mayLack ? "noted.wrong" : "proof.wrong");
  };
  return { box: element("div", { class: "fields" }, box, mayLack ? none.box : null), missing, isNone: () => none.field.checked, read };
}

/**
 * Asks for the passphrase, which the worker then holds, and for the noted fingerprint. Returns the fingerprint, or an empty text if
 * none was noted, or null if the owner wants to go back.
 *
 * @param {Desk} desk
 * @param {{title: string, fault: string, noted: string | null, why?: string, back?: string, mayLack?: boolean, isTwice?: boolean, refuse?: (noted: string) => string | null}} what `noted` is the
 *   fingerprint that was given before, or null. `why` says what both are asked for, `back` is the answer that goes back, or an empty text if there is none, and `mayLack`
 *   says whether the owner may have noted no fingerprint. `isTwice` says that the passphrase is then typed twice. `refuse` says what is wrong with a fingerprint, or null:
 *   then what was typed stays
 */
export async function askPassphrase(desk, { title, fault, noted, why = say("passphrase.why"), back = say("back"), mayLack = true, isTwice = false, refuse = () => null }) {
  const fingerprint = notedFields(desk, noted, mayLack);
  const isAgain = () => isTwice && fingerprint.isNone() && !passphrase.isNone();
  const passphrase = passphraseFields(desk, isTwice, isAgain);
  const again = element("div", { class: "fields" }, paragraph(say("passphrase.twice"), "hint"), passphrase.again);
  const draw = () => (again.hidden = !isAgain());
  for (const { box } of [passphrase, fingerprint]) box.addEventListener("input", draw);
  draw();
  const typed = { passphrase: new Uint8Array(), fingerprint: "" };
  const take = async () => {
    const lacks = passphrase.missing() ?? (await fingerprint.missing()) ?? refuse(fingerprint.read());
    if (lacks === null) Object.assign(typed, { passphrase: passphrase.read(), fingerprint: fingerprint.read() });
    return lacks;
  };
  const refused = fault ? [paragraph(fault, "fault"), paragraph(say("passphrase.emptied"), "fault")] : [];
  const children = [...refused, paragraph(why), passphrase.box, fingerprint.box, again];
  const answer = await ask(title, children, [
    { key: "go", label: say("continue"), kind: "primary", take },
    ...(back ? [{ key: "back", label: back, kind: back === say("back") ? BACK : "" }] : []),
  ]);
  if (answer === "back") return null;
  await desk.ask("passphrase", { passphrase: typed.passphrase }, [typed.passphrase.buffer]);
  return typed.fingerprint;
}
