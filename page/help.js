// Questions and their answers, below the choice of a task.
import { element, paragraph } from "./dom.js";
import { say } from "./say.js";

const QUESTIONS = ["needed", "quorum", "fingerprint", "lost", "unread", "checksum", "passphrase", "wallet", "bip39", "heir"];

/** Makes the questions, each of which opens its answer. */
export function help() {
  const asked = QUESTIONS.map((key) => element("details", {}, element("summary", {}, say(`help.${key}`)), paragraph(say(`help.${key}.answer`))));
  return element("section", { class: "help" }, element("h2", {}, say("help.title")), ...asked);
}
