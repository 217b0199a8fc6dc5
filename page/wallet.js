// The questions which wallet will read the papers, and how many words it asks for. The answers say whether a backup gets the extendable
// flag, and how long a new secret is.
import { BACK, choice, paragraph } from "./dom.js";
import { USUAL_WORDS } from "./paper_entry.js";
import { say } from "./say.js";
import { ask, setStep } from "./screen.js";

/** @typedef {"flag" | "older" | "unknown"} Wallet a wallet that knows the extendable flag, an older one, or one of which the owner can't say */
/** @typedef {{wallet: Wallet | null, words: number}} Asked the wallet, and how many words each paper has */

/**
 * Asks which wallet will read the papers. What was chosen is kept, also on the way back. Returns whether one is chosen; if not, the owner
 * goes back.
 *
 * @param {Asked} chosen
 * @param {{title: string, step: number, asksWords?: boolean}} what `asksWords` says that papers of a secret are made
 */
export async function askWallet(chosen, { title, step, asksWords = false }) {
  setStep(step);
  const keys = /** @type {const} */ (["flag", "older", "unknown"]);
  const wallets = keys.map((key) => ({ key, label: say(`wallet.${key}`), hint: say(`wallet.${key}.hint`) }));
  const asked = [choice(say("wallet.legend"), wallets, chosen.wallet, (key) => (chosen.wallet = key)), paragraph(say("wallet.what"), "hint")];
  if (asksWords) {
    const counts = USUAL_WORDS.map((count) => ({ key: String(count), label: say("entry.words", { count }), hint: say(`wallet.words.${count}.hint`) }));
    asked.push(choice(say("wallet.words"), counts, String(chosen.words), (key) => (chosen.words = Number(key))));
  }
  const missing = () => (chosen.wallet === null ? say("wallet.missing") : null);
  const answer = await ask(title, asked, [
    { key: "go", label: say("continue"), kind: "primary", take: missing },
    { key: "back", label: say("back"), kind: BACK },
  ]);
  return answer === "go";
}
