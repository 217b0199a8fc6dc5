// The task 'What is this paper?': one paper says what it is, without a passphrase and without other papers. The worker keeps nothing of it.
import { BACK, button, element, paragraph } from "./dom.js";
import { leaveEntry, PaperEntry, USUAL_WORDS } from "./paper_entry.js";
import { saidOthers, saidTakesAlone } from "./plan.js";
import { saidError, wordsToLookAt } from "./refusals.js";
import { counted, say } from "./say.js";
import { show } from "./screen.js";

/** @typedef {import("./client.js").Desk} Desk */
/** @typedef {import("./desk.js").Kind} Kind */
/** @typedef {import("./paper_entry.js").Answer} Answer */

/**
 * Says of one paper after the other what it is, until the owner goes back.
 *
 * @param {Desk} desk
 * @returns {Promise<void>}
 */
export function tellPaper(desk) {
  return new Promise((resolve) => new Telling(desk, resolve).show());
}

/**
 * Returns all that a paper says of itself.
 *
 * @param {Kind} kind
 * @param {string[]} words
 */
function saidKind(kind, [first, second]) {
  const { name, extendable, exponent, secretBytes, isPossible, groupCount } = kind;
  const impossible = isPossible ? [] : [paragraph(say("what.impossible", { name, groups: counted(groupCount, "group") }), "bad")];
  const rows = [
    say("what.backup", { first, second }),
    saidTakesAlone(kind),
    saidOthers(kind),
    say(extendable ? "what.flag" : "what.flag.none"),
    say("what.exponent", { exponent }),
    say("what.secret", { bytes: secretBytes }),
  ];
  return [element("h2", {}, say("what.found", { name })), ...impossible, element("ul", {}, ...rows.map((row) => element("li", {}, row))), paragraph(say("what.passphrase"), "hint")];
}

class Telling {
  #desk;
  #onEnd;
  #found = element("section", { class: "told" });
  #entry;

  /**
   * @param {Desk} desk
   * @param {() => void} onEnd
   */
  constructor(desk, onEnd) {
    this.#desk = desk;
    this.#onEnd = onEnd;
    this.#entry = new PaperEntry(desk.begun.words, USUAL_WORDS[0], (line) => this.#take(line));
  }

  show() {
    const back = button(say("back"), () => leaveEntry(this.#entry, () => this.#onEnd()), BACK);
    // What is found stands above the fields, so that it is in sight on a phone, too.
    this.#entry.below.append(this.#found);
    this.#entry.onMissing = () => this.#found.replaceChildren();
    show(say("what.title"), back, paragraph(say("what.intro")), this.#entry.element);
    this.#entry.focus();
  }

  /**
   * @param {Uint8Array} line
   * @returns {Promise<Answer>}
   */
  async #take(line) {
    this.#found.replaceChildren();
    const { words } = this.#entry;
    try {
      const kind = await this.#desk.ask("describe", { line }, [line.buffer]);
      this.#found.append(...saidKind(kind, words));
      return { isTaken: true, text: say("what.sound", { name: kind.name }) };
    } catch (error) {
      return { isTaken: false, text: saidError(error), words: wordsToLookAt(error) };
    }
  }
}
