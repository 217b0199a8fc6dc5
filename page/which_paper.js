// The question which paper is missing. Names that lie between those that are here, or after them, are offered; any other is typed.
import { BACK, choice, element, labelled, paragraph } from "./dom.js";
import { candidates, planWith, readName } from "./missing.js";
import { picture } from "./picture.js";
import { MEMBERS_MAX } from "./plan.js";
import { formOf, say } from "./say.js";
import { ask } from "./screen.js";

/** @typedef {import("./desk.js").Status} Status */
/** @typedef {import("./desk.js").Kind} Kind */
/** @typedef {import("./plan.js").Plan} Plan */
/** @typedef {{name: string, plan: Plan}} Wanted the name of a missing paper, and a plan that has it and each paper that is here */

/** The choice of a missing paper. */
class Choice {
  #status;
  #kind;
  #chosen = "";
  #typed = labelled(say("which.name"), "text", { hint: say("which.name.hint"), attributes: { maxlength: "9", class: "count", input: () => this.#draw() } });
  #needed = labelled(say("which.needed"), "number", { hint: say("which.needed.hint"), attributes: { min: "1", max: String(MEMBERS_MAX), class: "count" } });

  /**
   * @param {Status} status
   * @param {Kind} kind
   * @param {boolean} isWritten
   * @param {string[]} lone
   */
  constructor(status, kind, isWritten, lone) {
    this.#status = status;
    this.#kind = kind;
    const offered = candidates(status, kind.groupCount).map(({ name, why }) => ({ key: name, label: say("which.paper", { name }), hint: say(why, { group: Number(name.split(".")[0]) }) }));
    this.hasNone = offered.length === 0;
    const options = [...offered, { key: "", label: say("which.other"), hint: say("which.other.hint") }];
    const pick = (/** @type {string} */ key) => {
      this.#chosen = key || "other";
      this.#draw();
    };
    const asked = choice(say(isWritten ? "which.another" : "which.legend"), options, null, pick);
    const none = lone.length ? say(`replace.none.answered.${formOf(lone)}`, { names: lone.join(", ") }) : say("replace.none");
    this.element = this.hasNone ? paragraph(none, "note") : element("div", {}, asked, this.#typed.box, this.#needed.box);
    this.#draw();
  }

  /** What the name that is chosen or typed stands for. */
  get #named() {
    const typed = this.#chosen === "other" ? this.#typed.field.value : this.#chosen;
    return readName(typed, this.#status, this.#kind.groupCount);
  }

  #draw() {
    this.#typed.box.hidden = this.#chosen !== "other";
    this.#needed.box.hidden = !this.#named.isNew;
  }

  /** Returns what is missing or wrong, or null. */
  missing() {
    if (this.#chosen === "") return say("which.missing");
    const { isNew, fault } = this.#named;
    const number = Number(this.#needed.field.value);
    if (fault !== null || !isNew || (Number.isInteger(number) && number >= 1 && number <= MEMBERS_MAX)) return fault;
    return say("which.needed.wrong");
  }

  /** @returns {Wanted} */
  read() {
    const { group, name } = this.#named;
    return { name, plan: planWith(this.#status, this.#kind, group, Number(this.#needed.field.value)) };
  }
}

/**
 * Asks which paper is missing. Returns it, or that the owner goes on to the drill, or back to the papers.
 *
 * @param {Status} status
 * @param {Kind} kind
 * @param {string} fault why the paper that was named before can't be written
 * @param {{isWritten: boolean, lone: string[]}} papers whether a paper was written again, and the names of those that rest on an answer
 * @returns {Promise<Wanted | "drill" | "papers">}
 */
export async function askWhich(status, kind, fault, { isWritten, lone }) {
  const asked = new Choice(status, kind, isWritten, lone);
  const isDone = isWritten || asked.hasNone;
  const children = [fault ? paragraph(fault, "bad") : null, asked.hasNone ? null : paragraph(say("which.intro")), asked.element];
  const write = { key: /** @type {const} */ ("write"), label: say("which.write"), kind: isDone ? "" : "primary", take: () => asked.missing() };
  const drill = { key: /** @type {const} */ ("drill"), label: say("replace.end"), kind: isDone ? "primary" : "" };
  const answers = asked.hasNone ? [drill] : isDone ? [drill, write] : [write, drill];
  const ways = [...answers, { key: /** @type {const} */ ("papers"), label: say("back"), kind: BACK }];
  const answer = await ask(say("replace.which"), children, ways, [picture(status, kind.groupCount, "replace")]);
  return answer === "write" ? asked.read() : answer;
}
