// Blank forms: the sheets to write papers on, and the screen that offers them before papers are shown. Nothing else of the page can be printed.
import { button, element, labelled, paragraph } from "./dom.js";
import { planNames, saidPlan, saidTakes } from "./plan.js";
import { counted, say } from "./say.js";
import { ask } from "./screen.js";

/** @typedef {import("./plan.js").Plan} Plan */
/** @typedef {(name: string) => string} Label gives what the owner calls the place of a paper, or an empty text */

const sheet = /** @type {HTMLElement} */ (document.getElementById("sheet"));

/** Takes the forms away, so that nothing is printed any more. */
export function clearForms() {
  sheet.replaceChildren();
}

/**
 * Prints one form for each name. An empty name leaves room for it.
 *
 * @param {Plan} plan
 * @param {string[]} names
 * @param {number} count how many words each paper has
 * @param {Label} [label]
 */
export function printForms(plan, names, count, label = () => "") {
  sheet.replaceChildren(...names.map((name) => form(plan, name, count, label(name))));
  window.print();
}

/**
 * Makes a line to be filled in.
 *
 * @param {string} key
 */
function line(key) {
  return paragraph(say(`blank.${key}`), "line");
}

/**
 * Makes the form of one paper.
 *
 * @param {Plan} plan
 * @param {string} name
 * @param {number} count
 * @param {string} label
 */
function form(plan, name, count, label) {
  const [takes, whole] = name ? [saidTakes(plan, name), saidPlan(plan)] : [say("blank.takes"), say("blank.plan")];
  const title = name ? say("blank.name", { name: named(name, label) }) : say("blank.unnamed");
  const answers = ["yes", "no"].map((key) => element("span", { class: "answer-box" }, say(`blank.${key}`)));
  const isOnly = planNames(plan).length === 1;
  return element(
    "section",
    { class: "form" },
    element("h2", {}, say("blank.heading"), element("span", { class: "name" }, title)),
    paragraph(say(isOnly ? "blank.heirs.one" : "blank.heirs"), "heirs"),
    element("p", { class: "heirs" }, element("strong", {}, say("blank.website"))),
    paragraph(takes),
    whole === takes ? null : paragraph(whole),
    element("ol", {}, ...Array.from({ length: count }, () => element("li"))),
    element("p", { class: "line" }, say("blank.passphrase"), ...answers),
    line("fingerprint"),
    element("div", { class: "pair" }, line("wallet"), line("date")),
    line("where"),
    paragraph(say("blank.keep"), "small"),
  );
}

/**
 * Returns the name of a paper as it stands on it, with the label of its place if it has one.
 *
 * @param {string} name
 * @param {string} label
 */
export function named(name, label) {
  return label ? say("paper.labelled", { name, label }) : name;
}

/**
 * Asks for the labels of the places, and offers the forms, before the first paper is shown. Returns what gives the labels.
 *
 * @param {Plan} plan
 * @param {number} count
 * @param {string} title
 * @param {string} first what is said before all else, or an empty text
 * @returns {Promise<Label>}
 */
export async function offerForms(plan, count, title, first) {
  const names = planNames(plan);
  const fields = new Map(names.map((name) => [name, labelled(say("forms.label", { name }), "text", { attributes: { maxlength: "40" } })]));
  const typed = (/** @type {string} */ name) => fields.get(name)?.field.value.trim() ?? "";
  const labels = element("details", {}, element("summary", {}, say("forms.labels")), paragraph(say("forms.labels.hint"), "hint"), ...[...fields.values()].map(({ box }) => box));
  const children = [
    first ? paragraph(first, "note") : null,
    paragraph(say("forms.what", { papers: counted(names.length, "paper") })),
    labels,
    paragraph(say("forms.print")),
    button(say("blank.print"), () => printForms(plan, names, count, typed)),
  ];
  /** @type {Map<string, string>} */
  const kept = new Map();
  const take = () => {
    for (const name of names) kept.set(name, typed(name));
    return null;
  };
  await ask(title, children, [{ key: "go", label: say("forms.go"), kind: "primary", take }]);
  clearForms();
  return (name) => kept.get(name) ?? "";
}
