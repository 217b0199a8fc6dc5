// The task 'Print blank forms': sheets to write papers on.
import { BACK, choice, paragraph, tick } from "./dom.js";
import { clearForms, printForms } from "./forms.js";
import { USUAL_WORDS } from "./paper_entry.js";
import { planNames } from "./plan.js";
import { PlanChoice, planFault } from "./plan_choice.js";
import { say } from "./say.js";
import { ask } from "./screen.js";

/** @typedef {import("./client.js").Desk} Desk */

/**
 * Prints blank forms.
 *
 * @param {Desk} desk
 */
export async function blankForms(desk) {
  const plan = new PlanChoice();
  let [count] = USUAL_WORDS;
  const options = USUAL_WORDS.map((it) => ({ key: String(it), label: say("entry.words", { count: it }), hint: "" }));
  const words = choice(say("blank.words"), options, String(count), (key) => (count = Number(key)));
  const named = tick(say("blank.named"));
  named.field.checked = true;
  const children = [paragraph(say("blank.intro")), plan.element, words, named.box];
  const take = () => planFault(desk, plan.plan);
  for (;;) {
    const answer = await ask(say("blank.title"), children, [
      { key: "print", label: say("blank.print"), kind: "primary", take },
      { key: "back", label: say("back"), kind: BACK },
    ]);
    clearForms();
    if (answer === "back") return;
    printForms(plan.plan, named.field.checked ? planNames(plan.plan) : [""], count);
  }
}
