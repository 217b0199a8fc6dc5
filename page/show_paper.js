// A paper on the screen, to be written down, and typed back from what was written.
import { shownText, zero } from "./bytes.js";
import { button, concealLater, element, paragraph } from "./dom.js";
import { named, offerForms } from "./forms.js";
import { PaperEntry } from "./paper_entry.js";
import { planNames, saidTakes } from "./plan.js";
import { saidError, wordsToLookAt } from "./refusals.js";
import { say } from "./say.js";
import { ask, setStep, setTouched, setUnfinished, show, tellNext } from "./screen.js";

/** @typedef {import("./client.js").Desk} Desk */
/** @typedef {import("./plan.js").Plan} Plan */
/** @typedef {import("./screen.js").Unfinished} Unfinished */
/** @typedef {{index: number, name: string, takes: string, shown?: string}} Shown the number of a paper that the worker keeps to be shown, and `shown` is its name with what the owner calls its place */

/**
 * Shows words of a paper in a list, until the tab is hidden or the screen changes. Returns what fills the list, and the button that
 * shows the words again.
 *
 * @param {Desk} desk
 * @param {number} index the number of a paper that the worker keeps to be shown
 * @param {HTMLElement} list
 * @param {(words: string[]) => HTMLElement[]} rows makes the list's elements of the paper's words
 */
export function shownWords(desk, index, list, rows) {
  let isWanted = false;
  const again = button(say("paper.show"), () => fill(), "hide");
  const empty = () => {
    isWanted = false;
    list.replaceChildren();
    again.classList.remove("hide");
  };
  const fill = async () => {
    isWanted = true;
    const line = await desk.ask("paper", { index });
    // By now the list may have been emptied, or may be gone.
    if (isWanted && list.isConnected && !document.hidden) {
      list.replaceChildren(...rows(shownText(line).split(" ")));
      if (document.activeElement === again) list.focus();
      again.classList.add("hide");
    } else empty();
    zero(line);
  };
  list.tabIndex = -1;
  concealLater(list, empty);
  return { fill, again };
}

/**
 * Shows a paper until the owner has written it down.
 *
 * @param {Desk} desk
 * @param {Shown} paper
 * @param {string} place
 */
export async function showPaper(desk, { index, name, takes, shown = name }, place) {
  const list = element("ol", { class: "paper", translate: "no" });
  const { fill, again } = shownWords(desk, index, list, (words) => words.map((word) => element("li", {}, word)));
  setTouched(true);
  const children = [paragraph(place, "place"), paragraph(takes), paragraph(say("paper.how", { name }), "hint"), list, again];
  const written = ask(say("paper.title", { name: shown }), children, [{ key: "written", label: say("paper.written"), kind: "primary" }]);
  await fill();
  await written;
}

/**
 * Lets the owner type a paper back. Returns whether it was; if not, the owner wants to see it again.
 *
 * @param {Desk} desk
 * @param {Shown} paper
 * @param {string} place
 * @param {number} words
 * @returns {Promise<boolean>}
 */
export function typeBack(desk, { index, name, shown = name }, place, words) {
  return new Promise((resolve) => {
    let isDone = false;
    const entry = new PaperEntry(desk.begun.words, words, async (line) => {
      if (isDone) {
        // Until the next screen is here, a key after the last word reads the paper once more.
        zero(line);
        return { isTaken: false, text: "" };
      }
      try {
        const { kind, isSame, isForeign } = await desk.ask("typedBack", { index, line }, [line.buffer]);
        if (isSame) {
          isDone = true;
          tellNext(say("back.same", { name: shown }));
          resolve(true);
        }
        // Nothing of another paper can stay. The right one is told on the next screen, and stays in its fields until then, with the focus:
        // letters of its last word may still come.
        return { isTaken: !isSame, isFault: true, text: isSame ? "" : say(isForeign ? "back.foreign" : "back.other", { name: shown, typed: kind.name }) };
      } catch (error) {
        return { isTaken: false, text: saidError(error, "back"), words: wordsToLookAt(error) };
      }
    }, null, true);
    const again = button(say("back.again", { name: shown }), () => resolve(false));
    const told = [paragraph(place, "place"), paragraph(say("back.how"))];
    show(say("back.title", { name: shown }), null, ...told, entry.element, element("div", { class: "buttons" }, again));
    entry.focus();
  });
}

/**
 * Shows a paper, and lets the owner type it back until it is right.
 *
 * @param {Desk} desk
 * @param {Shown} paper
 * @param {number} words
 * @param {number} step that of writing. The next one is that of typing back
 */
export async function writeAndTypeBack(desk, paper, words, step) {
  setUnfinished("clear.replaced");
  do {
    setStep(step);
    await showPaper(desk, paper, "");
    setStep(step + 1);
  } while (!(await typeBack(desk, paper, "", words)));
  setUnfinished("");
}

/**
 * Shows each paper of a new backup, and then lets the owner type each back until it is right.
 *
 * @param {Desk} desk
 * @param {Plan} plan
 * @param {number} words how many words each paper has
 * @param {{title: string, first?: string, unfinished: Unfinished, step: number}} what `title` is that of the screen before the first
 *   paper, which says `first` before all else. `unfinished` is said before clearing meanwhile, and `step` is that of writing. The next one
 *   is that of typing back
 */
export async function writeAll(desk, plan, words, { title, first = "", unfinished, step }) {
  setStep(step);
  const labelOf = await offerForms(plan, words, title, first);
  const names = planNames(plan);
  const papers = names.map((name, index) => ({ index, name, shown: named(name, labelOf(name)), takes: saidTakes(plan, name) }));
  const place = (/** @type {number} */ index) => say("paper.place", { number: index + 1, count: names.length });
  setUnfinished(unfinished);
  for (const paper of papers) await showPaper(desk, paper, place(paper.index));
  setStep(step + 1);
  await ask(say("back.begin.title"), [paragraph(say("back.begin"))], [{ key: "go", label: say("continue"), kind: "primary" }]);
  for (const paper of papers) {
    while (!(await typeBack(desk, paper, place(paper.index), words))) await showPaper(desk, paper, place(paper.index));
  }
}
