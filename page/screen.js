// The one screen that the page shows at a time, what a screen reader is told, and what leaves the page's elements with it.
import { BACK, button, concealIn, element, paragraph, tellChanged } from "./dom.js";
import { estimated } from "./estimate.js";
import { say } from "./say.js";

/** @typedef {import("./dom.js").Child} Child */
/** @typedef {"" | "clear.unfinished" | "clear.replaced" | "clear.changed" | "clear.repaired"} Unfinished the key of what is said before unfinished papers are cleared */

const main = /** @type {HTMLElement} */ (document.getElementById("main"));
const live = /** @type {HTMLElement} */ (document.getElementById("live"));

let touched = false;
/** @type {Unfinished} */
let unfinished = "";
// Which step of a task the screen is, and how many steps the task has, or has at most.
let step = { key: "step", at: 0, count: 0 };
// What the next screen says first.
let news = { text: "", kind: "note" };
// The timer of what a screen reader is told next.
let telling = 0;

/**
 * Says something to a screen reader, unless the tab is hidden: words that are near a typed one may be in it.
 *
 * @param {string} text
 */
export function announce(text) {
  live.textContent = "";
  clearTimeout(telling);
  // A live region is read when its text changes, so the same text is set anew.
  telling = setTimeout(() => (live.textContent = document.hidden ? "" : text), 50);
}

/** Whether something was typed or shown that leaving the page would lose. */
export function isTouched() {
  return touched;
}

/** @param {boolean} is */
export function setTouched(is) {
  touched = is;
}

/** Returns the key of what is said before clearing, if papers are unfinished, or an empty text. */
export function unfinishedKey() {
  return unfinished;
}

/** @param {Unfinished} key */
export function setUnfinished(key) {
  unfinished = key;
}

/**
 * Begins a task of so many steps. Without a task there are none.
 *
 * @param {number} count
 * @param {boolean} [isMost] whether the task may have fewer, which depends on what is typed in its first step
 */
export function setSteps(count, isMost = false) {
  step = { key: isMost ? "step.most" : "step", at: 1, count };
}

/**
 * Goes to a step of the task, also back to one.
 *
 * @param {number} at
 */
export function setStep(at) {
  step.at = at;
}

/**
 * Takes a good news, which the next screen says first.
 *
 * @param {string} text
 * @param {"note" | "good"} [kind] whether something was compared with what the owner noted, and is equal
 */
export function tellNext(text, kind = "note") {
  news = { text, kind };
}

/** Empties all elements that show a secret, and what a screen reader was told last. */
export function conceal() {
  concealIn(main);
  announce("");
}

/** Empties each field of the screen, and removes the screen. */
function leave() {
  conceal();
  for (const field of main.querySelectorAll("input")) field.value = "";
  main.oninput = null;
  main.replaceChildren();
}

/**
 * Shows a screen, and moves the focus to its title. The way back, if there is one, stands above the title on each screen, beside the step.
 *
 * @param {string} title
 * @param {HTMLButtonElement | null} back
 * @param {Child[]} children
 */
export function show(title, back, ...children) {
  leave();
  const place = step.count ? element("p", { class: "step", id: "step" }, say(step.key, step)) : null;
  const heading = element("h1", { tabindex: "-1", ...(place ? { "aria-describedby": place.id } : {}) }, title);
  main.append(element("div", { class: "top" }, back, place), heading);
  if (news.text !== "") {
    main.append(paragraph(news.text, news.kind));
    announce(news.text);
    news = { text: "", kind: "note" };
  }
  for (const child of children) if (child !== null) main.append(child);
  window.scrollTo(0, 0);
  heading.focus();
  tellChanged();
}

/**
 * Shows a screen with buttons, and waits until one of them is pressed. The `take` of a button takes what was typed. If it returns a
 * text, which says what is missing, the screen stays. A button of the kind `back` is the way back. `after` stands below the buttons.
 *
 * @template {string} K
 * @param {string} title
 * @param {Child[]} children
 * @param {{key: K, label: string, kind?: string, take?: () => string | null | Promise<string | null>}[]} answers
 * @param {Child[]} [after]
 * @returns {Promise<K>}
 */
export function ask(title, children, answers, after = []) {
  return new Promise((resolve) => {
    const fault = element("p", { class: "fault", role: "alert" });
    let isAnswered = false;
    const buttons = answers.map(({ key, label, kind = "", take = () => null }) =>
      button(
        label,
        async () => {
          if (isAnswered) return;
          isAnswered = true;
          // What an earlier try was refused for doesn't stay beside what this one lacks.
          for (const it of main.querySelectorAll(":scope > .fault")) if (it !== fault) it.remove();
          fault.textContent = (await take()) ?? "";
          isAnswered = fault.textContent === "";
          if (isAnswered) resolve(key);
        },
        kind,
      ),
    );
    const back = buttons.find((it) => it.className === BACK) ?? null;
    const go = element("div", { class: "go" }, fault, element("div", { class: "buttons" }, ...buttons.filter((it) => it !== back)));
    show(title, back, ...children, go, ...after);
    goOnByEnter(buttons.find((it) => it.classList.contains("primary")));
    // What is missing ends with the next change of a field.
    main.oninput = () => (fault.textContent = "");
  });
}

/**
 * Lets Enter in a field of the screen go to the next field that is empty, or press the button that goes on.
 *
 * @param {HTMLButtonElement | undefined} next
 */
function goOnByEnter(next) {
  const fields = [...main.querySelectorAll("input")].filter((it) => it.type !== "checkbox");
  const pressed = (/** @type {KeyboardEvent} */ event) => {
    if (event.key !== "Enter") return;
    event.preventDefault();
    const after = fields.slice(fields.indexOf(/** @type {HTMLInputElement} */ (event.target)) + 1);
    const empty = after.find((it) => it.value === "" && it.getClientRects().length > 0);
    if (empty) empty.focus();
    else next?.click();
  };
  for (const field of fields) field.addEventListener("keydown", pressed);
}

/** Takes the question away that stands above the screen, if there is one. */
export function dropQuestion() {
  main.querySelector(":scope > .question")?.remove();
}

/**
 * Asks above the screen, which stays as it is.
 *
 * @param {string} text
 * @param {string} stay the answer that goes back to the screen
 * @param {string} go the other answer
 * @param {() => void} onGo
 */
export function askAbove(text, stay, go, onGo) {
  dropQuestion();
  const staying = button(stay, () => {
    asked.remove();
    main.querySelector("h1")?.focus();
  });
  const asked = element("div", { class: "bad question" }, element("p", { role: "alert" }, text), element("div", { class: "buttons" }, staying, button(go, onGo)));
  main.prepend(asked);
  staying.focus();
}

/**
 * Says that the page works. The engine's answer replaces it.
 *
 * @param {string} title
 * @param {string} text
 * @param {number} seconds how long the work takes, by the estimate
 * @param {(() => void) | null} onStop
 */
export function showWork(title, text, seconds, onStop) {
  const buttons = onStop && element("div", { class: "buttons" }, button(say("stop"), onStop));
  show(title, null, element("p", { class: "work", role: "status" }, text), estimated(seconds), buttons);
}
