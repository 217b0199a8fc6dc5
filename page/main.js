// The start of the page: what it needs, the first screen, and what holds on every screen.
import { blankForms } from "./blank_forms.js";
import { changePlan } from "./change_plan.js";
import { checkPapers } from "./check_papers.js";
import { Desk } from "./client.js";
import { BACK, button, element, large, paragraph } from "./dom.js";
import { help } from "./help.js";
import { makeBackup } from "./make_backup.js";
import { readDamaged } from "./read_damaged.js";
import { recoverSecret } from "./recover.js";
import { replacePaper } from "./replace.js";
import { say } from "./say.js";
import { announce, ask, askAbove, conceal, isTouched, setSteps, setTouched, setUnfinished, show, unfinishedKey } from "./screen.js";
import { tellPaper } from "./tell_paper.js";
import { forgetRest, forgetTyping } from "./word_field.js";

/** @typedef {{key: "make" | "check" | "recover" | "replace" | "change" | "damaged" | "what" | "blank", run: (desk: Desk) => Promise<unknown>, isSecret: boolean}} Task */

/**
 * The tasks of the first screen.
 *
 * @type {Task[]}
 */
const TASKS = [
  { key: "make", run: makeBackup, isSecret: true },
  { key: "check", run: checkPapers, isSecret: true },
  { key: "recover", run: recoverSecret, isSecret: true },
  { key: "replace", run: replacePaper, isSecret: true },
  { key: "change", run: changePlan, isSecret: true },
  { key: "damaged", run: readDamaged, isSecret: true },
  { key: "what", run: tellPaper, isSecret: true },
  { key: "blank", run: blankForms, isSecret: false },
];

/**
 * The worker of the task that is under way.
 *
 * @type {Desk | null}
 */
let desk = null;
let isPrepared = false;
// The number of the launch of a worker that the owner waits for. Another launch, or 'Clear everything', takes its place.
let awaited = 0;

const network = element("p", { role: "status" });

/**
 * Shows the first screen.
 *
 * @param {Desk} tried the worker that was tried at the start
 * @param {string[]} [news] what is said before the choices
 */
function home(tried, news = []) {
  setSteps(0);
  const choices = TASKS.map((task) => large(say(`home.${task.key}`), say(`home.${task.key}.hint`), () => begin(task, tried), { class: "task" }));
  show(
    say("home.title"),
    null,
    ...news.map((text) => paragraph(text, "note")),
    paragraph(say("home.intro")),
    element("div", { class: "tasks" }, ...choices),
    paragraph(say("names.sentence"), "hint"),
    paragraph(say("home.tried", { version: tried.begun.version }), "hint"),
    help(),
    paragraph(say("home.manual"), "hint"),
  );
}

/** Says whether the machine seems to be connected. */
function tellNetwork() {
  network.textContent = say(navigator.onLine ? "prepare.online" : "prepare.offline");
  network.setAttribute("class", navigator.onLine ? "bad" : "note");
}

/** Asks to go offline and to use a private window. Going on without is allowed after a second question. Returns whether to go on. */
async function prepare() {
  tellNetwork();
  const intro = [
    network,
    element("ul", {}, ...["network", "window", "extensions", "screen"].map((key) => element("li", {}, say(`prepare.${key}`)))),
    paragraph(say("prepare.stays")),
  ];
  const first = await ask(say("prepare.title"), intro, [
    { key: "ready", label: say("prepare.ready"), kind: "primary" },
    { key: "anyway", label: say("prepare.anyway") },
    { key: "back", label: say("back"), kind: BACK },
  ]);
  if (first === "back") return false;
  if (first === "ready" && !navigator.onLine) return true;
  const second = await ask(say("prepare.sure.title"), [paragraph(say(first === "ready" ? "prepare.still_online" : "prepare.sure"), "bad")], [
    { key: "no", label: say("prepare.no"), kind: "primary" },
    { key: "yes", label: say("prepare.yes") },
  ]);
  return second === "yes";
}

/** Starts the worker of a task. Returns null if the owner waits no more for it, or if it isn't right, which is told. */
async function launched() {
  const mine = (awaited += 1);
  /** @type {Desk | null} */
  const own = await Desk.launch().catch(() => null);
  if (own !== null && mine === awaited && own.begun.fault === null) return own;
  await own?.end();
  if (mine === awaited) refuse(own === null ? say("lacks.engine") : say("lacks.wrong", { fault: String(own.begun.fault) }));
  return null;
}

/**
 * Begins a task with a worker of its own, and ends the worker after the task.
 *
 * @param {Task} task
 * @param {Desk} tried
 */
async function begin(task, tried) {
  if (task.isSecret && !isPrepared) {
    isPrepared = await prepare();
    if (!isPrepared) {
      home(tried);
      return;
    }
  }
  const own = await launched();
  if (own === null) return;
  desk = own;
  try {
    await task.run(own);
  } catch (error) {
    // No error of the page holds a secret. Only that it failed is told, and what becomes of unfinished papers.
    const half = unfinishedKey() === "" ? null : paragraph(say(unfinishedKey()), "bad");
    if (desk === own) await ask(say("fault.title"), [paragraph(say("fault.other"), "bad"), half], [{ key: "end", label: say("end"), kind: "primary" }]);
  }
  if (desk === own) await clearAll(tried);
}

/**
 * Ends the task, and clears what it held and showed.
 *
 * @param {Desk} tried
 */
async function clearAll(tried) {
  const ended = desk;
  desk = null;
  awaited += 1;
  conceal();
  forgetTyping();
  document.getElementById("sheet")?.replaceChildren();
  home(tried, isTouched() ? [`${say("cleared")} ${say("close")}`] : []);
  setTouched(false);
  setUnfinished("");
  await ended?.end();
  if (ended) announce(say("cleared"));
}

/**
 * Clears everything, or asks first if papers are unfinished. Meanwhile the page shows no secret, but what was typed stays in its
 * fields.
 *
 * @param {Desk} tried
 */
function clearOrAsk(tried) {
  if (unfinishedKey() !== "") {
    conceal();
    askAbove(say(unfinishedKey()), say("clear.stay"), say("clear.yes"), () => clearAll(tried));
  } else clearAll(tried);
}

/** Returns what the browser lacks, or null. */
function lacking() {
  if (typeof WebAssembly !== "object") return say("lacks.webassembly");
  if (typeof Worker !== "function" || typeof DecompressionStream !== "function") return say("lacks.old");
  if (typeof structuredClone !== "function" || typeof Object.hasOwn !== "function") return say("lacks.old");
  if (typeof crypto !== "object" || typeof crypto.getRandomValues !== "function") return say("lacks.random");
  return null;
}

/**
 * Shows that the page does nothing, and why.
 *
 * @param {string} why
 */
function refuse(why) {
  show(say("lacks.title"), null, paragraph(why, "bad"), paragraph(say("lacks.what")));
}

/**
 * What holds on every screen: a hidden tab shows nothing secret, and leaving asks first.
 *
 * @param {Desk} tried
 */
function watch(tried) {
  const clear = /** @type {HTMLElement} */ (document.getElementById("clear"));
  clear.append(button(say("clear"), () => clearOrAsk(tried)));
  // After a button, no letter comes that belongs to the word before.
  document.addEventListener("click", ({ target }) => target instanceof Element && target.closest("button") && forgetRest(), true);
  document.addEventListener("visibilitychange", () => {
    document.body.classList.toggle("away", document.hidden);
    if (document.hidden) conceal();
  });
  document.addEventListener("input", (event) => {
    if (event.target instanceof HTMLInputElement && event.target.value !== "") setTouched(true);
  });
  window.addEventListener("beforeunload", (event) => {
    if (!isTouched()) return;
    event.preventDefault();
    // Chromium before 119 asks only for this.
    event.returnValue = true;
  });
  for (const change of ["online", "offline"]) window.addEventListener(change, tellNetwork);
  // A browser may keep a page that was left, to show it again.
  window.addEventListener("pagehide", () => clearAll(tried));
}

async function start() {
  document.title = say("title");
  const [curtain, unprinted] = ["curtain", "unprinted"].map((id) => document.getElementById(id));
  if (curtain) curtain.textContent = say("curtain");
  if (unprinted) unprinted.textContent = say("unprinted");
  const lack = lacking();
  if (lack) {
    refuse(lack);
    return;
  }
  try {
    const tried = await Desk.launch();
    await tried.end();
    if (tried.begun.fault !== null) {
      refuse(say("lacks.wrong", { fault: tried.begun.fault }));
      return;
    }
    watch(tried);
    home(tried);
  } catch (error) {
    refuse(say("lacks.engine"));
  }
}

start();
