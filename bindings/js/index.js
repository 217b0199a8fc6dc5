/**
 * The package `shamir`: the engine, and `open`, which loads it.
 *
 *     import { open } from "shamir";
 *
 *     const shamir = await open();
 */
import { load } from "./shamir.js";

export { refusalOf } from "./clones.js";
export { Papers } from "./papers.js";
export { drillWithProgress } from "./progress.js";
export { Code, Engine, EXPONENT_MAX, load, OF_GROUPS, Refusal } from "./shamir.js";

/** @typedef {import("./types.js").Codes} Codes */
/** @typedef {import("./types.js").CreateOptions} CreateOptions */
/** @typedef {import("./types.js").DecryptOptions} DecryptOptions */
/** @typedef {import("./types.js").DrillOptions} DrillOptions */
/** @typedef {import("./types.js").EncryptedSecret} EncryptedSecret */
/** @typedef {import("./types.js").GroupStatus} GroupStatus */
/** @typedef {import("./types.js").Judgement} Judgement */
/** @typedef {import("./types.js").Lines} Lines */
/** @typedef {import("./types.js").Outcome} Outcome */
/** @typedef {import("./types.js").RecoverOptions} RecoverOptions */
/** @typedef {import("./types.js").Recovered} Recovered */
/** @typedef {import("./types.js").ResplitOptions} ResplitOptions */
/** @typedef {import("./types.js").Share} Share */
/** @typedef {import("./types.js").ShareFields} ShareFields */
/** @typedef {import("./types.js").Status} Status */
/** @typedef {import("./types.js").Text} Text */
/** @typedef {import("./progress.js").NumberedOutcome} NumberedOutcome */
/** @typedef {import("./shamir.js").Engine} TheEngine */

// The name stands in a variable, so that tools which join modules leave it as it is: browsers don't have this module.
const FILES = "node:fs/promises";

/**
 * Loads the module of the engine that the package holds, and returns the engine. It works in Node, and in a page that a server gives.
 *
 *     const shamir = await open();
 *     shamir.words("aca"); // ["academic"]
 *
 * @param {URL} [module] Where the module is, if it isn't beside this file.
 * @returns {Promise<TheEngine>}
 */
export async function open(module = new URL("./shamir32.wasm", import.meta.url)) {
  if (module.protocol === "file:") {
    const { readFile } = await import(/* webpackIgnore: true */ FILES);
    return load(await readFile(module));
  }
  const answer = await fetch(module);
  if (!answer.ok) throw new Error(`the module of the engine isn't at ${module}: status ${answer.status}`);
  return load(await answer.arrayBuffer());
}
