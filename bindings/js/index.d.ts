/**
 * Loads the module of the engine that the package holds, and returns the engine. It works in Node, and in a page that a server gives.
 *
 *     const shamir = await open();
 *     shamir.words("aca"); // ["academic"]
 *
 * @param {URL} [module] Where the module is, if it isn't beside this file.
 * @returns {Promise<TheEngine>}
 */
export function open(module?: URL | undefined): Promise<TheEngine>;
export { refusalOf } from "./clones.js";
export { Papers } from "./papers.js";
export { drillWithProgress } from "./progress.js";
export type Codes = import("./types.js").Codes;
export type CreateOptions = import("./types.js").CreateOptions;
export type DecryptOptions = import("./types.js").DecryptOptions;
export type DrillOptions = import("./types.js").DrillOptions;
export type EncryptedSecret = import("./types.js").EncryptedSecret;
export type GroupStatus = import("./types.js").GroupStatus;
export type Judgement = import("./types.js").Judgement;
export type Lines = import("./types.js").Lines;
export type Outcome = import("./types.js").Outcome;
export type RecoverOptions = import("./types.js").RecoverOptions;
export type Recovered = import("./types.js").Recovered;
export type ResplitOptions = import("./types.js").ResplitOptions;
export type Share = import("./types.js").Share;
export type ShareFields = import("./types.js").ShareFields;
export type Status = import("./types.js").Status;
export type Text = import("./types.js").Text;
export type NumberedOutcome = import("./progress.js").NumberedOutcome;
export type TheEngine = import("./shamir.js").Engine;
export { Code, Engine, EXPONENT_MAX, load, OF_GROUPS, Refusal } from "./shamir.js";
