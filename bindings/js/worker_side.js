/** What runs in the worker of `worker.js`: it makes one call after the other. */
import { open, Refusal } from "./index.js";
import { recovered } from "./papers.js";

/** @typedef {import("./types.js").Outcome} Outcome */
/** @typedef {{ name: string, given: any[], module: string | undefined }} Request */

// A part of a drill ends after this time, or at its end.
const PART_MILLISECONDS = 200;
const THREADS = "node:worker_threads";

/** @type {Promise<import("./shamir.js").Engine> | undefined} */
let opened;

/** The drill that the last part was of, since each start derives the key anew. */
let going = { drill: 0, outcomes: /** @type {Iterator<Outcome, void>} */ ([].values()) };

/**
 * Returns the outcomes of a drill for a while, and whether that was its end.
 * @param {import("./shamir.js").Engine} engine
 * @param {any[]} given
 */
function part(engine, [lines, options, drill]) {
  if (going.drill !== drill) {
    // If this throws, the drill before goes on.
    const outcomes = engine.drill(lines, options);
    going.outcomes.return?.();
    going = { drill, outcomes };
  }
  // The engine finds outcomes together, and the first of them may take long.
  let start = Infinity;
  /** @type {Outcome[]} */
  const outcomes = [];
  for (;;) {
    const { done, value } = going.outcomes.next();
    if (done) return { outcomes, isEnd: true };
    outcomes.push(/** @type {Outcome} */ (value));
    start = Math.min(start, performance.now());
    if (performance.now() - start > PART_MILLISECONDS) return { outcomes, isEnd: false };
  }
}

/**
 * What the engine doesn't have itself.
 * @type {Record<string, (engine: import("./shamir.js").Engine, given: any[]) => unknown>}
 */
const MORE = { drill: part, recovered: (engine, [papers, options]) => recovered(engine, papers, options) };

/**
 * Makes a call, and returns its result or its error.
 * @param {Request} request
 */
async function answered({ name, given, module }) {
  try {
    opened ??= module === undefined ? open() : open(new URL(module));
    opened.catch(() => (opened = undefined));
    const engine = await opened;
    const calls = /** @type {Record<string, (...given: any[]) => unknown>} */ (/** @type {unknown} */ (engine));
    return { result: Object.hasOwn(MORE, name) ? MORE[name](engine, given) : calls[name](...given) };
  } catch (error) {
    return { error, cause: error instanceof Refusal ? error.cause : undefined };
  }
}

/** @typedef {{ postMessage(message: unknown): void }} Outside */

if (typeof globalThis.postMessage === "function") {
  globalThis.onmessage = async ({ data }) => /** @type {Outside} */ (/** @type {unknown} */ (globalThis)).postMessage(await answered(data));
} else {
  import(/* webpackIgnore: true */ THREADS).then(({ parentPort }) => {
    parentPort.on("message", async (/** @type {Request} */ request) => parentPort.postMessage(await answered(request)));
  });
}
