/** One worker, of which `worker.js` asks one thing at a time. */
import { refusalOf } from "./clones.js";

/** @typedef {{ ask(request: unknown): Promise<any>, end(reason: unknown): void }} Side */
/** @typedef {{ result?: any, error?: unknown, cause?: unknown }} Answer */

const THREADS = "node:worker_threads";
const SIDE = "./worker_side.js";

/**
 * Starts a worker. What it answers goes to `take`, and what ends it to `fail`.
 * @param {(answer: Answer) => void} take
 * @param {(error: unknown) => void} fail
 * @returns {Promise<{ postMessage(message: unknown): void, terminate(): unknown }>}
 */
async function newWorker(take, fail) {
  if (typeof Worker === "function") {
    // Tools that join modules find the worker's by this very expression.
    const worker = new Worker(new URL("./worker_side.js", import.meta.url), { type: "module" });
    worker.onmessage = ({ data }) => take(data);
    worker.onerror = ({ message = "its files can't be loaded" }) => fail(new Error(`the worker ended: ${message}`));
    worker.onmessageerror = () => fail(new Error("the worker's answer can't be read"));
    return worker;
  }
  const threads = await import(/* webpackIgnore: true */ THREADS);
  // Options of the host, such as those for a program in its command line, aren't for the worker.
  const worker = new threads.Worker(new URL(SIDE, import.meta.url), { execArgv: [] });
  worker.on("message", take).on("error", fail).on("messageerror", fail);
  worker.on("exit", () => fail(new Error("the worker ended")));
  return worker;
}

/**
 * Starts a worker, of which one thing is asked at a time. What it answers after its end is of no call.
 * @param {() => void} forget is called if it ends by itself
 * @returns {Promise<Side>}
 */
export async function started(forget) {
  const nobody = () => {};
  /** @type {(answer: Answer) => void} */
  let take = nobody;
  /** @type {(error: unknown) => void} */
  let fail = nobody;
  const ended = (/** @type {unknown} */ error) => {
    forget();
    worker.terminate();
    fail(error);
  };
  const worker = await newWorker((answer) => take(answer), ended);
  const asked = (/** @type {unknown} */ request) =>
    new Promise((resolve, reject) => {
      // Not every host clones the cause of an error, so it comes beside it.
      take = ({ result, error, cause }) => {
        if (error === undefined) resolve(result);
        else reject(refusalOf(cause === undefined ? error : new Error("", { cause })));
      };
      fail = reject;
      worker.postMessage(request);
    });
  return {
    ask: (request) => asked(request).finally(() => ([take, fail] = [nobody, nobody])),
    end: (reason) => {
      worker.terminate();
      fail(reason);
    },
  };
}
