/** Refusals that were cloned. */
import { Refusal } from "./refusal.js";

/**
 * Returns the refusal of which an error is a clone, or the error itself if it is another one. `structuredClone` and `postMessage` make a
 * plain Error of a Refusal, and keep its fields in `cause`.
 *
 *     worker.onmessage = ({ data }) => console.log(refusalOf(data));
 *
 * @param {unknown} error
 * @returns {unknown}
 */
export function refusalOf(error) {
  if (error instanceof Refusal || !(error instanceof Error)) return error;
  const { code, line, details, text } = /** @type {Partial<Refusal>} */ (error.cause ?? {});
  if (code === undefined || line === undefined || details === undefined || text === undefined) return error;
  return new Refusal(code, line, details, text);
}
