/**
 * Returns the refusal of which an error is a clone, or the error itself if it is another one. `structuredClone` and `postMessage` make a
 * plain Error of a Refusal, and keep its fields in `cause`.
 *
 *     worker.onmessage = ({ data }) => console.log(refusalOf(data));
 *
 * @param {unknown} error
 * @returns {unknown}
 */
export function refusalOf(error: unknown): unknown;
