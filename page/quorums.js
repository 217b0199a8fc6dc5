// Which quorums are tried if there are too many, and what a drill's outcomes say together.

/** @typedef {import("./desk.js").Status} Status */
/** @typedef {import("./desk.js").Standing} Standing */
/** @typedef {import("./desk.js").GroupStatus} GroupStatus */
/** @typedef {import("./desk.js").Tried} Tried */

/** A drill tries every quorum of papers that have at most this many. */
export const TRIED_WHOLE = 100000n;

/** The engine counts up to this number. */
export const COUNTED_MOST = 2n ** 64n - 1n;

/** Of more quorums, a drill tries this many, and one more for each paper. */
export const TRIED_FIRST = 1000;

/**
 * Returns the groups that are complete.
 *
 * @param {Standing} status
 */
function complete(status) {
  return status.groups.filter((it) => it.names.length >= it.threshold);
}

/**
 * Yields the names of each quorum, in the order in which the engine lists them. It counts them too, and a drill is whole only if as many
 * were tried.
 *
 * @param {Standing} status
 * @returns {Generator<string[], void, void>}
 */
export function quorumsOf(status) {
  return chosen(complete(status), status.required);
}

/**
 * @param {GroupStatus[]} groups
 * @param {number} needed
 * @returns {Generator<string[], void, void>}
 */
function* chosen(groups, needed) {
  if (needed === 0) yield [];
  for (const [at, { names, threshold }] of needed ? groups.entries() : []) {
    if (groups.length - at < needed) return;
    for (const own of combinations(names, threshold)) {
      for (const others of chosen(groups.slice(at + 1), needed - 1)) yield [...own, ...others];
    }
  }
}

/**
 * @param {string[]} names
 * @param {number} count
 * @returns {Generator<string[], void, void>}
 */
function* combinations(names, count) {
  if (count === 0) yield [];
  for (let at = 0; count > 0 && at + count <= names.length; at++) {
    for (const others of combinations(names.slice(at + 1), count - 1)) yield [names[at], ...others];
  }
}

/**
 * Returns the names of one quorum that has this paper, in ascending order, or null if no quorum has it.
 *
 * @param {Status} status
 * @param {string} name
 */
export function quorumWith(status, name) {
  const usable = complete(status);
  const own = usable.find((it) => it.names.includes(name));
  if (!own || usable.length < status.required) return null;
  const others = usable.filter((it) => it !== own).slice(0, status.required - 1);
  const members = [name, ...own.names.filter((it) => it !== name)].slice(0, own.threshold);
  const parts = [{ group: own.group, names: own.names.filter((it) => members.includes(it)) }];
  for (const it of others) parts.push({ group: it.group, names: it.names.slice(0, it.threshold) });
  return parts.sort((a, b) => a.group - b.group).flatMap((it) => it.names);
}

/**
 * Whether a quorum gave the expected secret, or, if none is expected, the one with this fingerprint.
 *
 * @param {Tried} tried
 * @param {string | null} fingerprint
 */
export function isRight(tried, fingerprint) {
  return tried.expected ?? (tried.fingerprint !== null && tried.fingerprint === fingerprint);
}

/**
 * Returns each fingerprint that quorums gave, and how many gave it, the most frequent first.
 *
 * @param {readonly Tried[]} all
 */
export function fingerprints(all) {
  /** @type {Map<string, number>} */
  const counted = new Map();
  for (const { fingerprint } of all) {
    if (fingerprint !== null) counted.set(fingerprint, (counted.get(fingerprint) ?? 0) + 1);
  }
  return [...counted].sort((a, b) => b[1] - a[1]);
}

/**
 * Returns the papers that are in every wrong quorum and in no right one.
 *
 * @param {readonly Tried[]} right
 * @param {readonly Tried[]} wrong
 */
export function suspects(right, wrong) {
  if (wrong.length === 0) return [];
  const inRight = new Set(right.flatMap((it) => it.names));
  const [first, ...others] = wrong.map((it) => new Set(it.names));
  return [...first].filter((name) => !inRight.has(name) && others.every((names) => names.has(name)));
}
