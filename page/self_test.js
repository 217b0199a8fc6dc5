// What the engine must give before a task begins: published vectors of SLIP-0039, and a creation from fixed bytes.
import { Refusal } from "../bindings/js/shamir.js";
import { hex, shownText } from "./bytes.js";

/** @typedef {import("../bindings/js/shamir.js").Engine} Engine */

const PASSPHRASE = "TREZOR";

const SOUND =
  "duckling enlarge academic academic agency result length solution fridge kidney coal piece deal husband erode duke ajar critical decision keyboard";
const SOUND_SECRET = "bb54aac4b89dc868ba37d9cc21b2cece";
const SOUND_FINGERPRINT = "df41d8fe";

const TWO = [
  "shadow pistol academic always adequate wildlife fancy gross oasis cylinder mustang wrist rescue view short owner flip making coding armed",
  "shadow pistol academic acid actress prayer class unknown daughter sweater depict flip twice unkind craft early superior advocate guest smoking",
];
const TWO_SECRET = "b43ceb7e57a0ea8766221624d01b0864";

// Each of these is refused with the number before it.
/** @type {[number, string[]][]} */
const REFUSED = [
  [11, [SOUND.replace("academic agency", "academic agencies")]],
  [13, [SOUND.replace("keyboard", "kidney")]],
  [14, ["duckling enlarge academic academic email result length solution fridge kidney coal piece deal husband erode duke ajar music cargo fitness"]],
  [21, [TWO[0], SOUND]],
  [30, [TWO[0]]],
];

// The mnemonics that a plain reading of the standard gives for the secret of the bytes 0 to 15, and for the random bytes 16 to 29.
const CREATED = [
  "category manual academic acid club glen coal provide episode bolt infant thorn born relate canyon member phrase either drug fatal",
  "category manual academic agency capacity goat stilt forecast expand morning repair edge crazy manual huge episode chew huge military dress",
  "category manual academic always boundary glasses pumps scramble lizard amuse lecture cards crucial spark wits quantity prisoner knit general soldier",
];
const CREATED_FINGERPRINT = "2282bae5";

// Those that it gives if these are split anew for 2of2, with the random bytes 30 to 43.
const SPLIT_ANEW = [
  "dramatic wisdom academic acid drug stilt legs detect tactics news equip actress obesity member grasp grumpy emphasis prospect rival capacity",
  "dramatic wisdom academic agency away violence duration ugly favorite custody garbage lunar corner lily tackle liberty exact check exact penalty",
];

/** @param {Uint8Array} bytes */
function digitsOf(bytes) {
  return shownText(hex(bytes));
}

/**
 * @param {number} first
 * @param {number} count
 */
function ascending(first, count) {
  return Uint8Array.from({ length: count }, (_, at) => first + at);
}

/**
 * Returns the number of the refusal of a call, or 0.
 *
 * @param {() => unknown} call
 */
function refusalOf(call) {
  try {
    call();
    return 0;
  } catch (error) {
    if (error instanceof Refusal) return error.code;
    throw error;
  }
}

/**
 * Returns the name of the first test that fails, or null.
 *
 * @param {Engine} engine
 */
function failed(engine) {
  try {
    return firstFailed(engine);
  } catch (error) {
    if (error instanceof Refusal) return `refusal ${error.code}`;
    throw error;
  }
}

/** @param {Engine} engine */
function firstFailed(engine) {
  if (digitsOf(engine.recover([SOUND], { passphrase: PASSPHRASE })) !== SOUND_SECRET) return "recover";
  if (digitsOf(engine.recover(TWO, { passphrase: PASSPHRASE })) !== TWO_SECRET) return "combine";
  for (const [code, lines] of REFUSED) {
    if (refusalOf(() => engine.recover(lines, { passphrase: PASSPHRASE })) !== code) return `refuse ${code}`;
  }
  if (!engine.judge([SOUND, TWO[0]], TWO[1]).status.enough || !engine.judge(TWO, TWO[1]).again) return "judge";
  if (engine.repair(SOUND.replace("agency", "?")).join("\n") !== SOUND) return "repair";
  if (refusalOf(() => engine.repair(SOUND.replace("agency", "zero"))) !== 18) return "refuse 18";
  const made = engine.create("2of3", ascending(0, 16), { passphrase: PASSPHRASE, exponent: 0, extendable: true, random: ascending(16, 14) });
  if (made.join("\n") !== CREATED.join("\n")) return "create";
  if (engine.resplit("2of2", made.slice(1), { random: ascending(30, 14) }).join("\n") !== SPLIT_ANEW.join("\n")) return "split anew";
  for (const outcome of engine.drill(made, { passphrase: PASSPHRASE, fingerprints: true })) {
    if (outcome.fingerprint !== CREATED_FINGERPRINT) return "drill";
  }
  for (const expect of [CREATED_FINGERPRINT, SOUND_FINGERPRINT]) {
    for (const { expected } of engine.drill(made, { passphrase: PASSPHRASE, expect })) {
      if (expected !== (expect === CREATED_FINGERPRINT)) return "drill, expected";
    }
  }
  const random = crypto.getRandomValues(new Uint8Array(32));
  if (random.every((byte) => byte === random[0])) return "random bytes";
  return null;
}

/**
 * Tries the engine, and measures how long 10,000 iterations of the key derivation take.
 *
 * @param {Engine} engine
 */
export function selfTest(engine) {
  const fault = failed(engine);
  const start = performance.now();
  if (fault === null) engine.recover([SOUND], { passphrase: PASSPHRASE });
  return { fault, milliseconds: performance.now() - start };
}
