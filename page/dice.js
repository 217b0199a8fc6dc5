// Throws of a die, which whoever wants may mix into the random bytes of a new secret.
import { zero } from "./bytes.js";

/** So many throws have at least as many values as so many bytes. */
export const THROWS_LEAST = new Map([[16, 50], [32, 100]]);
const ONE = 49;
const SIDES = 6;

/**
 * Mixes throws into random bytes by xor. The throws are the digits of a number to the base six, of which the last bytes are taken. If
 * the bytes or the throws are random, and the others don't depend on them, the result is random.
 *
 * @param {Uint8Array} random
 * @param {Uint8Array} throws the digits 1 to 6
 */
export function mix(random, throws) {
  const own = new Uint8Array(random.length);
  for (const digit of throws) {
    let carry = digit - ONE;
    for (let at = own.length - 1; at >= 0; at -= 1) {
      carry += own[at] * SIDES;
      own[at] = carry % 256;
      carry = Math.floor(carry / 256);
    }
  }
  random.forEach((byte, at) => (random[at] = byte ^ own[at]));
  zero(own);
}
