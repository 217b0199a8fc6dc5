// Bytes: those of a text, those of hexadecimal digits, and how they are overwritten.

/**
 * Overwrites byte arrays with zeros.
 *
 * @param {Uint8Array[]} arrays
 */
export function zero(...arrays) {
  for (const array of arrays) array.fill(0);
}

/**
 * Returns the bytes of a text that was typed.
 *
 * @param {string} text
 */
export function bytesOf(text) {
  return new TextEncoder().encode(text);
}

/**
 * Returns bytes as a text, which is made only to be shown.
 *
 * @param {Uint8Array} bytes
 */
export function shownText(bytes) {
  return new TextDecoder().decode(bytes);
}

/**
 * Returns how many words a line has.
 *
 * @param {Uint8Array} line
 */
export function wordsIn(line) {
  return line.reduce((sum, byte, at) => sum + (byte > 32 && (at === 0 || line[at - 1] <= 32) ? 1 : 0), 0);
}

/**
 * Returns digits as they were typed, in small letters and without spaces.
 *
 * @param {string} text
 */
export function typedDigits(text) {
  return text.replace(/\s/g, "").toLowerCase();
}

/**
 * Returns what a hexadecimal digit stands for, or -1.
 *
 * @param {number} digit
 */
export function digitValue(digit) {
  return "0123456789abcdef".indexOf(String.fromCharCode(digit).toLowerCase());
}

/** @typedef {"missing" | "not_hex" | "odd" | ""} Fault why digits stand for no bytes, or an empty text */

/**
 * Returns why digits stand for no bytes, or an empty text.
 *
 * @param {Uint8Array} digits
 * @returns {Fault}
 */
export function faultOf(digits) {
  if (digits.length === 0) return "missing";
  if (digits.some((digit) => digitValue(digit) < 0)) return "not_hex";
  return digits.length % 2 ? "odd" : "";
}

/**
 * Returns the bytes that hexadecimal digits stand for.
 *
 * @param {Uint8Array} digits
 */
export function unhex(digits) {
  const bytes = new Uint8Array(digits.length / 2);
  digits.forEach((digit, at) => (bytes[at >> 1] = bytes[at >> 1] * 16 + digitValue(digit)));
  return bytes;
}

/**
 * Returns the digits of bytes, as bytes.
 *
 * @param {Uint8Array} bytes
 */
export function hex(bytes) {
  const digits = new Uint8Array(2 * bytes.length);
  bytes.forEach((byte, at) => {
    digits[2 * at] = "0123456789abcdef".charCodeAt(byte >> 4);
    digits[2 * at + 1] = "0123456789abcdef".charCodeAt(byte & 15);
  });
  return digits;
}
