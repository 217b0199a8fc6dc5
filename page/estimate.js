// How long work takes, and a bar that moves as far as this estimate says. The work itself is one call of the engine, which tells nothing
// before its end.
import { element } from "./dom.js";
import { say, saidTime } from "./say.js";

/** From this exponent on, the page says how long a derivation takes. */
export const LONG_EXPONENT = 5;
// The key of a longer secret is derived in two parts.
const SECRET_BYTES = 64;

/**
 * Returns how many seconds one key derivation takes, if one of 10,000 iterations takes so many.
 *
 * @param {number} measured
 * @param {number} exponent
 * @param {number} secretBytes
 */
export function derivationSeconds(measured, exponent, secretBytes) {
  return measured * 2 ** exponent * (secretBytes > SECRET_BYTES ? 2 : 1);
}

// Work that is estimated to take fewer seconds has no bar.
const SHOWN_FROM = 3;
const MOVED_EVERY = 250;
// Only the end of the work fills the bar.
const FULLEST = 0.99;

/**
 * Makes the bar, with a sentence on the time that is left. Both move as long as they are shown. Returns null if the work is short.
 *
 * @param {number} seconds how long the work takes, by the estimate
 */
export function estimated(seconds) {
  if (seconds < SHOWN_FROM) return null;
  const bar = element("progress", { max: "1", "aria-label": say("work.progress") });
  const left = element("p", { class: "hint" });
  const begun = performance.now();
  const move = () => {
    const passed = (performance.now() - begun) / 1000;
    bar.value = Math.min(passed / seconds, FULLEST);
    left.textContent = passed < seconds ? say("work.left", { time: saidTime(seconds - passed) }) : say("work.longer");
  };
  move();
  const timer = setInterval(() => (bar.isConnected ? move() : clearInterval(timer)), MOVED_EVERY);
  return element("div", { class: "estimate" }, bar, left);
}
