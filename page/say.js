// The sentences of the page, with values in their places.
import { TEXTS } from "./texts.js";

/**
 * Whether the table has this key.
 *
 * @param {string} key
 */
export function hasText(key) {
  return Object.hasOwn(TEXTS, key);
}

/**
 * Returns the text of a key, with the values in their places. All numbers have one format.
 *
 * @param {string} key
 * @param {Record<string, string | number>} [values]
 */
export function say(key, values = {}) {
  return TEXTS[key].replace(/\{(\w+)\}/g, (_, name) => written(values[name]));
}

/** @param {string | number} value */
function written(value) {
  return typeof value === "number" ? value.toLocaleString("en") : value;
}

/**
 * Returns a number with its noun.
 *
 * @param {number} n
 * @param {"paper" | "group" | "whole" | "quorum" | "secret" | "left" | "second" | "minute" | "hour"} noun
 */
export function counted(n, noun) {
  return say(`${noun}.${n === 1 ? "one" : "many"}`, { n });
}

/**
 * Returns the end of the key of a sentence that says something of one thing, or of many.
 *
 * @param {readonly unknown[]} things
 * @returns {"one" | "many"}
 */
export function formOf(things) {
  return things.length === 1 ? "one" : "many";
}

/**
 * Returns a time in words.
 *
 * @param {number} seconds
 */
export function saidTime(seconds) {
  if (seconds < 1) return say("time.short");
  if (seconds < 90) return counted(Math.round(seconds), "second");
  return seconds < 5400 ? counted(Math.round(seconds / 60), "minute") : counted(Math.round(seconds / 3600), "hour");
}
