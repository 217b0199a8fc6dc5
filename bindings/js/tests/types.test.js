/** What isn't a text, a secret, a number or an option is an error, and nothing is truncated. No such error holds a value. */
import assert from "node:assert/strict";
import test from "node:test";
import vm from "node:vm";
import { AS_BEFORE, ENCRYPTED, FIVE, ONE, PLAN, SECRET, TWO } from "./given.js";
import { bytesOf, counting, load, refused, shamir } from "./given.js";

/** A byte array that says of itself that it is another one. */
class OddBytes extends Uint8Array {
  get length() {
    return 128;
  }
  get [Symbol.toStringTag]() {
    return "Text";
  }
  *[Symbol.iterator]() {
    yield 7;
  }
}

function transferred(bytes) {
  const given = bytes.slice();
  structuredClone(given.buffer, { transfer: [given.buffer] });
  return given;
}

const drill = (...given) => [...shamir.drill(...given)];

test("wrong types are TypeErrors", () => {
  for (const call of [
    () => shamir.recover(FIVE, { passphrase: 6 }),
    () => shamir.recover(FIVE, { passphrase: null }),
    () => shamir.recover(FIVE, { passphrase: [84, 82] }),
    () => shamir.recover(FIVE, { passphrase: new Uint16Array(2) }),
    () => shamir.recover(FIVE, { passphrase: new DataView(new ArrayBuffer(2)) }),
    () => shamir.recover(FIVE, { passphrase: Object.create(Uint8Array.prototype) }),
    () => shamir.recover(FIVE, { passphrase: new String("TREZOR") }),
    () => shamir.recover(6),
    () => shamir.recover(null),
    () => shamir.recover(undefined),
    () => shamir.recover([6]),
    () => shamir.recover([ONE, null]),
    () => shamir.recover({ 0: ONE, length: 1 }),
    () => shamir.recover(new String(ONE)),
    () => shamir.recover(new Uint16Array(2)),
    () => shamir.judge(6, ONE),
    () => shamir.judge([ONE, null], ONE),
    () => shamir.judge(FIVE),
    () => shamir.judge(FIVE, [ONE]),
    () => shamir.parse(20),
    () => shamir.parse([ONE]),
    () => shamir.parse(new ArrayBuffer(2)),
    () => shamir.create(PLAN, "00112233445566778899aabbccddeeff"),
    () => shamir.create(PLAN, 16),
    () => shamir.create(PLAN, [...SECRET]),
    () => shamir.create(PLAN, SECRET.buffer),
    () => shamir.create(PLAN, SECRET, { random: 26 }),
    () => shamir.create(PLAN, SECRET, { random: null }),
    () => shamir.create(PLAN, SECRET, { random: "a".repeat(26) }),
    () => shamir.create(PLAN, SECRET, { exponent: "1" }),
    () => shamir.create(PLAN, SECRET, { exponent: 1n }),
    () => shamir.create(PLAN, SECRET, { exponent: null }),
    () => shamir.create(PLAN, SECRET, { extendable: 1 }),
    () => shamir.create(PLAN, SECRET, { extendable: null }),
    () => shamir.create(PLAN, SECRET, { extendable: "no" }),
    () => shamir.resplit(PLAN, FIVE, { random: 26 }),
    () => shamir.resplit(PLAN, FIVE, { random: null }),
    () => shamir.resplit(PLAN, 6),
    () => shamir.resplit(undefined, FIVE),
    () => shamir.createFromEncrypted(PLAN, ENCRYPTED[3], { random: 26 }),
    () => shamir.createFromEncrypted(PLAN, shamir.parse(ONE)),
    () => shamir.createFromEncrypted(undefined, ENCRYPTED[3]),
    () => shamir.create(undefined, SECRET),
    () => shamir.randomNeeded(PLAN, "16"),
    () => shamir.randomNeeded(PLAN),
    () => shamir.recover(ONE, { maxExponent: "15" }),
    () => shamir.recover(FIVE, { expect: 0xdf41d8fe }),
    () => shamir.recover(FIVE, { expect: null }),
    () => shamir.encrypted(6),
    () => shamir.decrypt(),
    () => shamir.decrypt(null),
    () => shamir.decrypt(SECRET),
    () => shamir.decrypt(shamir.parse(ONE)),
    ...[{ id: "1" }, { id: null }, { extendable: 1 }, { exponent: "0" }, { value: "00" }, { value: [1] }, { label: "" }].map(
      (fields) => () => shamir.decrypt({ ...ENCRYPTED[0], ...fields })
    ),
    () => shamir.decrypt(ENCRYPTED[0], { expect: null }),
    () => shamir.decryptRound(ENCRYPTED[0]),
    () => shamir.decryptRound(ENCRYPTED[0], "3"),
    () => shamir.decryptRound(shamir.parse(ONE), 3),
    () => shamir.decryptRounds(shamir.parse(ONE)),
    () => shamir.decryptRounds({ ...ENCRYPTED[0], value: "00" }),
    () => shamir.drill(FIVE, { expect: null }),
    () => shamir.drill(FIVE, { expect: "df41d8fe", fingerprints: true }),
    () => shamir.drill(FIVE, { after: 0 }),
    () => shamir.drill(FIVE, { after: null }),
    () => shamir.drill(FIVE, { fingerprints: 1 }),
    () => shamir.drill(6),
    () => shamir.fingerprint("TREZOR"),
    () => shamir.fingerprint([...SECRET]),
    () => shamir.words(1),
    () => shamir.words(),
    () => shamir.text({ code: "11", details: [1, 0] }),
    () => shamir.text({ code: 11, details: [1] }),
    () => shamir.text(),
  ]) {
    assert.throws(call, TypeError, call.toString());
  }
});

test("options are named, and each name is known", () => {
  for (const call of [
    () => shamir.create("1of1", SECRET, "TREZOR"),
    () => shamir.recover(FIVE, "TREZOR"),
    () => shamir.recover(FIVE, null),
    () => shamir.drill(FIVE, "TREZOR"),
    () => shamir.recover(FIVE, { passphase: "TREZOR" }),
    () => shamir.recover(FIVE, { exponent: 15 }),
    () => shamir.recover(FIVE, ["TREZOR"]),
    () => shamir.create(PLAN, SECRET, { max_exponent: 1 }),
    () => shamir.drill(FIVE, { limit: 1 }),
    () => shamir.resplit(PLAN, FIVE, { passphrase: "TREZOR" }),
    () => shamir.createFromEncrypted(PLAN, ENCRYPTED[3], { passphrase: "TREZOR" }),
    () => shamir.decrypt(ENCRYPTED[0], { passphrase: "TREZOR", maxExponent: 1 }),
    () => shamir.decryptRound(ENCRYPTED[0], 3, { passphrase: "TREZOR", expect: "df41d8fe" }),
    () => shamir.decryptRounds(ENCRYPTED[0], { passphrase: "TREZOR", expect: "df41d8fe" }),
  ]) {
    assert.throws(call, (error) => error instanceof TypeError && !/TREZOR|passphase/.test(error.message), call.toString());
  }
  assert.deepEqual(shamir.recover(FIVE, { passphrase: undefined, maxExponent: undefined }), shamir.recover(FIVE));
});

test("options that are inherited are noticed", () => {
  class Options {
    get passphrase() {
      return "TREZOR";
    }
  }
  const held = Object.assign(Object.create(null), { passphrase: "TREZOR" });
  for (const options of [Object.create({ passphrase: "TREZOR" }), new Options(), Object.create(held), new Map(), []]) {
    for (const call of [
      () => shamir.create(PLAN, SECRET, options),
      () => shamir.recover(FIVE, options),
      () => shamir.drill(FIVE, options),
      () => shamir.resplit(PLAN, FIVE, options),
      () => shamir.createFromEncrypted(PLAN, ENCRYPTED[3], options),
      () => shamir.decrypt(ENCRYPTED[0], options),
      () => shamir.decryptRound(ENCRYPTED[0], 3, options),
      () => shamir.decryptRounds(ENCRYPTED[0], options),
    ]) {
      assert.throws(call, (error) => error instanceof TypeError && !/TREZOR/.test(error.message), call.toString());
    }
  }
  assert.throws(() => shamir.decrypt(Object.create(ENCRYPTED[0]), { passphrase: "TREZOR" }), TypeError);
  assert.deepEqual(shamir.recover(FIVE, held), SECRET);
  assert.deepEqual(shamir.recover(FIVE, vm.runInNewContext('({ passphrase: "TREZOR" })')), SECRET);
  try {
    Object.prototype.passphrase = "TREZOR";
    for (const call of [() => shamir.create(PLAN, SECRET), () => shamir.recover(FIVE, {})]) assert.throws(call, TypeError);
  } finally {
    delete Object.prototype.passphrase;
  }
});

test("numbers out of range are RangeErrors", () => {
  for (const call of [
    ...[2 ** 32, -1, 1.5, NaN, Infinity].map((exponent) => () => shamir.create(PLAN, SECRET, { exponent })),
    ...[2 ** 32, -1, 0.5, NaN].map((maxExponent) => () => shamir.recover(ONE, { maxExponent })),
    ...[2 ** 32, -1].map((maxExponent) => () => shamir.drill(ONE, { maxExponent })),
    ...[2 ** 53, -16, 16.5, NaN, -Infinity].map((length) => () => shamir.randomNeeded(PLAN, length)),
    ...[{ id: 65536 }, { id: -1 }, { exponent: 256 }, { exponent: 0.5 }].map((fields) => () => shamir.decrypt({ ...ENCRYPTED[0], ...fields })),
    ...[256, -1, 0.5, NaN].map((round) => () => shamir.decryptRound(ENCRYPTED[0], round)),
    () => shamir.text({ code: 2 ** 32, details: [0, 0] }),
    () => shamir.text({ code: 11, details: [-1, 0] }),
    () => shamir.text({ code: 66, details: [1, 2 ** 53] }),
  ]) {
    assert.throws(call, RangeError, call.toString());
  }
});

test("a string that UTF-8 can't encode is a RangeError", () => {
  for (const text of ["\ud800", "a\udc00b", "TREZOR\ud83d", "\udc00\ud800"]) {
    for (const call of [
      () => shamir.recover(ONE, { passphrase: text }),
      () => shamir.recover(text),
      () => shamir.recover([ONE, text]),
      () => shamir.parse(text),
      () => shamir.create(text, SECRET),
      () => shamir.words(text),
      () => shamir.drill(FIVE, { after: text }),
      () => shamir.recover(FIVE, { expect: text }),
      () => shamir.encrypted([ONE, text]),
      () => shamir.decrypt(ENCRYPTED[0], { passphrase: text }),
      () => shamir.decryptRound(ENCRYPTED[0], 3, { passphrase: text }),
      () => shamir.decryptRounds(ENCRYPTED[0], { passphrase: text }),
      () => shamir.drill(FIVE, { expect: text }),
    ]) {
      assert.throws(call, (error) => error instanceof RangeError && !error.message.includes("TREZOR"), call.toString());
    }
  }
  refused(41, null, [1, 0], () => shamir.recover(ONE, { passphrase: "\ud83d\udd11" }));
});

test("a string that is refused can't be read from RegExp afterwards", () => {
  assert.ok(/^seen before$/.test("seen before"));
  assert.throws(() => shamir.recover(ONE, { passphrase: "TREZOR\ud83d" }), RangeError);
  assert.equal(RegExp.input, "seen before");
});

test("an item of a list is one line", () => {
  for (const lines of [[FIVE.join("\n")], [ONE, bytesOf("a\nb\n")], ["\n\n"]]) {
    assert.throws(() => shamir.recover(lines), new RegExp(`^RangeError: line ${lines.length} of the list holds a line feed`));
  }
});

test("the real bytes of an array are used, whatever its class says", () => {
  assert.deepEqual(shamir.create(PLAN, new OddBytes(SECRET), { ...AS_BEFORE, passphrase: new OddBytes(bytesOf("TREZOR")), random: new OddBytes(counting(26)) }), FIVE);
  refused(42, null, [2, 0], () => shamir.fingerprint(new OddBytes(2)));
  assert.deepEqual(shamir.recover(new OddBytes(bytesOf(FIVE.join("\n"))), { passphrase: "TREZOR" }), SECRET);
  const inside = new Uint8Array([1, ...SECRET, 1]).subarray(1, 17);
  assert.equal(shamir.fingerprint(inside), "df41d8fe");
  assert.equal(shamir.fingerprint(Buffer.from(SECRET)), "df41d8fe");
  const foreign = vm.runInNewContext("Uint8Array.from(bytes)", { bytes: [...SECRET] });
  assert.ok(!(foreign instanceof Uint8Array));
  assert.equal(shamir.fingerprint(foreign), "df41d8fe");
});

test("an array that was transferred elsewhere isn't empty", () => {
  const [gone, secret, lines] = [bytesOf("TREZOR"), SECRET, bytesOf(ONE)].map(transferred);
  assert.equal(gone.length, 0);
  for (const call of [
    () => shamir.recover(FIVE, { passphrase: gone }),
    () => shamir.create(PLAN, SECRET, { passphrase: gone }),
    () => shamir.fingerprint(secret),
    () => shamir.status(lines),
    () => shamir.status([ONE, lines]),
    () => shamir.decrypt({ ...ENCRYPTED[0], value: secret }),
  ]) {
    assert.throws(call, TypeError, call.toString());
  }
});

test("arguments aren't changed, and results are the caller's own", () => {
  const [secret, random, passphrase, lines] = [SECRET.slice(), counting(26), bytesOf("TREZOR"), bytesOf(FIVE.join("\n"))];
  shamir.createBytes(PLAN, secret, { random, passphrase });
  shamir.recover(lines, { passphrase });
  assert.deepEqual([secret, random, passphrase, lines], [SECRET, counting(26), bytesOf("TREZOR"), bytesOf(FIVE.join("\n"))]);
  const [one, two] = [shamir.recover(FIVE), shamir.recover(FIVE)];
  one.fill(0);
  assert.notDeepEqual(one, two);
  const made = shamir.createBytes(PLAN, secret, { ...AS_BEFORE, random, passphrase });
  made[0].fill(0);
  assert.deepEqual(made.slice(1), FIVE.slice(1).map(bytesOf));
});

test("a drill begins at the first next", () => {
  const begun = shamir.drill(TWO.slice(0, 1));
  refused(30, null, [0, 1], () => begun.next());
  assert.deepEqual(begun.next(), { done: true, value: undefined });
  assert.deepEqual(drill(FIVE, { after: undefined }).length, 7);
});

test("without a source of random bytes, they must be given", () => {
  const kept = Object.getOwnPropertyDescriptor(globalThis, "crypto");
  Object.defineProperty(globalThis, "crypto", { value: undefined, configurable: true });
  try {
    assert.throws(() => shamir.create(PLAN, SECRET), /^Error: crypto.getRandomValues isn't there/);
    assert.deepEqual(shamir.create(PLAN, SECRET, { ...AS_BEFORE, random: counting(26) }), FIVE);
  } finally {
    Object.defineProperty(globalThis, "crypto", kept);
  }
});

test("load takes nothing but a module", async () => {
  for (const other of [undefined, null, 7, "shamir.wasm", {}]) await assert.rejects(load(other), TypeError);
});
