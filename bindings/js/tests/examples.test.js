/** How each call reads and answers in JavaScript. tools/javascript compares the worked examples of tools/worked.py. */
import assert from "node:assert/strict";
import test from "node:test";
import { load, OF_GROUPS } from "../shamir.js";
import { AS_BEFORE, FIVE, FIVE_QUORUMS, MISMATCHED, MISMATCHED_GROUPS, ONE, PLAN, SECRET, TWO } from "./given.js";
import { ENCRYPTED, EXTENDABLE, SPLIT_ANEW, UNDONE, bytesOf, counting, file, ofHex, refused, shamir } from "./given.js";

const KEY = { passphrase: "TREZOR" };

test("parse", () => {
  const value = ofHex("11bc609d21747c49ba78c0701293e417");
  const fields = { id: 7945, extendable: false, exponent: 0, groupIndex: 0, groupThreshold: 1, groupCount: 1, memberIndex: 0, memberThreshold: 1 };
  assert.deepEqual(shamir.parse(ONE), { ...fields, value });
  assert.deepEqual(shamir.parse(`\t${ONE.toUpperCase().replaceAll(" ", " \t ")}\r`), { ...fields, value });
});

test("create", () => {
  assert.deepEqual(shamir.create(PLAN, SECRET, { ...AS_BEFORE, random: counting(26) }), FIVE);
  assert.deepEqual(shamir.createBytes(PLAN, SECRET, { ...AS_BEFORE, random: counting(26) }), FIVE.map(bytesOf));
  assert.deepEqual(shamir.recover(shamir.create("10of16", counting(128)).slice(6)), counting(128));
  const flags = [false, true].map((extendable) => shamir.parse(shamir.create("1of1", SECRET, { extendable })[0]).extendable);
  assert.deepEqual(flags, [false, true]);
  const { exponent, extendable } = shamir.parse(shamir.create("1of1", SECRET)[0]);
  assert.deepEqual([exponent, extendable], [1, true], "the defaults of the reference implementation");
});

test("a line feed may end one mnemonic", () => {
  for (const given of [`${ONE}\n`, `${ONE}\r\n`, bytesOf(`${ONE}\n`)]) {
    assert.deepEqual(shamir.parse(given), shamir.parse(ONE));
    assert.deepEqual(shamir.judge([], given), shamir.judge([], ONE));
    assert.deepEqual(shamir.repair(given), [ONE]);
  }
  assert.deepEqual(shamir.repair(`${ONE.replace("keyboard", "?")}\n`), [ONE]);
  for (const call of [(line) => shamir.parse(line), (line) => shamir.repair(line), (line) => shamir.judge([], line)]) {
    refused(11, null, [20, 0], () => call(`${ONE}\n\n`));
    refused(11, null, [1, 0], () => call(`\n${ONE}`));
    refused(12, null, [0, 0], () => call("\n"));
  }
});

test("the greatest backup", () => {
  const lines = shamir.create(`16/${Array(16).fill("16of16").join(",")}`, counting(128));
  assert.equal(lines.length, 256);
  assert.deepEqual(shamir.recover(lines), counting(128));
});

test("random bytes are drawn anew for each backup", () => {
  const made = [1, 2, 3].map(() => shamir.create("2of3", SECRET).join("\n"));
  assert.equal(new Set(made).size, 3);
});

test("an expected fingerprint is a text, bytes or left out", () => {
  for (const expect of ["df41d8fe", bytesOf("DF41d8fe"), undefined]) {
    assert.deepEqual(shamir.recover(FIVE, { ...KEY, expect }), SECRET);
    assert.deepEqual(shamir.decrypt(ENCRYPTED[0], { ...KEY, expect }), SECRET);
  }
});

test("encrypted", () => {
  assert.deepEqual(shamir.encrypted(EXTENDABLE), ENCRYPTED[3]);
  assert.deepEqual(shamir.encrypted(bytesOf(FIVE.slice(3).join("\n"))), ENCRYPTED[2]);
});

test("decryptRounds", () => {
  for (const [i, texts] of UNDONE.entries()) {
    for (const passphrase of ["TREZOR", bytesOf("TREZOR")]) {
      assert.deepEqual([...shamir.decryptRounds(ENCRYPTED[2 + i], { passphrase })], [null, null, null, texts[3]]);
    }
    assert.deepEqual([...shamir.decryptRounds(ENCRYPTED[2 + i])][3], shamir.decrypt(ENCRYPTED[2 + i]));
  }
});

test("texts, lists and bytes are the same lines", () => {
  const ended = FIVE.map((line) => `${line}\n`);
  const forms = [FIVE.join("\n"), ended.join(""), bytesOf(FIVE.join("\n")), ended, FIVE.map(bytesOf), new Set(FIVE), FIVE.values()];
  for (const lines of [...forms, ["", "# a note\n", ...FIVE, "\n"]]) {
    assert.deepEqual(shamir.recover(lines, { passphrase: bytesOf("TREZOR") }), SECRET);
  }
});

test("drill", () => {
  const outcomes = FIVE_QUORUMS.map((names) => ({ names, secret: SECRET, fingerprint: null, expected: null, mismatch: null }));
  assert.deepEqual([...shamir.drill(FIVE, KEY)], outcomes);
  assert.deepEqual([...shamir.drill(FIVE.slice().reverse(), { ...KEY, after: FIVE_QUORUMS[4] })], outcomes.slice(5));
  assert.deepEqual([...shamir.drill(FIVE, { ...KEY, after: bytesOf(FIVE_QUORUMS[6]) })], []);
  const fingerprints = outcomes.map((outcome) => ({ ...outcome, secret: null, fingerprint: "df41d8fe" }));
  assert.deepEqual([...shamir.drill(FIVE, { ...KEY, fingerprints: true })], fingerprints);
});

test("drill, compared with the fingerprint that is expected", () => {
  for (const [expect, passphrase, expected] of [
    [bytesOf("DF41D8FE"), "TREZOR", true],
    ["df41d8fe", "TREZOr", false],
  ]) {
    const outcomes = FIVE_QUORUMS.map((names) => ({ names, secret: null, fingerprint: null, expected, mismatch: null }));
    assert.deepEqual([...shamir.drill(FIVE, { expect, passphrase })], outcomes);
    assert.deepEqual([...shamir.drill(FIVE, { expect, passphrase, fingerprints: false, after: FIVE_QUORUMS[2] })], outcomes.slice(3));
  }
});

test("drill, digests that don't match", () => {
  for (const form of [{}, { fingerprints: true }, { expect: "df41d8fe" }]) {
    const [one, two] = [MISMATCHED, MISMATCHED_GROUPS].map((lines) => [...shamir.drill(lines, form)]);
    assert.deepEqual(one, [{ names: "0.0+0.1", secret: null, fingerprint: null, expected: null, mismatch: 0 }]);
    assert.deepEqual(two, [{ names: "0.0+1.0", secret: null, fingerprint: null, expected: null, mismatch: OF_GROUPS }]);
  }
});

test("drill, in several parts", () => {
  const lines = shamir.create("6of12", counting(32));
  const all = [...shamir.drill(lines)];
  // There are 924 sets of 6 of 12 members.
  assert.equal(all.length, 924);
  assert.equal(new Set(all.map(({ names }) => names)).size, 924);
  for (const { secret } of all) assert.deepEqual(secret, counting(32));
  assert.deepEqual([...shamir.drill(lines, { after: all[899].names })], all.slice(900));
  // The parts have different lengths if each of them takes long.
  const { now } = Date;
  let time = 0;
  Date.now = () => (time += 1000);
  try {
    assert.deepEqual([...shamir.drill(lines)], all);
  } finally {
    Date.now = now;
  }
  assert.ok(time > 20000);
});

test("drill copies its arguments at once", () => {
  const [lines, passphrase, after] = [bytesOf(FIVE.join("\n")), bytesOf("TREZOR"), bytesOf(FIVE_QUORUMS[5])];
  const drill = shamir.drill(lines, { passphrase, after });
  for (const bytes of [lines, passphrase, after]) bytes.fill(0);
  assert.deepEqual([...drill].map(({ names, secret }) => [names, secret]), [[FIVE_QUORUMS[6], SECRET]]);
});

test("status", () => {
  const group = { group: 0, threshold: 2, names: ["0.0", "0.2"] };
  const found = shamir.status([FIVE[4], FIVE[2], FIVE[0], FIVE[2]]);
  const text = "groups 2 of 2\ngroup 0 members 2 of 2 0.0+0.2\ngroup 2 members 1 of 1 2.0";
  assert.deepEqual(found, { complete: 2, required: 2, enough: true, groups: [group, { group: 2, threshold: 1, names: ["2.0"] }], text });
  assert.equal(shamir.status(TWO.slice(0, 1)).enough, false);
});

test("quorums", () => {
  assert.equal(shamir.quorums(FIVE), 7n);
  assert.equal(shamir.quorums(shamir.create(`16/${Array(16).fill("8of16").join(",")}`, SECRET)), 2n ** 64n - 1n);
});

test("reissue", () => {
  assert.deepEqual(shamir.reissue(PLAN, "0.0+0.1", FIVE.slice(2)), FIVE.slice(0, 2));
  assert.deepEqual(shamir.reissueBytes(bytesOf(PLAN), bytesOf("0.0+0.1"), FIVE.slice(2)), FIVE.slice(0, 2).map(bytesOf));
});

test("resplit", () => {
  const random = counting(26);
  for (const lines of [EXTENDABLE, bytesOf(EXTENDABLE.join("\n")), ["# a note", ...EXTENDABLE].reverse()]) {
    assert.deepEqual(shamir.resplit(PLAN, lines, { random }), SPLIT_ANEW);
    assert.deepEqual(shamir.resplitBytes(bytesOf(PLAN), lines, { random }), SPLIT_ANEW.map(bytesOf));
  }
});

test("createFromEncrypted", () => {
  const random = counting(26);
  const kept = ENCRYPTED[3];
  assert.deepEqual(shamir.createFromEncrypted(PLAN, kept, { random }), SPLIT_ANEW);
  assert.deepEqual(shamir.createFromEncryptedBytes(bytesOf(PLAN), kept, { random }), SPLIT_ANEW.map(bytesOf));
  for (const passphrase of ["TREZOR", "", "other"]) {
    const renewed = shamir.createFromEncrypted("2of3", kept);
    assert.deepEqual(shamir.recover(renewed.slice(1), { passphrase }), shamir.decrypt(kept, { passphrase }));
  }
});

test("resplit and createFromEncrypted draw random bytes anew, and others for those that give the old identifier", () => {
  const calls = [(plan) => shamir.resplit(plan, EXTENDABLE), (plan) => shamir.createFromEncrypted(plan, ENCRYPTED[3])];
  for (const call of calls) assert.equal(new Set([1, 2, 3].map(() => call("2of3").join("\n"))).size, 3);
  const { getRandomValues } = crypto;
  const same = Uint8Array.of(0x23, 0x6a, ...new Uint8Array(24));
  let draws = [];
  crypto.getRandomValues = (bytes) => {
    assert.equal(bytes.length, 26);
    bytes.set(draws.shift());
    return bytes;
  };
  try {
    for (const call of calls) {
      for (const times of [0, 1, 9]) {
        draws = [...Array(times).fill(same), counting(26)];
        assert.deepEqual(call(PLAN), SPLIT_ANEW);
        assert.equal(draws.length, 0);
      }
      draws = Array(11).fill(same);
      assert.throws(() => call(PLAN), { code: 68, line: null, details: [0, 0], text: "same identifier" });
      assert.equal(draws.length, 1);
    }
  } finally {
    crypto.getRandomValues = getRandomValues;
  }
});

test("judge", () => {
  const { value, ...share } = shamir.parse(FIVE[4]);
  const status = shamir.status([...FIVE.slice(0, 3), FIVE[4]]);
  assert.deepEqual(shamir.judge(FIVE.slice(0, 3), FIVE[4]), { share, again: false, status });
  assert.deepEqual(shamir.judge(FIVE, bytesOf(FIVE[4].toUpperCase())), { share, again: true, status: shamir.status(FIVE) });
  assert.equal(value.length, 16);
});

test("repair", () => {
  const line = ONE.replace("duckling enlarge academic", "? ? ?");
  assert.deepEqual(shamir.repair(line), [ONE, ONE.replace("duckling enlarge academic", "therapy heat device")]);
  assert.deepEqual(shamir.repairBytes(bytesOf(line)), shamir.repair(line).map(bytesOf));
});

test("words", () => {
  const source = file("crates/s39_words/src/word_list.rt").toString();
  const list = Array.from(source.matchAll(/\*b"([a-z ]{8})"/g), ([, word]) => word.trim());
  assert.equal(list.length, 1024);
  assert.deepEqual(shamir.words(""), list);
  assert.deepEqual(shamir.words(bytesOf("Em")), shamir.words("em"));
});

test("version", () => {
  const [, version] = /^VERSION = (.*)$/m.exec(file("Makefile").toString());
  assert.equal(shamir.version(), version);
  assert.equal(JSON.parse(file("bindings/js/package.json").toString()).version, version);
});

test("load takes bytes and a compiled module", async () => {
  const bytes = file(process.env.SHAMIR_MODULE ?? "shamir32.wasm");
  for (const from of [bytes, new Uint8Array(bytes).buffer, await WebAssembly.compile(bytes)]) {
    assert.equal((await load(from)).version(), shamir.version());
  }
  await assert.rejects(load(bytes.subarray(0, 1000)), WebAssembly.CompileError);
  await assert.rejects(load(counting(0)), WebAssembly.CompileError);
  // This one has the version of another interface.
  const at = bytes.indexOf(shamir.version());
  await assert.rejects(load(Uint8Array.from(bytes).fill(50, at, at + 1)), /^TypeError: this module has version 2\./);
  // This module is empty.
  await assert.rejects(load(Uint8Array.from([0, 97, 115, 109, 1, 0, 0, 0])), /^TypeError: this module isn't the engine/);
});
