/** Each code of a refusal: its line, its details and its text. */
import assert from "node:assert/strict";
import test from "node:test";
import { Code, EXPONENT_MAX, OF_GROUPS, Refusal } from "../shamir.js";
import { FIVE, MISMATCHED, MISMATCHED_GROUPS, ONE, PLAN, SECRET, TWO } from "./given.js";
import { ENCRYPTED, EXTENDABLE, counting, file, refused, shamir } from "./given.js";

// Another program made these mnemonics. They are ONE with a group count of 16, and with the changes that the words of the table
// name.
const SIXTEEN = "duckling enlarge acquire romp agency result length solution fridge kidney coal piece deal husband erode duke ajar elbow entrance empty";
const CHANGED = [
  [22, [0, 0], "other extendable flag", "duckling evil acquire romp agency result length solution fridge kidney coal piece deal husband erode duke ajar failure vexed course"],
  [23, [0, 0], "other exponent", "duckling entrance acquire romp agency result length solution fridge kidney coal piece deal husband erode duke ajar dive mountain fiction"],
  [24, [0, 0], "other group threshold", "duckling enlarge adapt romp agency result length solution fridge kidney coal piece deal husband erode duke ajar advocate criminal artist"],
  [25, [0, 0], "other group count", "duckling enlarge academic easy agency result length solution fridge kidney coal piece deal husband erode duke ajar glasses leaf dive"],
  [26, [0, 0], "other length", "duckling enlarge acquire romp academic academic academic academic academic academic academic academic academic academic academic academic academic academic academic quantity glad seafood"],
  [27, [0, 0], "other member threshold in group 0", "duckling enlarge acquire scared agency result length solution fridge kidney coal piece deal husband erode duke ajar rhyme duckling taste"],
  [28, [0, 0], "conflicting share 0.0", "duckling enlarge acquire romp academic academic academic academic academic academic academic academic academic academic academic academic academic beyond system salary"],
];
const BAD_PADDING = "duckling enlarge academic academic email result length solution fridge kidney coal piece deal husband erode duke ajar music cargo fitness";
const BAD_GROUP_THRESHOLD = "duckling enlarge acrobat academic agency result length solution fridge kidney coal piece deal husband erode duke ajar hawk fatal desert";

const none = { random: new Uint8Array() };
const drill = (...given) => [...shamir.drill(...given)];

// A code, the line, the details, the text, and a call. tools/javascript compares what each call refuses.
const REFUSALS = [
  [2, null, [0, 0], "number out of range", () => shamir.create(PLAN, SECRET, { exponent: 16 })],
  [3, null, [2, 0], "exponent 2 above the maximum", () => shamir.recover(TWO, { maxExponent: 1 })],
  [11, null, [20, 0], "unknown word 20", () => shamir.parse(`${ONE}\n\n`)],
  [11, 2, [1, 0], "unknown word 1", () => shamir.recover("\nx")],
  [12, 1, [21, 0], "21 words make no share", () => shamir.status(`${ONE} academic`)],
  [13, 3, [0, 0], "bad checksum", () => shamir.recover(["\n", "", `${ONE.replace("keyboard", "kidney")}\n`])],
  [14, null, [0, 0], "bad padding", () => shamir.parse(BAD_PADDING)],
  [15, null, [0, 0], "group threshold above group count", () => shamir.parse(BAD_GROUP_THRESHOLD)],
  [17, null, [0, 0], "no mnemonic has these words", () => shamir.repair(ONE.replace("agency", "?").replace("length solution", "solution length"))],
  [18, null, [7, 0], "bad checksum: if one word is wrong, it is word 7", () => shamir.repair(ONE.replace("length", "lend"))],
  [19, null, [4, 0], "4 unreadable words: at most 3", () => shamir.repair(ONE.replace(/^(\S+ ){4}/, "? ? ? ? "))],
  [21, 2, [0, 0], "other identifier", () => shamir.recover([ONE, TWO[0]])],
  ...CHANGED.map(([code, details, text, line]) => [code, null, details, text, () => shamir.judge([FIVE[0], SIXTEEN], line)]),
  [29, null, [0, 0], "no shares", () => shamir.status([])],
  [30, null, [1, 2], "incomplete: 1 of 2 groups", () => drill(FIVE.slice(3, 4))],
  [31, null, [0, 0], "bad plan", () => shamir.reissue("1of1\u{e9}", "", "x")],
  [32, null, [0, 0], "bad number of groups in plan", () => shamir.randomNeeded("2/1of1", 16)],
  [33, null, [1, 0], "bad number of members in plan group 1", () => shamir.create("1/1of1,3of2", SECRET, none)],
  [34, null, [1, 0], "one of many in plan group 1", () => shamir.create("2/2of2,1of2", SECRET)],
  [41, null, [1, 0], "passphrase byte 1 not printable", () => shamir.recover(ONE, { passphrase: "\u{1f511}" })],
  [42, null, [2 ** 53 - 1, 0], "secret of 9007199254740991 bytes", () => shamir.randomNeeded(PLAN, 2 ** 53 - 1)],
  [42, null, [15, 0], "secret of 15 bytes", () => shamir.decryptRounds({ ...ENCRYPTED[0], value: counting(15) }).next()],
  [43, null, [26, 0], "random bytes: 26 needed", () => shamir.create(PLAN, SECRET, none)],
  [44, null, [0, 0], "bad fingerprint", () => shamir.recover(FIVE, { expect: "" })],
  [44, null, [0, 0], "bad fingerprint", () => shamir.decrypt(ENCRYPTED[0], { expect: "" })],
  [44, null, [0, 0], "bad fingerprint", () => drill(FIVE, { expect: counting(0) })],
  [51, null, [0, 0], "digest mismatch in group 0", () => shamir.recover(MISMATCHED)],
  [51, null, [OF_GROUPS, 0], "digest mismatch of groups", () => shamir.recover(MISMATCHED_GROUPS)],
  [52, null, [0, 0], "other secret", () => shamir.recover(ONE, { expect: "df41d8fe" })],
  [61, null, [0, 0], "bad cursor", () => drill(FIVE, { after: "" })],
  [61, null, [0, 0], "bad cursor", () => drill(FIVE, { after: counting(0), expect: "x" })],
  [62, null, [0, 0], "cursor is no quorum", () => drill(FIVE, { after: "0.1" })],
  [63, null, [0, 0], "bad list of names", () => shamir.reissue(PLAN, "0.1+0.0", "x")],
  [64, null, [0, 3], "name 0.3 not in plan", () => shamir.reissue(PLAN, "0.3", FIVE)],
  [65, null, [0, 0], "other plan", () => shamir.reissue("2/3of3,1of1,1of1", "0.2", FIVE)],
  [66, null, [512, 0x00010102], "cannot tell 2.0: 0 of 1 members, 1 of 2 other groups", () => shamir.reissue(PLAN, "2.0", FIVE.slice(0, 2))],
  [67, null, [0, 0], "backup isn't extendable", () => shamir.resplit(PLAN, TWO)],
  [68, null, [0, 0], "same identifier", () => shamir.resplit("1of1", EXTENDABLE, { random: Uint8Array.of(0x23, 0x6a) })],
  [71, 1, [0, 0], "line too long", () => shamir.recover("#".repeat(1025))],
];

for (const [code, line, details, text, call] of REFUSALS) {
  test(`${line === null ? "" : `line ${line}: `}${code} ${text}`, () => {
    const refusal = refused(code, line, details, call);
    assert.equal(refusal.text, text);
    assert.equal(refusal.name, "Refusal");
    assert.equal(shamir.text(refusal), text);
  });
}

test("each code but 0, 1 and 4 is caused above", () => {
  const caused = new Set(REFUSALS.map(([code]) => code));
  // Only the library as plain C gives 4.
  assert.deepEqual([...caused].sort((a, b) => a - b), Object.values(Code).slice(2).filter((code) => code !== Code.NO_MEMORY));
});

test("texts of answers", () => {
  assert.equal(shamir.text({ code: 0, details: [0, 0] }), "done");
  assert.equal(shamir.text({ code: Code.TOO_SHORT, details: [5, 0] }), "buffer too short: 5 bytes needed");
  assert.equal(shamir.text({ code: 10, details: [0, 0] }), "unknown answer");
});

test("the numbers are those of the header", () => {
  const header = file("include/shamir.h").toString();
  const source = file("bindings/js/shamir.js").toString();
  const numbers = new Map(Array.from(header.matchAll(/^#define SHAMIR_(\w+) (\d+)$/gm), ([, name, number]) => [name, Number(number)]));
  const own = Array.from(source.matchAll(/^const (\w+_BYTES_MAX|FORM_\w+) = (\d+);$/gm), ([, name, number]) => [name, Number(number)]);
  assert.equal(own.length, 10);
  for (const [name, number] of [...own, ["EXPONENT_MAX", EXPONENT_MAX], ["OF_GROUPS", OF_GROUPS]]) assert.equal(numbers.get(name), number);
});

test("a refusal is an error, and holds nothing of what was given", () => {
  const words = [...FIVE, ...MISMATCHED, ONE].join(" ").split(" ");
  const texts = [];
  for (const [, , , , call] of REFUSALS) {
    try {
      call();
    } catch (error) {
      assert.ok(error instanceof Refusal);
      texts.push(`${error.message} ${error.text} ${JSON.stringify(error)}`);
    }
  }
  assert.equal(texts.length, REFUSALS.length);
  // These words of the list are words of messages too.
  const common = new Set(["group", "member", "length"]);
  for (const word of words) assert.ok(common.has(word) || !texts.some((text) => new RegExp(`\\b${word}\\b`).test(text)), word);
});
