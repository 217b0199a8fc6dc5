/** Nothing of a call stays in the memory of the module: not after a result, a refusal, a trap or a drill that is left early. */
import assert from "node:assert/strict";
import test from "node:test";
import { Refusal } from "../shamir.js";
import { AS_BEFORE, FIVE, FIVE_QUORUMS, Instance, MISMATCHED, ONE, PLAN, SECRET, TWO } from "./given.js";
import { CONFLICTING, ENCRYPTED, EXTENDABLE, UNDONE, bytesOf, counting, file, hex, instances, module, refused, shamir } from "./given.js";

const [{ exports }] = instances;
const FRESH = memoryOf(new Instance(module));
const HEAP = Number(exports.__heap_base.value);
const STACK_BYTES = 524288;
const GROUPS = Array(16).fill("16of16").join(",");

/** A copy of the whole memory of an instance. */
function memoryOf(instance) {
  return new Uint8Array(instance.exports.memory.buffer.slice(0));
}

/** Checks that the memory is as in a new instance, and zero in the room that it grew by. */
function assertClear(instance = instances.at(-1)) {
  const memory = memoryOf(instance);
  assert.equal(Buffer.compare(memory.subarray(0, FRESH.length), FRESH), 0);
  assert.ok(memory.subarray(FRESH.length).every((byte) => byte === 0));
}

/** Calls with results and with refusals, each of which reads or writes something secret. */
const CALLS = {
  parse: () => shamir.parse(ONE),
  "parse, refused": () => shamir.parse(`${ONE} academic`),
  create: () => shamir.create(PLAN, SECRET, { passphrase: "TREZOR", extendable: true }),
  "create, refused": () => shamir.create(PLAN, SECRET, { passphrase: "TREZOR", random: counting(25) }),
  "create, bytes": () => shamir.createBytes("16of16", counting(128)),
  recover: () => shamir.recover(FIVE, { passphrase: "TREZOR" }),
  "recover, refused": () => shamir.recover(MISMATCHED),
  "recover, compared": () => shamir.recover(FIVE, { passphrase: "TREZOR", expect: "df41d8fe" }),
  "recover, refused for another secret": () => shamir.recover(FIVE, { passphrase: "TREZOR", expect: "00000000" }),
  "recover, refused passphrase": () => shamir.recover(FIVE, { passphrase: "TREZOR\x07" }),
  encrypted: () => shamir.encrypted(FIVE),
  "encrypted, refused": () => shamir.encrypted(MISMATCHED),
  decrypt: () => shamir.decrypt(ENCRYPTED[0], { passphrase: "TREZOR", expect: "df41d8fe" }),
  "decrypt, refused": () => shamir.decrypt(ENCRYPTED[0], { passphrase: "TREZOR\x07" }),
  "decrypt, refused for another secret": () => shamir.decrypt(ENCRYPTED[0], { passphrase: "TREZOR", expect: "00000000" }),
  decryptRound: () => shamir.decryptRound(ENCRYPTED[0], 3, { passphrase: "TREZOR" }),
  "decryptRound, refused": () => shamir.decryptRound(ENCRYPTED[0], 4, { passphrase: "TREZOR" }),
  decryptRounds: () => [...shamir.decryptRounds(ENCRYPTED[0], { passphrase: "TREZOR" })],
  drill: () => [...shamir.drill(FIVE, { passphrase: "TREZOR" })],
  "drill, fingerprints": () => [...shamir.drill(FIVE, { passphrase: "TREZOR", fingerprints: true })],
  "drill, compared": () => [...shamir.drill(FIVE, { passphrase: "TREZOR", expect: "df41d8fe" })],
  "drill, refused": () => [...shamir.drill(FIVE, { after: "0.1" })],
  status: () => shamir.status(FIVE),
  "status, refused": () => shamir.status([...FIVE, ONE]),
  judge: () => shamir.judge(FIVE, FIVE[0]),
  "judge, refused": () => shamir.judge(FIVE, CONFLICTING),
  quorums: () => shamir.quorums(FIVE),
  "quorums, refused": () => shamir.quorums([...FIVE, ONE]),
  reissue: () => shamir.reissue(PLAN, "0.0+0.1", FIVE.slice(2)),
  "reissue, refused": () => shamir.reissue(PLAN, "0.0", FIVE.slice(3)),
  resplit: () => shamir.resplit(PLAN, EXTENDABLE),
  "resplit, bytes": () => shamir.resplitBytes("16of16", EXTENDABLE),
  "resplit, refused": () => shamir.resplit(PLAN, EXTENDABLE, { random: counting(25) }),
  createFromEncrypted: () => shamir.createFromEncrypted(PLAN, ENCRYPTED[3]),
  "createFromEncrypted, bytes": () => shamir.createFromEncryptedBytes("16of16", ENCRYPTED[3]),
  "createFromEncrypted, refused": () => shamir.createFromEncrypted(PLAN, ENCRYPTED[3], { random: counting(25) }),
  fingerprint: () => shamir.fingerprint(SECRET),
  "fingerprint, refused": () => shamir.fingerprint(counting(17)),
  repair: () => shamir.repair(ONE.replace("agency", "?")),
  "repair, refused": () => shamir.repair(ONE.replace("agency", "zero")),
  words: () => shamir.words("ac"),
  version: () => shamir.version(),
  "many lines": () => shamir.recover(`${`# ${"a note ".repeat(100)}\n`.repeat(10000)}${ONE}`),
};

test("the stack is the lowest part of the memory, and the constants are above it", () => {
  assert.ok(FRESH.subarray(0, STACK_BYTES).every((byte) => byte === 0));
  assert.ok(HEAP > STACK_BYTES && FRESH.subarray(STACK_BYTES, HEAP).some((byte) => byte !== 0));
  assert.ok(FRESH.subarray(HEAP).every((byte) => byte === 0));
});

for (const [name, call] of Object.entries(CALLS)) {
  test(name, () => {
    try {
      call();
      assert.ok(!name.includes("refused"));
    } catch (error) {
      assert.ok(error instanceof Refusal && name.includes("refused"), `${error}`);
    }
    assertClear();
  });
}

test("a call without clearing leaves something", () => {
  const fresh = new Instance(module);
  const memory = new Uint8Array(fresh.exports.memory.buffer);
  memory.set(SECRET, HEAP + 64);
  fresh.exports.shamir_fingerprint(BigInt(HEAP), BigInt(HEAP + 64), 16n, BigInt(HEAP + 128), 8n);
  assert.equal(new TextDecoder().decode(memory.subarray(HEAP + 128, HEAP + 136)), "df41d8fe");
  assert.ok(memory.subarray(0, STACK_BYTES).some((byte) => byte !== 0));
  assert.throws(() => assertClear(fresh));
});

test("the whole stack is cleared, and all of the output's room", () => {
  const { exports } = instances.at(-1);
  const { shamir_text } = exports;
  exports.shamir_text = (answer, refusal, text, length) => {
    const memory = new Uint8Array(exports.memory.buffer);
    memory.fill(255, 0, STACK_BYTES);
    shamir_text(answer, refusal, text, length);
    memory.fill(255, Number(text), Number(text + length));
  };
  shamir.text({ code: 11, details: [1, 0] });
  exports.shamir_text = shamir_text;
  assertClear();
});

test("between two outcomes of a drill, and after a drill that is left early", () => {
  for (const { secret } of shamir.drill(FIVE, { passphrase: "TREZOR" })) {
    assert.deepEqual(secret, SECRET);
    assertClear();
    break;
  }
  assertClear();
});

test("the greatest calls use no more of the stack than the header names", () => {
  const { fill } = Uint8Array.prototype;
  let least = STACK_BYTES;
  Uint8Array.prototype.fill = function (...given) {
    if (given[2] === STACK_BYTES) least = Math.min(least, this.findIndex((byte) => byte !== 0));
    return fill.apply(this, given);
  };
  try {
    const [all, most, lost] = [`16/${GROUPS}`, `16/15of16,${GROUPS.slice(7)}`, `15/${GROUPS}`].map((plan) => shamir.create(plan, counting(128)));
    assert.deepEqual(shamir.recover(all), counting(128));
    assert.equal([...shamir.drill(most)].length, 16);
    assert.deepEqual(shamir.reissue(`15/${GROUPS}`, "0.0", lost.slice(1)), lost.slice(0, 1));
    assert.equal(shamir.status(all).complete, 16);
    assert.equal(shamir.judge(all, all[255]).again, true);
  } finally {
    Uint8Array.prototype.fill = fill;
  }
  const [, limit] = /^#define SHAMIR_STACK_BYTES (\d+)$/m.exec(file("include/shamir.h").toString());
  assert.ok(least > STACK_BYTES - Number(limit) && least < STACK_BYTES);
  assert.ok(Number(limit) <= STACK_BYTES);
});

/** The arrays of bytes that a function clears with `fill`. */
function cleared(run) {
  const found = [];
  const { fill } = Uint8Array.prototype;
  Uint8Array.prototype.fill = function (...given) {
    if (given[0] === 0 && given.length === 1) found.push([this, this.slice()]);
    return fill.apply(this, given);
  };
  try {
    run();
  } finally {
    Uint8Array.prototype.fill = fill;
  }
  assert.ok(found.every(([bytes]) => bytes.every((byte) => byte === 0)));
  return found.map(([, before]) => Buffer.from(before).toString("latin1"));
}

test("copies of arguments and of the output are cleared", () => {
  const passphrase = bytesOf("TREZOR");
  const recovered = cleared(() => shamir.recover(FIVE, { passphrase }));
  for (const text of [FIVE[0], "TREZOR", FIVE.join("\n") + "\n"]) assert.ok(recovered.includes(text));
  const created = cleared(() => shamir.create(PLAN, SECRET, { ...AS_BEFORE, passphrase, random: counting(26) }));
  for (const bytes of [SECRET, counting(26)]) assert.ok(created.includes(Buffer.from(bytes).toString("latin1")));
  for (const text of ["TREZOR", FIVE.join("\n") + "\n", ...FIVE]) assert.ok(created.includes(text));
  const decrypted = cleared(() => shamir.decrypt(ENCRYPTED[0], { passphrase }));
  for (const bytes of [passphrase, ENCRYPTED[0].value]) assert.ok(decrypted.includes(Buffer.from(bytes).toString("latin1")));
  assert.ok(cleared(() => shamir.encrypted(FIVE)).includes(FIVE.join("\n") + "\n"));
  assert.ok(cleared(() => shamir.fingerprint(SECRET)).includes("df41d8fe"));
  assert.ok(cleared(() => shamir.status(FIVE)).some((text) => text.includes("group 0 members 3 of 2 0.0+0.1+0.2\n")));
  const judged = cleared(() => shamir.judge(FIVE.slice(1), FIVE[0]));
  for (const text of [FIVE[0], FIVE.slice(1).join("\n") + "\n"]) assert.ok(judged.includes(text));
  assert.ok(judged.some((text) => text.includes("group 0 members 3 of 2 0.0+0.1+0.2\n")));
  const split = cleared(() => shamir.resplit("1of1", EXTENDABLE, { random: Uint8Array.of(0x12, 0x34) }));
  for (const text of ["\x12\x34", EXTENDABLE[0]]) assert.ok(split.includes(text));
  const renewed = cleared(() => shamir.createFromEncrypted("1of1", ENCRYPTED[3], { random: Uint8Array.of(0x12, 0x34) }));
  for (const text of ["\x12\x34", Buffer.from(ENCRYPTED[3].value).toString("latin1")]) assert.ok(renewed.includes(text));
  const refusals = cleared(() => assert.throws(() => shamir.recover(FIVE, { passphrase: "TREZOR\x07" }), Refusal));
  for (const text of ["TREZOR\x07", FIVE[0]]) assert.ok(refusals.includes(text));
  const wrong = cleared(() => assert.throws(() => shamir.create(PLAN, SECRET, { passphrase, random: 7 }), TypeError));
  for (const text of ["TREZOR", Buffer.from(SECRET).toString("latin1")]) assert.ok(wrong.includes(text));
});

test("copies of a drill are cleared when it ends, and when it is left", () => {
  const begun = [(drill) => [...drill], (drill) => (drill.next(), drill.return())];
  const left = [(drill) => drill.return(), (drill) => assert.throws(() => drill.throw(new Error("left")), /^Error: left$/)];
  const output = `${FIVE_QUORUMS.map((names) => `${names} ${hex(SECRET)}\n`).join("")}end\n`;
  for (const way of [...begun, ...left]) {
    const found = cleared(() => way(shamir.drill(FIVE, { passphrase: "TREZOR" })));
    for (const text of ["TREZOR", FIVE[0], FIVE.join("\n") + "\n"]) assert.ok(found.includes(text));
    assert.equal(found.includes(output), begun.includes(way));
  }
  const refusals = cleared(() => refused(62, null, [0, 0], () => shamir.drill(FIVE, { passphrase: "TREZOR", after: "0.1" }).next()));
  assert.ok(refusals.includes("TREZOR"));
  const wrong = cleared(() => assert.throws(() => shamir.drill(FIVE, { passphrase: "TREZOR", after: 7 }), TypeError));
  assert.ok(wrong.includes("TREZOR"));
});

test("copies and texts of rounds are cleared when they end, and when they are left", () => {
  for (const [count, way] of [[4, (rounds) => [...rounds]], [2, (rounds) => (rounds.next(), rounds.next(), rounds.return())], [0, (rounds) => rounds.return()]]) {
    const found = cleared(() => way(shamir.decryptRounds(ENCRYPTED[2], { passphrase: "TREZOR" })));
    for (const bytes of [bytesOf("TREZOR"), ENCRYPTED[2].value, ...UNDONE[0].slice(0, count)]) {
      assert.ok(found.includes(Buffer.from(bytes).toString("latin1")));
    }
  }
});

// A module with one function, which traps.
const TRAP = [0, 97, 115, 109, 1, 0, 0, 0, 1, 4, 1, 96, 0, 0, 3, 2, 1, 0, 7, 8, 1, 4, 116, 114, 97, 112, 0, 0, 10, 5, 1, 3, 0, 0, 11];
const { trap } = new Instance(new WebAssembly.Module(Uint8Array.from(TRAP))).exports;

test("after a trap the whole memory is cleared, and the next call has a new instance", () => {
  const before = instances.at(-1);
  const { shamir_recover } = before.exports;
  before.exports.shamir_recover = (...words) => {
    shamir_recover(...words);
    assert.throws(() => assertClear(before));
    trap();
  };
  assert.throws(() => shamir.recover(TWO, { passphrase: "TREZOR" }), WebAssembly.RuntimeError);
  assert.ok(memoryOf(before).every((byte) => byte === 0));
  assert.deepEqual(shamir.recover(FIVE, { passphrase: "TREZOR" }), SECRET);
  assert.notEqual(instances.at(-1), before);
  assert.ok(memoryOf(before).every((byte) => byte === 0));
  assertClear();
});

test("after a call that needed much memory, the next call has a new instance, and the large memory is clear", () => {
  const before = instances.at(-1);
  const lines = `${`# ${"a note ".repeat(100)}\n`.repeat(10000)}${TWO.join("\n")}`;
  assert.deepEqual(shamir.recover(lines, { passphrase: "TREZOR" }), shamir.recover(TWO, { passphrase: "TREZOR" }));
  assert.ok(before.exports.memory.buffer.byteLength > lines.length);
  assertClear(before);
  assert.notEqual(instances.at(-1), before);
  assert.ok(instances.at(-1).exports.memory.buffer.byteLength < 2 ** 21);
});

test("lines that don't fit into the greatest memory are a RangeError, and the engine goes on", () => {
  const { memory } = instances.at(-1).exports;
  const lines = new Uint8Array(memory.buffer.byteLength).fill(35);
  Object.defineProperty(memory, "grow", { value: () => memory.constructor.prototype.grow.call(memory, 2 ** 31), configurable: true });
  assert.throws(() => shamir.status(lines), RangeError);
  delete memory.grow;
  refused(71, 1, [0, 0], () => shamir.status(lines));
  assertClear();
});
