/** What the package adds to the engine: its loader, refusals that were cloned, and the engine in a worker. */
import assert from "node:assert/strict";
import { copyFile, mkdtemp, rm } from "node:fs/promises";
import { tmpdir } from "node:os";
import { join } from "node:path";
import test from "node:test";
import { pathToFileURL } from "node:url";
import { Code, drillWithProgress, open, Papers, Refusal, refusalOf } from "../index.js";
import { InWorker } from "../worker.js";
import { AS_BEFORE, CONFLICTING, ENCRYPTED, EXTENDABLE, FIVE, FIVE_QUORUMS, ONE, PLAN, SECRET, SPLIT_ANEW, TWO, TWO_SECRET } from "./given.js";
import { UNDONE, bytesOf, counting, refused } from "./given.js";

const MODULE = new URL(`../../../${process.env.SHAMIR_MODULE ?? "shamir32.wasm"}`, import.meta.url);
const KEY = { passphrase: "TREZOR" };
const FIELDS = { code: Code.OTHER_IDENTIFIER, line: 2, details: [0, 0], text: "other identifier" };

test("open", async () => {
  const shamir = await open(MODULE);
  assert.deepEqual(shamir.recover(TWO, KEY), TWO_SECRET);
  await assert.rejects(open(new URL("./missing.wasm", import.meta.url)), { code: "ENOENT" });
});

test("a refusal that was cloned has its fields in its cause, and is made again", async () => {
  const shamir = await open(MODULE);
  const refusal = refused(21, 2, [0, 0], () => shamir.recover([ONE, TWO[0]]));
  const clone = structuredClone(refusal);
  assert.deepEqual(clone.cause, FIELDS);
  const again = refusalOf(clone);
  assert.ok(again instanceof Refusal);
  assert.deepEqual([again.code, again.line, again.details, again.text, again.message], [21, 2, [0, 0], "other identifier", refusal.message]);
  assert.equal(refusalOf(refusal), refusal);
  for (const other of [new Error("other"), new Error("other", { cause: 7 }), "other", null, undefined]) assert.equal(refusalOf(other), other);
});

test("papers are kept by their backup", async () => {
  const shamir = await open(MODULE);
  const papers = new Papers(shamir);
  const given = [ONE, TWO[0], FIVE[3], FIVE[3], TWO[1], FIVE[0], bytesOf(FIVE[1])];
  assert.deepEqual(given.map((paper) => papers.add(paper).again), [false, false, false, true, false, false, false]);
  assert.deepEqual(papers.ids, [7945, 25653, 1]);
  const lines = [[ONE], TWO, [FIVE[3], FIVE[0], FIVE[1]]];
  assert.deepEqual(papers.ids.map((id) => papers.lines(id)), lines.map((of) => of.map(bytesOf)));
  assert.deepEqual(papers.lines(2), []);
  // The lines of a backup are ready for other calls.
  assert.deepEqual(shamir.recover(papers.lines(1), { ...KEY, expect: "df41d8fe" }), SECRET);
  assert.deepEqual([...shamir.drill(papers.lines(1), { ...KEY, expect: "df41d8fe" })].map(({ expected }) => expected), [true]);
  assert.deepEqual(papers.add(FIVE[4]).status, shamir.status(papers.lines(1)));
  const [first] = papers.lines(1);
  papers.clear();
  assert.deepEqual([papers.ids, first], [[], new Uint8Array(FIVE[3].length)]);
});

test("a refused paper isn't kept, and others are kept in the spelling of the engine", async () => {
  const papers = new Papers(await open(MODULE));
  papers.add(` ${FIVE[0].toUpperCase().replaceAll(" ", "\t  ")}${" ".repeat(700)}`);
  for (const [code, details, paper] of [[28, [0, 0], CONFLICTING], [11, [2, 0], "academic x"], [12, [0, 0], ""], [71, [0, 0], FIVE[1].padEnd(1025)]]) {
    refused(code, null, details, () => papers.add(paper));
  }
  assert.throws(() => papers.add(7), TypeError);
  papers.add(FIVE[1]);
  assert.deepEqual(papers.lines(1), FIVE.slice(0, 2).map(bytesOf));
});

test("papers are enough for the backup of the last one", async () => {
  const papers = new Papers(await open(MODULE));
  assert.equal(papers.enough, false);
  refused(29, null, [0, 0], () => papers.recover());
  for (const [paper, told, isEnough] of [
    [FIVE[3], "groups 1 of 2\ngroup 1 members 1 of 1 1.0", false],
    [ONE, "groups 1 of 1\ngroup 0 members 1 of 1 0.0", true],
    ["academic x", "11 unknown word 2", true],
    [bytesOf(TWO[0]), "groups 0 of 1\ngroup 0 members 1 of 2 0.2", false],
    [FIVE[4], "groups 2 of 2\ngroup 1 members 1 of 1 1.0\ngroup 2 members 1 of 1 2.0", true],
    [ONE, "again\ngroups 1 of 1\ngroup 0 members 1 of 1 0.0", true],
  ]) {
    assert.deepEqual([papers.addAndTell(paper), papers.enough], [told, isEnough]);
    if (isEnough) assert.deepEqual(papers.recover({ ...KEY, expect: "df41d8fe" }), recovered());
    else assert.throws(() => papers.recover(KEY), { code: 30 });
  }
  assert.throws(() => papers.recover({ expect: "df41d8fe" }), { code: 52 });
  assert.throws(() => papers.addAndTell(7), TypeError);
  papers.clear();
  assert.equal(papers.enough, false);
  refused(29, null, [0, 0], () => papers.recover());
});

test("papers are collected until there are enough", async () => {
  const shamir = await open(MODULE);
  async function* coming() {
    yield* [TWO[0], FIVE[3], FIVE[3].toUpperCase(), "academic x", FIVE[4], ONE];
  }
  const first = "groups 1 of 2\ngroup 1 members 1 of 1 1.0";
  const wanted = ["groups 0 of 1\ngroup 0 members 1 of 2 0.2", first, `again\n${first}`, "11 unknown word 2", `${first.replace("1", "2")}\ngroup 2 members 1 of 1 2.0`];
  for (const lines of [coming(), [TWO[0], FIVE[3], bytesOf(FIVE[3].toUpperCase()), "academic x", FIVE[4], ONE]]) {
    const [papers, found] = [new Papers(shamir), []];
    for await (const told of papers.collect(lines)) found.push(told);
    assert.deepEqual([found, papers.ids, papers.enough], [wanted, [25653, 1], true]);
    assert.deepEqual(papers.recover({ ...KEY, expect: "df41d8fe" }), recovered());
  }
  const papers = new Papers(shamir);
  for await (const told of papers.collect([FIVE[3]])) assert.equal(told, first);
  assert.equal(papers.enough, false);
});

/** What papers recover from the backup of ONE and FIVE. */
function recovered(failed = [], doubtful = []) {
  return { secret: SECRET, failed, doubtful };
}

/** Tries papers of which one is wrong, here or in a worker. */
async function checkWrongPapers(papers) {
  const noted = { ...KEY, expect: "df41d8fe" };
  for (const paper of [ONE, CONFLICTING, FIVE[1], FIVE[3]]) await papers.add(paper);
  await assert.rejects(async () => papers.recover(noted), { code: 51, details: [0, 0] });
  await papers.add(`${FIVE[4]}\n`);
  const two = ["0.0+0.1+1.0", "0.0+0.1+2.0"];
  assert.deepEqual(await papers.recover(noted), recovered(two, ["0.0", "0.1"]));
  await assert.rejects(async () => papers.recover({ ...KEY, expect: "00000000" }), { code: 52 });
  await papers.add(FIVE[2]);
  assert.deepEqual(await papers.recover(KEY), recovered([...two, "0.0+0.2+1.0", "0.0+0.2+2.0"], ["0.0"]));
  assert.deepEqual([await papers.remove(1, "0.3"), await papers.remove(2, "0.0"), papers.enough], [false, false, true]);
  await assert.rejects(async () => papers.remove("1", "0.0"), /^TypeError: the identifier isn't a number$/);
  await assert.rejects(async () => papers.remove(1, 0), /^TypeError: the name isn't a string$/);
  await assert.rejects(async () => papers.add(FIVE[0]), { code: 28 });
  const [forged] = papers.lines(1);
  assert.deepEqual([await papers.remove(1, "0.0"), papers.enough, forged], [true, true, new Uint8Array(forged.length)]);
  assert.deepEqual([(await papers.add(FIVE[0])).again, await papers.recover(noted)], [false, recovered()]);
  assert.deepEqual(papers.lines(1), [1, 3, 4, 2, 0].map((it) => bytesOf(FIVE[it])));
  assert.deepEqual([await papers.remove(7945, "0.0"), papers.ids, papers.enough], [true, [1], true]);
  for (const [name, isEnough] of [["1.0", true], ["0.1", true], ["0.0", false], ["0.2", false], ["2.0", false]]) {
    assert.deepEqual([await papers.remove(1, name), papers.enough], [true, isEnough]);
  }
  assert.deepEqual(papers.ids, []);
  await assert.rejects(async () => papers.recover(KEY), { code: 29 });
}

test("a wrong paper doesn't hide what the others give, and can be taken out", async () => {
  const shamir = await open(MODULE);
  await checkWrongPapers(new Papers(shamir));
  // The doubtful papers come in the order of their numbers.
  const drawn = (it) => Uint8Array.from({ length: shamir.randomNeeded("2of16", 16) }, (_, i) => (i < 2 ? 0 : it));
  const made = [0, 1, 2, 3].map((it) => shamir.create("2of16", SECRET, { exponent: 0, random: drawn(it) }));
  const papers = new Papers(shamir);
  for (let i = 0; i < 16; i++) papers.add(made[{ 0: 1, 2: 2, 10: 3 }[i] ?? 0][i]);
  const { secret, failed, doubtful } = papers.recover();
  assert.deepEqual([secret, failed.length, doubtful], [SECRET, 42, ["0.0", "0.2", "0.10"]]);
});

test("papers in a worker", async (t) => {
  const shamir = new InWorker(MODULE);
  t.after(() => shamir.end());
  await checkWrongPapers(shamir.papers());
  const papers = shamir.papers();
  const told = [];
  for await (const it of papers.collect([TWO[0], FIVE[3], "academic x", FIVE[3], FIVE[4], ONE])) told.push(it);
  const first = "groups 1 of 2\ngroup 1 members 1 of 1 1.0";
  const last = `${first.replace("1", "2")}\ngroup 2 members 1 of 1 2.0`;
  assert.deepEqual(told, ["groups 0 of 1\ngroup 0 members 1 of 2 0.2", first, "11 unknown word 2", `again\n${first}`, last]);
  assert.deepEqual([papers.ids, papers.enough], [[25653, 1], true]);
  await assert.rejects(papers.add(7), TypeError);
  await assert.rejects(papers.recover(KEY, AbortSignal.abort()), { name: "AbortError" });
  // The papers stay if the worker ends, and what is asked for together is done one after the other, with the arguments of its call.
  shamir.end();
  const given = [bytesOf(FIVE[0]), bytesOf(FIVE[0])];
  const both = given.map((line) => papers.add(line));
  for (const it of given) it.fill(0);
  assert.deepEqual((await Promise.all(both)).map(({ again }) => again), [false, true]);
  const passphrase = bytesOf(KEY.passphrase);
  const later = papers.recover({ passphrase });
  passphrase.fill(65);
  assert.deepEqual(await later, recovered());
  const lines = papers.lines(1);
  await papers.clear();
  assert.deepEqual([papers.ids, papers.enough, lines.every((line) => line.every((byte) => byte === 0))], [[], false, true]);
});

test("a drill with its progress, here and in a worker", async (t) => {
  const worker = new InWorker(MODULE);
  t.after(() => worker.end());
  const found = [];
  for await (const it of drillWithProgress(worker, FIVE, { ...KEY, expect: "df41d8fe" })) found.push([it.names, it.number, it.quorums, it.expected]);
  assert.deepEqual(found, FIVE_QUORUMS.map((names, i) => [names, i + 1, 7n, true]));
  for (const engine of [worker, await open(MODULE)]) {
    const stopped = new AbortController();
    const drill = drillWithProgress(engine, FIVE, KEY, stopped.signal);
    assert.equal((await drill.next()).value.number, 1);
    stopped.abort();
    await assert.rejects(drill.next(), { name: "AbortError" });
  }
});

test("a drill with its progress", async () => {
  const shamir = await open(MODULE);
  const wanted = FIVE_QUORUMS.map((names, i) => ({ names, secret: null, fingerprint: null, expected: true, mismatch: null, number: i + 1, quorums: 7n }));
  const found = async (lines, options) => {
    const outcomes = [];
    for await (const outcome of drillWithProgress(shamir, lines, options)) outcomes.push(outcome);
    return outcomes;
  };
  const options = { ...KEY, expect: "df41d8fe" };
  for (const lines of [FIVE, new Set(FIVE).values(), FIVE.join("\n"), bytesOf(FIVE.join("\n"))]) assert.deepEqual(await found(lines, options), wanted);
  // The numbers are those of the outcomes that this drill gives.
  assert.deepEqual(await found(FIVE, { ...options, after: FIVE_QUORUMS[4] }), wanted.slice(5).map((it, i) => ({ ...it, number: i + 1 })));
  await assert.rejects(found(FIVE.slice(3, 4)), { code: 30 });
  await assert.rejects(found(7), TypeError);
  await assert.rejects(found(new String(FIVE[0])), TypeError);
  // An iterator may clear each line as soon as the next one is asked for.
  function* cleared() {
    for (const line of FIVE.map(bytesOf)) {
      yield line;
      line.fill(0);
    }
  }
  assert.deepEqual(await found(cleared(), options), wanted);
  // Another task stops it. Of 16 members, 12,870 sets have 8.
  let [isStopped, last] = [false, null];
  setTimeout(() => (isStopped = true), 1);
  for await (last of drillWithProgress(shamir, shamir.create("8of16", SECRET), { fingerprints: true })) if (isStopped) break;
  assert.ok(isStopped && last.number < 12870);
  assert.deepEqual([last.fingerprint, last.quorums], ["df41d8fe", 12870n]);
});

test("a signal during a long call stops a drill", async () => {
  const long = {
    *drill() {
      process.kill(process.pid, "SIGUSR2");
      for (const end = Date.now() + 30; Date.now() < end; );
      yield { names: "0.0" };
      yield { names: "0.1" };
    },
    quorums: () => 2n,
  };
  for (let i = 0; i < 10; i++) {
    const told = [];
    let isStopped = false;
    process.once("SIGUSR2", () => (isStopped = true));
    for await (const { names } of drillWithProgress(long, "")) {
      if (isStopped) break;
      told.push(names);
    }
    assert.deepEqual(told, ["0.0"]);
  }
});

test("each call in a worker", async (t) => {
  const shamir = new InWorker(MODULE);
  t.after(() => shamir.end());
  assert.deepEqual(await shamir.create(PLAN, SECRET, { ...AS_BEFORE, random: counting(26) }), FIVE);
  assert.deepEqual(await shamir.recover(new Set(FIVE), KEY), SECRET);
  const kept = await shamir.encrypted(new Set(FIVE));
  assert.deepEqual(kept, ENCRYPTED[2]);
  assert.deepEqual(await shamir.decrypt(kept, { ...KEY, expect: "df41d8fe" }), SECRET);
  assert.deepEqual(await shamir.decryptRound(kept, 3, KEY), UNDONE[0][0]);
  const rounds = [];
  for await (const undone of shamir.decryptRounds(kept, KEY)) rounds.push(undone);
  assert.deepEqual(rounds, [null, null, null, SECRET]);
  const names = [];
  for await (const outcome of shamir.drill(FIVE, { ...KEY, expect: "df41d8fe", after: FIVE_QUORUMS[0] })) {
    assert.equal(outcome.expected, true);
    names.push(outcome.names);
  }
  assert.deepEqual(names, FIVE_QUORUMS.slice(1));
  assert.equal((await shamir.status(FIVE)).enough, true);
  assert.equal((await shamir.judge(new Set(FIVE), FIVE[0])).again, true);
  assert.deepEqual(await shamir.reissue(PLAN, "0.1", [FIVE[0], ...FIVE.slice(2)]), [FIVE[1]]);
  assert.deepEqual(await shamir.resplit(PLAN, new Set(EXTENDABLE), { random: counting(26) }), SPLIT_ANEW);
  assert.deepEqual(await shamir.createFromEncrypted(PLAN, ENCRYPTED[3], { random: counting(26) }), SPLIT_ANEW);
  assert.deepEqual(await shamir.repair(FIVE[0].replace("leaf", "?")), [FIVE[0]]);
  assert.equal((await shamir.parse(TWO[0])).memberIndex, 2);
  assert.equal(await shamir.fingerprint(SECRET), "df41d8fe");
  assert.deepEqual(await shamir.words("aca"), ["academic"]);
});

test("a refusal in a worker", async (t) => {
  const shamir = new InWorker(MODULE);
  t.after(() => shamir.end());
  await assert.rejects(shamir.recover([ONE, TWO[0]]), (error) => error instanceof Refusal && error.code === 21 && error.line === 2);
  await assert.rejects(shamir.recover(FIVE, { passphrase: 6 }), TypeError);
  for (const options of [Object.create(KEY), "TREZOR", null]) {
    await assert.rejects(shamir.recover(FIVE, options), TypeError);
    await assert.rejects(shamir.drill(FIVE, options).next(), TypeError);
  }
  await assert.rejects(shamir.decrypt(Object.create(ENCRYPTED[0]), KEY), TypeError);
  await assert.rejects(shamir.decryptRounds(Object.create(ENCRYPTED[0]), KEY).next(), TypeError);
});

test("a signal stops a call in a worker, and the next call runs", async (t) => {
  const shamir = new InWorker(MODULE);
  t.after(() => shamir.end());
  // This takes minutes.
  const slow = shamir.create(PLAN, SECRET, { ...KEY, exponent: 15, random: counting(26) }, AbortSignal.timeout(300));
  const next = shamir.words("aca");
  await assert.rejects(slow, { name: "TimeoutError" });
  assert.deepEqual(await next, ["academic"]);
  const stopped = new AbortController();
  stopped.abort(new Error("stopped"));
  await assert.rejects(shamir.words("aca", stopped.signal), { message: "stopped" });
});

test("a late answer of a worker is of no call", async (t) => {
  const shamir = new InWorker(MODULE);
  t.after(() => shamir.end());
  let late = 0;
  for (let round = 0; round < 50 && late < 5; round++) {
    assert.deepEqual(await shamir.words("aca"), ["academic"]);
    const stopped = new AbortController();
    const first = shamir.recover(FIVE, KEY, stopped.signal).then(() => "", ({ message }) => message);
    await new Promise((sent) => setTimeout(sent));
    // Meanwhile the worker answers. On a busy machine, its answer may come before.
    for (const end = Date.now() + 200; Date.now() < end; );
    stopped.abort(new Error("stopped"));
    if ((await first) === "stopped") late++;
  }
  assert.equal(late, 5);
});

test("a call in a worker copies its arguments at once", async (t) => {
  const shamir = new InWorker(MODULE);
  t.after(() => shamir.end());
  const [secret, random, lines] = [SECRET.slice(), counting(26), FIVE.map((line) => new TextEncoder().encode(line))];
  const calls = [shamir.create(PLAN, secret, { ...AS_BEFORE, random }), shamir.recover(lines, KEY), shamir.drill(lines, KEY).next()];
  for (const it of [secret, random, ...lines]) it.fill(0);
  const [made, recovered, drilled] = await Promise.all(calls);
  assert.deepEqual([made, recovered, drilled.value.secret], [FIVE, SECRET, SECRET]);
});

test("what comes in parts has the arguments of its first part, and ends with its worker", async (t) => {
  const shamir = new InWorker(MODULE);
  t.after(() => shamir.end());
  const passphrase = new TextEncoder().encode("TREZOR");
  const rounds = shamir.decryptRounds(ENCRYPTED[2], { passphrase });
  await rounds.next();
  passphrase.fill(0);
  assert.deepEqual([(await rounds.next()).value, (await rounds.next()).value, (await rounds.next()).value], [null, null, SECRET]);
  const stopped = new AbortController();
  const parts = [shamir.decryptRounds(ENCRYPTED[2], KEY), shamir.drill(FIVE, KEY), shamir.drill(FIVE, KEY, stopped.signal)];
  for (const it of parts) await it.next();
  stopped.abort();
  await assert.rejects(parts[2].next(), { name: "AbortError" });
  shamir.end();
  for (const it of parts.slice(0, 2)) await assert.rejects(it.next(), { name: "AbortError" });
  assert.deepEqual(await shamir.words("aca"), ["academic"]);
});

test("a drill that can't begin ends no other", async (t) => {
  const shamir = new InWorker(MODULE);
  t.after(() => shamir.end());
  const lines = await shamir.create("2/5of10,5of10", SECRET);
  const drill = shamir.drill(lines, { fingerprints: true });
  await drill.next();
  // No part has all 63,504 quorums, so the worker is asked for more after these calls.
  for (const [given, options] of [[lines, { limit: 1 }], [lines, { passphrase: "\ud83d" }], [[lines.join("\n")], {}]]) {
    await assert.rejects(shamir.drill(given, options).next());
  }
  let tried = 1;
  for await (const { fingerprint } of drill) tried += fingerprint === "df41d8fe" ? 1 : 0;
  assert.equal(tried, 63504);
});

test("a signal stops its own call alone, also while it waits", async (t) => {
  const shamir = new InWorker(MODULE);
  t.after(() => shamir.end());
  const stopped = new AbortController();
  await assert.rejects(shamir.recover(FIVE, { passphrase: () => 1 }, stopped.signal), { name: "DataCloneError" });
  const next = shamir.create(PLAN, SECRET, { ...AS_BEFORE, random: counting(26) });
  stopped.abort();
  assert.deepEqual(await next, FIVE);
  const slow = assert.rejects(shamir.create(PLAN, SECRET, { ...KEY, exponent: 15, random: counting(26) }), { name: "AbortError" });
  await assert.rejects(shamir.words("aca", AbortSignal.timeout(20)), { name: "TimeoutError" });
  shamir.end();
  await slow;
});

test("a worker tries to open its module again", async (t) => {
  const folder = await mkdtemp(join(tmpdir(), "shamir-"));
  const late = pathToFileURL(join(folder, "late.wasm"));
  const shamir = new InWorker(late);
  t.after(() => shamir.end());
  await assert.rejects(shamir.words("aca"), /ENOENT/);
  await copyFile(MODULE, late);
  assert.deepEqual(await shamir.words("aca"), ["academic"]);
  await rm(folder, { recursive: true });
});

test("an option that can't be listed is refused", async (t) => {
  const hidden = Object.defineProperty({}, "passphrase", { value: "TREZOR" });
  const engine = await open(MODULE);
  assert.throws(() => engine.recover(FIVE, hidden), TypeError);
  const shamir = new InWorker(MODULE);
  t.after(() => shamir.end());
  await assert.rejects(shamir.recover(FIVE, hidden), TypeError);
});

test("the end of a worker ends the calls before it, and the next call runs", async (t) => {
  const shamir = new InWorker(MODULE);
  t.after(() => shamir.end());
  // The worker ends before it starts, while it starts, and while it computes.
  for (const pause of [null, 0, 300]) {
    const slow = assert.rejects(shamir.create(PLAN, SECRET, { ...KEY, exponent: 15, random: counting(26) }), { name: "AbortError" });
    const waiting = assert.rejects(shamir.words("aca"), { name: "AbortError" });
    if (pause === null) shamir.end();
    else setTimeout(() => shamir.end(), pause);
    await slow;
    await waiting;
    assert.deepEqual(await shamir.words("aca"), ["academic"]);
  }
});
