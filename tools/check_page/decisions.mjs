// tools/check_page/decisions.py runs this with Node: the table of decisions, beside what the modules of the page decide.
//
//     node decisions.mjs FOLDER MODULE.wasm TABLE SETS
//
// FOLDER has page/ and bindings/js/. SETS has sets of papers: quorum by quorum, each gives what a drill of the engine gives. Each line of the output is a case that differs, and the last line is the number of cases.
import { readFileSync } from "node:fs";
import { pathToFileURL } from "node:url";

const [folder, module, file, sets] = process.argv.slice(2);
const from = (path) => import(new URL(path, pathToFileURL(`${folder}/`)));
const { load, Refusal } = await from("bindings/js/shamir.js");
const { bytesOf, typedDigits } = await from("page/bytes.js");
const { Declined } = await from("page/client.js");
const { saidDigits, saidDoubts } = await from("page/digits.js");
const { derivationSeconds, LONG_EXPONENT } = await from("page/estimate.js");
const { judge } = await from("page/judge.js");
const { beside } = await from("page/kind.js");
const { isBegun, resembles } = await from("page/left_out.js");
const { candidates, mayDetermine, planWith, readName, taskOf, untried } = await from("page/missing.js");
const { saidWhole } = await from("page/picture.js");
const { planText, saidDangers, saidOthers, saidSingles, saidTakes } = await from("page/plan.js");
const { worstLoss, worstTheft } = await from("page/plan_picture.js");
const { quorumWith, suspects, TRIED_FIRST, TRIED_WHOLE } = await from("page/quorums.js");
const { saidForeign, saidRefusal } = await from("page/refusals.js");
const { resultOf } = await from("page/result.js");
const { say, saidTime } = await from("page/say.js");
const { isOpen, marksOf, nearest, seemsBip39 } = await from("page/spelling.js");
const { oneByOne } = await from("page/trial.js");
const { saidCount, verdictOf } = await from("page/verdict.js");

const engine = await load(readFileSync(module));
const list = engine.words("");

const one = ([key, values]) => say(key, values);
const joined = (said) => said.map(one).join(" ");
const orNull = (said) => said && one(said);
const named = (names) => names.map((it) => ({ names: it.split("+"), fingerprint: null, expected: null, mismatch: null }));

/** Returns an outcome of a drill as the worker tells it. */
function outcome([names, gave]) {
  const of = (type) => (typeof gave === type ? gave : null);
  return { names: names.split("+"), fingerprint: of("string"), expected: of("boolean"), mismatch: of("number") };
}

/** Returns the plan of a text. */
function planOf(text) {
  const [head, rest] = text.includes("/") ? text.split("/") : ["1", text];
  const groups = rest.split(",").map((it) => it.split("of").map(Number));
  return { needed: Number(head), groups: groups.map(([needed, members]) => ({ needed, members })) };
}

/** Returns what the page says against digits, or null. */
function digitsFault(typed) {
  const digits = typedDigits(typed);
  try {
    return saidDigits(judge(engine, { plan: "1of1", digits: bytesOf(digits), noted: "" }), digits.length, "") || null;
  } catch (error) {
    if (error instanceof Refusal) return saidRefusal(error);
    throw error;
  }
}

/** For each decision, pairs of what the page decides and of what is right. */
const DECISIONS = {
  counts: ({ total, whole, first, said }) => [[BigInt(total) <= TRIED_WHOLE, whole], [TRIED_FIRST, first], [saidCount(BigInt(total)), one(said)]],
  quorum_with: ({ status, name, names }) => [[quorumWith(status, name), names]],
  suspects: ({ right, wrong, names }) => [[suspects(named(right), named(wrong)), names]],
  verdicts: ({ tried, total, noted, own, new: isNew, stopped, passphrase, ...right }) => {
    const asked = { noted, isOwn: own, isNew, hasPassphrase: passphrase, isStopped: stopped };
    const found = verdictOf(tried.map(outcome), BigInt(total), asked);
    const same = ["result", "right", "names", "fingerprint"].map((key) => [found[key], right[key]]);
    return [...same, [found.part !== "", right.part], [found.sentences, right.said.map(one)]];
  },
  results: ({ result, noted, passphrase, here, tried, right, repaired, written, lone = [], left, title, next, said }) => {
    const found = resultOf({ result, names: tried, right, hasPassphrase: passphrase }, noted, { here, repaired, written, lone, isLeft: left });
    const told = [...found.first, ...found.tried, ...found.anew].map(({ key, names }) => say(key, { names: names.join(", ") }));
    return [[found.title, title], [found.next, next], [told.sort(), said.map(one).sort()]];
  },
  plans: ({ plan: text, lost, stolen, loss, theft, dangers, singles, takes }) => {
    const plan = planOf(text);
    const [worst, stealing] = [worstLoss(plan), worstTheft(plan)];
    const counts = [[worst.length - 1, lost], [stealing.length - 1, stolen]];
    const sets = [[worst.sort(), [...loss].sort()], [stealing.sort(), [...theft].sort()]];
    const said = [[saidDangers(plan), joined(dangers)], [saidSingles(plan), joined(singles)]];
    return [[planText(plan), text], ...counts, ...sets, ...said, ...Object.entries(takes).map(([name, it]) => [saidTakes(plan, name), joined(it)])];
  },
  missing: ({ status, groups: groupCount, needed: groupThreshold, offered, untried: left, typed, plans }) => {
    const named = typed.map(([text, fault]) => [readName(text, status, groupCount).fault, orNull(fault)]);
    const planned = plans.map(([name, needed, text]) => [planText(planWith(status, { groupCount, groupThreshold }, Number(name.split(".")[0]), needed)), text]);
    const told = untried(status, groupCount).map(({ key, names }) => say(key, { names: names.join(", ") }));
    return [[told, left.map(one)], [candidates(status, groupCount).map(({ name, why }) => [name, why]), offered], ...named, ...planned];
  },
  may_determine: ({ status, may }) => [[mayDetermine(status), may]],
  tasks_of_66: ({ plan, task }) => [[taskOf(planOf(plan)), task]],
  refusals: ({ code, details, task, said }) => [[saidRefusal({ code, details, text: "" }, task), one(said)]],
  foreign: ({ code, details, repaired, said }) => [[saidForeign(new Declined({ code, details, text: "" }), repaired), one(said)]],
  whole: ({ status, groups, task, said }) => [[saidWhole(status, groups, task), one(said)]],
  same: ({ one: line, other, same }) => [[beside(engine, bytesOf(other), bytesOf(line)) === "same", same]],
  near: ({ typed, first }) => [[nearest(list, typed)[0], first]],
  bip39: ({ words, likely }) => [[seemsBip39(list, words), likely]],
  marks: ({ text, marks, open }) => [[marksOf(text), marks], [marksOf(text).filter((mark) => isOpen(list, mark)).length, open]],
  begun: ({ words, begun }) => [[isBegun(bytesOf(words.join(" "))), begun]],
  alike: ({ one: row, other, alike }) => [[resembles(bytesOf(row.join(" ")), bytesOf(other.join(" "))), alike]],
  digits: ({ typed, fault }) => [[digitsFault(typed), orNull(fault)]],
  doubts: ({ digits, words, said }) => [[saidDoubts(judge(engine, { plan: "1of1", digits: bytesOf(digits), noted: "" }), words), joined(said)]],
  seconds: ({ measured, exponent, bytes, seconds, long }) => [[derivationSeconds(measured, exponent, bytes), seconds], [exponent >= LONG_EXPONENT, long]],
  times: ({ seconds, said }) => [[saidTime(seconds), one(said)]],
  others: ({ said, ...kind }) => [[saidOthers(kind), one(said)]],
};

let count = 0;
for (const [key, cases] of Object.entries(JSON.parse(readFileSync(file, "utf8")))) {
  for (const it of cases) {
    count += 1;
    for (const [found, right] of DECISIONS[key](it)) {
      const [told, wanted] = [found, right].map((value) => JSON.stringify(value));
      if (told !== wanted) console.log(`${key}: ${JSON.stringify(it)}: the page decides ${told}, and right is ${wanted}`);
    }
  }
}
for (const lines of JSON.parse(readFileSync(sets, "utf8"))) {
  const [papers, passphrase] = [lines.map((line) => bytesOf(line)), bytesOf("TREZOR")];
  for (const expect of ["", "df41d8fe"]) {
    let rounds = 0;
    const found = [...oneByOne(engine, papers, { passphrase, expect, tell: () => (rounds += 1) })];
    const listed = [...engine.drill(papers, { passphrase, ...(expect ? { expect } : { fingerprints: true }) })];
    const right = listed.map(({ names, fingerprint, expected, mismatch }) => ({ names: names.split("+"), fingerprint, expected, mismatch }));
    const secrets = new Set(listed.map((it) => it.fingerprint).filter(Boolean)).size;
    const [told, wanted] = [found, right].map((value) => JSON.stringify(value));
    if (told !== wanted) console.log(`quorum by quorum, the page finds ${told}, and the engine ${wanted}`);
    if (expect === "" && rounds !== 3 * secrets) console.log(`of ${secrets} secrets, the page undoes ${rounds} rounds, and not 3 and the last of each`);
  }
}
console.log(String(count));
