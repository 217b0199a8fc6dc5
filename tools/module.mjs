// tools/javascript runs this with Node. It makes calls of bindings/js, and writes what the command shamir would print.
//
//     node tools/module.mjs MODULE.wasm
//
// tools/generated_cases.py says what the lines of the input and of the output are.
import { readFileSync } from "node:fs";
import { createInterface } from "node:readline";
import { load, OF_GROUPS, Refusal } from "../bindings/js/shamir.js";

const shamir = await load(readFileSync(process.argv[2]));
const hex = (bytes) => Buffer.from(bytes).toString("hex");
const valueOf = (word) => (word === "-" ? undefined : new Uint8Array(Buffer.from(word.slice(1), "hex")));
const text = (value) => value && Buffer.from(value).toString();
// An empty passphrase is left out.
const passphraseOf = (value) => text(value) || undefined;
const isSet = (value) => value.length > 0;
const number = (value) => Number(text(value));
const encryptedOf = (id, flag, exponent, value) => ({ id: number(id), extendable: isSet(flag), exponent: number(exponent), value });
const ended = (lines) => lines.map((line) => `${line}\n`).join("");
const fieldsText = (share) =>
  `identifier ${share.id} extendable ${Number(share.extendable)} exponent ${share.exponent} group ${share.groupIndex} ` +
  `group-threshold ${share.groupThreshold} group-count ${share.groupCount} member ${share.memberIndex} ` +
  `member-threshold ${share.memberThreshold}`;

const COMMANDS = {
  show(line) {
    const share = shamir.parse(line);
    return ended([`${fieldsText(share)} value ${hex(share.value)}`]);
  },
  repair(line) {
    return ended(shamir.repair(line));
  },
  words(letters) {
    return ended(shamir.words(text(letters)));
  },
  create(plan, secret, passphrase, exponent, flag, random) {
    const options = { passphrase: passphraseOf(passphrase), extendable: isSet(flag), exponent: number(exponent), random };
    return ended(shamir.create(text(plan), secret, options));
  },
  random_needed(plan, size) {
    return ended([shamir.randomNeeded(text(plan), number(size))]);
  },
  recover(passphrase, expect, flag, most, lines) {
    const secret = shamir.recover(lines, { passphrase: passphraseOf(passphrase), expect: text(expect), maxExponent: number(most) });
    return ended([isSet(flag) ? shamir.fingerprint(secret) : hex(secret)]);
  },
  encrypted(lines) {
    const { id, extendable, exponent, value } = shamir.encrypted(lines);
    return `identifier ${id} extendable ${Number(extendable)} exponent ${exponent} value ${hex(value)}\n`;
  },
  decrypt(id, flag, exponent, passphrase, expect, value) {
    const options = { passphrase: passphraseOf(passphrase), expect: text(expect) };
    return ended([hex(shamir.decrypt(encryptedOf(id, flag, exponent, value), options))]);
  },
  decrypt_round(round, id, flag, exponent, passphrase, value) {
    const options = { passphrase: passphraseOf(passphrase) };
    return ended([hex(shamir.decryptRound(encryptedOf(id, flag, exponent, value), number(round), options))]);
  },
  drill(passphrase, after, expect, limit, flag, most, lines) {
    const forms = { after: text(after), fingerprints: isSet(flag), expect: text(expect) };
    const options = { passphrase: passphraseOf(passphrase), maxExponent: number(most), ...forms };
    const listed = [];
    for (const outcome of shamir.drill(lines, options)) {
      if (listed.length >= number(limit)) return ended([...listed, `more after ${listed.at(-1).split(" ")[0]}`]);
      listed.push(`${outcome.names} ${outcomeText(outcome)}`);
    }
    return ended([...listed, "end"]);
  },
  quorums(lines) {
    return ended([shamir.quorums(lines)]);
  },
  fingerprint(secret) {
    return ended([shamir.fingerprint(secret)]);
  },
  status(lines) {
    return statusText(shamir.status(lines));
  },
  judge(line, lines) {
    const { share, again, status } = shamir.judge(lines, line);
    return ended([`${again ? "again" : "new"} ${fieldsText(share)}`]) + statusText(status);
  },
  reissue(plan, names, lines) {
    return ended(shamir.reissue(text(plan), text(names), lines));
  },
  create_from_encrypted(plan, id, flag, exponent, random, value) {
    return ended(shamir.createFromEncrypted(text(plan), encryptedOf(id, flag, exponent, value), { random }));
  },
  resplit(plan, random, lines) {
    return ended(shamir.resplit(text(plan), lines, { random }));
  },
};

function statusText({ complete, required, enough, groups, text }) {
  if (enough !== (complete >= required)) throw new Error("enough isn't whether the complete groups are at least the required ones");
  const rows = groups.map(({ group, threshold, names }) => `group ${group} members ${names.length} of ${threshold} ${names.join("+")}`);
  if (text !== [`groups ${complete} of ${required}`, ...rows].join("\n")) throw new Error("the text of a status isn't what its fields say");
  return `${text}\n`;
}

function outcomeText({ secret, fingerprint, expected, mismatch }) {
  if (mismatch !== null) return mismatch === OF_GROUPS ? "digest mismatch of groups" : `digest mismatch in group ${mismatch}`;
  if (expected !== null) return expected ? "as expected" : "other secret";
  return fingerprint ?? hex(secret);
}

function answer(line) {
  const [command, ...words] = line.split(" ");
  try {
    return [COMMANDS[command](...words.map(valueOf)), ""];
  } catch (error) {
    if (!(error instanceof Refusal)) throw error;
    const { line, code, details, message } = error;
    if (message !== `${line === null ? "" : `line ${line}: `}${code} ${shamir.text({ code, details })}`) throw error;
    return ["", message];
  }
}

for await (const line of createInterface({ input: process.stdin })) console.log(answer(line).map((part) => `.${hex(part)}`).join(" "));
