/** What the tests share: the engine over the module that SHAMIR_MODULE names, its instances, and worked examples. */
import assert from "node:assert/strict";
import { readFileSync } from "node:fs";
import { load, Refusal } from "../shamir.js";

export { load };

const ROOT = new URL("../../../", import.meta.url);

export const SECRET = ofHex("bb54aac4b89dc868ba37d9cc21b2cece");
export const ONE =
  "duckling enlarge academic academic agency result length solution fridge kidney coal piece deal husband erode duke ajar critical decision keyboard";
export const TWO = [
  "shadow pistol academic always adequate wildlife fancy gross oasis cylinder mustang wrist rescue view short owner flip making coding armed",
  "shadow pistol academic acid actress prayer class unknown daughter sweater depict flip twice unkind craft early superior advocate guest smoking",
];
export const TWO_SECRET = ofHex("b43ceb7e57a0ea8766221624d01b0864");
export const PLAN = "2/2of3,1of1,1of1";
// With these options, ONE and FIVE are created.
export const AS_BEFORE = { passphrase: "TREZOR", exponent: 0, extendable: false };
export const FIVE = [
  "academic aluminum acrobat leaf buyer drink heat negative damage union purchase photo inmate training amazing yield bucket wrote mule cluster",
  "academic aluminum acrobat lily august piece column laser headset unusual blimp nuclear sweater criminal credit eyebrow trouble silent axis skin",
  "academic aluminum acrobat lungs dive behavior mobile ting perfect ultimate weapon join paper involve clinic acrobat jerky preach gross usual",
  "academic aluminum beard leader chest elite grant group club deploy increase divorce puny cylinder romp frequent crush ruler erode bucket",
  "academic aluminum ceramic leader cylinder decorate mobile devote echo finger program firm starting dwarf grumpy harvest enforce raisin sprinkle phantom",
];
export const FIVE_QUORUMS = ["0.0+0.1+1.0", "0.0+0.1+2.0", "0.0+0.2+1.0", "0.0+0.2+2.0", "0.1+0.2+1.0", "0.1+0.2+2.0", "1.0+2.0"];
// MISMATCHED has two members of one group, and MISMATCHED_GROUPS has members of two groups. Their digests don't match. Another
// program made them.
export const MISMATCHED = [
  "academic academic academic acid disease prepare husky home result arcade lunar cover shame email oven tension nylon carpet prospect hand",
  "academic academic academic agency dragon mineral broken simple lips custody flame cylinder ending prune party scout beaver enlarge glasses bundle",
];
export const MISMATCHED_GROUPS = [
  "academic academic acrobat easy disease prepare husky home result arcade lunar cover shame email oven tension nylon lawsuit smear antenna",
  "academic academic beard easy dragon mineral broken simple lips custody flame cylinder ending prune party scout beaver presence thank adapt",
];
// This has the name of the first mnemonic of FIVE, and another value. Another program made it.
export const CONFLICTING =
  "academic aluminum acrobat leaf civil drink heat negative damage union purchase photo inmate training amazing yield bucket lend glance junk";

// EXTENDABLE is a published vector. With the random bytes 0 to 25, SPLIT_ANEW is the backup by PLAN into which it is split anew. Another
// program made that.
export const EXTENDABLE = [
  "enemy favorite academic acid cowboy phrase havoc level response walnut budget painting inside trash adjust froth kitchen learn tidy punish",
  "enemy favorite academic always academic sniff script carpet romp kind promise scatter center unfair training emphasis evening belong fake enforce",
];
export const SPLIT_ANEW = [
  "academic apart acrobat leaf diploma profile wireless fluff owner greatest romp tricycle window alarm disease mason argue junior briefing squeeze",
  "academic apart acrobat lily campus welcome capture military elegant fiction beaver duration manual remember decision umbrella true evidence huge sharp",
  "academic apart acrobat lungs clay airport debut stilt together alpha glance element fangs glimpse crowd exclude lunar axle spend diagnose",
  "academic apart beard leader crowd envelope aquatic reject sister loyalty sunlight replace health frequent level crazy bundle document ticket birthday",
  "academic apart ceramic leader alien hamster grasp strike jacket install artwork sidewalk sack fridge venture security method hairy ruin universe",
];
// Another program computed the encrypted secrets of ONE, TWO, FIVE and EXTENDABLE.
export const ENCRYPTED = [
  { id: 7945, extendable: false, exponent: 0, value: ofHex("11bc609d21747c49ba78c0701293e417") },
  { id: 25653, extendable: false, exponent: 2, value: ofHex("cdc017fddc829e791b1371780be0605a") },
  { id: 1, extendable: false, exponent: 0, value: ofHex("ae3283670d8226e104447ff0a4a32f69") },
  { id: 9066, extendable: true, exponent: 0, value: ofHex("644c905b0c4da21692f06fff3ed8b3e1") },
];

// The texts that the rounds 3 to 0 leave of the last two. Another program computed them.
export const UNDONE = [
  ["04447ff0a4a32f695ba74e3c43bc2c75", "5ba74e3c43bc2c757b3377e2884ece1f", "7b3377e2884ece1fba37d9cc21b2cece", "bb54aac4b89dc868ba37d9cc21b2cece"],
  ["92f06fff3ed8b3e1cbed64bd59fb2d4e", "cbed64bd59fb2d4eff09ffde7df70e2f", "ff09ffde7df70e2fd42c33672bdaa428", "48b1a4b80b8c209ad42c33672bdaa428"],
].map((texts) => texts.map(ofHex));

/** The file of a path below the top of the repository. */
export function file(path) {
  return readFileSync(new URL(path, ROOT));
}

export function ofHex(digits) {
  return Uint8Array.from(Buffer.from(digits, "hex"));
}

export function hex(bytes) {
  return Buffer.from(bytes).toString("hex");
}

export function bytesOf(text) {
  return new TextEncoder().encode(text);
}

/** The bytes 0, 1, 2 and so on. */
export function counting(count) {
  return Uint8Array.from({ length: count }, (_, i) => i);
}

/** The instances of the module, in the order in which they were made. */
export const instances = [];
export const Instance = WebAssembly.Instance;
WebAssembly.Instance = function (module, imports) {
  const instance = { exports: { ...new Instance(module, imports).exports } };
  instances.push(instance);
  return instance;
};

export const module = new WebAssembly.Module(file(process.env.SHAMIR_MODULE ?? "shamir32.wasm"));
export const shamir = await load(module);

/** Checks that a call is refused with this code, this line and these details. Returns the refusal. */
export function refused(code, line, details, call) {
  let found;
  assert.throws(call, (error) => {
    assert.ok(error instanceof Refusal && error instanceof Error);
    assert.deepEqual([error.code, error.line, error.details], [code, line, details]);
    assert.equal(error.message, `${line === null ? "" : `line ${line}: `}${code} ${error.text}`);
    found = error;
    return true;
  });
  return found;
}
