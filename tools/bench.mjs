// tools/bench runs this with Node. It measures calls of bindings/js over a module, and writes the milliseconds of processor time of
// the quickest run of each.
//
//     node tools/bench.mjs MODULE.wasm SECRET QUORUMS < LINES
import { readFileSync } from "node:fs";
import { load } from "../bindings/js/shamir.js";

const [, , module, secret, quorums] = process.argv;
const shamir = await load(readFileSync(module));
const lines = new Uint8Array(readFileSync(0));

function milliseconds(call, times) {
  let least = Infinity;
  for (let i = 0; i < times; i++) {
    const start = process.cpuUsage();
    call();
    const { user, system } = process.cpuUsage(start);
    least = Math.min(least, (user + system) / 1000);
  }
  return least;
}

function recovered() {
  if (Buffer.from(shamir.recover(lines)).toString("hex") !== secret) throw new Error("recover gives another secret");
}

function drilled() {
  let count = 0;
  for (const outcome of shamir.drill(lines)) count += Number(outcome.secret !== null);
  if (count !== Number(quorums)) throw new Error(`the drill gives ${count} secrets`);
}

console.log(JSON.stringify({ recover: milliseconds(recovered, 100), drill: milliseconds(drilled, 10) }));
