// Four clients of the package. The first line of standard input is the passphrase, except for `repair`. Papers are the lines after it, or
// those of a file. FINGERPRINT is what `make` told. Ctrl-C stops a drill. `node wallet.js` runs it, with shamir32.wasm in the package. To
// stay short, it shows what is typed, and keeps it in strings. A wallet hides it. The head of shamir.js says how to keep it as bytes.
import { readFileSync } from "node:fs";
import { createInterface } from "node:readline";
import { Code, drillWithProgress, open, Papers } from "shamir";

const shamir = await open();
const lines = createInterface({ input: process.stdin })[Symbol.asyncIterator]();

async function* make(passphrase, plan) {
  const secret = crypto.getRandomValues(new Uint8Array(16));
  yield* shamir.create(plan, secret, { passphrase });
  yield `# fingerprint ${shamir.fingerprint(secret)}`;
}

async function* recover(passphrase, expect) {
  const papers = new Papers(shamir);
  for await (const paper of lines) {
    yield papers.addAndTell(paper);
    if (!papers.enough) continue;
    try {
      const { secret, doubtful } = papers.recover({ passphrase, expect });
      yield* doubtful.map((name) => `doubtful ${name}`);
      return yield `fingerprint ${shamir.fingerprint(secret)}`;
    } catch (error) {
      if (error.code !== Code.DIGEST_MISMATCH) throw error;
      yield error.message;
    }
  }
  throw new Error("more papers are needed");
}

async function* drill(passphrase, expect, file) {
  let stopped = false;
  process.on("SIGINT", () => (stopped = true));
  for await (const { names, expected, number, quorums } of drillWithProgress(shamir, readFileSync(file, "utf8"), { passphrase, expect })) {
    yield `${number} of ${quorums}: ${names} ${expected ? "as expected" : "NOT as expected"}`;
    if (stopped) return yield `stopped after ${names}`;
  }
}

const repair = (line) => shamir.repair(line);
const [task, ...words] = process.argv.slice(2);
const client = [make, recover, drill, repair].find(({ name, length }) => name === task && length === words.length + 1);
try {
  const { value: line } = client ? await lines.next() : {};
  if (line === undefined) throw new Error("give make PLAN, recover FINGERPRINT, drill FINGERPRINT FILE or repair, and a line of input");
  for await (const told of client(line, ...words)) process.stdout.write(`${told}\n`); // If a write fails, this ends the process.
} catch (error) {
  console.error(error.message);
  process.exitCode = 1;
}
process.stdin.destroy();
