"""The engine in the browser beside ./shamir, on generated backups, in both forms of the module; and what it leaves in memory."""
import base64
import json
import random

from browsers import Failed
from samples import PLANS, SOUND_PAPER, THREE_GROUPS, Generated, data_of
from texts import say

CASES = 20
# One answer of the browser has this many cases.
BATCH = 20
# The page's own worker script, with a listener that calls the engine, in place of the page's.
CALLER = """
self.onmessage = async ({ data: { module, cases } }) => {
  const engine = await in_shamir.load(module);
  const bytes = (it) => Uint8Array.from(it);
  self.postMessage(cases.map(({ plan, secret, passphrase, exponent, extendable, random }) => {
    const lines = engine.create(plan, bytes(secret), { passphrase, exponent, extendable, random: bytes(random) });
    const drilled = [...engine.drill(lines, { passphrase, fingerprints: true })].map(({ names, fingerprint }) => `${names} ${fingerprint}`);
    const expect = drilled[0].split(" ")[1];
    const compared = [...engine.drill(lines, { passphrase, expect })].map(({ names, expected }) => `${names} ${expected ? "as expected" : "other secret"}`);
    const recovered = [...engine.recover(lines, { passphrase, expect })];
    return { lines, drilled, compared, recovered };
  }));
};
"""
RUN = """
(async () => {
  const given = %s;
  given.module = Uint8Array.from(atob(given.module), (it) => it.charCodeAt(0));
  const source = document.getElementById("worker").textContent + given.caller;
  const worker = new Worker(URL.createObjectURL(new Blob([source])));
  const found = await new Promise((resolve) => {
    worker.onmessage = ({ data }) => resolve(data);
    worker.onerror = ({ message }) => resolve(message);
    worker.postMessage({ module: given.module, cases: given.cases });
  });
  worker.terminate();
  return JSON.stringify(found);
})()
"""


def drilled(it, *options):
    """Returns the lines of a drill of all papers, by ./shamir."""
    told, refused, status = it.told(["drill", *options], data_of(it.papers))
    if status:
        raise Failed(f"./shamir drills with status {status}: {refused}")
    return told.splitlines()[:-1]


def check(page, modules, count, seed):
    """Compares each form of the module with ./shamir, on so many generated backups."""
    source = random.Random(seed)
    for first in range(0, count, BATCH):
        check_batch(page, modules, [Generated(source, [*PLANS, "16of16"], [16, 32, 64, 128]) for _ in range(min(BATCH, count - first))])


def check_batch(page, modules, cases):
    wanted = [(it.papers, drilled(it, "--fingerprint"), drilled(it, "--expect", it.noted)) for it in cases]
    names = ("plan", "passphrase", "exponent", "extendable")
    listed = [{name: getattr(it, name) for name in names} | {"secret": list(it.secret), "random": list(it.random)} for it in cases]
    for module in modules:
        given = {"module": base64.b64encode(module.read_bytes()).decode(), "cases": listed, "caller": CALLER}
        found = json.loads(page.evaluate(RUN % json.dumps(given)))
        if isinstance(found, str):
            raise Failed(f"{module.name}: {found}")
        for it, by_program, here in zip(cases, wanted, found):
            if (here["lines"], here["drilled"], here["compared"]) != by_program or bytes(here["recovered"]) != it.secret:
                raise Failed(f"{module.name} and ./shamir differ for the plan {it.plan} and a secret of {len(it.secret)} bytes")


# Runs the page's worker as the page does, and looks at what it leaves: the module's memory outside its constants, and each array
# that the worker was given or that it kept.
WATCHER = """
const watched = { memories: [], arrays: new Set() };
const Whole = WebAssembly.Instance;
WebAssembly.Instance = function (...given) { const it = new Whole(...given); watched.memories.push(it.exports); return it; };
for (const name of ["instantiate"]) {
  const whole = WebAssembly[name];
  WebAssembly[name] = async (...given) => { const it = await whole(...given); watched.memories.push((it.instance ?? it).exports); return it; };
}
"""
LOOKER = """
const answering = self.onmessage;
const arraysIn = (it) => (it instanceof Uint8Array ? [it] : typeof it === "object" && it ? Object.values(it).flatMap(arraysIn) : []);
const watch = (it) => arraysIn(it).filter(({ length }) => length < 100000).forEach((array) => watched.arrays.add(array));
const { choose, moveOut } = in_backups.Backups.prototype;
let backups = null;
in_backups.Backups.prototype.choose = function (id) {
  backups = this;
  choose.call(this, id);
};
in_backups.Backups.prototype.moveOut = function () {
  const moved = moveOut.call(this);
  watch(moved);
  return moved;
};
self.onmessage = (event) => {
  if (event.data.call !== "look") {
    watch(event.data.given);
    watch(backups?.kept);
    answering(event);
    return;
  }
  const left = watched.memories.map(({ memory, __heap_base }) => {
    const all = new Uint8Array(memory.buffer);
    const base = Number(__heap_base.value);
    const used = (it) => it.reduce((sum, byte) => sum + (byte ? 1 : 0), 0);
    return used(all.subarray(0, 524288)) + used(all.subarray(base));
  });
  const arrays = [...watched.arrays].filter((it) => it.some((byte) => byte)).length;
  self.postMessage({ id: event.data.id, value: { left, arrays, count: watched.arrays.size } });
};
"""
LOOK = """
(async () => {
  const given = %s;
  const packed = Uint8Array.from(atob(document.getElementById("engine").textContent), (it) => it.charCodeAt(0));
  const stream = new Blob([packed]).stream().pipeThrough(new DecompressionStream("deflate"));
  const module = new Uint8Array(await new Response(stream).arrayBuffer());
  const source = given.watcher + document.getElementById("worker").textContent + given.looker;
  const worker = new Worker(URL.createObjectURL(new Blob([source])));
  let asked = 0;
  const ask = (call, it = {}) => new Promise((resolve, reject) => {
    asked += 1;
    const id = asked;
    const hear = ({ data }) => {
      if (data.id !== id || data.part) return;
      worker.removeEventListener("message", hear);
      data.fault ? reject(data.fault) : resolve(data.value);
    };
    worker.addEventListener("message", hear);
    worker.postMessage({ id, call, given: it });
  });
  const bytes = (text) => new TextEncoder().encode(text);
  await ask("begin", { module, kept: null });
  await ask("tryPassphrase", { passphrase: bytes("TREZOR") });
  await ask("passphrase", { passphrase: bytes("TREZOR") });
  await ask("add", { line: bytes(given.other) });
  for (const line of given.lines) await ask("add", { line: bytes(line) });
  const { id } = (await ask("add", { line: bytes(given.lines[0]) })).kind;
  await ask("choose", { id });
  await ask("add", { line: bytes(given.lines[0] + " acid") }).catch(() => 0);
  await ask("leaveOut", { line: bytes(given.lines[1]) });
  await ask("drill", { limit: 0, expect: "" });
  await ask("drill", { limit: 0, expect: "df41d8fe" });
  await ask("recover", { noted: "" });
  if ((await ask("digits")).length !== 32) throw new Error("the secret isn't held to be shown");
  await ask("forgetSecret");
  await ask("recover", { noted: "01234567" });
  if ((await ask("digits")).length) throw new Error("another secret than the noted one is held");
  await ask("make", { plan: "2of3", bytes: 16, digits: bytes("00112233445566778899aabbccddeeff"), exponent: 0, extendable: true });
  for (const digits of ["00112233445566778899aabbccddeeff", "00112233445566778899aabbccddeef", "wrong"]) {
    await ask("make", { plan: "2of3", bytes: 16, digits: bytes(digits), noted: "01234567", exponent: 0, extendable: true });
  }
  await ask("repair", { line: bytes(given.lines[0].replace(/ \\S+$/, " ?")) });
  await ask("repair", { line: bytes(given.lines[0].replace(/ \\S+$/, " ? ?")) }).catch(() => 0);
  await ask("repair", { line: bytes(given.lines[0].replace(/\\S+ \\S+ \\S+/, "? ? ?")) });
  await ask("typedBack", { index: 1, line: bytes(given.lines[0]) });
  for (const digits of ["00112233445566778899aabbccddeeff", "wrong"]) await ask("judge", { plan: "2of3", digits: bytes(digits), noted: "01234567" });
  await ask("drop", { id, name: "1.0" });
  await ask("putBack");
  await ask("drop", { id, name: "0.0" });
  for (const noted of ["01234567", ""]) await ask("renew", { plan: "2of2", noted, extendable: true });
  await ask("drill", { limit: 0, expect: "", isOld: true });
  const typeBack = async (index) => ask("typedBack", { index, line: await ask("paper", { index }) });
  for (const index of [0, 1]) await typeBack(index);
  await ask("resplit", { plan: "2of3" });
  await typeBack(2);
  await ask("clear");
  const found = await ask("look");
  worker.terminate();
  return JSON.stringify(found);
})()
"""


def check_memory(page):
    """Looks at the memory that the page's worker leaves after 'clear'."""
    given = {"watcher": WATCHER, "looker": LOOKER, "lines": THREE_GROUPS, "other": SOUND_PAPER}
    found = json.loads(page.evaluate(LOOK % json.dumps(given)))
    if not found["left"]:
        raise Failed("the memory of the module wasn't seen")
    if any(found["left"]):
        raise Failed(f"the module's memory isn't cleared: {found['left']} bytes are left")
    if found["count"] < 30 or found["arrays"]:
        raise Failed(f"{found['arrays']} of {found['count']} arrays that the worker was given aren't cleared")
    page.wait_title(say("home.title"))
