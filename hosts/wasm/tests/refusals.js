// Refuses memory. Of a module for tests, each allocation of a run of examples/ is refused in turn, with all
// later ones. Of a module whose memory never grows, all but some bytes are taken before a run, and ever
// fewer. A run has to end as if all memory had been there, or with NoMemory and a prefix of the trace. Behind
// it all memory is given back.
//
//     node refusals.js EXAMPLES each N        of a module for tests: each Nth allocation
//     node refusals.js EXAMPLES fixed FILE    a module whose memory never grows

import { readFileSync } from "node:fs";
import { compiled, examples, FOLDER, is, pafjirn as all, report, thrown, watched } from "./shared.js";

const [folder, kind, word] = process.argv.slice(2);
const { files, scripts } = examples(folder);
// How many bytes more are left for each run, and the most of them.
const STEP = 512, MOST = 1 << 20;

// What a run of a script says: its trace, and the name of what it throws. An engine that was stopped stays
// so.
function run(pafjirn, lines) {
  let trace = "", engine = null, name = "";
  try {
    engine = pafjirn.load(files);
    for (const line of lines) trace += engine.line(line).trace;
    engine.palette("");
    trace += engine.press("left").trace;
  } catch (error) {
    if (!(error instanceof all.EngineError)) throw error;
    const calls = [() => engine.press("left"), () => engine.lookUp("left"), () => engine.keysOf("type")];
    const behind = engine ? calls.map((it) => thrown(it)?.[0]).filter((it) => it !== "Stopped") : [];
    name = [error.name, ...behind].join(", and then ");
  }
  engine?.dispose();
  return { trace, name };
}

// The bytes that aren't given back behind a run, but for the room of a long text that was passed.
function lost(pafjirn, before) {
  pafjirn.load().dispose();
  return pafjirn.bytesInUse - before;
}

// Refuses each allocation of look-ups in turn: it leaves the engine as it was, and they are done afterwards.
async function refuseLookUps() {
  const seen = watched(), pafjirn = await all.instantiate(compiled()), engine = pafjirn.load(files);
  const looks = () => [engine.lookUp("ctrl+t"), engine.keysOf("type"), engine.continuations()];
  engine.press("ctrl+k");
  seen.exports.pafjirn_refuse(0n);
  const whole = JSON.stringify(looks()), total = Number(seen.exports.pafjirn_calls()), wrong = [];
  for (let call = 1; call <= total; call++) {
    seen.exports.pafjirn_refuse(BigInt(call));
    const name = thrown(looks)?.[0];
    seen.exports.pafjirn_refuse(0n);
    if (name !== "NoMemory" || JSON.stringify(looks()) !== whole) wrong.push(`${call}: ${name}`);
  }
  is("each allocation of look-ups that is refused", [total > 3, wrong.slice(0, 5)], [true, []]);
  is("the press behind them", engine.press("ctrl+t").chord, "ctrl+k ctrl+t");
  engine.dispose();
}

async function refuseEach(lines, number, step) {
  const seen = watched(), pafjirn = await all.instantiate(compiled());
  pafjirn.load().dispose();
  const before = pafjirn.bytesInUse;
  seen.exports.pafjirn_refuse(0n);
  const whole = run(pafjirn, lines), total = Number(seen.exports.pafjirn_calls());
  is(`script ${number}`, whole.name, "");
  let wrong = [], count = 0;
  for (let call = 1; call <= total; call += step) {
    seen.exports.pafjirn_refuse(BigInt(call));
    const { trace, name } = run(pafjirn, lines);
    seen.exports.pafjirn_refuse(0n);
    count++;
    const isRight = name === "NoMemory" && whole.trace.startsWith(trace) && lost(pafjirn, before) === 0;
    if (!isRight) wrong.push(`${call}: ${name}, ${trace.length} bytes, ${lost(pafjirn, before)} lost`);
  }
  is(`script ${number}: each allocation that is refused`, wrong.slice(0, 5), []);
  is(`script ${number}: the same behind them`, run(pafjirn, lines), whole);
  console.log(`script ${number}: ${count} of ${total} allocations refused in turn`);
}

// The largest block that can be taken.
function largest({ pafjirn_room: take, pafjirn_give_back: giveBack }) {
  let size = 0;
  for (let bit = 1 << 30; bit >= 16; bit >>= 1) {
    const at = take(BigInt(size + bit));
    if (at === 0n) continue;
    giveBack(at);
    size += bit;
  }
  return size;
}

// Leaves ever more bytes for a run, from none to as many as it needs.
async function inFixed(lines, path) {
  const whole = run(await all.instantiate(readFileSync(new URL("pafjirn.wasm", FOLDER))), lines);
  const seen = watched(), pafjirn = await all.instantiate(readFileSync(path));
  const most = largest(seen.exports), before = pafjirn.bytesInUse, wrong = [];
  let count = 0, ending = "NoMemory";
  for (let left = 0; left <= MOST && ending !== ""; left += STEP) {
    const taken = seen.exports.pafjirn_room(BigInt(most - left)), { trace, name } = run(pafjirn, lines);
    seen.exports.pafjirn_give_back(taken);
    const isPrefix = name === "NoMemory" && whole.trace.startsWith(trace);
    const isRight = name === "" ? trace === whole.trace : isPrefix;
    if (!isRight || lost(pafjirn, before) !== 0) wrong.push(`${left} bytes: ${name}, ${trace.length} bytes`);
    ending = name;
    count++;
  }
  is("memories that are too small", wrong.slice(0, 5), []);
  is("a memory that is large enough", ending, "");
  console.log(`the same run with ever more of a fixed memory: ${count - 1} times it was too small`);
}

if (kind === "fixed") await inFixed(scripts[0], word);
else {
  for (const [number, lines] of scripts.entries()) await refuseEach(lines, number + 1, Number(word));
  await refuseLookUps();
}
report();
