// Prints rows of a table: what a start and a press cost, and the memory. The word is the folder of examples/.
// Times are those of processors, so that other programs change them little.

import { readFileSync } from "node:fs";
import { examples, FOLDER, pafjirn as all } from "./shared.js";

const PRESSES = 50_000, TURNS = 4;
const { files } = examples(process.argv[2]);
const row = (what, figure) => console.log(`| ${what} | ${figure} |`);

// The milliseconds that processors have worked for this process.
function now() {
  const { user, system } = process.cpuUsage();
  return (user + system) / 1000;
}

// The microseconds of one of many calls, the best of some turns.
function each(count, work) {
  let best = Infinity;
  for (let turn = 0; turn < TURNS; turn++) {
    const begin = now();
    for (let number = 0; number < count; number++) work();
    best = Math.min(best, ((now() - begin) * 1000) / count);
  }
  return best.toFixed(2);
}

// Rules whose clauses don't hold, and one on another key that is taken.
function rules(count) {
  const held = ["ctrl+", "alt+", "ctrl+alt+", "shift+alt+"], letters = [..."abcdefghijklmnopqrstuvwxyz"];
  const keys = held.flatMap((it) => letters.map((letter) => it + letter));
  const ruleOf = (number) => ({ key: keys[number % keys.length], command: "cursorLeft", when: `k${number}` });
  const all = Array.from({ length: count }, (_, number) => ruleOf(number));
  return JSON.stringify([...all, { key: "f6", command: "cursorLeft" }]);
}

const start = now();
const first = await all.instantiate(readFileSync(new URL("pafjirn.wasm", FOLDER)));
const instance = now();
first.load(files).press("left");
const pressed = now();
row("from the file to an instance, in Node", `${(instance - start).toFixed(0)} ms`);
row("from the instance to the first press over `examples/`", `${(pressed - instance).toFixed(0)} ms`);

for (const [name, given, key] of [
  ["`examples/`, a rule is taken", files, "left"],
  ["1,000 rules, one is taken", { user: rules(1_000) }, "f6"],
  ["100,000 rules, one is taken", { user: rules(100_000) }, "f6"],
]) {
  const pafjirn = await all.instantiate(), engine = pafjirn.load(given);
  const quiet = each(PRESSES, () => engine.pressQuietly(key));
  const whole = each(PRESSES / 4, () => engine.press(key));
  row(`a press: ${name}`, `${quiet} microseconds, with its record ${whole}`);
  const memory = pafjirn.bytesOfMemory / 1024;
  row(`the memory of the module behind them: ${name.replace(/, one.*|, a.*/, "")}`, `${memory} kB`);
}
