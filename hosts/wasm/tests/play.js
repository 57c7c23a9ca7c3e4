// Runs a script as keyrun does, with the WebAssembly module: the same arguments and the same output.
//
//     node play.js [--platform P] [--layout F] [--defaults F] [--user F] [--script F] [DIR]..
//     node play.js [--platform P] [--layout F] [--defaults F] [--user F] --press N KEY [DIR]..
//
// PAFJIRN_FOLDER is the folder in which tools/build-wasm installed the package. With --press it runs no
// script: it presses the key N times, and prints the time of a press and the memory. The status is 0; 2 for
// wrong arguments; 3 if a file can't be read or the load is refused; 4 if the session stops, or the script or
// the output fails; 5 if a handler traps.

import { writeSync } from "node:fs";
import { filesOf, play, statusOf, Stop, wordsOf } from "./playing.js";
import { pafjirn as all } from "./shared.js";

function write(place, text) {
  const bytes = Buffer.from(text);
  try {
    for (let at = 0; at < bytes.length;) at += writeSync(place, bytes, at);
  } catch {
    throw new Stop("script: write failed", 4);
  }
}

// Says something on standard error, if that takes it.
function say(text) {
  try {
    write(2, text);
  } catch (wrong) {
    if (!(wrong instanceof Stop)) throw wrong;
  }
}

function press(pafjirn, engine, count, key) {
  const tenth = Math.ceil(count / 10), often = (times) => {
    for (let number = 0; number < times; number++) {
      engine.pressQuietly(key);
      engine.trace;
    }
  };
  const start = performance.now();
  often(tenth);
  const early = pafjirn.bytesOfMemory;
  often(count - tenth);
  const each = ((performance.now() - start) * 1000) / count;
  const memory = `${early / 1024} kB behind a tenth, ${pafjirn.bytesOfMemory / 1024} kB behind all`;
  write(1, `${count} presses, ${each.toFixed(3)} microseconds each, ${memory}\n`);
}

// The two words behind --press, which are taken out of the arguments, or null.
function pressedIn(args) {
  const at = args.indexOf("--press");
  if (at < 0) return null;
  const [count, key] = args.splice(at, 3).slice(1);
  if (/^[1-9]\d*$/.test(count) && key !== undefined) return { count: Number(count), key };
  throw new Stop("play.js: --press takes a number and a key", 2);
}

async function run(args) {
  const pressed = pressedIn(args), words = wordsOf(args), pafjirn = await all.instantiate();
  const load = (files) => pafjirn.load(files);
  if (!pressed) return play(words, load, (text) => write(1, text), say);
  const engine = load(filesOf(words));
  press(pafjirn, engine, pressed.count, pressed.key);
  return engine.dispose();
}

process.exitCode = await statusOf(() => run(process.argv.slice(2)), say);
