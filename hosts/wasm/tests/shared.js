// What the tests share: the package in the folder PAFJIRN_FOLDER, and how they report.

import { readFileSync } from "node:fs";
import { pathToFileURL } from "node:url";

/** The folder in which tools/build-wasm installed the package. */
export const FOLDER = pathToFileURL(`${process.env.PAFJIRN_FOLDER}/`);
/** The package. */
export const pafjirn = await import(new URL("pafjirn.js", FOLDER));

const counts = { passed: 0, failed: 0 };

/** Checks that something is as it should be. */
export function is(what, given, wanted) {
  const text = (value) => JSON.stringify(value, (_, it) => (typeof it === "bigint" ? `${it}n` : it));
  const isSame = text(given) === text(wanted);
  counts[isSame ? "passed" : "failed"]++;
  if (!isSame) console.log(`${what}: ${text(given)} and not ${text(wanted)}`);
}

/** Prints how many checks passed and failed. */
export function report() {
  console.log(`${counts.passed} passed, ${counts.failed} failed`);
  process.exitCode = counts.failed ? 1 : 0;
}

/** What a call throws: the name and the number. */
export function thrown(call) {
  try {
    call();
    return null;
  } catch (error) {
    return error instanceof pafjirn.EngineError ? [error.name, error.number] : error.name;
  }
}

/** The exports of the module of the next `instantiate`. */
export function watched() {
  const whole = WebAssembly.instantiate, seen = {};
  WebAssembly.instantiate = async (...given) => {
    WebAssembly.instantiate = whole;
    const made = await whole(...given);
    seen.exports = (made.instance ?? made).exports;
    return made;
  };
  return seen;
}

/** A module of which a call traps, as it does where its stack ends. */
export async function trapping(name) {
  const whole = WebAssembly.instantiate;
  WebAssembly.instantiate = async (...given) => {
    WebAssembly.instantiate = whole;
    const { instance } = await whole(...given);
    const trap = () => { throw new WebAssembly.RuntimeError("unreachable"); };
    return { instance: { exports: { ...instance.exports, [`pafjirn_${name}`]: trap } } };
  };
  return pafjirn.instantiate();
}

/** Checks that what is made in a module gives its memory back when it is disposed of, and when it is let go.
 * */
export async function watchMemory(module, make) {
  const before = module.bytesInUse;
  for (let number = 0; number < 100; number++) make(module).dispose();
  is("memory behind those that were disposed of", module.bytesInUse, before);
  for (let number = 0; number < 100; number++) make(module);
  for (let tries = 0; tries < 50 && module.bytesInUse > before; tries++) {
    globalThis.gc();
    await new Promise((done) => setTimeout(done, 20));
  }
  is("memory behind those that were let go", module.bytesInUse, before);
}

/** The compiled module. */
export function compiled() {
  return new WebAssembly.Module(readFileSync(new URL("pafjirn.wasm", FOLDER)));
}

/** The files and the lines of `examples/`, which lies in the folder that is named. */
export function examples(folder) {
  const read = (path) => readFileSync(`${folder}/${path}`);
  const extensions = [
    { manifest: read("notes/package.json") },
    { manifest: read("brackets/package.json"), handlers: read("brackets/handlers.json") },
  ];
  const [layout, defaults, user] = ["layout", "defaults", "keybindings"].map((it) => read(`${it}.json`));
  const scripts = ["session.txt", "extensions.txt"].map((it) => read(it).toString().split("\n"));
  return { files: { layout, defaults, user, extensions }, scripts };
}
