// Plays scripts as keyrun does, with an engine of the package: the same arguments, output and status.

import { closeSync, openSync, readFileSync, statSync } from "node:fs";
import { parseArgs } from "node:util";
import { pafjirn as all } from "./shared.js";

const { EngineError, LoadRefused } = all;
const MOST_BYTES = 16_777_216;
const PLATFORMS = { linux: "linux", mac: "mac", win: "windows" };
const STATUSES = { NoKey: 2, Trapped: 5 };
const SAID = { NoMemory: "stopped: out of memory", Stopped: "stopped: out of memory", Trapped: "trapped" };

/** Why a run ends before its script does. */
export class Stop extends Error {
  constructor(why, status) {
    super(why);
    this.status = status;
  }
}

/** The arguments of a run. */
export function wordsOf(args) {
  const text = { type: "string" };
  const options = { layout: text, defaults: text, user: text, script: text, platform: text };
  try {
    const { values, positionals } = parseArgs({ args, options, allowPositionals: true });
    const { platform = "linux" } = values;
    if (!PLATFORMS[platform]) throw new Error(`--platform ${platform}`);
    return { ...values, platform: PLATFORMS[platform], folders: positionals };
  } catch (wrong) {
    throw new Stop(`play.js: ${wrong.message}`, 2);
  }
}

function read(path) {
  const found = readIfThere(path);
  if (found === undefined) throw new Stop(`cannot read ${path}`, 3);
  return found;
}

function readIfThere(path) {
  try {
    if (statSync(path).size <= MOST_BYTES) return readFileSync(path);
  } catch (wrong) {
    if (wrong.code === "ENOENT") return undefined;
  }
  throw new Stop(`cannot read ${path}`, 3);
}

/** The files that the arguments name. */
export function filesOf(words) {
  const named = (path) => (path === undefined ? undefined : read(path));
  return {
    platform: words.platform,
    layout: named(words.layout), defaults: named(words.defaults), user: named(words.user),
    extensions: words.folders.map((folder) => ({
      manifest: read(`${folder}/package.json`), handlers: readIfThere(`${folder}/handlers.json`),
    })),
  };
}

// Opens a script, which is standard input without a path.
function open(path) {
  try {
    return path === undefined ? 0 : openSync(path);
  } catch {
    throw new Stop(`cannot read ${path}`, 3);
  }
}

/** The lines of a script, as bytes. A line may end with a carriage return and a line feed. */
export function linesOf(file) {
  const script = scriptIn(file), lines = [];
  if (script.length > MOST_BYTES) throw new Stop("script: too long", 4);
  for (let at = 0; at <= script.length;) {
    const end = script.indexOf(10, at);
    if (end < 0) {
      lines.push(script.subarray(at));
      break;
    }
    lines.push(script.subarray(at, end > at && script[end - 1] === 13 ? end - 1 : end));
    at = end + 1;
  }
  return lines;
}

function scriptIn(file) {
  try {
    return readFileSync(file);
  } catch {
    throw new Stop("script: read failed", 4);
  }
}

/** Plays the script of a run over an engine that `load` makes of files. `write` takes what goes to standard
 * output, and `say` what goes to standard error. */
export function play(words, load, write, say) {
  const files = filesOf(words), script = open(words.script);
  let engine = null;
  try {
    engine = load(files);
    say(engine.warnings.map((line) => `${line}\n`).join(""));
    for (const line of linesOf(script)) write(engine.line(line).trace);
  } finally {
    engine?.dispose();
    if (script !== 0) closeSync(script);
  }
}

/** Does work, says why it ends early, and returns the status. */
export async function statusOf(work, say) {
  try {
    await work();
    return 0;
  } catch (wrong) {
    if (!(wrong instanceof Stop || wrong instanceof EngineError)) throw wrong;
    say(`${SAID[wrong.name] ?? wrong.message}\n`);
    return wrong.status ?? (wrong instanceof LoadRefused ? 3 : STATUSES[wrong.name] ?? 4);
  }
}
