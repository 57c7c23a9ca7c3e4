// Loads hostile files of 16 MiB, and of the deepest nesting. Each has to end as it is said here: never by a
// trap, and never with memory that isn't given back.
//
//     node hostile.js FILE    a module whose memory is fixed, so that the test leaves the machine some

import { readFileSync } from "node:fs";
import { is, pafjirn as all, report } from "./shared.js";

const MOST = 16_777_216;

// A text of the most bytes a file may have: one piece again and again between two ends.
function large(begin, piece, end = "") {
  const room = MOST - begin.length - end.length;
  return begin + piece.repeat(Math.floor(room / piece.length)) + end;
}

const HANDLERS = large('{"version":1,"handlers":[', "{},", "]}");
const repeated = (piece, count) => piece.repeat(count);
const rule = (more) => `[{ "key": "a", "command": "x", ${more} }]`;

// How a load ends: the number of the fault, the first warning with its number, or "loaded". The pattern of
// stars needs more memory than a module can have, so that load ends because memory is refused.
const LOADS = [
  ["lists in lists", { user: large("", "[") }, "4"],
  ["objects in objects", { user: large("", '{"a":') }, "4"],
  ["a list of 127 levels", { user: `${repeated("[", 127)}${repeated("]", 127)}` }, "warning 41"],
  ["a list of 128 levels", { user: `${repeated("[", 128)}${repeated("]", 128)}` }, "4"],
  ["arguments of 125 levels", { user: rule(`"args": ${repeated("[", 125)}${repeated("]", 125)}`) }, "loaded"],
  ["a text without its end", { user: large('["', "a") }, "3"],
  ["a comment without its end", { user: large("/*", "*") }, "2"],
  ["comments", { user: large("[]", "/**/") }, "loaded"],
  ["lines of comments", { user: large("[]", "//\n") }, "loaded"],
  ["spaces", { user: large("[", " ", "]") }, "loaded"],
  ["commas", { user: large("[", ",", "]") }, "4"],
  ["numbers", { user: large("[1", ",1", "]") }, "warning 41"],
  ["a number that is too large", { user: large("[", "1", "]") }, "4"],
  ["a long text", { user: large('["', "a", '"]') }, "warning 41"],
  ["escapes", { user: large('["', "\\u0000", '"]') }, "warning 41"],
  ["bytes that aren't UTF-8", { user: new Uint8Array(MOST).fill(255) }, "1"],
  ["zeros", { user: new Uint8Array(MOST) }, "4"],
  ["small rules", { user: large("[", '{"key":"a","command":"x"},', "]") }, "loaded"],
  ["a long key", { user: large('[{"key":"', "ctrl+", 'a","command":"x"}]') }, "loaded"],
  ["keys without their end", { user: large('[{"key":"', "ctrl+", '","command":"x"}]') }, "warning 12"],
  ["keystrokes", { user: large('[{"key":"', "a ", 'a","command":"x"}]') }, "warning 11"],
  ["a long clause", { user: large('[{"key":"a","command":"x","when":"', "a && ", 'a"}]') }, "loaded"],
  ["a clause of marks", { user: large('[{"key":"a","command":"x","when":"', "!", 'a"}]') }, "warning 32"],
  ["a clause of brackets", { user: large('[{"key":"a","command":"x","when":"', "(", '"}]') }, "warning 32"],
  ["64 brackets", { user: rule(`"when": "${repeated("(", 64)}k${repeated(")", 64)}"`) }, "loaded"],
  ["a clause of 64 marks", { user: rule(`"when": "${repeated("!", 64)}k"`) }, "loaded"],
  ["a clause of 65 marks", { user: rule(`"when": "${repeated("!", 65)}k"`) }, "warning 32"],
  ["a pattern", { user: large('[{"key":"a","command":"x","when":"k =~ /', "(", '/"}]') }, "warning 34"],
  ["a pattern of stars", { user: large('[{"key":"a","command":"x","when":"k =~ /', "a*", '/"}]') }, "any"],
  ["a layout of scopes", { layout: large('{"scopes":[', '{"name":"window"},', "]}") }, "21"],
  ["a manifest of nothing", { extensions: [{ manifest: large("{", " ", "}") }] }, "40"],
  ["handlers", { extensions: [{ manifest: '{"name":"e"}', handlers: HANDLERS }] }, "44"],
];

function ended(pafjirn, files) {
  try {
    const engine = pafjirn.load(files), [first = "loaded"] = engine.warnings;
    engine.setContext("window", "k", "a".repeat(1000));
    engine.press("a");
    engine.press("ctrl+a");
    engine.dispose();
    return /^warning \d+|loaded/.exec(first)[0];
  } catch (error) {
    if (error instanceof all.LoadRefused) return String(error.fault.number);
    return error.name;
  }
}

const module = readFileSync(process.argv[2]);
let pafjirn = await all.instantiate(module), before = pafjirn.bytesInUse;
for (const [name, files, wanted] of LOADS) {
  const begin = performance.now(), ending = ended(pafjirn, files);
  const isRight = ending === wanted || (wanted === "any" && ending !== "Dead");
  is(`${name}: ${ending}`, isRight, true);
  if (pafjirn.dead) {
    console.log(`${name}: ${pafjirn.dead.message}`);
    pafjirn = await all.instantiate(module);
    before = pafjirn.bytesInUse;
  }
  pafjirn.load().dispose();
  is(`${name}: memory behind it`, pafjirn.bytesInUse, before);
  const seconds = (performance.now() - begin) / 1000;
  const size = `${pafjirn.bytesOfMemory / 1048576} MiB`;
  if (process.env.PAFJIRN_TIMES) console.log(`${name}: ${ending}, ${seconds.toFixed(2)} s, ${size}`);
}
report();
