// Pafjirn for JavaScript: a keybinding and command engine with the documented behaviour of VS Code, for pages
// and for Node. It needs no server and no other package.
//
//     import { Engine } from "pafjirn";
//
//     const user = '[{ "key": "ctrl+h", "command": "type", "args": "hello" }]';
//     const engine = await Engine.load({ user });
//     console.log(engine.press("ctrl+h").trace);
//     engine.dispose();
//
// pafjirn.d.ts has the types, and says what each call answers and throws. Behind the start all calls are
// synchronous, and take some microseconds. tools/build-wasm makes the module pafjirn.wasm.

import { ANSWERS, EngineError, LoadRefused } from "./errors.js";
import { Keycheck } from "./keycheck.js";
import { keystroke } from "./keys.js";
import { Module, OF_MODULE, bytesOf } from "./module.js";

export { EngineError, Keycheck, LoadRefused, keystroke };

// The numbers of include/pafjirn.h. tools/check-wasm compares them.
const FILES = { layout: 0, defaults: 1, user: 2 };
const PLATFORMS = { linux: 0, mac: 1, windows: 2 };
const PARTS = {
  trace: 0, notice: 1, chord: 2, command: 3, arguments: 4, source: 5, before: 6, after: 7, step: 8, keys: 9,
};
const ENTRY_PARTS = { label: 0, entryCommand: 1 };
const TAKEN = { nothing: 0, chording: 1, started: 2 };

const KINDS = Object.keys(TAKEN);
const ENDINGS = new Map([
  [ANSWERS.DONE, "done"], [ANSWERS.REFUSED, "refused"], [ANSWERS.NOT_FOUND, "not found"],
  [ANSWERS.BAD_ARGUMENTS, "bad arguments"],
]);
// The engine's own commands. A load registers them with the tickets 1 to 9.
const NATIVES = [
  "type", "deleteLeft", "deleteRight", "cursorLeft", "cursorRight", "buffer.clear", "buffer.top",
  "buffer.bottom", "setContext",
];

/** An engine that is loaded. */
export class Engine {
  #module;
  #handle;
  #commands = new Map();
  #tickets = new Map(NATIVES.map((name, place) => [name, place + 1]));
  #warnings;

  /** Loads an engine of files. All engines that are loaded by this share the memory of one module. */
  static async load(files = {}) {
    return (await shared()).load(files);
  }

  constructor(secret, module, files) {
    if (secret !== OF_MODULE) throw new TypeError("use Engine.load");
    this.#module = module;
    this.#handle = module.newHandle(this);
    try {
      this.#take(files);
      module.forgetTexts();
      this.#done("load");
      this.#warnings = linesOf(this.#read(PARTS.notice));
    } catch (error) {
      this.dispose();
      throw error;
    }
  }

  #take({ platform = "linux", extensions = [], ...files }) {
    if (!Object.hasOwn(PLATFORMS, platform)) throw new TypeError(`no platform: ${platform}`);
    this.#done("platform", PLATFORMS[platform]);
    for (const [name, bytes] of Object.entries(files)) {
      if (!Object.hasOwn(FILES, name)) throw new TypeError(`no file: ${name}`);
      if (bytes !== undefined) this.#done("file", FILES[name], ...this.#passed(bytes));
    }
    for (const { manifest, handlers } of extensions) {
      const [at, length, more, size] = this.#passed(manifest, handlers ?? "");
      this.#done("extension", at, length, handlers === undefined ? 0 : 1, more, size);
    }
  }

  /** The warnings of the load, a line each. */
  get warnings() {
    return this.#warnings;
  }

  /** Presses a key: `ctrl+s`, or the `keydown` event of a page. Returns null for an event that is no press of
   * a key, as of Shift alone. */
  press(key) {
    const text = typeof key === "string" ? key : keystroke(key);
    return text === null ? null : this.#started(this.#pressed(text));
  }

  /** Presses a key without making a record, for many presses. Returns how the press ended. */
  pressQuietly(key) {
    return this.#pressed(key);
  }

  /** Gives the focus to a scope. */
  focus(scope) {
    return this.#record(this.#told("focus", ...this.#passed(scope)));
  }

  /** Sets a context key of a scope. */
  setContext(scope, key, value) {
    if (typeof value === "boolean") {
      return this.#record(this.#told("set_truth", ...this.#passed(scope, key), value ? 1 : 0));
    }
    if (typeof value === "bigint" || Number.isSafeInteger(value)) {
      const number = BigInt(value);
      if (BigInt.asIntN(64, number) !== number) throw new RangeError(`${value} doesn't fit into 64 bits`);
      return this.#record(this.#told("set_number", ...this.#passed(scope, key), number));
    }
    if (typeof value === "string") {
      return this.#record(this.#told("set_text", ...this.#passed(scope, key, value)));
    }
    if (typeof value !== "object" || value === null) {
      throw new TypeError("give a truth value, a whole number, a text, a list of texts or an object");
    }
    // (only the names of an object's members matter)
    const names = () => Object.fromEntries(Object.keys(value).map((it) => [it, true]));
    const made = JSON.stringify(Array.isArray(value) ? value : names());
    return this.line(`set ${word(scope)} ${word(key)} ${made}`);
  }

  /** Removes a context key from a scope. */
  unsetContext(scope, key) {
    return this.#record(this.#told("unset", ...this.#passed(scope, key)));
  }

  /** The entries of the palette that a query finds. The empty query finds all. */
  palette(query = "") {
    this.#told("palette", ...this.#passed(query));
    return this.entries;
  }

  /** The entries of the last palette, until one is chosen. */
  get entries() {
    const part = (number, name) => this.#module.read("entry", this.#handle, number, ENTRY_PARTS[name]);
    return Array.from({ length: Number(this.#call("entries")) }, (_, place) => ({
      number: place + 1, label: part(place + 1, "label"), command: part(place + 1, "entryCommand"),
    }));
  }

  /** Chooses an entry of the last palette, by its number from 1. */
  choose(number) {
    if (!(Number.isInteger(number) && number >= 0 && number < 2 ** 32)) {
      throw new RangeError(`no entry ${number}`);
    }
    return this.#started(this.#told("choose", number));
  }

  /** What a press of a key would take now. Nothing is pressed. Returns null for an event that is no press of
   * a key. */
  lookUp(key) {
    const text = typeof key === "string" ? key : keystroke(key);
    if (text === null) return null;
    this.#done("look_up", ...this.#key(text));
    return this.#found();
  }

  /** The keystrokes that start a command now, without an open chord. The first is what a menu shows. */
  keysOf(command) {
    this.#done("keys_of", ...this.#passed(command));
    return linesOf(this.#read(PARTS.keys));
  }

  /** The keystrokes that go on from those of the open chord, or the first ones of rules if none is open. */
  continuations() {
    this.#done("continuations");
    return linesOf(this.#read(PARTS.keys));
  }

  /** Enables an extension. */
  enable(identifier) {
    return this.line(`enable ${word(identifier)}`);
  }

  /** Disables an extension. */
  disable(identifier) {
    return this.line(`disable ${word(identifier)}`);
  }

  /** Gives an extension the handlers of a `handlers.json`. */
  update(identifier, handlers) {
    return this.line(`update ${word(identifier)} ${onOneLine(handlers)}`);
  }

  /** Replaces the user's rules. */
  reload(user) {
    return this.line(`reload ${onOneLine(user)}`);
  }

  /** Has the engine do what a line of a script says (docs/FORMATS.md). */
  line(text) {
    const record = this.#record(this.#told("line", ...this.#passed(text)));
    // (the call of a line doesn't answer that an event was refused)
    return this.#started(record.refusal ? { ...record, ending: "refused" } : record);
  }

  /** Has a function run when a press or a choice starts a command. Returns a function that undoes it. */
  command(name, run) {
    if (this.#tickets.has(name)) this.#takeOver(name);
    this.#commands.set(name, run);
    return () => {
      if (this.#commands.get(name) !== run) return;
      this.#commands.delete(name);
      if (NATIVES.includes(name)) this.#restore(name);
    };
  }

  /** The text before the caret, and behind it. */
  get text() {
    return { before: this.#read(PARTS.before), after: this.#read(PARTS.after) };
  }

  /** What the last event added to the trace. */
  get trace() {
    return this.#read(PARTS.trace);
  }

  /** Ends the engine and gives its memory back. */
  dispose() {
    if (!this.#handle) return;
    this.#module.endHandle(this, this.#handle);
    this.#handle = 0n;
  }

  #passed(...texts) {
    return this.#module.passed(texts.map(bytesOf));
  }

  #call(name, ...given) {
    if (!this.#handle) throw new EngineError(ANSWERS.UNKNOWN);
    return this.#module.call(name, this.#handle, ...given);
  }

  #key(key) {
    return typeof key === "string" ? this.#module.passedKey(key) : this.#passed(key);
  }

  #pressed(key) {
    return this.#told("key", ...this.#key(key));
  }

  #read(part) {
    if (!this.#handle) throw new EngineError(ANSWERS.UNKNOWN);
    return this.#module.read("read", this.#handle, part);
  }

  // A call that is no event.
  #done(name, ...given) {
    const answer = this.#call(name, ...given);
    if (answer === ANSWERS.REFUSED) throw new LoadRefused(this.#read(PARTS.notice).trimEnd());
    if (answer !== ANSWERS.DONE) throw new EngineError(answer);
  }

  // Tells an event. Returns how it ended.
  #told(name, ...given) {
    const answer = this.#call(name, ...given);
    const ending = ENDINGS.get(answer);
    if (ending === undefined) throw this.#errorOf(answer);
    return ending;
  }

  #errorOf(answer) {
    const error = new EngineError(answer);
    // (the trace of a trap says which handler it was)
    if (answer === ANSWERS.TRAPPED) error.trace = this.trace;
    return error;
  }

  // What an event took, or what a press would take.
  #found() {
    const source = this.#read(PARTS.source), written = this.#read(PARTS.arguments);
    const [chord, command] = [PARTS.chord, PARTS.command].map((it) => this.#read(it));
    const kind = KINDS[this.#call("taken")];
    return {
      kind,
      chord,
      command,
      arguments: written === "" ? undefined : JSON.parse(written),
      argumentsJson: written === "" ? null : written,
      rule: source === "" ? null : { source, place: Number(this.#call("place")) },
      isUsed: kind === "chording" || command !== "" || chord.includes(" "),
    };
  }

  #record(ending) {
    const trace = this.trace, step = Number(this.#call("steps"));
    return {
      ending,
      ...this.#found(),
      step: step === 0 ? null : { number: step, command: this.#read(PARTS.step) },
      refusal: refusalIn(trace),
      ranBy: null,
      trace,
    };
  }

  // Runs a function of the host, if a command started that the engine lacks.
  #started(given) {
    const record = typeof given === "string" ? this.#record(given) : given;
    if (record.ending !== "not found" || this.#commands.size === 0) return record;
    const { name, value } = missingIn(record);
    const run = this.#commands.get(name);
    if (!run) return record;
    run(value, record);
    return { ...record, ending: "done", ranBy: name };
  }

  // Disposes of the engine's own closure for a command, by the ticket of its registration.
  #takeOver(name) {
    const { refusal } = this.line(`dispose ${this.#tickets.get(name)}`);
    if (refusal) {
      const message = `${refusal.number} ${refusal.name}: ${name}`;
      throw new EngineError(ANSWERS.REFUSED, { message });
    }
    this.#tickets.delete(name);
  }

  #restore(name) {
    const ticket = /^registered \S+ (\d+)/m.exec(this.line(`register ${name}`).trace)?.[1];
    if (ticket) this.#tickets.set(name, ticket);
  }
}

if (Symbol.dispose) {
  Object.defineProperty(Engine.prototype, Symbol.dispose, { value: Engine.prototype.dispose });
}

/** A module in memory, of which engines are loaded. */
export class Pafjirn {
  #module;

  constructor(secret, instance) {
    if (secret !== OF_MODULE) throw new TypeError("use instantiate");
    this.#module = new Module(instance);
  }

  /** Loads an engine of files. */
  load(files = {}) {
    return new Engine(OF_MODULE, this.#module, files);
  }

  /** The program keycheck, without files. */
  keycheck() {
    return new Keycheck(OF_MODULE, this.#module);
  }

  /** How many bytes of the module's memory are in use. */
  get bytesInUse() {
    return Number(this.#module.call("in_use"));
  }

  /** How many bytes of memory the module has. It never becomes less. */
  get bytesOfMemory() {
    return this.#module.size;
  }

  /** The error that ended the module, or null. */
  get dead() {
    return this.#module.dead;
  }
}

/** The program keycheck, without files, in the module of `Engine.load`. */
export async function keycheck() {
  return (await shared()).keycheck();
}

// The module of Engine.load. If it died, another one takes its place.
let common = null;

async function shared() {
  const given = (common ??= instantiate());
  const made = await given.catch((error) => {
    if (common === given) common = null;
    throw error;
  });
  if (!made.dead) return made;
  if (common === given) common = null;
  return shared();
}

/** Makes a module in memory: of pafjirn.wasm at a URL or a path, in a response, as bytes, or compiled.
 * Without one it lies beside this file. */
export async function instantiate(source = new URL("pafjirn.wasm", import.meta.url)) {
  const given = await source;
  if (given instanceof WebAssembly.Module) return instanceOf(await WebAssembly.instantiate(given, {}));
  if (typeof given === "string" || given instanceof URL) return instantiate(await fetched(given));
  if (typeof Response === "undefined" || !(given instanceof Response)) {
    return instanceOf((await WebAssembly.instantiate(given, {})).instance);
  }
  if (!given.ok) throw new Error(`${given.url}: status ${given.status}`);
  const isTyped = given.headers.get("Content-Type")?.startsWith("application/wasm");
  if (!isTyped) return instantiate(await given.arrayBuffer());
  return instanceOf((await WebAssembly.instantiateStreaming(given, {})).instance);
}

function instanceOf(instance) {
  return new Pafjirn(OF_MODULE, instance);
}

async function fetched(where) {
  const url = new URL(where, import.meta.url);
  if (url.protocol !== "file:" || typeof process === "undefined") return fetch(url);
  const { readFile } = await import("node:fs/promises");
  return readFile(url);
}

// Why an event was refused, or null.
function refusalIn(trace) {
  const found = /^refused (\d+) (\w+)(?: (.*))?/.exec(trace);
  if (!found) return null;
  const [, number, name, detail] = found;
  return { number: Number(number), name, ...(detail === undefined ? {} : { detail }) };
}

// The command that the engine lacks, and its arguments. Of runCommands it is the last one that began.
function missingIn({ command, arguments: value, step }) {
  if (step === null) return { name: command, value };
  return { name: step.command, value: value?.commands?.[step.number - 1]?.args };
}

function linesOf(text) {
  return text.split("\n").filter(Boolean);
}

function word(text) {
  if (/[ \r\n]|^$/.test(text)) throw new TypeError(`not a word: ${JSON.stringify(text)}`);
  return text;
}

// JSON with comments on one line. A comment up to the end of its line would hide the rest, so it goes. Behind
// a text without its end nothing is kept, so that the engine refuses it.
function onOneLine(text) {
  const all = decoded(text), parts = /"(?:\\.|[^"\\\n])*("?)|\/\/[^\n\r]*|\/\*[^]*?\*\/|[\n\r]+/g;
  let made = "", end = 0;
  for (const { 0: found, 1: quote, index } of all.matchAll(parts)) {
    made += all.slice(end, index) + (quote === undefined ? " " : found);
    end = index + found.length;
    if (quote === "") return made;
  }
  return made + all.slice(end);
}

function decoded(text) {
  if (typeof text === "string") return text.replace(/^\ufeff/, "");
  try {
    return new TextDecoder("utf-8", { fatal: true }).decode(bytesOf(text));
  } catch (wrong) {
    if (wrong instanceof RangeError) throw wrong;
    throw new EngineError(ANSWERS.NO_TEXT, { cause: wrong });
  }
}
