// Checks what the package answers and throws. It prints each difference from what pafjirn.d.ts says.

import { readFileSync } from "node:fs";
import {
  compiled, FOLDER, is, pafjirn as all, report, thrown, trapping, watched, watchMemory,
} from "./shared.js";

const { Engine, LoadRefused, Pafjirn, instantiate, keystroke } = all;
const LAYOUT = '{"scopes": [{"name": "window"}, {"name": "editor", "parent": "window"}]}';
const RULES = `[
  { "key": "x", "command": "type", "args": "t", "when": "truth" },
  { "key": "x", "command": "type", "args": "n", "when": "number == -9223372036854775808" },
  { "key": "x", "command": "type", "args": "l", "when": "name in list" },
  { "key": "y", "command": "my.own", "args": { "a": [1, null, 9007199254740993] } },
  { "key": "z z", "command": "my.own" },
  { "key": "r", "command": "runCommands",
    "args": { "commands": ["cursorLeft", { "command": "my.own", "args": 7 }, "type"] } },
  { "key": "h", "command": "p.hi" },
  { "key": "q", "command": "type", "args": { "text": 5 } },
  { "key": "n", "command": "" },
  { "key": "z n", "command": "" },
]`;
// Rules for look-ups. Rule 0 has the keys and the command of rule 7; rule 3 takes the key of rule 1, and
// rules 5 and 6 go on from that of rule 4.
const LOOKED_UP = `[
  { "key": "ctrl+a", "command": "type", "args": "a" },
  { "key": "ctrl+b", "command": "type", "args": "b" },
  { "key": "shift+Ctrl+c", "command": "type", "args": "c", "when": "k" },
  { "key": "ctrl+b", "command": "my.own" },
  { "key": "ctrl+d", "command": "other" },
  { "key": "ctrl+d ctrl+e", "command": "my.own", "args": [1, "e"] },
  { "key": "ctrl+d x", "command": "" },
  { "key": "ctrl+a", "command": "type", "args": "A" },
]`;
const COMMANDS = [{ command: "buffer.top", title: "Größe" }];
const MANIFEST = JSON.stringify({ name: "e", publisher: "p", contributes: { commands: COMMANDS } });
const EXTENSIONS = [{ manifest: MANIFEST }];

function presses(pafjirn) {
  const engine = pafjirn.load({ layout: LAYOUT, user: RULES, extensions: EXTENSIONS, platform: "mac" });
  is("warnings", engine.warnings, []);
  is("a command of the host", engine.press("y").ending, "not found");
  is("its rule", engine.press("y").rule, { source: "user", place: 3 });
  is("its arguments", engine.press("y").argumentsJson, '{"a":[1,null,9007199254740993]}');
  is("bad arguments", engine.press("q").ending, "bad arguments");
  is("no arguments", [engine.press("h").arguments, engine.press("h").argumentsJson], [undefined, null]);
  is("no rule", engine.press("ctrl+j"), {
    ending: "done", kind: "nothing", chord: "ctrl+j", command: "", argumentsJson: null, rule: null,
    isUsed: false, step: null, refusal: null, ranBy: null, trace: "key ctrl+j: unbound\n",
  });
  is("no key", thrown(() => engine.press("ctrl+")), ["NoKey", 10]);
  is("the trace behind it", engine.trace, "key ctrl+j: unbound\n");
  is("a chord", [engine.press("z").kind, engine.press("z").chord], ["chording", "z z"]);
  is("a quiet press", engine.pressQuietly("y"), "not found");
  is("its trace", engine.trace, "key y: start my.own\nnot found my.own\n");
  const used = (...keys) => keys.map((key) => engine.press(key).isUsed);
  is("a key that is used up", used("y", "q"), [true, true]);
  is("the keys of a chord", used("z", "z"), [true, true]);
  is("a key that ends a chord", used("z", "ctrl+j"), [true, true]);
  is("keys for the text", used("ctrl+j", "n"), [false, false]);
  is("no action in a chord", used("z", "n"), [true, true]);
  is("an event", engine.press({ key: "y", code: "KeyY" }).command, "my.own");
  is("Shift alone", engine.press({ key: "Shift", code: "ShiftLeft", shiftKey: true }), null);
  is("an entry", engine.palette("grö"), [{ number: 1, label: "Größe", command: "buffer.top" }]);
  is("no entry", engine.palette("no such"), []);
  is("all entries", engine.palette().length, 1);
  is("a choice", engine.choose(1).command, "buffer.top");
  is("no entries behind it", engine.entries, []);
  is("a choice of nothing", engine.choose(1).refusal, { number: 96, name: "NoEntry" });
  is("its ending", engine.choose(1).ending, "refused");
  is("a choice below", thrown(() => engine.choose(-1)), "RangeError");
  is("a choice of no number", thrown(() => engine.choose("1")), "RangeError");
  is("bytes of a key", engine.line(new TextEncoder().encode("key y")).command, "my.own");
  is("an unread line", engine.line("nothing").trace, "unread line 2\n");
  is("no text", thrown(() => engine.press(5)), "TypeError");
  engine.dispose();
  engine.dispose();
  is("an engine that is disposed of", thrown(() => engine.press("x")), ["Unknown", 2]);
  is("its text", thrown(() => engine.text), ["Unknown", 2]);
}

// The steps of runCommands. The name of a step may have line feeds, and look like lines of a trace.
function steps(pafjirn) {
  const named = "x\nrun type\ndone \"\" \"\"\n", lists = {
    a: ["cursorLeft", "buffer.top"],
    b: ["cursorLeft", named, "buffer.top"],
    c: [{ command: "type", args: "c" }, { command: "type", args: { text: 5 } }, "buffer.top"],
    d: [],
    e: [{ command: named, args: { n: 5 } }],
  };
  const ruleOf = ([key, commands]) => ({ key, command: "runCommands", args: { commands } });
  const others = [{ key: "f", command: named }, { key: "g g", command: "x" }];
  const user = JSON.stringify([...Object.entries(lists).map(ruleOf), ...others]);
  const engine = pafjirn.load({ user });
  const stepOf = (key) => [engine.press(key)].map(({ ending, step }) => [ending, step])[0];
  is("the last step of a list", stepOf("a"), ["done", { number: 2, command: "buffer.top" }]);
  is("a step of the host", stepOf("b"), ["not found", { number: 2, command: named }]);
  is("a step with bad arguments", stepOf("c"), ["bad arguments", { number: 2, command: "type" }]);
  is("a list without steps", stepOf("d")[1], null);
  is("a first step", stepOf("e"), ["not found", { number: 1, command: named }]);
  is("a command without steps", stepOf("f"), ["not found", null]);
  is("a chord", [engine.press("g").step, engine.press("g").step], [null, null]);
  is("a focus behind steps", [engine.press("a").step?.number, engine.focus("window").step], [2, null]);
  const seen = [];
  engine.command(named, (args, { step }) => seen.push([args, step?.number]));
  is("a step that the host runs", [engine.press("e").ranBy, ...seen], [named, [{ n: 5 }, 1]]);
  is("a command that it runs", [engine.press("f").ranBy, ...seen.slice(1)], [named, [null, null]]);
  engine.dispose();
}

// What presses would take, and the keys of commands.
function lookUps(pafjirn) {
  const engine = pafjirn.load({ user: LOOKED_UP });
  is("a look-up", engine.lookUp("ctrl+a"), {
    kind: "started", chord: "ctrl+a", command: "type", arguments: "A", argumentsJson: '"A"',
    rule: { source: "user", place: 7 }, isUsed: true,
  });
  is("nothing that was pressed", [engine.text, engine.trace], [{ before: "", after: "" }, ""]);
  const found = (key) => {
    const { kind, chord, command, argumentsJson, rule, isUsed } = engine.lookUp(key);
    return [kind, chord, command, argumentsJson, rule?.place ?? null, isUsed];
  };
  is("another name", found("Ctrl+B"), ["started", "ctrl+b", "my.own", null, 3, true]);
  is("an event", found({ key: "b", code: "KeyB", ctrlKey: true })[2], "my.own");
  is("Ctrl alone", engine.lookUp({ key: "Control", code: "ControlLeft", ctrlKey: true }), null);
  is("a clause that fails", found("ctrl+shift+c"), ["nothing", "ctrl+shift+c", "", null, null, false]);
  is("a chord", found("ctrl+d"), ["chording", "ctrl+d", "", null, null, true]);
  is("keys", engine.keysOf("type"), ["ctrl+a"]);
  is("keys of two rules", engine.keysOf("my.own"), ["ctrl+d ctrl+e", "ctrl+b"]);
  is("no keys", [engine.keysOf("other"), engine.keysOf("no.such")], [[], []]);
  is("keys of no command", engine.keysOf(""), ["ctrl+d x"]);
  is("first keys", engine.continuations(), ["ctrl+a", "ctrl+d", "ctrl+b"]);
  engine.setContext("window", "k", true);
  is("a clause that holds", found("ctrl+shift+c"), ["started", "ctrl+shift+c", "type", '"c"', 2, true]);
  is("the keys of another context", engine.keysOf("type"), ["ctrl+a", "ctrl+shift+c"]);
  is("first keys then", engine.continuations(), ["ctrl+a", "ctrl+d", "ctrl+b", "ctrl+shift+c"]);
  is("the trace behind all of that", engine.trace, "set window k\n");
  is("no UTF-8 of a command", thrown(() => engine.keysOf(new Uint8Array([255]))), ["NoText", 6]);
  is("no text", [thrown(() => engine.keysOf(5)), thrown(() => engine.keysOf())], ["TypeError", "TypeError"]);
  engine.press("ctrl+d");
  is("keys that go on", engine.continuations(), ["x", "ctrl+e"]);
  is("keys without the chord", engine.keysOf("my.own"), ["ctrl+d ctrl+e", "ctrl+b"]);
  is("no command", found("x"), ["started", "ctrl+d x", "", null, 6, true]);
  is("a key that ends the chord", found("ctrl+a"), ["nothing", "ctrl+d ctrl+a", "", null, null, true]);
  is("a key that goes on", found("ctrl+e"), ["started", "ctrl+d ctrl+e", "my.own", '[1,"e"]', 5, true]);
  is("no key", thrown(() => found("ctrl+")), ["NoKey", 10]);
  is("two keys", thrown(() => found("ctrl+e x")), ["NoKey", 10]);
  is("the trace behind it", engine.trace, "key ctrl+d: chord\n");
  const { command, trace } = engine.press("ctrl+e");
  is("the press", [command, trace], ["my.own", "key ctrl+d ctrl+e: start my.own\nnot found my.own\n"]);
  is("first keys behind it", engine.continuations(), ["ctrl+a", "ctrl+d", "ctrl+b", "ctrl+shift+c"]);
  engine.dispose();
  const behind = [() => engine.lookUp("x"), () => engine.keysOf("type"), () => engine.continuations()];
  is("an engine that is disposed of", behind.map(thrown), Array(3).fill(["Unknown", 2]));
}

function context(pafjirn) {
  const engine = pafjirn.load({ layout: LAYOUT, user: RULES });
  is("a truth", engine.setContext("window", "truth", true).ending, "done");
  is("its rule", engine.press("x").arguments, "t");
  is("the text", engine.text, { before: "t", after: "" });
  is("false", engine.setContext("window", "truth", false).ending, "done");
  is("no rule", engine.press("x").kind, "nothing");
  is("the least number", engine.setContext("window", "number", -(2n ** 63n)).ending, "done");
  is("its rule", engine.press("x").arguments, "n");
  is("a number below", thrown(() => engine.setContext("window", "number", -(2n ** 63n) - 1n)), "RangeError");
  is("a fraction", thrown(() => engine.setContext("window", "number", 1.5)), "TypeError");
  is("a text", engine.setContext("window", "name", "b").ending, "done");
  is("a list", engine.setContext("window", "list", ["a", "b"]).ending, "done");
  is("its rule", engine.press("x").arguments, "l");
  is("an object", engine.setContext("window", "list", { b: undefined }).ending, "done");
  is("its rule", engine.press("x").arguments, "l");
  is("nothing", thrown(() => engine.setContext("window", "list", null)), "TypeError");
  is("no such scope", engine.setContext("nowhere", "k", true).refusal, { number: 20, name: "UnknownScope" });
  is("no such scope, by a list", engine.setContext("nowhere", "k", []).ending, "refused");
  is("no word", thrown(() => engine.setContext("a b", "k", [])), "TypeError");
  is("a key with a space", engine.setContext("window", "a b", 1).ending, "done");
  is("an unset key", engine.unsetContext("window", "list").ending, "done");
  is("its rule", engine.press("x").arguments, "n");
  is("a long text", engine.setContext("window", "k", "ä".repeat(100_000)).ending, "done");
  is("bytes that aren't UTF-8", thrown(() => engine.focus(new Uint8Array([255]))), ["NoText", 6]);
  engine.press("z");
  is("a focus", engine.focus("editor").trace, "left z\nfocus editor\n");
  is("no such focus", engine.focus("nowhere").refusal.number, 20);
  engine.dispose();
}

function changes(pafjirn) {
  const engine = pafjirn.load({ user: RULES, extensions: EXTENSIONS });
  is("disabled", engine.disable("P.E").trace, "disabled p.e\n");
  is("enabled", engine.enable("p.e").trace, "enabled p.e\n");
  is("unknown", engine.enable("no.ne").refusal, { number: 92, name: "UnknownExtension" });
  is("no word", thrown(() => engine.disable("a b")), "TypeError");
  const rule = '{ "key": "x", /* the "end */ "command": "my.own", "args": "// no" }';
  const comments = `\ufeff[ // one "rule"\n ${rule} ]`;
  is("reloaded", engine.reload(comments).trace, "reloaded\n");
  is("its rule", [engine.press("x").command, engine.press("x").arguments], ["my.own", "// no"]);
  is("reloaded from bytes", engine.reload(new TextEncoder().encode("[]\n")).ending, "done");
  is("no rule", engine.press("x").kind, "nothing");
  is("no JSON", engine.reload("[").refusal, { number: 4, name: "Syntax" });
  is("an open text", engine.reload('["a\nb"]').refusal, { number: 3, name: "OpenString" });
  is("an open comment", engine.reload("[] /* a\n").refusal, { number: 2, name: "OpenComment" });
  is("no UTF-8", thrown(() => engine.reload(new Uint8Array([0x5b, 255, 0x5d]))), ["NoText", 6]);
  is("an empty file", engine.reload("").refusal, null);
  is("an update", engine.update("p.e", '{ "version": 1,\n "handlers": [] }').trace, "updated p.e\n");
  is("an update that is none", engine.update("p.e", "").refusal, { number: 41, name: "WrongShape" });
  engine.dispose();
}

function commands(pafjirn) {
  const engine = pafjirn.load({ user: RULES }), seen = [];
  const undo = engine.command("my.own", (args, record) => seen.push([args, record.chord]));
  const ran = engine.press("y");
  is("a command of the host", [ran.ending, ran.ranBy], ["done", "my.own"]);
  is("its arguments", seen.pop(), [{ a: [1, null, 9007199254740992] }, "y"]);
  engine.press("r");
  is("its step", seen.pop(), [7, "r"]);
  engine.press("z");
  engine.press("z");
  is("without arguments", seen.pop()[0], undefined);
  undo();
  is("taken away", [engine.press("y").ending, seen.length], ["not found", 0]);
  undo();
  engine.setContext("window", "truth", true);
  const again = engine.command("type", (text) => seen.push(text));
  engine.press("x");
  is("a native command", [seen.pop(), engine.text.before], ["t", ""]);
  again();
  engine.press("x");
  is("given back", engine.text.before, "t");
  engine.command("type", (text) => seen.push(text))();
  engine.press("x");
  is("given back again", engine.text.before, "tt");
  engine.command("my.own", () => { throw new RangeError("my own"); });
  is("what the host throws", thrown(() => engine.press("y")), "RangeError");
  is("the engine behind it", engine.press("x").ending, "done");
  engine.dispose();
}

function loads(pafjirn) {
  const refused = (files) => {
    try {
      pafjirn.load(files).dispose();
      return null;
    } catch (error) {
      return error instanceof LoadRefused && [error.name, error.number, error.fault];
    }
  };
  const fault = (file, number, name) => ["LoadRefused", 3, { file, number, name }];
  is("a layout", refused({ layout: '{"scopes": []}' }), fault("layout", 21, "BadLayout"));
  is("a layout without scopes", refused({ layout: "{}" }), fault("layout", 40, "MissingMember"));
  is("bytes", refused({ user: new Uint8Array([255]) }), fault("user", 1, "NotUtf8"));
  is("a buffer", refused({ user: new Uint8Array([255]).buffer }), fault("user", 1, "NotUtf8"));
  const manifests = [{ manifest: MANIFEST }, { manifest: "{}" }];
  is("a manifest", refused({ extensions: manifests }), fault("ext 1 package.json", 40, "MissingMember"));
  is("handlers", refused({ extensions: [{ manifest: MANIFEST, handlers: "" }] }),
    fault("ext 0 handlers.json", 41, "WrongShape"));
  is("no platform", thrown(() => pafjirn.load({ platform: "beos" })), "TypeError");
  is("no file", thrown(() => pafjirn.load({ users: "" })), "TypeError");
  is("no text", thrown(() => pafjirn.load({ user: 5 })), "TypeError");
  is("no files", pafjirn.load().warnings, []);
  is("a byte order mark", pafjirn.load({ user: "\ufeff[]" }).warnings, []);
  is("warnings", pafjirn.load({ user: '[5, {"key": "a", "command": "x", "when": "("}]' }).warnings,
    ["warning 41 user keybindings 0", "warning 31 user keybindings 1"]);
  const keys = [{ key: "a", mac: "b", command: "c" }], contributes = { keybindings: keys };
  const extensions = [{ manifest: JSON.stringify({ name: "e", publisher: "p", contributes }) }];
  const commandOf = (platform, key) => pafjirn.load({ extensions, platform }).press(key).command;
  const pressed = (platform) => ["a", "b"].map((key) => commandOf(platform, key));
  is("the keys of Linux", pressed(undefined), ["c", ""]);
  is("the keys of a Mac", pressed("mac"), ["", "c"]);
}

function keys() {
  const modifiers = ["ctrl", "shift", "alt", "meta"];
  const pressed = (key, code, ...held) => keystroke({
    key, code, ...Object.fromEntries(modifiers.map((it) => [`${it}Key`, held.includes(it)])),
  });
  is("a letter", pressed("s", "KeyS", "ctrl"), "ctrl+s");
  is("all modifiers", pressed("P", "KeyP", "ctrl", "shift", "alt", "meta"), "ctrl+shift+alt+meta+p");
  is("Shift alone", pressed("Shift", "ShiftLeft", "shift"), null);
  is("Cyrillic", pressed("ы", "KeyS", "ctrl"), "ctrl+s");
  is("an upper sign", pressed("!", "Digit1", "shift"), "shift+1");
  is("numbers", [pressed("1", "Numpad1"), pressed("End", "Numpad1")], ["numpad1", "end"]);
  is("the number pad's plus", pressed("+", "NumpadAdd"), "numpad_add");
  is("a dead key", [pressed("Dead", "BracketLeft"), pressed("Dead", "IntlRo")], ["[", null]);
  is("an input method", keystroke({ key: "a", code: "KeyA", isComposing: true }), null);
}

async function starts() {
  const bytes = readFileSync(new URL("pafjirn.wasm", FOLDER)), url = new URL("pafjirn.wasm", FOLDER);
  const works = async (source) => (await instantiate(source)).load({ user: RULES }).press("y").command;
  for (const [name, source] of Object.entries({ bytes, url, path: url.href, compiled: compiled() })) {
    is(`from ${name}`, await works(source), "my.own");
  }
  is("from a promise", await works(Promise.resolve(bytes)), "my.own");
  const answer = (type) => new Response(bytes, { headers: { "Content-Type": type } });
  is("from a response", await works(answer("application/wasm")), "my.own");
  is("from a response of another type", await works(answer("text/plain")), "my.own");
  const lacking = await instantiate(new Response("", { status: 404 })).catch((it) => it.name);
  is("from a response that has none", lacking, "Error");
  const engine = await Engine.load({ user: RULES });
  is("by Engine.load", engine.press("y").command, "my.own");
  const refused = await Engine.load({ user: "{" }).catch((it) => [it.name, it.fault.number]);
  is("by Engine.load, refused", refused, ["LoadRefused", 4]);
  if (Symbol.dispose) {
    engine[Symbol.dispose]();
    is("by Symbol.dispose", thrown(() => engine.press("y")), ["Unknown", 2]);
  }
  is("by new", [thrown(() => new Engine()), thrown(() => new Pafjirn())], ["TypeError", "TypeError"]);
}

async function memory(pafjirn) {
  const before = pafjirn.bytesInUse;
  for (let number = 0; number < 100; number++) thrown(() => pafjirn.load({ user: "{" }));
  is("memory behind loads that were refused", pafjirn.bytesInUse, before);
  await watchMemory(pafjirn, () => pafjirn.load({ user: RULES }));
}

async function traps() {
  const dead = ["Dead", 200], pafjirn = await trapping("key");
  const [engine, other] = [pafjirn.load({ user: RULES }), pafjirn.load()];
  is("a module that lives", [pafjirn.dead, engine.focus("window").ending], [null, "done"]);
  is("a trap", thrown(() => engine.press("y")), dead);
  is("its cause", pafjirn.dead.message, "unreachable");
  is("each engine behind it", [thrown(() => engine.focus("window")), thrown(() => other.text)], [dead, dead]);
  is("a load behind it", thrown(() => pafjirn.load()), dead);
  engine.dispose();
  is("an engine that is disposed of then", thrown(() => engine.text), ["Unknown", 2]);
}

// The module itself refuses each call behind a trap, here that of a text which isn't in its memory.
async function guards() {
  const seen = watched(), { exports: of } = (await instantiate(), seen);
  const handle = of.pafjirn_room(16n), nowhere = 0x7fff_0000n;
  is("a new handle", of.pafjirn_new(handle), 0);
  is("a call", of.pafjirn_entries(handle), 0n);
  is("a trap", thrown(() => of.pafjirn_file(handle, 2, nowhere, 100n)), "RuntimeError");
  is("a call behind it", thrown(() => of.pafjirn_entries(handle)), "RuntimeError");
}

keys();
const pafjirn = await instantiate();
for (const test of [presses, steps, lookUps, context, changes, commands, loads]) test(pafjirn);
await starts();
await traps();
await guards();
await memory(await instantiate());
report();
