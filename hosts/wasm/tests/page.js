// Checks the parts of the page that need no browser: the copy of the context keys, and places in texts.

import { contexts } from "./following.js";
import { FOLDER, is, pafjirn as all, report, thrown } from "./shared.js";

const { newName } = await import(new URL("page/files.js", FOLDER));
const { lineAt, rangeOf, read, rulesOf } = await import(new URL("page/places.js", FOLDER));
const pafjirn = await all.instantiate();

// A handler whose name looks like lines of a trace, as a step of runCommands and by itself.
function names() {
  const named = 'x\ncall setContext ["k",1]\ndone "" ""\nrun setContext', code = "000000";
  const setting = { command: "setContext", args: { key: "k", value: 2 } };
  const rules = [
    { key: "a", command: named },
    { key: "b", command: "runCommands", args: { commands: [named, setting] } },
    { key: "e", command: "runCommands", args: { commands: [setting, named] } },
    { key: "c", command: "runCommands", args: { commands: [setting, `${named}!`, named] } },
    { key: "d", command: `${named}!`, args: { key: "k", value: 3 } },
  ];
  const handlers = { version: 1, handlers: [{ command: named, budget: 9, depth: 1, code }] };
  const bytes = (value) => Buffer.from(JSON.stringify(value));
  const extensions = [{ manifest: bytes({ publisher: "p", name: "e" }), handlers: bytes(handlers) }];
  const files = { platform: "linux", user: bytes(rules), extensions }, two = '["k","window","2"]';
  for (const [key, wanted] of [["a", ""], ["b", two], ["c", two], ["d", ""], ["e", two]]) {
    const { page, keycheck } = contexts(pafjirn, files, [Buffer.from(`key ${key}`)]);
    is(`the context behind ${key}`, [page, keycheck], [wanted, wanted]);
  }
}

function newNames() {
  const beside = (...folders) => newName({ extensions: folders.map((folder) => ({ folder })) });
  is("the first extension", beside(), "extension-1");
  is("one more", beside("extension-1", "notes"), "extension-2");
  is("one more than the last that is left", beside("extension-2"), "extension-1");
}

function places() {
  const at = (text, ...place) => [rangeOf(text, ...place)].map(({ begin, end }) => text.slice(begin, end))[0];
  is("a line", at("[\n  5,\n]", 2, 3), "5,");
  is("the first line, behind a byte order mark", at("\ufeff[5]", 1, 2), "5]");
  is("characters of two units", at("[]\n😀😀x", 2, 3), "x");
  is("the last line", at("a\nb", 2, 1), "b");
  is("lines", [lineAt("a\nb\nc", 0), lineAt("a\nb\nc", 2), lineAt("a\nb\nc", 4)], [1, 2, 3]);
  const count = (text, isManifest) => rulesOf(text, isManifest).length;
  const manifest = (rules) => JSON.stringify({ contributes: { keybindings: rules } });
  is("rules", [count("[{}, 5] // x", false), count("{}", false), count("", false)], [2, 0, 0]);
  is("those of a manifest", count(manifest([{}, {}]), true), 2);
  is("a lone rule of a manifest, and none", [count(manifest({}), true), count("{}", true)], [1, 0]);
  const text = '{ "a": [1, { "b": "c" }], /* d */ "e": {} } // f';
  const cut = Array.from(text, (_, at) => text.slice(0, at)), over = cut.map((it) => it + text);
  is("texts with mistakes", [...cut, ...over, ...Array.from("]}[{:,\"", (it) => it + text)]
    .filter((it) => thrown(() => read(it)) || !(read(it).end <= it.length)), []);
}

for (const test of [names, newNames, places]) test();
report();
