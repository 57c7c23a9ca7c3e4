// Checks what Keycheck answers and throws. It prints each difference from what pafjirn.d.ts says.

import { is, pafjirn as all, report, thrown, trapping, watchMemory } from "./shared.js";

const { Keycheck, instantiate, keycheck } = all;
const USER = ["--user", "ü/keys"], CHECK = ["check", ...USER];
const RULES = '[\n  {"key":"a"} ]';
const SHOWN = `ü/keys:2:3: error: 40 MissingMember: the rule has no member \`command\`; the rule is dropped
      {"key":"a"} ]
      ^
1 problem: 1 error
`;
const NONE = { status: 0, output: "", errors: "" };
const LAYOUT = '{"scopes": [{"name": "w", "keys": {"on": false}}]}';
const MANIFEST = JSON.stringify({
  publisher: "p", name: "e", contributes: { keybindings: { key: "a", command: "x.y", when: "on" } },
});

function runs(pafjirn) {
  const one = pafjirn.keycheck(), other = pafjirn.keycheck();
  one.put("ü/keys", RULES);
  is("a problem", one.run(...CHECK), { status: 1, output: SHOWN, errors: "" });
  is("a second run", one.run(...CHECK), { status: 1, output: SHOWN, errors: "" });
  is("a file of another one", other.run(...CHECK),
    { status: 3, output: "", errors: "cannot read ü/keys: there is no such file\n" });
  one.put("ü/keys", "[]");
  is("a file in its place", one.run(...CHECK), NONE);
  one.put("ü/keys", new Uint8Array([0x5b, 255, 0x5d]));
  is("bytes that aren't UTF-8", one.run(...CHECK).output.split("\n")[0],
    "ü/keys:1:2: error: 1 NotUtf8: this byte belongs to no UTF-8 text; save the file as UTF-8");
  one.put("ü/keys", new TextEncoder().encode(RULES).buffer);
  is("a buffer", one.run(...CHECK).output, SHOWN);
  one.remove("ü/keys");
  one.remove("ü/keys");
  is("a file that is removed", one.run(...CHECK).status, 3);
  is("words that are refused", one.run("check", "--nothing").status, 2);
  is("their reason", one.run("check", "--nothing").errors.includes("--nothing"), true);
  is("no words", one.run().status, 2);
  one.dispose();
  one.dispose();
  is("one that is disposed of", thrown(() => one.run(...CHECK)), ["Unknown", 2]);
  is("its files", [thrown(() => one.put("a", "")), thrown(() => one.remove("a"))],
    [["Unknown", 2], ["Unknown", 2]]);
  is("the other one", other.run("context"), NONE);
  other.dispose();
}

function commands(pafjirn) {
  const one = pafjirn.keycheck(), files = ["--layout", "l", "e"];
  one.put("l", LAYOUT);
  one.put("e/package.json", MANIFEST);
  one.put("s", "set w on true\nkey a");
  const script = ["--script", "s"];
  is("a press", one.run("explain", "a", ...files).output, "a: starts nothing, since no rule holds\n"
    + "e/package.json:1:58: p.e: a x.y when on: its clause fails: on doesn't hold: on is false, in scope w\n"
    + "trace: key a: unbound\n");
  is("a press behind a script", one.run("explain", "a", ...files, ...script).output,
    "a: starts x.y\ne/package.json:1:58: p.e: a x.y when on: is taken\n"
    + "trace: key a: start x.y\ntrace: not found x.y\n");
  is("the rules", one.run("list", ...files).output, "  a x.y when on (p.e, e/package.json:1:58)\n");
  const listed = one.run("list", "--json", ...files).output.trimEnd();
  is("the rules as JSON", JSON.parse(listed).rule.place,
    { column: 58, line: 1, path: "e/package.json", source: "p.e" });
  is("the context", one.run("context", ...files, ...script).output, "on: true (w)\n");
  is("the context without the script", one.run("context", ...files).output, "on: false (w)\n");
  is("no handlers", one.run("handlers", "e").status, 0);
  is("a key that is none", one.run("explain", "ctrl+").status, 2);
  one.put("s", "focus nowhere");
  is("a script with a mistake", one.run("context", ...files, ...script).errors,
    "script: refused 20 UnknownScope\n");
  one.dispose();
}

// Texts that are longer than the room in the module's memory, and letters at the borders of their pieces.
function lengths(pafjirn) {
  const one = pafjirn.keycheck();
  for (let length = 16_300; length < 16_400; length++) {
    const command = "ä".repeat(length);
    one.put("k", JSON.stringify([{ key: "a", command }]));
    const { output } = one.run("list", "--user", "k");
    if (output !== `  a ${command} (user, k:1:2)\n`) is(`an output of ${length} letters`, output, command);
  }
  const path = "ß".repeat(20_000);
  one.put(path, RULES);
  is("a long word", one.run("check", "--json", "--user", path).output.split("\n").length, 3);
  one.remove(path);
  is("a long path that is removed", one.run("check", "--user", path).status, 3);
  one.dispose();
}

function mistakes(pafjirn) {
  const one = pafjirn.keycheck(), no = new Uint8Array([255]);
  one.put("ü/keys", RULES);
  is("no text", [thrown(() => one.put("a", 5)), thrown(() => one.put(5, "a"))], ["TypeError", "TypeError"]);
  is("no path", [thrown(() => one.remove()), thrown(() => one.remove([]))], ["TypeError", "TypeError"]);
  is("a path that isn't UTF-8", thrown(() => one.put(no, "")), ["NoText", 6]);
  is("a word that is none", thrown(() => one.run("check", 5)), "TypeError");
  is("a run behind it", one.run(...CHECK).output, SHOWN);
  is("a word that isn't UTF-8", thrown(() => one.run("check", no)), ["NoText", 6]);
  is("a run behind that", one.run(...CHECK).output, SHOWN);
  is("by new", thrown(() => new Keycheck()), "TypeError");
  one.dispose();
}

async function starts() {
  const one = await keycheck();
  one.put("ü/keys", RULES);
  is("by keycheck()", one.run(...CHECK).output, SHOWN);
  if (Symbol.dispose) {
    one[Symbol.dispose]();
    is("by Symbol.dispose", thrown(() => one.run()), ["Unknown", 2]);
  }
  const pafjirn = await trapping("keycheck"), traps = pafjirn.keycheck(), engine = pafjirn.load();
  is("a trap", thrown(() => traps.run("check")), ["Dead", 200]);
  is("an engine behind it", thrown(() => engine.press("a")), ["Dead", 200]);
  is("another one", thrown(() => pafjirn.keycheck()), ["Dead", 200]);
}

const pafjirn = await instantiate();
for (const test of [runs, commands, lengths, mistakes]) test(pafjirn);
await starts();
await watchMemory(await instantiate(), (it) => {
  const one = it.keycheck();
  one.put("ü/keys", RULES.padEnd(50_000));
  one.run(...CHECK);
  return one;
});
report();
