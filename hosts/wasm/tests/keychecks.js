// Plays runs of keycheck in one Keycheck. tools/wasm/keycheck_in_node.py writes the calls to it.
//
// A call is a line of standard input, a JSON list: ["put", PATH, BASE64], ["remove", PATH], ["run", WORD..].
// The answer is a line: of a run its status and both outputs, of another call {}. A call that throws has the
// answer {"thrown"}.

import { createInterface } from "node:readline";
import { pafjirn as all } from "./shared.js";

const keycheck = await all.keycheck();
const CALLS = {
  put: (path, text) => keycheck.put(path, Buffer.from(text, "base64")),
  remove: (path) => keycheck.remove(path),
  run: (...words) => keycheck.run(...words),
};

function answerOf([name, ...given]) {
  try {
    return CALLS[name](...given) ?? {};
  } catch (error) {
    return { thrown: String(error) };
  }
}

for await (const line of createInterface({ input: process.stdin })) {
  process.stdout.write(`${JSON.stringify(answerOf(JSON.parse(line)))}\n`);
}
