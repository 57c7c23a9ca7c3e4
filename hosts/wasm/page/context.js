// The scopes of a session and their context keys: those of the layout, and what the events changed.
//
// The library has no call that reads context keys. So the page keeps a copy of them, and follows the events
// that the engine accepted and the lines of its trace (docs/FORMATS.md).

import { json, plain, read } from "./places.js";

// The most context keys in all scopes together.
const MOST_KEYS = 10_000;

/** The scopes by name, each with its parent and its context keys, and the scope that has the focus. The value
 * of a key is its JSON, since not every number of 64 bits is a number of JavaScript. */
export class Context {
  constructor(layout) {
    const members = layout ? read(layout).members : undefined, scopes = members?.get("scopes")?.items ?? [];
    const found = scopes.map(({ members: it }) => ({
      name: plain(it?.get("name")), parent: plain(it?.get("parent")), keys: it?.get("keys")?.members ?? [],
    }));
    if (found.length === 0) found.push({ name: "window", parent: null, keys: [] });
    this.root = found[0].name;
    this.focus = plain(members?.get("focus")) || this.root;
    this.parents = new Map(found.map(({ name, parent }) => [name, parent]));
    const valuesOf = (keys) => new Map([...keys].map(([key, value]) => [key, json(value)]));
    this.values = new Map(found.map(({ name, keys }) => [name, valuesOf(keys)]));
  }

  /** Follows an event that the engine accepted: its line, and the keys that its commands set, in order, by
   * `setContext` of a rule or an entry, of a step of `runCommands`, and of a call of a handler. */
  follow(line, record) {
    const [name, scope, key, ...value] = line.split(" ");
    if (name === "focus") this.focus = scope;
    if (name === "set") this.values.get(scope)?.set(key, value.join(" "));
    if (name === "unset") this.values.get(scope)?.delete(key);
    for (const it of settings(record)) this.#set(...it);
  }

  #set(key, value) {
    const count = [...this.values.values()].reduce((sum, keys) => sum + keys.size, 0);
    const keys = this.values.get(this.root);
    if (keys.has(key) || count < MOST_KEYS) keys.set(key, value);
  }
}

// The keys that `setContext` set in an event, with their values. A command that didn't end has set nothing.
// Each one that ended has a line `done` at its end, with the calls of a handler above it.
function* settings(record) {
  const head = `start ${record.command}\n`, begin = record.trace.indexOf(head), call = "call setContext ";
  if (record.kind !== "started" || begin < 0) return;
  const given = record.argumentsJson === null ? undefined : read(record.argumentsJson);
  let rest = record.trace.slice(begin + head.length);
  for (const [name, value] of ended(record, given)) {
    // (the line of a step has its command, which may have a line feed)
    if (record.step) rest = rest.slice(`run ${name}\n`.length);
    for (let line = ""; !line.startsWith("done ") && rest;) {
      line = rest.split("\n", 1)[0];
      rest = rest.slice(line.length + 1);
      if (!line.startsWith(call)) continue;
      const { items } = read(line.slice(call.length));
      yield [plain(items?.[0]), json(items?.[1])];
    }
    if (name === "setContext") yield setting(value);
  }
}

// The commands of an event that ended, with their arguments: of `runCommands` all above the last step that
// began, and that one if the event is done.
function ended({ command, ending, step }, given) {
  const count = (step ? step.number - 1 : 0) + (ending === "done" ? 1 : 0);
  return (step ? stepsOf(given) : [[command, given]]).slice(0, count);
}

// The commands of a `runCommands` with their arguments, in order.
function stepsOf(given) {
  const steps = given?.members?.get("commands")?.items ?? [];
  const stepOf = ({ members }) => [plain(members.get("command")), members.get("args")];
  return steps.map((it) => (it.members ? stepOf(it) : [plain(it)]));
}

// The key and the value in the arguments of a `setContext` that ended. A missing key is the empty text, and a
// missing value is false.
function setting(given) {
  const value = json(given?.members?.get("value"));
  return [plain(given?.members?.get("key")) ?? "", value === "null" ? "false" : value];
}
