// Compares the copy of the context keys that the page follows with what `keycheck context` says of the focus.

import { FOLDER } from "./shared.js";

const { Context } = await import(new URL("page/context.js", FOLDER));
const { json, plain, read } = await import(new URL("page/places.js", FOLDER));

/** What the focus sees behind the lines of a script: by the page's copy, and by keycheck. */
export function contexts(pafjirn, files, lines) {
  return { page: byPage(pafjirn.load(files), files, lines), keycheck: byKeycheck(pafjirn, files, lines) };
}

function byPage(engine, { layout }, lines) {
  const context = new Context(layout === undefined ? "" : new TextDecoder().decode(layout));
  for (const bytes of lines) {
    const record = engine.line(bytes), isEvent = !record.trace.startsWith("unread line");
    if (isEvent && !record.refusal) context.follow(new TextDecoder().decode(bytes), record);
  }
  engine.dispose();
  return sorted(seen(context));
}

// The keys that the focus sees, each with its scope.
function seen({ focus, parents, values }) {
  const found = new Map();
  for (let scope = focus; values.has(scope); scope = parents.get(scope)) {
    for (const [key, value] of values.get(scope)) {
      const { members, ...other } = read(value);
      const it = members ? namesIn([...members.keys()]) : json(other);
      if (!found.has(key)) found.set(key, [key, scope, it]);
    }
  }
  return [...found.values()];
}

function byKeycheck(pafjirn, { platform, extensions, ...named }, lines) {
  const keycheck = pafjirn.keycheck(), words = ["--platform", platform === "windows" ? "win" : platform];
  const put = (path, bytes) => {
    if (bytes !== undefined) keycheck.put(path, bytes);
    return bytes !== undefined;
  };
  for (const [name, bytes] of Object.entries(named)) if (put(name, bytes)) words.push(`--${name}`, name);
  for (const [number, { manifest, handlers }] of extensions.entries()) {
    put(`${number}/package.json`, manifest);
    put(`${number}/handlers.json`, handlers);
    words.push(`${number}`);
  }
  put("events", Buffer.concat(lines.flatMap((it) => [it, Buffer.from("\n")])));
  const { output } = keycheck.run("context", "--json", "--script", "events", ...words);
  keycheck.dispose();
  const rows = output.split("\n").filter(Boolean).map((it) => read(it).members);
  return sorted(rows.map((row) => {
    const value = row.get("value"), names = value.members && plain(value.members.get("members"));
    return [plain(row.get("key")), plain(row.get("scope")), names ? namesIn(names) : json(value)];
  }));
}

// An object. Of its value only the names of its members are known.
function namesIn(names) {
  return `an object with ${JSON.stringify([...names].sort())}`;
}

function sorted(rows) {
  return rows.map((it) => JSON.stringify(it)).sort().join("\n");
}
