// The files of the page: which file is which, how they are read, and how they are kept and put into a link.

import { identifier, plain, read } from "./places.js";

const BEGIN = `[
  { "key": "ctrl+k ctrl+t", "command": "type", "args": "TODO: " },
  { "key": "left", "command": "cursorLeft" },
  { "key": "right", "command": "cursorRight" },
  { "key": "backspace", "command": "deleteLeft" },
  { "key": "ctrl+s", "command": "editor.save", "when": "dirty" },
  { "key": "ctrl+s", "command": "type", "args": "(nothing to save) ", "when": "!dirty" },
]
`;
const LAYOUT = `{
  "scopes": [
    { "name": "window", "keys": { "dirty": false, "language": "markdown" } },
    { "name": "editor", "parent": "window", "keys": { "editorFocus": true } }
  ],
  "focus": "editor"
}
`;
/** The most bytes of a file (docs/FORMATS.md). */
export const MOST_BYTES = 16_777_216;
// The names under which this browser keeps the state, and the one before a start over or a link.
const STORED = "pafjirn.state", BEFORE = "pafjirn.before";
const NAMES = { user: "keybindings.json", defaults: "defaults.json", layout: "layout.json" };

/** The files that somebody finds who comes for the first time. */
export function firstFiles() {
  return { user: BEGIN, defaults: "", layout: LAYOUT, platform: "linux", extensions: [] };
}

/** The name, the title and the text of each file. `user`, `defaults` and `layout` are files of their own; the
 * two of an extension have its number. */
export function listed(files) {
  const own = ["user", "defaults", "layout"].map((it) => ({ id: it, title: NAMES[it], text: files[it] }));
  return own.concat(files.extensions.flatMap(({ folder, manifest, handlers }, number) => [
    { id: `manifest ${number}`, title: `${folder}/package.json`, text: manifest },
    { id: `handlers ${number}`, title: `${folder}/handlers.json`, text: handlers },
  ]));
}

/** Whether a file is there. One without text isn't, but for a manifest. */
export function isThere({ id, text }) {
  return id.startsWith("manifest") || text.trim() !== "";
}

/** Changes the text of a file. */
export function change(files, id, text) {
  const [name, number] = id.split(" ");
  if (number === undefined) files[name] = text;
  else files.extensions[number][name] = text;
}

/** The name of a new extension, which no other one has. */
export function newName(files) {
  const names = new Set(files.extensions.map(({ folder }) => folder));
  let number = 1;
  while (names.has(`extension-${number}`)) number++;
  return `extension-${number}`;
}

/** What the engine loads. */
export function given(files) {
  const there = new Map(listed(files).filter(isThere).map(({ id, text }) => [id, text]));
  const extensions = files.extensions.map(({ manifest }, number) => {
    const handlers = there.get(`handlers ${number}`);
    return handlers === undefined ? { manifest } : { manifest, handlers };
  });
  const [user, defaults, layout] = ["user", "defaults", "layout"].map((id) => there.get(id));
  return { user, defaults, layout, platform: files.platform, extensions };
}

/** The name of the file that the source of a rule stands for, or null. */
export function idOf(files, source) {
  if (source in NAMES) return source;
  const place = files.extensions.findIndex(({ manifest }) => identifier(manifest) === source);
  return place < 0 ? null : `manifest ${place}`;
}

/** Files in which given ones, each with a path and a text, take the place of those of the same kind. Of two
 * of a kind the first counts. Returns the files, and which ones were left out, with the reason. */
export function taken(files, given) {
  const made = { ...files, extensions: files.extensions.map((it) => ({ ...it })) };
  const found = given.map((it) => ({ ...it, kind: kindOf(it.path, it.text) })), left = [], filled = new Set();
  // (a list of rules may have any name, and so may a lone text with a mistake)
  const other = found.length === 1 ? "user" : null;
  const hasUser = found.some(({ kind }) => kind === "user");
  for (const { path, text, kind: own } of found) {
    const kind = own === "rules" && !hasUser ? "user" : own ?? other;
    if (kind === "manifest" || kind === "handlers") takeOfExtension(made, path, kind, text);
    else if (kind === null) left.push(`${path} (neither rules nor scopes)`);
    else if (kind === "rules" || filled.has(kind)) left.push(`${path} (another file is taken)`);
    else {
      made[kind] = text;
      filled.add(kind);
    }
  }
  made.extensions = inOrder(made.extensions);
  return { files: made, left };
}

// What a file is, by a word in its name, or else by its content; null if it is neither.
function kindOf(path, text) {
  const name = path.split("/").pop();
  if (name === "package.json") return "manifest";
  if (name === "handlers.json") return "handlers";
  const word = ["layout", "default", "keybinding"].find((it) => name.includes(it));
  if (word) return { layout: "layout", default: "defaults", keybinding: "user" }[word];
  const value = read(text);
  if (value.items) return "rules";
  return value.members?.has("scopes") ? "layout" : null;
}

// An extension's two files have the same folder.
function takeOfExtension(files, path, kind, text) {
  const folder = path.split("/").at(-2) ?? "extension";
  let found = files.extensions.find((it) => it.folder === folder);
  if (!found) files.extensions.push(found = { folder, manifest: "", handlers: "" });
  found[kind] = text;
}

// Extensions, each behind those on which it depends. The engine refuses another order.
function inOrder(extensions) {
  const nameOf = ({ manifest }) => identifier(manifest).toLowerCase(), made = new Set();
  const add = (extension, above) => {
    if (made.has(extension) || above.includes(extension)) return;
    const needed = plain(read(extension.manifest).members?.get("extensionDependencies"));
    for (const name of Array.isArray(needed) ? needed : []) {
      const found = extensions.find((it) => nameOf(it) === String(name).toLowerCase());
      if (found) add(found, [...above, extension]);
    }
    made.add(extension);
  };
  for (const extension of extensions) add(extension, []);
  return [...made];
}

/** The name for a text that was pasted, by its members. */
export function nameOfPasted(value) {
  const has = (name) => value?.members?.has(name);
  if (has("scopes")) return "layout.json";
  if (has("handlers")) return "handlers.json";
  if (has("contributes") || has("publisher")) return "package.json";
  return value?.items ? "keybindings.json" : null;
}

/** The files that count among dropped ones, in the order of their paths: in the folder of an extension and
 * below it the two files of an extension, in other folders all JSON files. The packages that an extension
 * uses don't count. */
export function wanted(given) {
  const paths = given.map(({ path }) => path).filter((it) => it.endsWith("/package.json"));
  const folders = paths.map((it) => it.slice(0, -"package.json".length));
  const isOfExtension = (path) => folders.some((it) => path.startsWith(it));
  const counts = (path) => path.endsWith(".json") && !path.includes("node_modules/")
    && (!isOfExtension(path) || /\/(package|handlers)\.json$/.test(path));
  const order = new Intl.Collator("en", { numeric: true });
  return given.filter(({ path }) => counts(path)).sort((one, other) => order.compare(one.path, other.path));
}

/** All files in a dropped entry, each with its path. */
export async function filesIn(entry) {
  if (entry.isFile) {
    const file = await new Promise((done, failed) => entry.file(done, failed));
    return [{ file, path: entry.fullPath.slice(1) }];
  }
  if (entry.name === "node_modules") return [];
  const reader = entry.createReader(), found = [];
  for (;;) {
    // (one call returns at most a hundred entries)
    const some = await new Promise((done, failed) => reader.readEntries(done, failed));
    if (some.length === 0) break;
    found.push(...some);
  }
  return (await Promise.all(found.map(filesIn))).flat();
}

/** The text of a file, which has to be UTF-8. */
export async function textOf(file) {
  if (file.size > MOST_BYTES) throw new Error(`${file.name} has more than 16,777,216 bytes.`);
  try {
    return new TextDecoder("utf-8", { fatal: true, ignoreBOM: true }).decode(await file.arrayBuffer());
  } catch (wrong) {
    if (wrong instanceof TypeError) throw new Error(`${file.name} isn't UTF-8.`);
    throw new Error(`${file.name} can't be read: ${wrong.message}`);
  }
}

/** Keeps the state in this browser. Returns whether it took it. */
export function keep(state) {
  return stored(STORED, state);
}

/** The state that this browser keeps, or null. */
export function kept() {
  return storedIn(STORED);
}

/** Keeps the state to which the user may go back, or none. */
export function keepBefore(state) {
  return stored(BEFORE, state);
}

/** The state to which the user may go back, or null. */
export function before() {
  return storedIn(BEFORE);
}

function stored(name, state) {
  try {
    if (state) localStorage.setItem(name, JSON.stringify(state));
    else localStorage.removeItem(name);
    return true;
  } catch {
    return false;
  }
}

function storedIn(name) {
  try {
    return checked(JSON.parse(localStorage.getItem(name)));
  } catch {
    return null;
  }
}

/** Whether two states are the same. */
export function isSame(one, other) {
  return JSON.stringify(one) === JSON.stringify(other);
}

async function through(stream, bytes) {
  return new Uint8Array(await new Response(new Blob([bytes]).stream().pipeThrough(stream)).arrayBuffer());
}

/** The state as the part of a link behind its `#`. */
export async function toLink(state) {
  const written = new TextEncoder().encode(JSON.stringify(state));
  const bytes = await through(new CompressionStream("deflate-raw"), written), step = 8192;
  let text = "";
  for (let at = 0; at < bytes.length; at += step) {
    text += String.fromCharCode(...bytes.subarray(at, at + step));
  }
  return btoa(text).replaceAll("+", "-").replaceAll("/", "_").replaceAll("=", "");
}

/** The state of a link. */
export async function fromLink(link) {
  const text = atob(link.replaceAll("-", "+").replaceAll("_", "/"));
  const packed = Uint8Array.from(text, (it) => it.charCodeAt(0));
  const bytes = await through(new DecompressionStream("deflate-raw"), packed);
  return checked(JSON.parse(new TextDecoder().decode(bytes)));
}

// A state that came from outside, if it has the right form.
function checked(state) {
  const isText = (it) => typeof it === "string";
  const { files, lines } = state ?? {};
  const isRight = files && [files.user, files.defaults, files.layout].every(isText)
    && ["linux", "mac", "windows"].includes(files.platform) && Array.isArray(files.extensions)
    && files.extensions.every((it) => [it?.folder, it?.manifest, it?.handlers].every(isText))
    && new Set(files.extensions.map(({ folder }) => folder)).size === files.extensions.length
    && Array.isArray(lines) && lines.every(isText);
  if (!isRight) throw new Error("the state has another form");
  return { files, lines };
}
