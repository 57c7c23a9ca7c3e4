// The page: it loads the files that are given to it, tells the engine each event as a line of a script, and
// shows what became of it. The engine runs here. The files and the lines are the whole state: a link carries
// them, and this browser keeps them.

import { LoadRefused, instantiate, keystroke } from "../pafjirn.js";
import { Checks } from "./checks.js";
import { Context } from "./context.js";
import { Continuations } from "./continuations.js";
import { FAULTS } from "./faults.js";
import * as store from "./files.js";
import { makeKeyboard } from "./keyboard.js";
import { Palette } from "./palette.js";
import { identifier, keysIn, lineAt, rangeOf, read, rulesOf, withLineFeeds } from "./places.js";
import { Problems } from "./problems.js";
import { Scopes } from "./scopes.js";
import { at, counted, element, line as item, link, spokenText } from "./shown.js";
import { Why } from "./why.js";

const ENDINGS = {
  done: "done",
  refused: "refused",
  "not found": "not a command of the engine: the host runs it",
  "bad arguments": "the arguments don't fit the command",
};
// How long the text of a file stays as it is before it is loaded.
const PAUSE = 300;
const NO_VALUE = "is no value of a context key. Such a value is true or false, a whole number, a text, "
  + "a list of texts or an object.";
// The most lines of the trace that are shown.
const MOST_LINES = 1000;

let pafjirn = null, engine = null, checks = null, context = new Context("");
let files = store.firstFiles(), lines = [], chord = "", isComposing = false, isFull = false, late = 0;
// Whether the address is a link to the state, which the next change makes another one.
let isLinked = false;

// Reports what happened, in the live region of the page, which a screen reader announces. It announces only
// changes, so a repeated text gets a space.
function say(text, isWrong = false) {
  const isAgain = at("status").textContent === text;
  at("status").classList.toggle("wrong", isWrong);
  at("status").textContent = isAgain ? `${text}\u00a0` : text;
}

// Does work, and reports why it fails.
async function tried(work) {
  try {
    await work();
  } catch (wrong) {
    say(pafjirn?.dead ? "The engine trapped: reload the page." : wrong.message, true);
  }
}

// Loads the files, and then tells the engine lines again. If the files don't load, the lines stay for the
// next load.
function load(again = []) {
  clearTimeout(late);
  engine?.dispose();
  [engine, lines, chord] = [null, again, ""];
  at("trace").replaceChildren();
  palette.clear();
  showRecord(null);
  checks.take(files);
  let failure = null;
  try {
    engine = pafjirn.load(store.given(files));
    context = new Context(files.layout.trim() ? files.layout : "");
    lines = [];
    tellAgain(again);
  } catch (wrong) {
    // (the problems have why a load is refused)
    if (!(wrong instanceof LoadRefused)) failure = wrong;
  }
  const shown = (show) => {
    try {
      show();
    } catch (wrong) {
      failure ??= wrong;
    }
  };
  shown(() => problems.show(checks.problems(), store.listed(files).map(({ title }) => title)));
  showExtensions();
  shown(showState);
  scopes.offer(store.listed(files).flatMap(({ text }) => keysIn(text)));
  if (failure) throw failure;
}

// Tells the engine lines again, and shows the trace of all and the last press.
function tellAgain(again) {
  const traces = [];
  let last = [null];
  for (const line of again) {
    const record = tell(line);
    if (record) traces.push(record.trace);
    if (record && isPress(line)) last = [record, line, lines.length - 1];
  }
  showTrace(traces);
  showRecord(...last);
}

// Loads the files behind a change, and keeps them.
function reload(again) {
  load(again);
  keep();
}

// Tells the engine an event. Returns its record, or null if it was none.
function tell(line) {
  if (!engine) {
    say("The files don't load: see Problems.", true);
    return null;
  }
  // (as a script, each event is a line)
  const record = /[\r\n]/.test(line) ? null : engine.line(line);
  if (!record || record.trace.startsWith("unread line")) return null;
  lines.push(line);
  if (!record.refusal) follow(line, record);
  return record;
}

// Follows what an event changed: the open chord, the focus and the context keys.
function follow(line, record) {
  const [name] = line.split(" ");
  if (name === "key") chord = record.kind === "chording" ? record.chord : "";
  if (name === "focus" || name === "enable" || name === "disable") chord = "";
  context.follow(line, record);
}

// Whether an event presses a key, or chooses a command as a press does.
const isPress = (line) => /^(key|choose) /.test(line);

// Shows what became of an event. What a press found stays until the next one.
function show(line, record) {
  if (isPress(line)) showRecord(record, line, lines.length - 1);
  showTrace([record.trace]);
}

function showTrace(traces) {
  at("trace").append(...traces.slice(-MOST_LINES));
  while (at("trace").childNodes.length > MOST_LINES) at("trace").firstChild.remove();
  at("trace").scrollTop = at("trace").scrollHeight;
}

// Tells the engine an event of the user's, and shows what became of it. `why` says why the line isn't read.
function told(line, spoken, why = `“${line}” is no event: a name has a space.`) {
  return tried(() => {
    const record = tell(line);
    if (!record) {
      if (engine) throw new Error(why);
      return;
    }
    show(line, record);
    showState();
    keep();
    say(spoken(record), record.refusal !== null);
  });
}

// Presses the keys of a text: one, or those of a chord.
function press(text) {
  if (!engine) return tell("");
  const keys = text.split(" ").filter(Boolean);
  if (keys.length === 0) return say("This is no key. A key is such as ctrl+s.", true);
  return tried(() => {
    const said = keys.map(pressOne);
    say(said.at(-1));
  });
}

// Presses a key, and returns what became of it as a sentence.
function pressOne(key) {
  const line = `key ${key}`, record = tell(line);
  if (!record) throw new Error(`${key} is no key of rules.`);
  flash(key);
  show(line, record);
  showState();
  keep();
  const what = record.kind === "started" ? `${record.command || "no command"}, ` : "";
  const more = record.kind === "chording" ? ` It goes on with ${counted(continuations.count, "key")}.` : "";
  return `${record.chord}: ${what}${resultOf(record)}.${more} ${spokenText(engine.text)}`;
}

function keep() {
  if (isLinked) history.replaceState(null, "", location.pathname + location.search);
  isLinked = false;
  const isKept = store.keep({ files, lines });
  if (!isKept && !isFull) say("This browser has no room to keep the files.", true);
  isFull = !isKept;
}

// What a refusal means, with the name that it adds.
function meaningOf({ number, name, detail }) {
  const meaning = (FAULTS.get(number)?.[1] ?? name).replaceAll(/ \(the line adds [^)]*\)/g, "");
  return detail === undefined ? meaning : `${meaning} (${detail})`;
}

function resultOf(record) {
  if (record.refusal) return `refused: ${meaningOf(record.refusal)}`;
  if (record.chord && record.kind === "nothing") return "no rule matches";
  if (record.kind === "chording") return "a chord is open";
  // (if runCommands isn't done, its last step isn't)
  const step = record.ending === "done" ? null : record.step;
  return step ? `${step.command}: ${ENDINGS[record.ending]}` : ENDINGS[record.ending];
}

// Shows what a press or a choice found, or that there was none. So many lines were told before it.
function showRecord(record, line = "", before = 0) {
  const isStarted = record?.kind === "started";
  at("chord").textContent = record?.chord || "–";
  at("result").textContent = record ? resultOf(record) : "–";
  at("command").textContent = isStarted ? record.command || "(none: the key is taken)" : "–";
  at("arguments").textContent = record?.argumentsJson ?? "–";
  showRule(record?.rule);
  why.show(line.startsWith("key ") ? { key: line.slice("key ".length), before } : null);
}

// The file of a source, with its title and text, or null.
function fileOf(source) {
  const id = store.idOf(files, source);
  return store.listed(files).find((it) => it.id === id) ?? null;
}

function showRule(rule) {
  const file = rule && fileOf(rule.source), text = file && withLineFeeds(file.text);
  const place = file && (rulesOf(text, file.id.startsWith("manifest"))[rule.place] ?? null);
  const where = place && `${file.title}, line ${lineAt(text, place.begin)}`;
  const shown = place ? link(where, () => showFile(file.id, place)) : rule?.source ?? "–";
  at("rule").replaceChildren(shown);
  at("rule-text").hidden = !place;
  at("rule-text").textContent = place ? text.slice(place.begin, place.end) : "";
}

// A button that shows a place of keycheck's, or its path where it is in no file.
function linkTo(place) {
  if (!place.line) return place.path;
  return link(`${place.path}, line ${place.line}`, () => showPlace(place));
}

function showPlace({ path, line, column }) {
  const { id, text } = store.listed(files).find(({ title }) => title === path);
  showFile(id, rangeOf(withLineFeeds(text), line, column));
}

// Shows a file, and selects a place in it.
function showFile(id, place) {
  at("file").value = id;
  showSource();
  if (!place) return at("source").focus();
  const source = at("source"), before = lineAt(source.value, place.begin) - 1;
  source.focus();
  source.setSelectionRange(place.begin, place.end);
  source.scrollTop = Math.max(0, (before - 4) * parseFloat(getComputedStyle(source).lineHeight));
}

function showFiles() {
  const id = at("file").value, all = store.listed(files);
  at("file").replaceChildren(...all.map((it) => element("option", it.title, { value: it.id })));
  at("file").value = all.some((it) => it.id === id) ? id : "user";
  at("platform").value = files.platform;
  showSource();
}

function showSource() {
  const { title, text } = store.listed(files).find((it) => it.id === at("file").value);
  at("source-label").textContent = `Text of ${title}`;
  if (at("source").value !== text) at("source").value = text;
  const isManifest = at("file").value.startsWith("manifest");
  at("remove").textContent = isManifest ? "Remove this extension" : "Remove this file";
  at("remove").disabled = text === "" && !isManifest;
}

function showExtensions() {
  at("extensions-heading").hidden = !engine || files.extensions.length === 0;
  at("extensions").replaceChildren(...(engine ? files.extensions : []).map(({ manifest }) => {
    const name = identifier(manifest), label = document.createElement("label");
    const box = element("input", "", { type: "checkbox", checked: true });
    box.onchange = () => {
      const word = box.checked ? "enable" : "disable";
      told(`${word} ${name}`, (record) => {
        if (record.refusal) box.checked = !box.checked;
        return `${word} ${name}: ${resultOf(record)}.`;
      });
    };
    label.append(box, ` ${name} is enabled`);
    return item(label);
  }));
}

function showState() {
  showText();
  at("open").textContent = chord || "–";
  scopes.show(context);
  const next = engine && chord ? engine.continuations() : [], entries = engine?.entries ?? [];
  continuations.show(next.map((key) => ({ key, taken: engine.lookUp(key) })));
  palette.show(entries.map((it) => ({ ...it, keys: engine.keysOf(it.command)[0] ?? "" })));
}

// The text, and the caret in it.
function showText() {
  if (isComposing) return;
  const { before, after } = engine?.text ?? { before: "", after: "" }, text = at("text");
  if (text.value !== before + after) text.value = before + after;
  const place = before.length;
  if (text.selectionStart !== place || text.selectionEnd !== place) text.setSelectionRange(place, place);
}

// Takes files, each with its path and text, and says how many there were.
function take(given) {
  if (given.length === 0) throw new Error("There is no JSON file. Drop JSON files, or folders with them.");
  const { files: taken, left } = store.taken(files, given);
  remember();
  files = taken;
  showFiles();
  reload();
  const found = `${counted(given.length - left.length, "file")} loaded`;
  const more = left.length > 0 ? ` Left out: ${left.join(", ")}.` : "";
  say(`${found}, with ${counted(problems.count, "problem")}.${more}`, !engine);
}

async function takeFiles(given) {
  const found = store.wanted(await given);
  take(await Promise.all(found.map(async ({ file, path }) => ({ path, text: await store.textOf(file) }))));
}

function takePasted(text) {
  const name = store.nameOfPasted(read(text));
  if (!name) throw new Error("The text is no file of rules, layout, package.json or handlers.json.");
  const last = files.extensions.at(-1)?.folder ?? "extension";
  const folder = name === "package.json" ? identifier(text) : last;
  take([{ path: name === "package.json" || name === "handlers.json" ? `${folder}/${name}` : name, text }]);
}

const flash = makeKeyboard(at("keyboard"), press);
const palette = new Palette({
  list: (query) => told(query ? `palette ${query}` : "palette",
    () => `${counted(engine.entries.length, "command")} found.`),
  choose: (number) => told(`choose ${number}`, (record) => {
    const what = `${record.command || "no command"}, ${resultOf(record)}`;
    return record.refusal ? `${resultOf(record)}.` : `${what}. ${spokenText(engine.text)}`;
  }),
});
const continuations = new Continuations(press), problems = new Problems(showPlace);
const why = new Why({
  explain: ({ key, before }) => checks.explain(key, lines.slice(0, before)), linkTo, tried,
});
const scopes = new Scopes({
  focus: (scope) => told(`focus ${scope}`, (record) => `Focus ${scope}: ${resultOf(record)}.`),
  set: (scope, key, value) => {
    const why = /\s/.test(scope + key) ? undefined : `${value} ${NO_VALUE}`;
    const spoken = (record) => `${key} set in ${scope}: ${resultOf(record)}.`;
    return told(`set ${scope} ${key} ${value}`, spoken, why);
  },
  unset: (scope, key) => told(`unset ${scope} ${key}`,
    (record) => `${key} unset in ${scope}: ${resultOf(record)}.`),
  wrong: (text) => say(text, true),
});

function listenToKeys() {
  const text = at("text");
  text.addEventListener("keydown", (event) => {
    if (event.shiftKey && event.key === "Escape") {
      event.preventDefault();
      at("key").focus();
      return;
    }
    const key = keystroke(event);
    if (key === null) return;
    event.preventDefault();
    press(key);
  });
  // Only the engine changes the text. The text of an input method is no key press, and is removed again.
  text.addEventListener("beforeinput", (event) => event.preventDefault());
  text.addEventListener("compositionstart", () => { isComposing = true; });
  text.addEventListener("compositionend", (event) => {
    isComposing = false;
    showText();
    if (event.data) say(`“${event.data}” is no key press. Turn the input method off to press keys.`, true);
  });
  for (const name of ["focus", "input", "keyup"]) text.addEventListener(name, showText);
  addEventListener("mouseup", showText);
  at("press").addEventListener("submit", (event) => {
    event.preventDefault();
    press(at("key").value.trim());
  });
}

function listenToFiles() {
  at("file").onchange = showSource;
  at("source").addEventListener("input", () => {
    store.change(files, at("file").value, at("source").value);
    clearTimeout(late);
    late = setTimeout(() => tried(() => reload(lines)), PAUSE);
  });
  at("platform").onchange = () => tried(() => {
    files.platform = at("platform").value;
    reload(lines);
  });
  at("add").onclick = () => tried(() => {
    const name = store.newName(files);
    const contributes = { keybindings: [] };
    const manifest = `${JSON.stringify({ publisher: "me", name, contributes }, null, 2)}\n`;
    take([{ path: `${name}/package.json`, text: manifest }]);
    showFile(`manifest ${files.extensions.length - 1}`);
  });
  at("remove").onclick = () => tried(() => {
    const [name, number] = at("file").value.split(" ");
    remember();
    if (name === "manifest") files.extensions.splice(Number(number), 1);
    else store.change(files, at("file").value, "");
    showFiles();
    reload();
    say(name === "manifest" ? "The extension is removed." : "The file is removed.");
  });
}

// Files come by a choice, a drop or a paste.
function listenToGivenFiles() {
  for (const pick of [at("pick"), at("pick-folder")]) {
    pick.addEventListener("change", () => {
      const given = [...pick.files].map((file) => ({ file, path: file.webkitRelativePath || file.name }));
      pick.value = "";
      tried(() => takeFiles(given));
    });
  }
  addEventListener("dragover", (event) => {
    event.preventDefault();
    document.body.classList.add("dropping");
  });
  addEventListener("dragleave", () => document.body.classList.remove("dropping"));
  addEventListener("drop", (event) => {
    event.preventDefault();
    document.body.classList.remove("dropping");
    const entries = [...event.dataTransfer.items].map((it) => it.webkitGetAsEntry()).filter(Boolean);
    tried(() => takeFiles(Promise.all(entries.map(store.filesIn)).then((found) => found.flat())));
  });
  addEventListener("paste", (event) => {
    if (event.target.closest?.("input, textarea")) return;
    event.preventDefault();
    tried(() => takePasted(event.clipboardData.getData("text/plain")));
  });
}

// Shows a state of files and lines.
function showAll(state) {
  files = state.files;
  showFiles();
  load(state.lines);
}

// Keeps the state, so that the button goes back to it.
function remember(state = { files, lines }) {
  store.keepBefore(state);
  at("back").hidden = store.before() === null;
}

function change(state, said) {
  remember();
  showAll(state);
  keep();
  say(said);
}

function listenToState() {
  at("share").onclick = () => tried(async () => {
    history.replaceState(null, "", `#${await store.toLink({ files, lines })}`);
    isLinked = true;
    const length = location.href.length;
    // (a page that isn't secure has no clipboard)
    const isCopied = await navigator.clipboard?.writeText(location.href).then(() => true, () => false);
    say(`The link is ${isCopied ? "copied" : "in the address bar"}: ${counted(length, "character")}.`);
  });
  at("over").onclick = () => tried(() => change({ files: store.firstFiles(), lines: [] }, "Started over."));
  at("back").onclick = () => tried(() => change(store.before(), "These are the files before."));
  addEventListener("hashchange", () => tried(start));
}

// Shows the state of the link, or the one that this browser keeps. That of a link is kept when it changes.
async function start() {
  const given = location.hash.slice(1), own = store.kept();
  const shared = given ? await store.fromLink(given).catch(() => null) : null;
  isLinked = given !== "";
  const before = shared && own && !store.isSame(shared, own) ? own : store.before();
  if (before) remember(before);
  showAll(shared ?? own ?? { files: store.firstFiles(), lines: [] });
  if (given && !shared) say("The link is broken: its end may be missing.", true);
}

listenToKeys();
listenToFiles();
listenToGivenFiles();
listenToState();
try {
  pafjirn = await instantiate();
  checks = new Checks(pafjirn.keycheck());
  await tried(start);
  document.documentElement.dataset.ready = "";
} catch (wrong) {
  say(`The engine can't start: ${wrong.message}`, true);
}
