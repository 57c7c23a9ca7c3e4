// What keycheck says of the page's files (docs/KEYCHECK.md): what is wrong in them, and why a press did what
// it did. It has the files in memory, each at the path that is its title.

import { isThere, listed } from "./files.js";

// The path of the events as a script. No file of the page has it.
const SCRIPT = "events";
// The words for the systems.
const PLATFORMS = { linux: "linux", mac: "mac", windows: "win" };

/** The program keycheck over the files that it took last. */
export class Checks {
  #keycheck;
  #titles = [];
  #options = [];
  #folders = [];

  constructor(keycheck) {
    this.#keycheck = keycheck;
  }

  /** Takes files in the place of those before. */
  take(files) {
    const there = listed(files).filter(isThere), own = there.filter(({ id }) => !id.includes(" "));
    for (const title of this.#titles) this.#keycheck.remove(title);
    for (const { title, text } of there) this.#keycheck.put(title, text);
    this.#titles = there.map(({ title }) => title);
    const options = own.flatMap(({ id, title }) => [`--${id}`, title]);
    this.#options = [...options, "--platform", PLATFORMS[files.platform]];
    this.#folders = files.extensions.map(({ folder }) => folder);
  }

  /** The problems of all files, those that are notes too. */
  problems() {
    const lines = this.#run("check", ["--only", "all", "--level", "note"]);
    return lines.map((it) => JSON.parse(it)).filter(({ message }) => message);
  }

  /** Why a press of a key does what it does behind these events: a line of JSON for what it does, for each
   * rule, and for its trace. */
  explain(key, events) {
    return this.#run("explain", this.#script(events), key);
  }

  #script(events) {
    this.#keycheck.put(SCRIPT, events.join("\n"));
    return ["--script", SCRIPT];
  }

  // The lines that a command writes.
  #run(command, options, ...words) {
    const rest = ["--", ...words, ...this.#folders];
    const ran = this.#keycheck.run(command, "--json", ...this.#options, ...options, ...rest);
    // (the status of a check that found problems is 1)
    if (ran.status > 1) throw new Error(`keycheck: ${ran.errors.trim()}`);
    return ran.output.split("\n").filter(Boolean);
  }
}
