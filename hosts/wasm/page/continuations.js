// The keys with which an open chord goes on now: each is a button that presses it, with what it starts.

import { at, element, line as item } from "./shown.js";

/** The list of keys. `press` presses one. */
export class Continuations {
  #press;
  #shown = "[]";
  #count = 0;

  constructor(press) {
    this.#press = press;
  }

  /** Shows keys, each with what a press of it would take. The focus stays among the keys, or goes to the next
   * element. */
  show(keys) {
    const found = keys.map(({ key, taken }) => ({ key, starts: startsOf(taken) }));
    const text = JSON.stringify(found);
    this.#count = found.length;
    if (text === this.#shown) return;
    this.#shown = text;
    const hasFocus = at("continuations").contains(document.activeElement);
    at("continuations").replaceChildren(...found.map((it) => this.#itemOf(it)));
    at("next").hidden = found.length === 0;
    if (hasFocus) (at("continuations").querySelector("button") ?? at("why-summary")).focus();
  }

  /** The number of keys. */
  get count() {
    return this.#count;
  }

  #itemOf({ key, starts }) {
    const button = element("button", "", { type: "button", onclick: () => this.#press(key) });
    button.append(element("kbd", key), ` ${starts}`);
    return item(button);
  }
}

// What a press starts.
function startsOf({ kind, command }) {
  return kind === "chording" ? "more keys" : command || "no command";
}
