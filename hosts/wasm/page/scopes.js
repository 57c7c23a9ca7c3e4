// The scopes, with a button for the focus, and a control for each context key.

import { json, read } from "./places.js";
import { at, element } from "./shown.js";

const isTruth = (value) => value === "true" || value === "false";

/** The list of scopes, and the form for other keys. `focus`, `set` and `unset` tell the engine, and `wrong`
 * says what can't be told. The value of a key is JSON. */
export class Scopes {
  #box = at("scopes");
  #told;
  #context = null;
  #shape = "";

  constructor(told) {
    this.#told = told;
    const withKey = (act) => {
      const key = at("set-key").value.trim();
      if (!key || /\s/.test(key)) told.wrong("A key is a word without spaces.");
      else act(at("set-scope").value, key);
    };
    at("set").addEventListener("submit", (event) => {
      event.preventDefault();
      withKey((scope, key) => told.set(scope, key, valueOf(at("set-value").value.trim() || "true")));
    });
    at("unset").addEventListener("click", () => withKey(told.unset));
  }

  /** Offers keys for a new one. */
  offer(keys) {
    const names = [...new Set(keys)].sort();
    at("known-keys").replaceChildren(...names.map((value) => element("option", "", { value })));
  }

  /** Shows the scopes. The elements are made again only if the scopes, keys or kinds of values changed. The
   * focused element keeps the focus. */
  show(context) {
    this.#context = context;
    const kinds = (keys) => [...keys].map(([key, value]) => [key, isTruth(value)]);
    const scopes = [...context.values].map(([scope, keys]) => [scope, kinds(keys)]);
    const shape = JSON.stringify([scopes, [...context.parents]]);
    const controls = () => [...this.#box.querySelectorAll("[data-control]")];
    if (this.#shape !== shape) {
      this.#shape = shape;
      const focused = document.activeElement?.dataset?.control;
      this.#make([...context.values.keys()]);
      if (focused) controls().find((it) => it.dataset.control === focused)?.focus();
    }
    for (const one of controls()) one.update();
  }

  #make(names) {
    const chosen = at("set-scope").value;
    this.#box.replaceChildren(...names.map((scope) => this.#scopeBox(scope)));
    at("set-scope").replaceChildren(...names.map((name) => element("option", name)));
    if (names.includes(chosen)) at("set-scope").value = chosen;
  }

  #scopeBox(scope) {
    const parent = this.#context.parents.get(scope), made = document.createElement("fieldset");
    made.append(element("legend", parent ? `${scope} (in ${parent})` : scope));
    const keys = [...this.#context.values.get(scope).keys()];
    made.append(this.#focusButton(scope), ...keys.map((key) => this.#control(scope, key)));
    return made;
  }

  #focusButton(scope) {
    const onclick = () => this.#told.focus(scope);
    const button = element("button", "Focus", { type: "button", onclick });
    button.setAttribute("aria-label", `Focus ${scope}`);
    button.dataset.control = JSON.stringify([scope]);
    button.update = () => button.setAttribute("aria-pressed", this.#context.focus === scope);
    return button;
  }

  #control(scope, key) {
    const isBox = isTruth(this.#context.values.get(scope).get(key));
    const input = element("input", "", { type: isBox ? "checkbox" : "text" });
    let isWritten = false;
    input.dataset.control = JSON.stringify([scope, key]);
    // (text that the user is typing stays until it is told)
    input.oninput = () => { isWritten = !isBox; };
    input.onchange = () => {
      isWritten = false;
      this.#told.set(scope, key, isBox ? String(input.checked) : valueOf(input.value));
      // (if the engine refused the value, the old one is shown again)
      input.update();
    };
    input.update = () => {
      const value = this.#context.values.get(scope)?.get(key);
      if (isBox) input.checked = value === "true";
      else if (!isWritten) input.value = value;
    };
    const label = element("label", "");
    label.append(...(isBox ? [input, key] : [key, input]));
    return label;
  }
}

// A text as JSON on one line: its own, or that of the text itself if it is none.
function valueOf(text) {
  try {
    JSON.parse(text);
    return json(read(text));
  } catch {
    return JSON.stringify(text);
  }
}
