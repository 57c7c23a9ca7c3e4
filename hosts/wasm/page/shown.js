// Small elements and sentences that several parts of the page make.

const MOST_SPOKEN = 60;

/** The element with this identifier. */
export const at = (id) => document.getElementById(id);

/** An element with a text. */
export function element(name, text, members = {}) {
  return Object.assign(document.createElement(name), { textContent: text }, members);
}

/** An element of a list. */
export function line(...parts) {
  const made = document.createElement("li");
  made.append(...parts);
  return made;
}

/** A button that looks like a link. */
export function link(text, act) {
  return element("button", text, { type: "button", className: "link", onclick: act });
}

/** A number with its noun. */
export function counted(number, name) {
  return `${number} ${name}${number === 1 ? "" : "s"}`;
}

/** The text around the caret, in its line, as a sentence. */
export function spokenText(text) {
  const before = text.before.split("\n").pop().slice(-MOST_SPOKEN);
  const after = text.after.split("\n")[0].slice(0, MOST_SPOKEN);
  if (!before && !after) return "The line is empty.";
  if (!after) return `The caret is at the end of “${before}”.`;
  if (!before) return `The caret is before “${after}”.`;
  return `The caret is between “${before}” and “${after}”.`;
}
