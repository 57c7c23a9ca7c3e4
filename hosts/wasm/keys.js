// The name of a key that a page was told of, as key rules spell it.

// Names of keys by their meaning (KeyboardEvent.key).
const NAMES = {
  ArrowLeft: "left", ArrowRight: "right", ArrowUp: "up", ArrowDown: "down", Home: "home", End: "end",
  PageUp: "pageup", PageDown: "pagedown", Tab: "tab", Enter: "enter", Escape: "escape", " ": "space",
  Backspace: "backspace", Delete: "delete", Insert: "insert", Pause: "pausebreak", CapsLock: "capslock",
};
// Names of keys by their place on the keyboard (KeyboardEvent.code).
const CODES = {
  Minus: "-", Equal: "=", BracketLeft: "[", BracketRight: "]", Backslash: "\\", Semicolon: ";", Quote: "'",
  Backquote: "`", Comma: ",", Period: ".", Slash: "/", Space: "space",
  NumpadMultiply: "numpad_multiply", NumpadAdd: "numpad_add", NumpadComma: "numpad_separator",
  NumpadSubtract: "numpad_subtract", NumpadDecimal: "numpad_decimal", NumpadDivide: "numpad_divide",
  Pause: "pausebreak",
};
// Modifiers, and keys that the operating system handles.
const SILENT = new Set([
  "Control", "Shift", "Alt", "Meta", "AltGraph", "Fn", "FnLock", "NumLock", "ScrollLock", "Hyper", "Super",
  "Process", "Unidentified",
]);

// The name of a key, as key rules spell it. If the layout gives a letter or sign that rules can name,
// that is the name. Otherwise, as with Shift or in Cyrillic, the place of the key decides.
function keyName(event) {
  const { key, code } = event;
  const pad = /^Numpad(\d)$/.exec(code);
  if (pad && /^\d$/.test(key)) return `numpad${pad[1]}`;
  if (NAMES[key]) return NAMES[key];
  if (code.startsWith("Numpad") && CODES[code]) return CODES[code];
  const digit = /^Digit(\d)$/.exec(code);
  if (digit) return digit[1];
  if (/^[a-z]$/i.test(key)) return key.toLowerCase();
  const letter = /^Key([A-Z])$/.exec(code);
  if (letter) return letter[1].toLowerCase();
  if (!event.shiftKey && /^[-`=[\]\\;',./]$/.test(key)) return key;
  return CODES[code] || key.toLowerCase();
}

/** The text of a `keydown` event, such as `ctrl+shift+p`, or null for what is no press of a key: a modifier
 * alone, or a step of an input method. A key that has no name in rules gives a text that `press` refuses. */
export function keystroke(event) {
  if (event.isComposing || event.keyCode === 229 || SILENT.has(event.key)) return null;
  if (event.key === "Dead" && !CODES[event.code]) return null;
  const held = [
    event.ctrlKey && "ctrl", event.shiftKey && "shift", event.altKey && "alt", event.metaKey && "meta",
  ];
  return [...held.filter(Boolean), keyName(event)].join("+");
}
