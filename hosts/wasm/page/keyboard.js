// The picture of a keyboard: each key is a button. One of them is in the order of the Tab key, and the arrows
// go to the others.

const ROWS = [
  ["escape", "f1", "f2", "f3", "f4", "f5", "f6", "f7", "f8", "f9", "f10", "f11", "f12"],
  ["`", "1", "2", "3", "4", "5", "6", "7", "8", "9", "0", "-", "=", "backspace"],
  ["tab", "q", "w", "e", "r", "t", "y", "u", "i", "o", "p", "[", "]", "\\"],
  ["capslock", "a", "s", "d", "f", "g", "h", "j", "k", "l", ";", "'", "enter"],
  ["shift", "z", "x", "c", "v", "b", "n", "m", ",", ".", "/", "up", "insert"],
  ["ctrl", "meta", "alt", "space", "left", "down", "right"],
  ["home", "end", "pageup", "pagedown", "delete", "pausebreak"],
];
const HELD = ["ctrl", "shift", "alt", "meta"];
const FACES = {
  escape: "Esc", backspace: "⌫", tab: "Tab", capslock: "Caps", enter: "Enter", space: "Space", ctrl: "Ctrl",
  shift: "Shift", alt: "Alt", meta: "Meta", left: "←", up: "↑", down: "↓", right: "→", pageup: "PgUp",
  pagedown: "PgDn", insert: "Ins", delete: "Del", home: "Home", end: "End", pausebreak: "Pause",
};
const SPOKEN = {
  "`": "backquote", "-": "minus", "=": "equals", "[": "left bracket", "]": "right bracket", "\\": "backslash",
  ";": "semicolon", "'": "quote", ",": "comma", ".": "period", "/": "slash", escape: "escape",
  backspace: "backspace", left: "left", up: "up", down: "down", right: "right", pageup: "page up",
  pagedown: "page down", insert: "insert", delete: "delete", capslock: "caps lock",
};
const WIDE = new Set(["backspace", "tab", "capslock", "enter", "ctrl", "shift", "alt", "meta"]);
// How long the picture shows which key was pressed.
const SHOWN = 300;

/** Makes the buttons in an element. A click calls `press` with the text of the keystroke. Returns a function
 * that shows that a key was pressed. */
export function makeKeyboard(board, press) {
  const rows = ROWS.map((names) => names.map(buttonOf)), all = rows.flat(), held = new Set();
  const update = () => {
    for (const button of all) {
      const { key } = button.dataset;
      if (HELD.includes(key)) button.setAttribute("aria-pressed", held.has(key));
    }
  };
  for (const row of rows) {
    const line = document.createElement("div");
    line.append(...row);
    board.append(line);
  }
  all[0].tabIndex = 0;
  update();
  board.addEventListener("click", (event) => {
    const name = event.target.closest("button")?.dataset.key;
    if (!name) return;
    if (!HELD.includes(name)) {
      press([...HELD.filter((it) => held.has(it)), name].join("+"));
      held.clear();
    } else if (!held.delete(name)) {
      held.add(name);
    }
    update();
  });
  board.addEventListener("focusin", (event) => {
    for (const button of all) button.tabIndex = button === event.target ? 0 : -1;
  });
  board.addEventListener("keydown", (event) => {
    const next = neighbour(rows, event.target, event.key);
    if (!next) return;
    event.preventDefault();
    next.focus();
  });
  return (keystroke) => flash(all, keystroke);
}

function buttonOf(name) {
  const button = document.createElement("button");
  Object.assign(button, { type: "button", tabIndex: -1, textContent: FACES[name] ?? name.toUpperCase() });
  button.dataset.key = name;
  if (SPOKEN[name]) button.setAttribute("aria-label", SPOKEN[name]);
  if (WIDE.has(name)) button.className = "wide";
  if (name === "space") button.className = "widest";
  return button;
}

// The button beside, above or below one.
function neighbour(rows, button, key) {
  const row = rows.findIndex((it) => it.includes(button)), at = rows[row]?.indexOf(button);
  if (row < 0) return null;
  const beside = (other) => Math.min(other.length - 1, Math.round((at * other.length) / rows[row].length));
  const within = (other) => other && other[beside(other)];
  const found = {
    ArrowLeft: () => rows[row][at - 1], ArrowRight: () => rows[row][at + 1],
    ArrowUp: () => within(rows[row - 1]), ArrowDown: () => within(rows[row + 1]),
    Home: () => rows[row][0], End: () => rows[row].at(-1),
  }[key];
  return found?.() ?? null;
}

function flash(all, keystroke) {
  // (the key "-" may end the text)
  const [, held, name] = /^((?:[^+-]+[+-])*)(.+)$/s.exec(keystroke.toLowerCase());
  const names = [name, ...held.split(/[+-]/).map((it) => (it === "cmd" || it === "win" ? "meta" : it))];
  const buttons = all.filter((it) => names.includes(it.dataset.key));
  for (const button of buttons) button.classList.add("pressed");
  setTimeout(() => buttons.forEach((it) => it.classList.remove("pressed")), SHOWN);
}
