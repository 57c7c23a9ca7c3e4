// The problems of the files: those of one file together, errors first. Each is a button that shows its line.

import { at, counted, element, line as item, link } from "./shown.js";

const SEVERITIES = ["error", "warning", "note"];
// The most problems that are shown.
const MOST = 500;

/** The list of problems. `show` shows a place of a file. */
export class Problems {
  #show;
  #all = [];

  constructor(show) {
    this.#show = show;
    at("notes").onchange = () => this.#update();
  }

  /** Shows the problems of files with these titles. */
  show(problems, titles) {
    const order = (one, other) => severity(one) - severity(other)
      || titles.indexOf(one.path) - titles.indexOf(other.path)
      || one.line - other.line || one.column - other.column;
    this.#all = [...problems].sort(order);
    const notes = problems.length - this.count;
    at("notes-label").hidden = notes === 0;
    at("notes-count").textContent = `${counted(notes, "note")} too`;
    this.#update();
  }

  /** The number of errors and warnings. */
  get count() {
    return this.#all.filter((it) => it.severity !== "note").length;
  }

  #update() {
    const found = at("notes").checked ? this.#all : this.#all.slice(0, this.count), files = new Map();
    for (const it of found.slice(0, MOST)) files.set(it.path, [...(files.get(it.path) ?? []), it]);
    at("no-problems").hidden = found.length > 0;
    at("problems").replaceChildren(...[...files].flatMap((it) => this.#ofFile(...it)));
    const more = found.length - MOST;
    if (more > 0) at("problems").append(element("p", `${counted(more, "problem")} more.`));
  }

  #ofFile(path, problems) {
    const list = document.createElement("ul");
    list.append(...problems.map((it) => this.#itemOf(it)));
    return [element("h4", path), list];
  }

  #itemOf(problem) {
    const { line, column, kind, severity: word, message } = problem;
    const text = `${word}: ${message}`, show = () => this.#show(problem);
    const made = item(line ? link(`Line ${line}, column ${column}, ${text}`, show) : text);
    made.classList.toggle("refused", kind === "refused");
    return made;
  }
}

function severity(problem) {
  return SEVERITIES.indexOf(problem.severity);
}
