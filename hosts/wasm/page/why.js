// Why the last press did what it did: each rule that it passed over, with its line and the reason, the one
// that it took, and those that were removed or dropped.

import { json, plain, read } from "./places.js";
import { at, counted, line as item } from "./shown.js";

// How long the page waits behind a press, so that the press is shown first, and of many presses only the
// last one is explained.
const PAUSE = 30;
// The most rules that are shown.
const MOST = 200;

/** The list of reasons. `explain` returns what keycheck writes of a press, `linkTo` a button for a place, and
 * `tried` does work and reports why it fails. */
export class Why {
  #given;
  #press = null;
  #late = 0;

  constructor(given) {
    this.#given = given;
    at("why").addEventListener("toggle", () => this.#updateLate());
  }

  /** Explains a press if the list is open, or says that there is none. */
  show(press) {
    this.#press = press;
    at("why").hidden = press === null;
    this.#updateLate();
  }

  #updateLate() {
    clearTimeout(this.#late);
    const isWanted = this.#press !== null && at("why").open;
    at("reasons").setAttribute("aria-busy", isWanted);
    if (isWanted) this.#late = setTimeout(() => this.#given.tried(() => this.#update()), PAUSE);
  }

  #update() {
    at("reasons").setAttribute("aria-busy", false);
    const [first, ...rest] = this.#given.explain(this.#press).map((it) => read(it).members);
    const isChord = plain(first.get("does")) === "chord", found = rest.filter((it) => it.has("rule"));
    const items = found.slice(0, MOST).map((it) => this.#itemOf(it, isChord));
    if (found.length > MOST) items.push(item(`${counted(found.length - MOST, "rule")} more`));
    at("reasons").replaceChildren(...items);
    at("no-reasons").hidden = items.length > 0;
  }

  #itemOf(members, isChord) {
    const { keys = "", command, when, place } = plain(members.get("rule"));
    const what = [keys, command === "" ? "(no command)" : command, when === undefined ? "" : `when ${when}`];
    const text = what.filter(Boolean).join(" "), by = plain(members.get("by"));
    const why = `${text && `${text}: `}${reasonOf(members, isChord)}`;
    return item(this.#given.linkTo(place), `: ${why}`, ...(by ? [this.#given.linkTo(by)] : []));
  }
}

// The reason of a verdict.
function reasonOf(members, isChord) {
  const verdict = plain(members.get("verdict"));
  if (verdict === "taken") return isChord ? "is taken, and has more keystrokes" : "is taken";
  if (verdict === "removed") return "is removed, by ";
  if (verdict === "disabled") return "its extension isn't enabled";
  if (verdict === "dropped") {
    return `is dropped, for ${plain(members.get("number"))} ${plain(members.get("name"))}`;
  }
  const what = verdict === "clause" ? "its clause fails" : "its command's enablement fails";
  return `${what}: ${whyItFails(members.get("because").members)}`;
}

function whyItFails(because) {
  const reads = because.get("reads").items.map(({ members }) => valueOf(members));
  if (reads.length === 0) return "it is false in every context";
  const literal = plain(because.get("literal"));
  if (because.has("unread")) return `${literal} never holds: its pattern isn't supported`;
  return `${literal} doesn't hold: ${reads.join("; ")}`;
}

// The value of a key that a literal reads. (A number of 64 bits stays as it is written.)
function valueOf(members) {
  const key = plain(members.get("key")), unseen = members.get("unseen");
  if (unseen) {
    const value = wordsOf(unseen.members.get("value")), scope = plain(unseen.members.get("scope"));
    return `${key} is ${value} in scope ${scope}, which the focus doesn't see`;
  }
  if (!members.has("value")) return `${key} has no value`;
  return `${key} is ${wordsOf(members.get("value"))}, in scope ${plain(members.get("scope"))}`;
}

function wordsOf(value) {
  const names = value.members?.get("members");
  return names ? `an object with the members ${json(names)}` : json(value);
}
