// What a call can throw.

/** The answers of include/pafjirn.h. tools/check-wasm compares them. */
export const ANSWERS = {
  DONE: 0, OUT_OF_ORDER: 1, UNKNOWN: 2, REFUSED: 3, NO_MEMORY: 5, NO_TEXT: 6, NOT_FOUND: 7, BAD_ARGUMENTS: 8,
  NO_KEY: 10, STOPPED: 97, TRAPPED: 103,
};
/** The number of what the header doesn't have: the module itself trapped. */
export const DEAD = 200;

const ERRORS = new Map([
  [ANSWERS.OUT_OF_ORDER, ["OutOfOrder", "files come before the load, and events after it"]],
  [ANSWERS.UNKNOWN, ["Unknown", "the engine is disposed of, or a number stands for nothing"]],
  [ANSWERS.REFUSED, ["Refused", "the load or the call is refused"]],
  [ANSWERS.NO_MEMORY, ["NoMemory", "memory is refused; an engine that was loaded is stopped"]],
  [ANSWERS.NO_TEXT, ["NoText", "the bytes aren't UTF-8"]],
  [ANSWERS.NO_KEY, ["NoKey", "the text is no key, such as ctrl+s"]],
  [ANSWERS.STOPPED, ["Stopped", "an event before stopped the engine: load another one"]],
  [ANSWERS.TRAPPED, ["Trapped", "a handler couldn't go on, which stopped the engine"]],
  [DEAD, ["Dead", "the module trapped: instantiate it again"]],
]);

/** A call that did nothing, or that stopped the engine. `number` is that of the answer, and `name` its name.
 * */
export class EngineError extends Error {
  constructor(number, { message, cause } = {}) {
    const [name, reason] = ERRORS.get(number) ?? ["Unknown", `the answer ${number}`];
    super(message || reason, cause && { cause });
    this.name = name;
    this.number = number;
  }
}

/** A load that is refused. `fault` has the file, and the number and the name of the fault (docs/FAULTS.md).
 * */
export class LoadRefused extends EngineError {
  constructor(notice) {
    super(ANSWERS.REFUSED, { message: notice });
    this.name = "LoadRefused";
    const found = /^load refused: (.+?) (\d+) (\w+)(?: (.*))?$/s.exec(notice) ?? [];
    const [, file = "", number = "0", name = "", detail] = found;
    this.fault = { file, number: Number(number), name, ...(detail === undefined ? {} : { detail }) };
  }
}
