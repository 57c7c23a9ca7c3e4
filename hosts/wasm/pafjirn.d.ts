// The types of pafjirn.js, and what its calls answer and throw.

/** A text, or its bytes in UTF-8. Bytes that aren't UTF-8 are a fault of a file. */
export type Text = string | Uint8Array | ArrayBuffer | ArrayBufferView;

export type Platform = "linux" | "mac" | "windows";

/** A value of JSON. */
export type Json = null | boolean | number | string | Json[] | { [name: string]: Json };

/** The value of a context key. Of an object only the names of its members matter. */
export type ContextValue =
  boolean | number | bigint | string | readonly string[] | { readonly [name: string]: unknown };

/** The files of an extension. */
export interface ExtensionFiles {
  /** Its `package.json`. */
  readonly manifest: Text;
  /** Its `handlers.json`, if it has one. */
  readonly handlers?: Text;
}

/** The files of a load. docs/FORMATS.md describes them. */
export interface Files {
  /** The scopes. Without them there is one, `window`. */
  readonly layout?: Text;
  /** The default rules. */
  readonly defaults?: Text;
  /** The user's rules: `keybindings.json`. */
  readonly user?: Text;
  /** In load order. */
  readonly extensions?: readonly ExtensionFiles[];
  /** The system whose keys count in extensions; without it `linux`. */
  readonly platform?: Platform;
}

/** How an event ended. `not found`: the command is none of the engine's, so the host runs it. */
export type Ending = "done" | "refused" | "not found" | "bad arguments";

/** A fault (docs/FAULTS.md). */
export interface Fault {
  readonly number: number;
  readonly name: string;
  readonly detail?: string;
}

/** What a press of a key took, or would take. */
export interface Found {
  /** `chording`: the press opened a chord, or went on with one. */
  readonly kind: "nothing" | "chording" | "started";
  /** The keystrokes of the open chord and of the press. */
  readonly chord: string;
  /** The command that started. */
  readonly command: string;
  /** The arguments of its rule, or undefined without arguments. A number beyond 2^53 is rounded. */
  readonly arguments: Json | undefined;
  /** The same as JSON, which rounds nothing; null without arguments. */
  readonly argumentsJson: string | null;
  /** The file of the rule (`defaults`, `user`, or the identifier of an extension) and the number of elements
   * above it there; null without a rule. */
  readonly rule: { readonly source: string; readonly place: number } | null;
  /** Of a press: whether the key is used up. Otherwise the host gives it to the text, as VS Code does. */
  readonly isUsed: boolean;
}

/** What an event did. Only key presses and choices start commands. */
export interface EventRecord extends Found {
  readonly ending: Ending;
  /** The last step of `runCommands` that began, with its number from 1; null if no list ran. Those above it
   * ran, and those below it didn't. */
  readonly step: { readonly number: number; readonly command: string } | null;
  /** Why the event was refused. */
  readonly refusal: Fault | null;
  /** The command of the host that ran (`Engine.command`). */
  readonly ranBy: string | null;
  /** The lines that the event added to the trace, each with its line feed. */
  readonly trace: string;
}

/** An entry of the palette. */
export interface Entry {
  /** Its number for `choose`, from 1. */
  readonly number: number;
  readonly label: string;
  readonly command: string;
}

/** What `keystroke` reads of a `keydown` event. */
export interface KeyPress {
  readonly key: string;
  readonly code: string;
  readonly ctrlKey: boolean;
  readonly shiftKey: boolean;
  readonly altKey: boolean;
  readonly metaKey: boolean;
  readonly isComposing?: boolean;
  readonly keyCode?: number;
}

/** A call that did nothing, or that stopped the engine. */
export class EngineError extends Error {
  /** Behind `NoMemory`, `Stopped` and `Trapped` the engine is stopped (but where a look-up is refused memory,
   * or there is no room for a long text that is passed, it is as before); behind `Dead` no engine of the
   * module works any more. Behind all others it is as before. */
  readonly name:
    | "OutOfOrder" | "Unknown" | "Refused" | "LoadRefused" | "NoMemory" | "NoText" | "NoKey" | "Stopped"
    | "Trapped" | "Dead";
  /** The number of the answer in include/pafjirn.h; 200 for `Dead`. */
  readonly number: number;
  /** Of `Trapped`: the trace of the event. */
  readonly trace?: string;
}

/** A load that is refused. */
export class LoadRefused extends EngineError {
  readonly name: "LoadRefused";
  /** The fault and its file, as `user` or `ext 0 package.json`. */
  readonly fault: Fault & { readonly file: string };
}

declare global {
  // (older libraries of TypeScript lack it; newer ones declare the same)
  interface SymbolConstructor {
    readonly dispose: unique symbol;
  }
}

/** An engine that is loaded. Dispose of it, or let it go: then its memory is given back some time later. Each
 * call throws EngineError for what went wrong. */
export class Engine {
  private constructor();
  /** Loads an engine of files. Throws LoadRefused if a file is refused. All engines that are loaded by this
   * share the memory of one module, which is pafjirn.wasm beside pafjirn.js. */
  static load(files?: Files): Promise<Engine>;
  /** The warnings of the load, a line each: `warning NUMBER SOURCE PART PLACE`. */
  readonly warnings: readonly string[];
  /** Presses a key: `ctrl+s`. */
  press(key: string): EventRecord;
  /** Presses the key of a `keydown` event. Returns null for an event that is no press of a key. */
  press(key: KeyPress): EventRecord | null;
  /** Presses a key without making a record, and without running a function of the host. */
  pressQuietly(key: string): Ending;
  /** Gives the focus to a scope, which ends an open chord. */
  focus(scope: string): EventRecord;
  /** Sets a context key of a scope. */
  setContext(scope: string, key: string, value: ContextValue): EventRecord;
  /** Removes a context key from a scope. */
  unsetContext(scope: string, key: string): EventRecord;
  /** The entries of the palette that a query finds. The empty query finds all. */
  palette(query?: string): Entry[];
  /** The entries of the last palette, until one is chosen. */
  readonly entries: Entry[];
  /** Chooses an entry of the last palette, by its number. */
  choose(number: number): EventRecord;
  /** What a press of a key would take now, behind the keystrokes of the open chord. Nothing is pressed, and
   * the trace stays. */
  lookUp(key: string): Found;
  /** The same for the key of a `keydown` event. Returns null for an event that is no press of a key. */
  lookUp(key: KeyPress): Found | null;
  /** The keystrokes that start a command in the present context, without an open chord, those of the lowest
   * rule first, each once. The first is what a menu shows. The rules of `runCommands` don't count for the
   * commands in their lists. */
  keysOf(command: string): string[];
  /** The keystrokes that go on from those of the open chord, or the first keystrokes of rules if no chord is
   * open, those of the lowest rule first, each once. No other key finds anything. `lookUp` says what a press
   * of each would take. */
  continuations(): string[];
  /** Enables an extension. */
  enable(identifier: string): EventRecord;
  /** Disables an extension. */
  disable(identifier: string): EventRecord;
  /** Gives an extension the handlers of a `handlers.json`, which are verified first. */
  update(identifier: string, handlers: Text): EventRecord;
  /** Replaces the user's rules. */
  reload(user: Text): EventRecord;
  /** Has the engine do what a line of a script says (docs/FORMATS.md). */
  line(text: Text): EventRecord;
  /** Has a function run when a press or a choice starts a command that the engine lacks, with the arguments
   * of the rule. A command of the engine's own, as `type`, is taken over, unless a handler calls it: that
   * throws `Refused`. Of `runCommands` the step runs that the engine lacks, and those behind it don't.
   * Returns a function that undoes all this. */
  command(name: string, run: (args: Json | undefined, record: EventRecord) => void): () => void;
  /** The text before the caret, and behind it. */
  readonly text: { readonly before: string; readonly after: string };
  /** What the last event added to the trace. */
  readonly trace: string;
  /** Ends the engine and gives its memory back. Any later call but this throws `Unknown`. */
  dispose(): void;
  [Symbol.dispose](): void;
}

/** How a run of keycheck ended, and what it wrote (docs/KEYCHECK.md). */
export interface Checked {
  /** The exit status. */
  readonly status: number;
  /** Standard output. */
  readonly output: string;
  /** Standard error. */
  readonly errors: string;
}

/** The program keycheck over files in memory. Dispose of it, or let it go. */
export class Keycheck {
  private constructor();
  /** Puts a file at a path, in the place of the one before. A path is looked for as it is spelled; an
   * extension in the folder `notes` has notes/package.json and perhaps notes/handlers.json. */
  put(path: string, text: Text): void;
  /** Removes the file at a path, if there is one. */
  remove(path: string): void;
  /** Runs keycheck by the words of a command line, without the program's name, over the files, which stay. */
  run(...words: string[]): Checked;
  /** Ends it and gives its memory back. Any later call but this throws `Unknown`. */
  dispose(): void;
  [Symbol.dispose](): void;
}

/** The program keycheck, without files, in the module of `Engine.load`. */
export function keycheck(): Promise<Keycheck>;

/** A module in memory. Its engines share its memory, and nothing else. */
export class Pafjirn {
  private constructor();
  /** Loads an engine of files. Throws LoadRefused if a file is refused. */
  load(files?: Files): Engine;
  /** The program keycheck, without files. */
  keycheck(): Keycheck;
  /** How many bytes of the module's memory are in use. */
  readonly bytesInUse: number;
  /** How many bytes of memory the module has. It never becomes less. */
  readonly bytesOfMemory: number;
  /** The error that ended the module, or null. Then no call works. */
  readonly dead: Error | null;
}

/** What `instantiate` takes: the module at a URL, in a response, as bytes, or compiled. */
export type Source = string | URL | Response | BufferSource | WebAssembly.Module;

/** Makes a module in memory. Without a source it is pafjirn.wasm beside pafjirn.js. */
export function instantiate(source?: Source | Promise<Source>): Promise<Pafjirn>;

/** The text of a `keydown` event, such as `ctrl+shift+p`, or null for what is no press of a key: a modifier
 * alone, or a step of an input method. */
export function keystroke(event: KeyPress): string | null;
