// An example that the types have to accept, and misuses that they have to refuse.

import { Engine, EngineError, Keycheck, LoadRefused, instantiate, keycheck, keystroke } from "pafjirn";
import type { Checked, EventRecord, Files, Found, Json } from "pafjirn";

const files: Files = {
  user: '[{ "key": "ctrl+h", "command": "my.own", "args": [1, "a", null] }]',
  layout: new TextEncoder().encode('{ "scopes": [{ "name": "window" }] }'),
  extensions: [{ manifest: '{ "name": "e" }' }],
  platform: "mac",
};

export async function example(page: { addEventListener: typeof addEventListener }): Promise<string> {
  const engine: Engine = await Engine.load(files);
  const undo: () => void = engine.command("my.own", (args: Json | undefined, record: EventRecord) => {
    if (Array.isArray(args)) console.log(args.length, record.chord);
  });
  page.addEventListener("keydown", (event: KeyboardEvent) => {
    const record: EventRecord | null = engine.press(event);
    if (record?.isUsed) event.preventDefault();
  });
  const { ending, command, rule, refusal, trace } = engine.press("ctrl+h");
  const values = [true, 1, 2n ** 40n, "a", ["a", "b"], { a: 1 }];
  for (const value of values) engine.setContext("window", "k", value);
  const labels: string[] = engine.palette("a").map(({ number, label }) => `${number}. ${label}`);
  const said = `${ending} ${command} ${rule?.source} ${rule?.place} ${refusal?.number} ${trace} ${labels}`;
  undo();
  engine[Symbol.dispose]();
  return said;
}

export async function problems(rules: ArrayBuffer): Promise<string> {
  const checks: Keycheck = await keycheck(), other: Keycheck = (await instantiate()).keycheck();
  checks.put("keybindings.json", rules);
  checks.put("events", "key a");
  const { status, output, errors }: Checked = checks.run("check", "--user", "keybindings.json");
  const nothing: void = checks.remove("keybindings.json");
  checks.dispose();
  other[Symbol.dispose]();
  return `${status + 1} ${output} ${errors} ${nothing}`;
}

export function hints(engine: Engine, event: KeyboardEvent): string[] {
  const { kind, command, rule, isUsed }: Found = engine.lookUp("ctrl+h");
  const found: Found | null = engine.lookUp(event);
  const next: string[] = engine.continuations().map((key) => `${key}: ${engine.lookUp(key).command}`);
  const said = `${kind} ${command} ${rule?.place} ${isUsed} ${found?.chord}`;
  return [said, ...engine.keysOf("my.own"), ...next];
}

export function lastStep({ step }: EventRecord): string {
  return step === null ? "" : `${step.number + 1}. ${step.command}`;
}

export async function errors(bytes: ArrayBuffer): Promise<number> {
  const pafjirn = await instantiate(bytes);
  try {
    pafjirn.load({ user: "{" }).dispose();
  } catch (error) {
    if (error instanceof LoadRefused) return error.fault.number;
    if (error instanceof EngineError && error.name === "NoMemory") return error.number;
    throw error;
  }
  return pafjirn.bytesInUse;
}

export function misuses(engine: Engine): void {
  // @ts-expect-error: an engine is loaded, and not made
  new Engine();
  // @ts-expect-error: no such platform
  void Engine.load({ platform: "beos" });
  // @ts-expect-error: an event may be no press of a key
  engine.press({} as KeyboardEvent).trace;
  // @ts-expect-error: no value of a context key
  engine.setContext("window", "k", null);
  // @ts-expect-error: records can't be changed
  engine.press("a").command = "";
  // @ts-expect-error: an event may have no step
  engine.press("a").step.number;
  // @ts-expect-error: a look-up has no ending
  engine.lookUp("a").ending;
  // @ts-expect-error: keycheck is made by a call
  new Keycheck();
  // @ts-expect-error: the words of a command line are texts
  void keycheck().then((it) => it.run("check", 5));
  // @ts-expect-error: a file has a text
  void keycheck().then((it) => it.put("keybindings.json"));
  const held = { ctrlKey: false, shiftKey: false, altKey: false, metaKey: false };
  const name: string | null = keystroke({ key: "a", code: "KeyA", ...held });
  console.log(name);
}
