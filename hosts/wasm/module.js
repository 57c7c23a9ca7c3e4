// The WebAssembly module in memory: its calls, the texts that are passed to it, and those that are read.
//
// Pointers and lengths are numbers of 64 bits in the module, so they are BigInt here.

import { ANSWERS, DEAD, EngineError } from "./errors.js";

// The bytes of the room for texts. A text that is longer gets a room of its own, up to the next call.
const ROOM = 16384;
// The bytes behind that room for the texts of keys, and the most that one of them takes there.
const KEYS = 8192, KEY = 64;
// A handle is a pointer and a truth value.
const HANDLE = 16;

/** What only the modules of this package hand to constructors. */
export const OF_MODULE = Symbol("the constructor's secret");

/** An instance of pafjirn.wasm. Its engines share its memory, and nothing else. */
export class Module {
  #exports;
  // The functions of the library, by their names without the prefix.
  #calls;
  // Bytes in the memory of the module, for texts that are passed and read.
  #room;
  // The keys that are pressed are few: the text of each is written once, for speed, until the room is full.
  #keys = new Map();
  #keysEnd = 0;
  #large = 0n;
  #bytes = new Uint8Array();
  #dead = null;
  #encoder = new TextEncoder();
  #decoder = new TextDecoder("utf-8", { ignoreBOM: true });
  // Engines that were let go give their memory back.
  #left = new FinalizationRegistry((handle) => this.#release(handle));

  constructor(instance) {
    this.#exports = instance.exports;
    const calls = Object.entries(this.#exports);
    this.#calls = Object.fromEntries(calls.map(([name, call]) => [name.replace(/^pafjirn_/, ""), call]));
    this.#room = this.#newRoom(ROOM + KEYS);
  }

  /** The error that ended the module, or null. */
  get dead() {
    return this.#dead;
  }

  /** The number of bytes of its memory. */
  get size() {
    return this.#exports.memory.buffer.byteLength;
  }

  /** Calls a function of the library. A trap, as of a stack that is too small, may leave half of the writes
   * of a call in memory, so no call follows it. (The module refuses one too.) */
  call(name, ...given) {
    if (this.#dead) throw new EngineError(DEAD, { cause: this.#dead });
    try {
      return this.#calls[name](...given);
    } catch (trap) {
      this.#dead = trap;
      throw new EngineError(DEAD, { cause: trap });
    }
  }

  /** Writes texts and bytes into the memory, one behind another. Returns a place and a length for each. */
  passed(texts) {
    const lengthOf = (all) => all.reduce((sum, it) => sum + it.length, 0);
    const isLong = 3 * lengthOf(texts) > ROOM;
    const encoded = (it) => (typeof it === "string" ? this.#encoder.encode(it) : it);
    const given = isLong ? texts.map(encoded) : texts;
    this.forgetTexts();
    const room = isLong ? (this.#large = this.#newRoom(lengthOf(given))) : this.#room;
    const memory = this.#memory(), places = [];
    let at = Number(room);
    for (const text of given) {
      let { length } = text;
      if (typeof text === "string") length = this.#encoder.encodeInto(text, memory.subarray(at)).written;
      else memory.set(text, at);
      places.push(BigInt(at), BigInt(length));
      at += length;
    }
    return places;
  }

  /** The place and the length of the text of a key in the memory. */
  passedKey(key) {
    if (this.#large) this.forgetTexts();
    return this.#keys.get(key) ?? this.#newKey(key);
  }

  #newKey(key) {
    if (3 * key.length > KEY) return this.passed([key]);
    if (this.#keysEnd + KEY > KEYS) {
      this.#keys.clear();
      this.#keysEnd = 0;
    }
    const at = Number(this.#room) + ROOM + this.#keysEnd;
    const { written } = this.#encoder.encodeInto(key, this.#memory().subarray(at, at + KEY));
    this.#keysEnd += written;
    const place = [BigInt(at), BigInt(written)];
    this.#keys.set(key, place);
    return place;
  }

  /** Gives back the memory of long texts that were passed. */
  forgetTexts() {
    if (this.#large) this.call("give_back", this.#large);
    this.#large = 0n;
  }

  /** A text that the library copies in pieces, and whose whole length it returns. */
  read(name, ...given) {
    const room = Number(this.#room);
    let text = "";
    for (let from = 0; ;) {
      const length = Number(this.call(name, ...given, BigInt(from), this.#room, BigInt(ROOM)));
      const end = Math.min(length, from + ROOM);
      if (end > from) {
        const bytes = this.#memory().subarray(room, room + end - from);
        text += this.#decoder.decode(bytes, { stream: end < length });
      }
      if (end >= length) return text;
      from = end;
    }
  }

  /** A handle with a new engine. The object that owns it gives it back at its end. */
  newHandle(owner) {
    const handle = this.#newRoom(HANDLE);
    const answer = this.call("new", handle);
    if (answer !== ANSWERS.DONE) {
      this.call("give_back", handle);
      throw new EngineError(answer);
    }
    this.#left.register(owner, handle, owner);
    return handle;
  }

  /** Ends the engine of a handle. */
  endHandle(owner, handle) {
    if (!this.#dead) this.forgetTexts();
    this.#left.unregister(owner);
    this.#release(handle);
  }

  // (the memory of a dead module goes with it)
  #release(handle) {
    if (this.#dead) return;
    this.call("free", handle);
    this.call("give_back", handle);
  }

  // The bytes of the memory. When it grew, the old ones are gone.
  #memory() {
    const { buffer } = this.#exports.memory;
    if (this.#bytes.buffer !== buffer) this.#bytes = new Uint8Array(buffer);
    return this.#bytes;
  }

  #newRoom(size) {
    const made = this.call("room", BigInt(size));
    if (!made) throw new EngineError(ANSWERS.NO_MEMORY);
    return made;
  }
}

/** The bytes of what is given, or the text. */
export function bytesOf(text) {
  if (typeof text === "string" || text instanceof Uint8Array) return text;
  if (text instanceof ArrayBuffer) return new Uint8Array(text);
  if (ArrayBuffer.isView(text)) return new Uint8Array(text.buffer, text.byteOffset, text.byteLength);
  throw new TypeError("give a text, or bytes");
}
