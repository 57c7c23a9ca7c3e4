// Tests the heap of a module for tests: blocks of random sizes are taken, changed in size and given back, and
// no two of them overlap. Each keeps its bytes. With all given back the heap is as before.
//
//     node heap.js CALLS [SEED]

import { compiled, is, pafjirn as all, report, watched } from "./shared.js";

const [calls, seed = "1"] = process.argv.slice(2).map(Number);
const LEAST = 16, HEADER = 16n, MOST_BLOCKS = 300;
let state = Number(seed) || 1;

// A number from 0 up to a bound, by xorshift.
function random(bound) {
  state ^= state << 13;
  state ^= state >>> 17;
  state ^= state << 5;
  return (state >>> 0) % bound;
}

// A size: often small, at times large, and each power of two with its neighbours.
function size() {
  const kind = random(10);
  if (kind < 6) return random(200);
  if (kind < 8) return random(5000);
  if (kind === 8) return 2 ** random(16) + random(3) - 1;
  return random(200_000);
}

const seen = watched();
const pafjirn = await all.instantiate(compiled());
const { pafjirn_room: take, pafjirn_give_back: giveBack, pafjirn_resize: resize } = seen.exports;
const { pafjirn_refuse: refuse, memory } = seen.exports;
const before = pafjirn.bytesInUse, blocks = [], wrong = [];
const bytes = (at, length) => new Uint8Array(memory.buffer, Number(at), length);

// The bytes of a block are those of its number.
function fill({ at, length, number }, from = 0) {
  bytes(at, length).fill(number & 255, from);
}

function isWhole({ at, length, number }, most = length) {
  return Buffer.compare(bytes(at, most), Buffer.alloc(most, number & 255)) === 0;
}

function check(is, what) {
  if (!is && wrong.length < 5) wrong.push(what);
}

for (let number = 1; number <= calls; number++) {
  const place = random(blocks.length || 1), block = blocks[place];
  const kind = random(8) + (blocks.length > MOST_BLOCKS ? 4 : 0);
  if (kind < 4 || !block) {
    const length = size(), at = take(BigInt(length));
    check(at !== 0n && at % 16n === 0n, `${number}: no block of ${length} bytes, or at ${at}`);
    const made = { at, length, number };
    check(isWhole({ ...made, number: 0 }), `${number}: a new block has bytes`);
    fill(made);
    blocks.push(made);
  } else if (kind < 6) {
    const length = size() || 1, least = Math.min(length, block.length);
    const isRefused = random(20) === 0;
    if (isRefused) refuse(1n);
    const at = resize(block.at, BigInt(least), BigInt(length));
    if (isRefused) {
      refuse(0n);
      check(at === 0n, `${number}: a call isn't refused`);
      check(isWhole(block), `${number}: a block that stays has other bytes`);
    } else {
      Object.assign(block, { at, length });
      check(at !== 0n && isWhole(block, least), `${number}: a block that was resized has other bytes`);
      fill(block);
    }
  } else {
    check(isWhole(block), `${number}: a block has other bytes`);
    giveBack(block.at);
    blocks[place] = blocks.at(-1);
    blocks.pop();
  }
  if (number % 5000 === 0) checkAll(number);
}

// No block overlaps the next one with its header, and the heap counts them all.
function checkAll(number) {
  const sorted = blocks.toSorted((one, other) => Number(one.at - other.at));
  const apart = sorted.every((it, place) => place === 0
    || sorted[place - 1].at + BigInt(Math.max(sorted[place - 1].length, LEAST)) + HEADER <= it.at);
  check(apart, `${number}: blocks overlap`);
  check(blocks.every((it) => isWhole(it)), `${number}: a block has other bytes`);
  const least = blocks.reduce((sum, it) => sum + it.length + Number(HEADER), 0);
  const used = pafjirn.bytesInUse - before;
  check(used >= least && used <= least + blocks.length * 64, `${number}: ${used} bytes in use, for ${least}`);
}

for (const { at } of blocks) giveBack(at);
is(`${calls} calls`, wrong, []);
is("bytes in use at the end", pafjirn.bytesInUse, before);
const most = pafjirn.bytesOfMemory;
const large = take(BigInt(most >> 1));
is("half of the memory in one block", [large !== 0n, pafjirn.bytesOfMemory], [true, most]);
is("more than there can be", [take(1n << 31n), take(1n << 45n), take((1n << 64n) - 1n)], [0n, 0n, 0n]);
giveBack(large);
report();
