// The module with a memory that can't grow without end: a maximum is written into its section of memories.
import assert from 'node:assert/strict';
import { moduleBytes } from './helper.mjs';

const MEMORIES = 5; // the section's number

/** The number at a place, as WebAssembly writes numbers, and the place behind it. */
function numberAt(at) {
  let value = 0;
  for (let scale = 1; ; scale *= 128) {
    const byte = moduleBytes[at];
    at += 1;
    value += (byte & 127) * scale;
    if (byte < 128) return [value, at];
  }
}

function written(value) {
  const bytes = [];
  for (; value > 127; value = Math.floor(value / 128)) bytes.push(value % 128 + 128);
  return [...bytes, value];
}

/** The module with a memory of at most so many pages of 64 KiB. */
export function bounded(pages) {
  for (let at = 8; at < moduleBytes.length;) {
    const [size, begin] = numberAt(at + 1);
    if (moduleBytes[at] === MEMORIES) {
      const [count, flags] = moduleBytes.subarray(begin, begin + 2);
      assert.deepEqual([count, flags & 1], [1, 0]); // one memory, without a maximum
      const [least] = numberAt(begin + 2);
      assert.ok(least <= pages, `the memory begins with ${least} pages`);
      const section = [1, flags | 1, ...written(least), ...written(pages)];
      const bytes = Buffer.from([MEMORIES, ...written(section.length), ...section]);
      return Buffer.concat([moduleBytes.subarray(0, at), bytes, moduleBytes.subarray(begin + size)]);
    }
    at = begin + size;
  }
  throw new Error('the module has no memory');
}
