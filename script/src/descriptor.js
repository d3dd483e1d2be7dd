// Open descriptors read and written whole. One that has nothing yet, or is full, is waited for.
'use strict';

const fs = require('fs');

const WAIT = 10;
const CHUNK = 1 << 16;
// What is too long is read on to here, to tell how long it is; some inputs never end.
const MOST_COUNTED = 100000000;

const bell = new Int32Array(new SharedArrayBuffer(4));

function whenReady(act) {
  for (;;) {
    try {
      return act();
    } catch (error) {
      if (error.code !== 'EAGAIN') throw error;
      Atomics.wait(bell, 0, 0, WAIT);
    }
  }
}

// The bytes, where they are at most `most`, and how many they are; no more than `MOST_COUNTED` and a chunk are counted.
function readAll(descriptor, most) {
  const chunk = Buffer.alloc(CHUNK);
  const parts = [];
  for (let size = 0; ;) {
    const count = whenReady(() => fs.readSync(descriptor, chunk, 0, CHUNK, null));
    if (count === 0 || size > MOST_COUNTED) return { bytes: Buffer.concat(parts), size };
    size += count;
    if (size <= most) parts.push(Buffer.from(chunk.subarray(0, count)));
  }
}

function writeAll(descriptor, bytes) {
  for (let done = 0; done < bytes.length;) done += whenReady(() => fs.writeSync(descriptor, bytes, done));
}

module.exports = { MOST_COUNTED, readAll, writeAll };
