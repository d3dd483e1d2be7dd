// Preloaded by a test: the script `slow.js` takes two seconds and more to open, and `ends.js` ends the thread that opens it.
'use strict';

const fs = require('fs');
const path = require('path');
const { isMainThread } = require('worker_threads');

const open = fs.openSync;

fs.openSync = (file, ...rest) => {
  if (path.basename(String(file)) === 'slow.js') Atomics.wait(new Int32Array(new SharedArrayBuffer(4)), 0, 0, 4500);
  if (path.basename(String(file)) === 'ends.js' && !isMainThread) process.exit(7);
  return open(file, ...rest);
};
