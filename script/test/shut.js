// Preloaded by a test: a folder called `shut` may not be read, whoever asks.
'use strict';

const fs = require('fs');
const path = require('path');

const read = fs.readdirSync;

fs.readdirSync = (folder, ...rest) => {
  if (path.basename(folder) !== 'shut') return read(folder, ...rest);
  throw Object.assign(new Error(`EACCES: permission denied, scandir '${folder}'`), { code: 'EACCES', syscall: 'scandir' });
};
