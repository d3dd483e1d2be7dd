// A thread that takes one script after another: what comes is a script and its number, what goes back is what came of it.
'use strict';

const { parentPort, workerData } = require('worker_threads');
const { entryOf } = require('./entry');
const { readOptions } = require('./options');

const options = readOptions(workerData);

parentPort.on('message', ({ number, script }) => {
  try {
    parentPort.postMessage({ number, entry: entryOf(script, options) });
  } catch (error) {
    // What all scripts would have ends the round; an error's class does not come through.
    parentPort.postMessage({ number, trouble: error.message });
  }
});
