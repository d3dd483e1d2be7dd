// Asks the guard in a process of its own, with limits of memory and time: whatever a script does there, this program and the files after it go on.
'use strict';

const { spawnSync } = require('child_process');
const path = require('path');

const CHILD = path.join(__dirname, 'child.js');
const HEAP = '--max-old-space-size=400';
const MOST_TIME = 120000;
const MOST_OUTPUT = 1 << 24;
// Buffers are no part of the heap, so all memory is limited, too (in kilobytes; node itself reserves a good part of it).
const LIMITED = 'ulimit -v 4000000 2>/dev/null; ulimit -c 0 2>/dev/null; exec "$0" "$@"';

const plain = ({ kind, form, text, bits, children }) => ({ kind, form, text, bits: String(bits), children: children.map(plain) });

function failedBy({ error, signal, status }) {
  if (error && error.code === 'ETIMEDOUT') return 'it took too long';
  if (error && error.code === 'ENOBUFS') return 'it found too much';
  return signal || status ? 'it ran out of memory, or was ended' : 'it gave no answer';
}

function parsed(text) {
  try {
    return JSON.parse(text);
  } catch {
    return null;
  }
}

// `about` has the script's name and text. An outcome that failed has the reason in words.
function guardApart(tree, { name, text }, { seed, trials, samples }) {
  const input = JSON.stringify({ name, text, tree: plain(tree), seed, trials, samples });
  const limits = { input, encoding: 'utf8', timeout: MOST_TIME, killSignal: 'SIGKILL', maxBuffer: MOST_OUTPUT };
  const answer = spawnSync('/bin/sh', ['-c', LIMITED, process.execPath, HEAP, CHILD], limits);
  const outcome = answer.status === 0 ? parsed(answer.stdout) : null;
  return outcome || { failed: failedBy(answer), trials: 0, unjudged: 0, differing: 0, neverRan: [], findings: [] };
}

module.exports = { guardApart };
