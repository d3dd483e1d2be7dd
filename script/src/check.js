// Many files: lines for each, a summary, and an exit status for a build.
'use strict';

const { scriptsOf } = require('./input');
const { write } = require('./output');
const { round } = require('./round');
const { legendLines } = require('./short');
const { worstOf } = require('./status');
const { summaryOf } = require('./verdict');

// What the verdicts mean, and the summary, the worst first.
function endLines(entries) {
  const legend = legendLines(entries.map(({ short }) => short), entries.map(({ sort }) => sort));
  return [...legend, `${entries.length} ${entries.length === 1 ? 'script' : 'scripts'}: ${summaryOf(entries.map(({ status }) => status))}`];
}

const textOf = (lines) => lines.map((line) => `${line}\n`).join('');

// The worst outcome decides.
async function check(options) {
  const kept = [];
  // A file is there whole or not at all; who looks on sees each script as soon as it is done.
  const put = (lines) => (options.out ? kept.push(...lines) : write(textOf(lines)));
  const entries = await round(scriptsOf(options.files), options, ({ lines }) => put(lines));
  put(endLines(entries));
  if (options.out) write(textOf(kept), options.out, options.files);
  return worstOf(entries.map(({ sort }) => sort));
}

module.exports = { check, endLines };
