// Counts verdicts on generated gate scripts: measure.js [COUNT [SEED]]. With GUARD the guard is asked, too; with RUNS=N each result is run N times at each level, as scripts of a page, and those that no
// run tells from their scripts count as right. The counts stand in docs/SCRIPT.md.
'use strict';

const { changesOf } = require('../src/changes');
const { guard } = require('../guard/guard');
const { checkResult } = require('../same/check');
const { keepShown } = require('../same/keep');
const { LEVELS } = require('../same/levels');
const { gateScript } = require('./gate_scripts');
const { resultsOf } = require('./many_results');
const { Page } = require('./page');

const [count = 1000, seed = 1] = process.argv.slice(2).map(Number);
const CHUNK = 250;
const totals = { scripts: 0, changed: 0, changes: 0, longest: 0, time: 0, differ: 0, shownAndDiffer: 0 };
const levels = new Map(LEVELS.map(({ name }) => [name, { shown: 0, kept: 0, right: 0, rightShown: 0 }]));

// Processor time in milliseconds.
const now = () => {
  const { user, system } = process.cpuUsage();
  return (user + system) / 1000;
};

// Verdict and kept changes at a level, with the time of the verdict.
function atLevel(name, root, result) {
  const start = now();
  const { shown } = checkResult(root, result, name);
  const time = now() - start;
  totals.time += time;
  totals.longest = Math.max(totals.longest, time);
  const sums = levels.get(name);
  sums.shown += shown;
  sums.kept += keepShown(root, result, name).kept;
  return shown;
}

function runAtLevels(root, result, shown) {
  const page = new Page(root, result);
  LEVELS.forEach(({ name }, index) => {
    if (page.difference(name, Number(process.env.RUNS), 1)) return;
    levels.get(name).right += 1;
    levels.get(name).rightShown += shown[index];
  });
}

function measure({ root, result }) {
  const changes = changesOf(root, result).length;
  if (!changes) return;
  totals.changed += 1;
  totals.changes += changes;
  const shown = LEVELS.map(({ name }) => atLevel(name, root, result));
  if (process.env.RUNS) runAtLevels(root, result, shown);
  if (!process.env.GUARD) return;
  const differs = guard(root, result, { seed: 1, trials: 60 }).findings.length > 0;
  totals.differ += differs;
  totals.shownAndDiffer += differs && shown.includes(true);
}

for (let first = 0; first < count; first += CHUNK) {
  const texts = Array.from({ length: Math.min(CHUNK, count - first) }, (_, index) => gateScript(seed * 1000000 + first + index));
  totals.scripts += texts.length;
  resultsOf(texts).forEach(measure);
}
const { scripts, changed, changes, longest, time, differ, shownAndDiffer } = totals;
const mean = (time / changed / LEVELS.length).toFixed(2);
const part = (some, whole) => `(${(100 * some / whole).toFixed(1)} %)`;
console.log(`${scripts} scripts, ${changed} changed, ${changes} changes; ${mean} ms for a script and level, at most ${longest.toFixed(0)} ms`);
for (const [name, { right, rightShown }] of process.env.RUNS ? levels : []) console.log(`${name}: ${right} right in ${process.env.RUNS} runs, of these ${rightShown} shown ${part(rightShown, right)}`);
for (const [name, { shown, kept }] of levels) console.log(`${name}: ${shown} shown ${part(shown, changed)}, ${kept} changes kept ${part(kept, changes)}`);
if (process.env.GUARD) console.log(`found different by the guard: ${differ}, of these shown at a level: ${shownAndDiffer}`);
