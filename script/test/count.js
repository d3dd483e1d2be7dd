// Counts what the guard finds on generated gate scripts: count.js [COUNT [SEED [TRIALS]]]. The counts stand in docs/DIFFERENCES.md.
'use strict';

const { build } = require('../src/build');
const { guard } = require('../guard/guard');
const { TITLES } = require('../guard/classify');
const { ScriptTrouble } = require('../src/trouble');
const { gateScript } = require('./gate_scripts');

const [count = 1000, seed = 1, trials = 60] = process.argv.slice(2).map(Number);

function outcomeOf(text) {
  try {
    const { root, answer } = build(text, {});
    return guard(root, answer.tree, { seed, trials });
  } catch (error) {
    if (error instanceof ScriptTrouble) return null;
    throw error;
  }
}

const totals = { changed: 0, differ: 0, refused: 0 };
const classes = new Map();
const example = new Map();
for (let i = 0; i < count; i++) {
  const text = gateScript(seed * 1000000 + i);
  const outcome = outcomeOf(text);
  totals.refused += outcome === null;
  totals.changed += Boolean(outcome && outcome.changes);
  totals.differ += Boolean(outcome && outcome.findings.length);
  for (const number of new Set((outcome ? outcome.findings : []).map((finding) => finding.number))) {
    classes.set(number, (classes.get(number) || 0) + 1);
    if (!example.has(number) || text.length < example.get(number).length) example.set(number, text);
  }
  if (process.stderr.isTTY) process.stderr.write(`\r${i + 1} of ${count}`);
}
const { refused, changed, differ } = totals;
console.log(`${count} scripts (seed ${seed}, ${trials} trials each): ${refused} refused, ${changed} changed, ${differ} whose result does something else`);
for (const number of [...classes.keys()].sort((a, b) => a - b)) console.log(`class ${number}, ${TITLES[number]}: ${classes.get(number)}`);
if (process.env.SHOW) for (const [number, text] of example) console.log(`--- class ${number}\n${text}`);
