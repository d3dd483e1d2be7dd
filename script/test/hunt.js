// Looks for results that are shown and differ: hunt.js [COUNT [SEED [RUNS]]]. Generated scripts beside the pass's results, and beside wrong ones, each at every level at which it is shown, as scripts of a page
// (page.js) against hosts that do all that the level allows. The counts stand in docs/SCRIPT.md.
'use strict';

const fs = require('fs');
const { changesOf } = require('../src/changes');
const { textOfTree } = require('../src/result_text');
const { ScriptTrouble } = require('../src/trouble');
const { checkResult } = require('../same/check');
const { LEVELS } = require('../same/levels');
const { denseScript } = require('./dense_scripts');
const { gateScript } = require('./gate_scripts');
const { resultsOf } = require('./many_results');
const { ownScript } = require('./own_scripts');
const { Page } = require('./page');
const { pageScript } = require('./page_scripts');
const { patternScript } = require('./pattern_scripts');
const { Random } = require('./random');
const { wrongResult } = require('./wrong_results');

const CHUNK = 500;
const SORTS = [pageScript, gateScript, pageScript, denseScript, ownScript, pageScript, patternScript];

class Hunt {
  constructor(seed, runs) {
    Object.assign(this, { seed, runs, scripts: 0, refused: 0, wrong: [] });
    this.counts = { pass: this.noCounts(), random: this.noCounts() };
  }

  noCounts() { return { changed: 0, levels: new Map(LEVELS.map(({ name }) => [name, { shown: 0, run: 0, differ: 0 }])) }; }

  // `whose` result it is: the pass's or a random one. What is not shown at the highest level is shown at none. At the least level at which it is shown
  // all runs are made, since its hosts may do what those of the others do; at one of the others one more.
  look(whose, { text, root, result }) {
    if (!changesOf(root, result).length) return;
    const counts = this.counts[whose];
    counts.changed += 1;
    if (!checkResult(root, result, LEVELS.at(-1).name).shown) return;
    const page = new Page(root, result);
    const shown = LEVELS.map(({ name }) => name).filter((name) => checkResult(root, result, name).shown);
    const others = shown.slice(1);
    const runs = new Map([[shown[0], this.runs], ...(others.length ? [[others[this.scripts % others.length], 1]] : [])]);
    for (const name of shown) counts.levels.get(name).shown += 1;
    for (const [name, count] of runs) {
      const differs = page.difference(name, count, this.seed * 1000 + (this.scripts % 1000));
      counts.levels.get(name).run += 1;
      if (!differs) continue;
      counts.levels.get(name).differ += 1;
      this.wrong.push({ whose, level: name, text, result: textOfTree(result).text, differs });
    }
  }

  // Some wrong results are no JavaScript.
  tryLook(whose, script) {
    try {
      this.look(whose, script);
    } catch (error) {
      if (!(error instanceof SyntaxError || error instanceof ScriptTrouble)) throw error;
    }
  }

  chunk(first, count) {
    const texts = Array.from({ length: count }, (_, index) => SORTS[(first + index) % SORTS.length](this.seed * 10000000 + first + index));
    const built = resultsOf(texts);
    this.refused += count - built.length;
    built.forEach((script, index) => {
      this.scripts += 1;
      this.tryLook('pass', script);
      const result = wrongResult(script.root, new Random(this.seed * 7777777 + first + index));
      if (result) this.tryLook('random', { ...script, result });
    });
  }

  summaryOf(whose) {
    const { changed, levels } = this.counts[whose];
    return `${changed} changed (shown ${[...levels].map(([name, { shown, run, differ }]) => `${name} ${shown}, run ${run}, different ${differ}`).join('; ')})`;
  }

  summary() { return `${this.scripts} scripts, ${this.refused} refused; results of the pass: ${this.summaryOf('pass')}; random results: ${this.summaryOf('random')}; shown and different: ${this.wrong.length}`; }
}

function hunt(count, { seed, runs }, say = () => {}) {
  const all = new Hunt(seed, runs);
  for (let first = 0; first < count; first += CHUNK) {
    all.chunk(first, Math.min(CHUNK, count - first));
    say(all);
  }
  return all;
}

if (require.main === module) {
  const [count = 2000, seed = 1, runs = 6] = process.argv.slice(2).map(Number);
  let told = 0;
  const all = hunt(count, { seed, runs }, (found) => {
    fs.writeSync(2, `${found.summary()}\n`);
    for (; told < Math.min(found.wrong.length, 10); told++) console.log(JSON.stringify(found.wrong[told], null, 1));
  });
  console.log(all.summary());
  process.exitCode = all.wrong.length ? 1 : 0;
}

module.exports = { hunt };
