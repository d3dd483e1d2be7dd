// Tests of the static check: each rule's counterexample, what must be shown, what is kept, and that no known difference is shown.
'use strict';

const assert = require('assert');
const path = require('path');
const { build } = require('../src/build');
const { NAMED, preorder } = require('../src/kinds');
const { changesOf } = require('../src/changes');
const { textOfTree } = require('../src/result_text');
const { treeOfText } = require('../src/to_tree');
const { guard } = require('../guard/guard');
const { checkResult, leastLevel } = require('../same/check');
const { keepShown } = require('../same/keep');
const { LEVELS } = require('../same/levels');
const { ROOT, listed, read } = require('./files');
const { gateScript } = require('./gate_scripts');
const { each } = require('./harness');
const { hunt } = require('./hunt');
const { Page } = require('./page');

// A result by hand, with the script's contexts where its text could not have them.
function resultTree(text, root) {
  const tree = treeOfText(text);
  for (const node of preorder(tree)) {
    const moved = NAMED.has(node.kind) ? /^(OUT|HOST)_(.*)$/.exec(node.text) : null;
    if (!moved) continue;
    node.text = moved[2];
    if (moved[1] === 'OUT') node.bits = [...preorder(root)].find((other) => NAMED.has(other.kind) && other.text === moved[2]).bits;
  }
  return tree;
}

// A line of verdicts.txt.
function verdictOf(line) {
  const [, rule, least, differs, script, result] = /^(\S+) (\S+)\/(\S+) \| (.*?) ==> (.*)$/.exec(line);
  const root = treeOfText(script);
  return { rule, least, differs, root, result: resultTree(result, root), line };
}

// Shown from a level on and at none below it, and no run at one of these tells the two apart; where a run is known that does, it still does.
function hasVerdict({ least, differs, root, result, line }) {
  const page = new Page(root, result);
  const from = least === 'none' ? LEVELS.length : LEVELS.findIndex(({ name }) => name === least);
  LEVELS.forEach(({ name }, index) => {
    const { shown, findings } = checkResult(root, result, name);
    assert.strictEqual(shown, index >= from, `${name}: ${line}: ${findings.map(({ reason }) => reason)}`);
    if (shown) assert.strictEqual(page.difference(name, 20, 3), null, `differs at ${name}: ${line}`);
  });
  if (differs !== '-') assert.ok(page.difference(differs, 150, 3) || page.difference(differs, 150, 7), `no run differs at ${differs}: ${line}`);
}

function notShown(line) {
  const [script, result] = line.split(' ==> ');
  const root = treeOfText(script);
  for (const { name } of LEVELS) assert.strictEqual(checkResult(root, resultTree(result, root), name).shown, false, `shown at ${name}: ${line}`);
}

// Where script and result part at the global object alone.
function guardSees(line) {
  const [script, result] = line.split(' ==> ');
  const root = treeOfText(script);
  assert.ok(guard(root, treeOfText(result), { seed: 1, trials: 60 }).differing > 0, line);
}

// What decides whether a result is shown; the rest words it.
const KERNEL = 'allowed check expressions keys levels order plain run statements values variables'.split(' ');
const MOST_LINES = 1200;

// Each rule has its paragraph in the document and a counterexample here; all of them can be read in one sitting.
function testRules() {
  const verdicts = listed('verdicts.txt').map(verdictOf);
  const document = read(path.join(ROOT, 'docs', 'SAME_MEANING.md'));
  each('scripts and results with their verdicts', verdicts, hasVerdict);
  each('wrong results with patterns are not shown', listed('wrong_patterns.txt'), notShown);
  const named = [...document.matchAll(/^- \*\*([a-z-]+)\*\*/gm)].map(([, rule]) => rule);
  each('each rule has its paragraph and a result that it does not let pass', [...new Set([...named, ...verdicts.map(({ rule }) => rule)])], (rule) => {
    assert.ok(named.includes(rule), `not in docs/SAME_MEANING.md: ${rule}`);
    assert.ok(verdicts.some((verdict) => verdict.rule === rule && verdict.least !== 'anything'), `no counterexample: ${rule}`);
  });
  each('the guard sees differences in the global scope', listed('global_scope.txt'), guardSees);
  each('the kernel is small', [0], () => {
    const lines = KERNEL.map((name) => read(path.join(ROOT, 'script', 'same', `${name}.js`)).split('\n').length - 1);
    assert.ok(lines.reduce((sum, count) => sum + count) < MOST_LINES);
  });
}

// A tree with a node of an unknown kind anywhere is not shown, and nothing fails.
function unknownKind(kind) {
  const script = 'function f(p) { var a = p; g([p], { q: p }); return a; }';
  const result = 'function f(p) { var a; g([p], { q: p }); return p; }';
  const count = [...preorder(treeOfText(script))].length;
  for (let index = 1; index < count; index++) {
    const [root, tree] = [treeOfText(script), treeOfText(result)];
    const [here, there] = [root, tree].map((whole) => [...preorder(whole)][index]);
    if (!there || here.kind !== there.kind) continue;
    here.kind = there.kind = kind;
    assert.strictEqual(leastLevel(root, tree), null);
  }
}

function testUnknownKinds() {
  each('kinds that the check does not know are not shown', [45, 46, 47, 48, 49, 200], unknownKind);
}

function shownAt(line) {
  const [level, text] = line.split(' | ');
  const { root, answer } = build(text, {});
  assert.ok(changesOf(root, answer.tree).length, `unchanged: ${text}`);
  const least = leastLevel(root, answer.tree);
  assert.strictEqual(least && least.name, level, `${text}: ${checkResult(root, answer.tree, level).findings.map(({ reason }) => reason)}`);
}

function neverShown(text) {
  const { root, answer } = build(text, {});
  for (const { name } of LEVELS) assert.strictEqual(checkResult(root, answer.tree, name).shown, false, `shown at ${name}: ${text}`);
}

// The differing scripts that the oracle's tests run, but those that differ in the original alone.
function differing() {
  const groups = read(path.join(ROOT, 'oracle', 'differences', 'classes.txt')).split(/^(?=#)/m);
  const here = groups.filter((group) => !/^#.*in the original alone/.test(group));
  return here.flatMap((group) => group.split('\n')).filter((line) => line.trim() && !line.startsWith('#'));
}

function testVerdicts() {
  each('results that are shown, at which level', listed('shown.txt'), shownAt);
  each('no known difference is shown', [...listed('classes.txt'), ...listed('cores.txt'), ...differing()], neverShown);
  each('the reason in words', [0], () => {
    const { root, answer } = build('let last = 0;\non(function (level) {\n  var change = level - last;\n  last = level;\n  report(change);\n});', {});
    const { findings } = checkResult(root, answer.tree, 'plain');
    assert.ok(findings.some(({ name, line, reason }) => name === 'change' && line === 5 && reason === '`last` is written on line 4 between this value and its use'));
  });
}

// The largest scripts that the port takes, nested as deep as it goes, and with as many functions and variables.
const LARGE = [
  `function f(p) { var a = p; ${'g(a) ? '.repeat(90)}1${' : (g(2) ?? 3)'.repeat(90)}; return a; }`,
  `function f(p) { var a = p; ${'if (g()) '.repeat(25)}g(2); return a; }`,
  Array.from({ length: 60 }, (_, n) => `const a${n} = ${n}; function f${n}() { return a${n} + a${n ? n - 1 : 0}; }`).join('\n'),
  Array.from({ length: 60 }, (_, n) => `const b${n} = ${n}; while (g(b${n})) { h++; }`).join('\n'),
];

// Processor time, since a machine may have other work; the best of some, since the first ones also translate the check itself.
function isQuick(text) {
  const { root, answer } = build(text, {});
  for (const level of ['anything', 'plain']) {
    const times = Array.from({ length: 5 }, () => {
      const start = process.cpuUsage();
      checkResult(root, answer.tree, level);
      return process.cpuUsage(start).user / 1000;
    });
    assert.ok(Math.min(...times) < 50, `${level}: ${times} ms: ${text.slice(0, 60)}`);
  }
}

// What is kept is shown, printable, and no more than the pass changed; nothing is put back where all is shown.
function keeps(seed) {
  const { root, answer } = build(gateScript(seed), {});
  for (const { name } of LEVELS) {
    const { tree, kept, whole, back } = keepShown(root, answer.tree, name);
    textOfTree(tree);
    assert.ok(checkResult(root, tree, name).shown);
    assert.ok(kept <= whole);
    assert.strictEqual(checkResult(root, answer.tree, name).shown, back.length === 0);
  }
}

function testTime() {
  each('the largest scripts are checked in time', LARGE, isQuick);
}

function testKeeping() {
  each('what is kept is shown', Array.from({ length: 30 }, (_, seed) => seed), keeps);
  each('what is shown is kept, the rest put back', [0], () => {
    const { root, answer } = build('function f(p) { const n = 5; var a = p; p = 2; return a + n; }', {});
    const { tree, back } = keepShown(root, answer.tree, 'anything');
    assert.match(textOfTree(tree).text, /return a \+ 5;/);
    assert.deepStrictEqual(back.map(({ name }) => name), ['a']);
  });
}

// A sample of the hunts whose figures stand in docs/SCRIPT.md.
function testHunt() {
  each('no shown result differs in any run', [{ seed: 1, runs: 4 }], (options) => {
    const all = hunt(500, options);
    console.log(all.summary());
    assert.deepStrictEqual(all.wrong, []);
  });
}

module.exports = { testHunt, testKeeping, testRules, testTime, testUnknownKinds, testVerdicts };
