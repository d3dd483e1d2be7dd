// Tests of what is said of rows 8 and 9: which limit was met. The counted steps behind it are held to the stored vectors and to the port.
'use strict';

const assert = require('assert');
const fs = require('fs');
const path = require('path');
const { countSteps } = require('../steps/count');
const { targetsIn, treeOf } = require('../steps/tree');
const { build } = require('../src/build');
const { DECLARATION, K, NAMED, TEXTED, identityOf, preorder } = require('../src/kinds');
const { refusalTrouble } = require('../src/refusals');
const { runPort } = require('../src/port');
const { treeOfText } = require('../src/to_tree');
const { meaningOf, readTreeFile, rootsOfLines, treeOfLines, writeTreeFile } = require('../src/tree_file');
const { ScriptTrouble } = require('../src/trouble');
const { anyScript } = require('./any_scripts');
const { denseScript } = require('./dense_scripts');
const { ROOT, read } = require('./files');
const { each } = require('./harness');

const ROWS = { depth: 8, scopes: 8, rightSides: 8, nodes: 9, values: 9, records: 9 };

const flat = (root) => [...preorder(root)].map(({ kind, form, text, bits, children }) => [kind, form, TEXTED.has(kind) ? text : null, bits, children.length]);
const rootsOf = (scopes) => [...scopes.open[0].bindings.values()].map(({ identity, isPrevented }) => [identity, isPrevented]);

// Scripts with too many steps to count.
let uncounted = 0;

// The counted steps end as the pass does: { refused } or { runs, changed, tree, roots }.
function endsAlike(root, runs, answer) {
  const counted = countSteps(root, { runs });
  if (!counted) {
    uncounted += 1;
    return;
  }
  if (counted.met) {
    assert.strictEqual(ROWS[counted.met.limit], answer.refused);
    assert.ok(counted.met.count > counted.met.most);
    return;
  }
  const { walks } = counted;
  assert.strictEqual(answer.refused, 0);
  assert.deepStrictEqual([counted.runs, Number(walks.isChanged)], [answer.runs, answer.changed]);
  assert.deepStrictEqual(flat(walks.tree), flat(answer.tree));
  assert.strictEqual(walks.nodes, flat(answer.tree).length);
  assert.deepStrictEqual(rootsOf(walks.scopes), answer.roots.map(({ identity, prevented }) => [identity, prevented]));
}

// Texts and contexts of a stored file, as its own numbers have them.
function meaningOfFile(bytes) {
  const root = readTreeFile(bytes);
  const texts = [];
  const contexts = [];
  const places = (index) => 32 + 16 * index;
  [...preorder(root)].forEach((node, index) => {
    if (TEXTED.has(node.kind)) texts[bytes.readUInt32LE(places(index) + 4)] = node.text;
    if (NAMED.has(node.kind)) contexts[Number(node.bits)] = node.bits;
  });
  return { texts, contexts };
}

function stored(name) {
  const blocks = read(path.join(ROOT, 'tests', 'vectors', name)).split('\n\n').filter((block) => block.includes('file '));
  return blocks.map((block) => {
    const [file, runs, head, ...lines] = block.trim().split('\n').filter((line) => !line.startsWith('#'));
    return { bytes: Buffer.from(file.slice('file '.length), 'hex'), runs: Number(runs.slice('runs '.length)), head, lines };
  });
}

function asStored({ bytes, runs, head, lines }) {
  const refused = /^refused (\d+)$/.exec(head);
  if (refused) {
    if (['8', '9'].includes(refused[1])) endsAlike(readTreeFile(bytes), runs, { refused: Number(refused[1]) });
    return;
  }
  const [, made, changed, count] = /^ok runs (\d+) changed ([01]) nodes (\d+)$/.exec(head).map(Number);
  const meaning = meaningOfFile(bytes);
  const answer = { refused: 0, runs: made, changed, tree: treeOfLines(lines.slice(0, count), meaning), roots: rootsOfLines(lines.slice(count), meaning) };
  endsAlike(readTreeFile(bytes), runs, answer);
}

// A script on which requests 3 and 8 amend the original, which may stand in the port's place.
function isAmended(root) {
  const targets = targetsIn(root);
  const isAimed = ({ kind, children: [, value] }) => kind === K.declarator && value && targets.has(identityOf(value));
  const isAliased = ({ kind, form, children }) => kind === K.declaration && DECLARATION[form] === 'const' && children.some(isAimed);
  return [...preorder(treeOf(root))].some((node) => node.isTwice || isAliased(node));
}

function asPort(text) {
  const root = treeOfText(text);
  const answer = runPort(writeTreeFile(root), meaningOf(root), {});
  const isOriginal = !answer.refused && answer.roots.some(({ counted }) => counted === null);
  if (!isOriginal || !isAmended(root)) endsAlike(root, 16, answer);
}

const times = (count, text) => text.repeat(count);
const nulls = (count) => Array(count).fill('null').join(', ');
const names = (count) => Array.from({ length: count }, (_, n) => `a${n}`).join(', ');
const inArrays = (count, text) => `${times(count, '[')}${text}${times(count, ']')}`;

// By limit: the most that passes, a script that comes to so much, where it passes the limit, and what is said then.
const LIMITS = [
  ['depth, a value', 200, (k) => `let v = ${inArrays(99, 'null')};\n${inArrays(k - 102, 'v')};`, '2:100', /^201 nodes in one another where a value is put in the place of v, at most 200$/],
  ['depth, a constant', 200, (k) => `const c = null;\n${inArrays(k - 4, 'c')};`, '2:198', /^201 nodes in one another, a constant that is followed counted with its value, at most 200$/],
  ['scopes', 32, (k) => `${times(k - 1, '{')}f();${times(k - 1, '}')}`, '1:32', /^33 scopes in one another \(the script, [^)]*\), at most 32$/],
  ['scopes, a function put deeper', 32, (k) => `let f = function () { ${times(10, '{')}h();${times(10, '}')} };\n${times(k - 12, '{')}[f];${times(k - 12, '}')}`, '2:23',
    /^33 scopes in one another \(the script, [^)]*\), at most 32$/],
  ['right sides', 12, (k) => `${times(k, 'b && [')}b${times(k, ']')};`, '1:78', /^13 right sides of && and \|\| in one another, at most 12$/],
  ['nodes', 1024, (k) => `var x;\nx;\n[${nulls(k - 9)}];`, '2:1', /^1,025 nodes once values are put in the place of names, at most 1,024; the script as written has 1,024$/],
  ['values', 512, (k) => `let v = [${nulls(k - 1)}];\nf(v);`, '1:5', /^513 nodes in the values kept for variables and constants, at most 512$/],
  ['values together', 512, (k) => `let v = [${nulls(299)}];\nlet w = [${nulls(k - 301)}];\nf(v, w);`, '2:5', /^513 nodes in the values kept for variables and constants, at most 512$/],
  ['records', 256, (k) => `var ${names(129)};\n{ var ${names(k - 129)}; }`, '2:659', /^257 variables and constants kept in the functions, blocks, loops and branches that are open, at most 256$/],
];

function troubleOf(text) {
  try {
    build(text, {});
    return null;
  } catch (error) {
    if (!(error instanceof ScriptTrouble)) throw error;
    return error.lines('x')[0];
  }
}

function atLimit([name, most, make, place, words]) {
  for (const k of [most - 1, most]) assert.strictEqual(troubleOf(make(k)), null, `${name}, ${k}`);
  const [, at, said] = /^x:(\d+:\d+): refusal [89]: (.*)$/.exec(troubleOf(make(most + 1)));
  assert.match(said, words);
  assert.strictEqual(at, place, name);
}

// Further scripts, with all that is said of them.
const SAID = [
  ['const a = b;\nconst b = c;\nconst c = b;\na;', 'x:4:1: refusal 8: 201 nodes in one another, a constant that is followed counted with its value, at most 200; the constant c names itself'],
  [`var ${names(128)};\n{ var ${names(140)}; }`, 'x:2:665: refusal 9: 280 variables and constants kept in the functions, blocks, loops and branches that are open, at most 256'],
  [`let v = [${nulls(300)}];\nlet w = [${nulls(300)}];\nf(v, w);`, 'x:2:5: refusal 9: 602 nodes in the values kept for variables and constants, at most 512'],
];

// Where too many steps would have to be counted, the limits are told without saying which, and the place is found by asking the port.
function withoutSteps() {
  const root = treeOfText(`var x;\n${Array(510).fill('x;').join('\n')}`);
  const error = refusalTrouble(9, root, (other) => runPort(writeTreeFile(other), meaningOf(other), {}).refused, { mostSteps: 10 });
  assert.strictEqual(error.lines('x')[0], 'x:342:1: refusal 9: one of these limits was met once values were put in the place of names; the script as written has '
    + '1,024 nodes, at most 1,024; 0 nodes in the values kept for variables and constants, at most 512; 1 variables, at most 256');
}

const VECTORS = ['small.txt', 'amended.txt', 'patterns.txt', 'sample.txt'];
const seeds = (count) => Array.from({ length: count }, (_, seed) => seed);

function testSteps() {
  for (const name of VECTORS.filter((file) => fs.existsSync(path.join(ROOT, 'tests', 'vectors', file)))) each(`counted steps on ${name}`, stored(name), asStored);
  each('few scripts have too many steps to count', [uncounted], (count) => assert.ok(count <= 5, `${count}`));
}

function testLimitsMet() {
  each('limits of rows 8 and 9, one below, at and above', LIMITS, atLimit);
  each('limits of rows 8 and 9 in words', SAID, ([text, said]) => assert.strictEqual(troubleOf(text), said));
  each('limits where steps are not counted', [0], withoutSteps);
  each('counted steps end as the port', [...seeds(150).map((seed) => anyScript(seed, 5 + 3 * (seed % 100))), ...seeds(100).map(denseScript)], asPort);
}

module.exports = { testLimitsMet, testSteps };
