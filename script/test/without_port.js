// Tests of the mapping between text and tree file, and of what is refused.
'use strict';

const assert = require('assert');
const fs = require('fs');
const path = require('path');
const { runBeside, subjectOf } = require('../guard/guard');
const { K, NAMED, TEXTED, identityOf, preorder } = require('../src/kinds');
const { textOfTree } = require('../src/result_text');
const { treeOfText } = require('../src/to_tree');
const { readTreeFile, writeTreeFile } = require('../src/tree_file');
const { ScriptTrouble } = require('../src/trouble');
const { anyScript } = require('./any_scripts');
const { ROOT, listed, sampleText, samples } = require('./files');
const { gateScript } = require('./gate_scripts');
const { each } = require('./harness');

const seeds = (count) => Array.from({ length: count }, (_, index) => index);
const sizeOf = (seed) => 5 + (seed % 120);

// Text to tree file to text to tree file: the two files are the same bytes.
function roundTrip(text) {
  const first = writeTreeFile(treeOfText(text));
  const printed = textOfTree(readTreeFile(first)).text;
  assert.ok(writeTreeFile(treeOfText(printed)).equals(first), `other tree: ${text}`);
}

// A number comes for the first time only behind those before it, and `count` of them come.
function inOrder(numbers, count) {
  const first = [...new Set(numbers)];
  assert.deepStrictEqual(first, first.map((_, index) => index));
  assert.strictEqual(first.length, count ?? first.length);
}

// A script has one tree file: texts and contexts stand in the order of first use, each text is used, and how the tree numbers its scopes does not matter.
function oneFile(text) {
  const root = treeOfText(text);
  const file = writeTreeFile(root);
  const [nodeCount, textCount] = [file.readUInt32LE(8), file.readUInt32LE(16)];
  const places = Array.from({ length: nodeCount }, (_, index) => 32 + 16 * index);
  inOrder(places.filter((at) => TEXTED.has(file[at])).map((at) => file.readUInt32LE(at + 4)), textCount);
  inOrder(places.filter((at) => NAMED.has(file[at])).map((at) => Number(file.readBigUInt64LE(at + 8))));
  for (const node of preorder(root)) if (NAMED.has(node.kind)) node.bits = 1000n - node.bits;
  assert.ok(writeTreeFile(root).equals(file), text);
}

function everyFormComes(scripts) {
  const forms = new Set(scripts.flatMap((text) => [...preorder(treeOfText(text))].map(({ kind, form }) => `${kind} ${form}`)));
  const kinds = new Set([...forms].map((form) => form.split(' ')[0]));
  assert.strictEqual(kinds.size, Object.keys(K).length);
  assert.strictEqual(forms.size, 112);
}

function testRoundTrips() {
  const random = seeds(1000).map((seed) => anyScript(seed, sizeOf(seed)));
  each('round trip of samples', samples(), (name) => roundTrip(sampleText(name)));
  each('round trip of random scripts', random, roundTrip);
  each('round trip of random gate scripts', seeds(300), (seed) => roundTrip(gateScript(seed)));
  each('a script has one tree file', [...samples().map(sampleText), ...random.slice(0, 300)], oneFile);
  each('every kind and form comes in the random scripts', [random], everyFormComes);
}

const bare = (node) => (node.kind === K.parenthesis ? bare(node.children[0]) : { ...node, children: node.children.map(bare) });

// Trees without any parentheses are what results look like; printing reads them again by itself, and throws where they are not the same.
function testPrinting() {
  each('printing without parentheses', seeds(200), (seed) => textOfTree(bare(treeOfText(anyScript(seed, sizeOf(seed))))));
  each('a nearer variable of a name is renamed', [0], () => {
    const tree = treeOfText('const b = 1; function f(b) { return b; }');
    [...preorder(tree)].find((node) => node.kind === K.identifier).bits = 1n;
    assert.match(textOfTree(tree).text, /function f\(b\$1\) \{\n {2}return b;/);
  });
}

// Two lists of names stand for the same variables.
function sameVariables(one, two) {
  const [there, back] = [new Map(), new Map()];
  one.forEach((name, index) => {
    assert.strictEqual(there.get(name) ?? two[index], two[index]);
    assert.strictEqual(back.get(two[index]) ?? name, name);
    there.set(name, two[index]);
    back.set(two[index], name);
  });
}

// The sample that tools/tree.py makes by hand is the same script, with contexts of its own.
function testTreeOfSample() {
  each('the tree of samples/scripts/tide.js is samples/tide.tree', [0], () => {
    const [made, stored] = [treeOfText(sampleText('tide')), readTreeFile(fs.readFileSync(path.join(ROOT, 'samples', 'tide.tree')))];
    const plainNode = ({ kind, form, text, bits, children }) => [kind, form, text, NAMED.has(kind) ? 0n : bits, children.length];
    const plain = (root) => [...preorder(root)].map(plainNode);
    const names = (root) => [...preorder(root)].filter(({ kind }) => NAMED.has(kind)).map(identityOf);
    assert.deepStrictEqual(plain(made), plain(stored));
    sameVariables(names(made), names(stored));
  });
}

// Every variable below the script's top under a name made of its context; nodes keep their names as `was`.
function renamedByContext(node) {
  const children = node.children.map(renamedByContext);
  const own = NAMED.has(node.kind) && node.bits > 1n;
  return own ? { ...node, children, was: node.text, text: `${node.text}_${node.bits}` } : { ...node, children };
}

// Contexts tell variables apart as node does: renamed by them, a script does the same.
function testContexts() {
  const texts = [...listed('scopes.txt'), ...samples().map(sampleText), ...seeds(40).map((seed) => anyScript(seed, sizeOf(seed)))];
  each('renamed by contexts, node does the same', texts, (text) => {
    const outcome = runBeside(subjectOf(treeOfText(text), renamedByContext(treeOfText(text)), { seed: 1, trials: 10, blocks: false }));
    assert.deepStrictEqual(outcome.findings.map(({ shown }) => shown), [], text);
  });
}

function refusedAs(line) {
  const [, place, said, text] = /^(\S+) (.*?) \| (.*)$/.exec(line);
  try {
    treeOfText(text);
  } catch (error) {
    if (!(error instanceof ScriptTrouble)) throw error;
    assert.ok(error.lines('x')[0].startsWith(`x:${place}: ${said}`), `${text}: ${error.lines('x')}`);
    return;
  }
  assert.fail(`not refused: ${text}`);
}

// What is advised with the script's own names can itself be built.
function advised(line) {
  const [, said] = /^\S+ (.*?) \| (.*)$/.exec(line);
  for (const [, code] of said.split('; write ')[1].matchAll(/`([^`]*)`/g)) {
    if (/[.]{3}|^\?|^=>/.test(code)) continue;
    treeOfText(code);
  }
}

function testErrors() {
  each('what is advised can be built', listed('refused.txt').filter((line) => line.includes('; write ')), advised);
  each('constructs refused with place and name', listed('refused.txt'), refusedAs);
}

module.exports = { testContexts, testErrors, testPrinting, testRoundTrips, testTreeOfSample };
