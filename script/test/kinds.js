// Tests of a mill's own kind table: how it is read, what of a script it forbids and how that is said, and the command under it.
'use strict';

const assert = require('assert');
const { spawnSync } = require('child_process');
const fs = require('fs');
const os = require('os');
const path = require('path');
const { SIDE, nameOfConstruct } = require('../src/constructs');
const { forbiddenWords, readKindTable } = require('../src/kind_table');
const { K, preorder } = require('../src/kinds');
const { takesLimit } = require('../src/port');
const { treeOfText } = require('../src/to_tree');
const { UsageTrouble } = require('../src/trouble');
const { anyScript } = require('./any_scripts');
const { ROOT, read, sampleFile, sampleText, samples, withoutProgress } = require('./files');
const { each } = require('./harness');

const SAMPLE = path.join('samples', 'without_for_and_new.kinds');
const ZEROS = '0'.repeat(SIDE);
const ONES = '1'.repeat(SIDE);

// Runs `act` on a table file with this text.
function withTable(text, act) {
  const folder = fs.mkdtempSync(path.join(os.tmpdir(), 'inline-'));
  try {
    const file = path.join(folder, 'mill.kinds');
    fs.writeFileSync(file, text);
    return act(file);
  } finally {
    fs.rmSync(folder, { recursive: true });
  }
}

const linesOf = (line) => Array.from({ length: SIDE }, () => line);

// A table that allows all pairs but these.
function allBut(pairs) {
  const lines = linesOf(ONES).map((line) => [...line]);
  for (const [parent, child] of pairs) lines[parent - 1][child - 1] = '0';
  return `${lines.map((line) => line.join('')).join('\n')}\n`;
}

const changed = (index, line) => linesOf(ZEROS).map((old, at) => (at === index ? line : old)).join('\n');

const BROKEN = [
  [changed(4, ZEROS.replace('0', '2')), 'line 5, column 1: "2", where 0 or 1 belongs'],
  [changed(47, `${'0'.repeat(47)} `), 'line 48, column 48: " ", where 0 or 1 belongs'],
  [changed(0, '0'.repeat(47)), 'line 1, column 48: 47 digits, where a line has 48'],
  [changed(8, '0'.repeat(49)), 'line 9, column 49: 49 digits, where a line has 48'],
  [changed(8, ''), 'line 9, column 1: 0 digits, where a line has 48'],
  ['', 'line 1, column 1: 0 lines, where a table has 48'],
  [linesOf(ZEROS).slice(1).join('\n'), 'line 48, column 1: 47 lines, where a table has 48'],
  [`${linesOf(ZEROS).join('\n')}\n${ZEROS}\n`, 'line 49, column 1: 49 lines, where a table has 48'],
];

function broken([text, words]) {
  withTable(text, (file) => {
    assert.throws(() => readKindTable(file), (error) => {
      assert.ok(error instanceof UsageTrouble);
      assert.strictEqual(error.message, `--kinds ${file}: no kind table: ${words}`);
      return true;
    });
  });
}

const tableOf = (text) => withTable(text, (file) => readKindTable(file));

// A script, the pair that is forbidden in it, and what is said of it.
const NAMED = [
  ['f();\n\n\nfor (;;) f();', [K.script, K.for], '`for` at the top of a script is not allowed at this mill, line 4'],
  ['if (a) {\n  new B();\n}', [K.expression, K.new], '`new` as a statement is not allowed at this mill, line 2'],
  ['const a = [1, "x"];', [K.array, K.string], 'a text directly in a list is not allowed at this mill, line 1'],
  ['var a = b;', [K.declarator, K.identifier], 'the name `b` in the declaration of `a` is not allowed at this mill, line 1'],
  ['f({\n  a: a\n});', [K.object, K.property], 'a property `a` in an object is not allowed at this mill, line 2'],
  ['var {a: b} = c;', [K.declarator, K.objectPattern], 'a pattern `{ ... }` in a declaration is not allowed at this mill, line 1'],
  ['a = b +\n  -c;', [K.binary, K.unary], '`-` beside `+` is not allowed at this mill, line 2'],
];

function named([text, pair, words]) {
  const root = treeOfText(text);
  const table = tableOf(allBut([pair]));
  assert.strictEqual(forbiddenWords(table, table.firstForbidden(root)), words);
  assert.strictEqual(tableOf(allBut([])).firstForbidden(root), null);
  assert.strictEqual(tableOf(allBut([[pair[1], pair[0]]])).firstForbidden(root), null);
}

// Forbidden everywhere, a construct is named without its place in another one.
function everywhere(kind) {
  const [text, name] = { [K.for]: ['g();\nfor (;;) g();', '`for`'], [K.new]: ['g(\n new B);', '`new`'], [K.while]: ['g();\nwhile (a) g();', '`while`'] }[kind];
  const table = tableOf(allBut(Array.from({ length: SIDE }, (_, index) => [index + 1, kind])));
  assert.strictEqual(forbiddenWords(table, table.firstForbidden(treeOfText(text))), `${name} is not allowed at this mill, line 2`);
}

// Every construct of random scripts has a name, and where its children stand has words.
function allNamed(seed) {
  for (const node of preorder(treeOfText(anyScript(seed, 5 + (seed % 120))))) {
    const { name, under } = nameOfConstruct(node);
    assert.ok(typeof name === 'string' && !/undefined/.test(name), `${node.kind}: ${name}`);
    if (node.children.length) assert.ok(typeof under === 'string' && !/undefined/.test(under), `${node.kind}: ${under}`);
  }
}

function testKindTables() {
  each('what is no kind table, with line and column', BROKEN, broken);
  each('a table that is not there', ['nowhere.kinds'], (file) => assert.throws(() => readKindTable(file), /--kinds nowhere.kinds: no such file/));
  each('what a table forbids, by its name and line', NAMED, named);
  each('what a table forbids everywhere', [K.for, K.new, K.while], everywhere);
  each('every construct has a name', Array.from({ length: 200 }, (_, seed) => seed), allNamed);
  each('the sample table', [SAMPLE], (file) => {
    const table = readKindTable(path.join(ROOT, file));
    const gone = Object.entries(K).filter(([, kind]) => kind !== K.script && !table.allowsSomewhere(kind)).map(([name]) => name);
    assert.deepStrictEqual(gone, ['for', 'forIn', 'forOf', 'new']);
  });
}

function inline(list, input = '') {
  const { NEGBOSUN_PORT, ...env } = process.env;
  const { status, stdout, stderr } = spawnSync(path.join(ROOT, 'script', 'inline'), ['--no-guard', '--accept', ...list], { cwd: ROOT, input, env, encoding: 'utf8' });
  return { status, text: stdout, said: withoutProgress(stderr) };
}

const has = (text, kinds) => [...preorder(treeOfText(text))].some(({ kind }) => kinds.includes(kind));

const COMMANDS = {
  'a construct that is forbidden': () => {
    const { status, text, said } = inline(['--kinds', SAMPLE], 'const a = 1;\ng(a);\n\nfor (const b of c) g(b);\n');
    assert.deepStrictEqual([status, text], [1, '']);
    assert.match(said, /^standard input:4:1: refusal 6: `for ... of` is not allowed at this mill, line 4\n {4}4 \| for .*\n.*\^\n {2}the mill's kind table forbids it; write it in another way\n$/);
  },
  'a script that has none': () => assert.strictEqual(inline(['--kinds', SAMPLE], 'const a = 7; g(a);').text, 'const a = 7; g(7);'),
  'the samples': () => {
    for (const name of samples()) {
      const under = inline(['--kinds', SAMPLE, sampleFile(name)]);
      if (has(sampleText(name), [K.for, K.forIn, K.forOf, K.new])) assert.match(under.said, /is not allowed at this mill, line \d+/);
      else assert.strictEqual(under.text, inline([sampleFile(name)]).text);
    }
  },
  'nested too deep, under a table': () => assert.match(inline(['--kinds', SAMPLE], `x = ${'['.repeat(199)}${']'.repeat(199)};`).said, /:1:202: refusal 6: .* nodes in one another/),
  'a run limit beside it': () => assert.match(inline(['--kinds', SAMPLE, '--runs', '1', '--lines'], 'var x = 1; x;').text, /^ok runs 1 changed 1 /),
  'a table that allows too much': () => withTable(allBut([]), (file) => {
    const { status, said } = inline(['--kinds', file], ';');
    assert.strictEqual(status, 2);
    assert.match(said, /--kinds .*: refusal 15: the kind table allows something where no script may have it\n$/);
  }),
  'no table': () => assert.deepStrictEqual([inline(['--kinds', 'nowhere'], ';').status, inline(['--kinds'], ';').status], [2, 2]),
  'a result may have what is forbidden': () => withTable(read(path.join(ROOT, SAMPLE)).split('\n').map((line, index) => (index === K.expression - 1 ? `${line.slice(0, K.array - 1)}0${line.slice(K.array)}` : line)).join('\n'), (file) => {
    assert.strictEqual(inline(['--kinds', file], 'var a = [1]; a;').text, 'var a; [1];');
    assert.match(inline(['--kinds', file], 'var a; [1];').said, /a list `\[ \.\.\. \]` as a statement is not allowed at this mill, line 1/);
  }),
  'many scripts': () => {
    const { status, text } = inline(['--check', '--kinds', SAMPLE, 'samples/scripts']);
    assert.match(text, /\n10 scripts: /);
    assert.ok(status === 0 || status === 1);
  },
};

function testKindsCommand() {
  if (!takesLimit()) {
    console.log('the command under a kind table: skipped, caller/ is not built');
    return;
  }
  each('the command under a kind table', Object.entries(COMMANDS), ([name, act]) => {
    try {
      act();
    } catch (error) {
      throw new Error(`${name}: ${error.message}`);
    }
  });
}

module.exports = { testKindTables, testKindsCommand };
