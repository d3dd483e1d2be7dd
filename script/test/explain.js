// Tests of a place explained, of the rewrites that it offers, and of the forms that other programs read.
'use strict';

const assert = require('assert');
const { spawnSync } = require('child_process');
const path = require('path');
const { build } = require('../src/build');
const { FORMATS } = require('../src/formats');
const { treeOfText } = require('../src/to_tree');
const { rewritesFor } = require('../src/rewrites');
const { identityOf, preorder } = require('../src/kinds');
const { checkResult } = require('../same/check');
const { ROOT, inFolder, sampleFile, withoutProgress } = require('./files');
const { each } = require('./harness');

const COMMAND = path.join(ROOT, 'script', 'inline');

function inline(list, input = '', cwd = ROOT) {
  const { status, stdout, stderr } = spawnSync(COMMAND, list, { cwd, input, encoding: 'utf8' });
  return { status, text: stdout, said: withoutProgress(stderr) };
}

const CORE = 'let last = 0;\non({ tick: function (level) {\n  var change = level - last;\n  last = level;\n  report(change);\n} });\n';
const EXPLAINED = `standard input:5: not shown at --host=anything

      script                       | result
    3   var change = level - last; |   var change;
    5   report(change);            |   report(level - last);

in the way:
  line 3, \`change\`: \`last\` is written on line 4 between this value and its use
  line 5, \`change\`: \`last\` is written on line 4 between this value and its use

what would have to hold:
  that nothing of what is told above happens; no level of --host says so

the smallest rewrite that is shown:
    3 - var change = level - last;
      + const change = level - last;
  \`const\` in the place of \`var\`, where nothing reads it before that line; with it the whole result is shown
`;

const PLACES = {
  'script and result, what is in the way, and a rewrite': () => {
    for (const line of ['5', '3', '5:10']) {
      const { status, text } = inline(['--no-guard', `--explain=-:${line}`], CORE);
      assert.deepStrictEqual([status, text], [4, EXPLAINED.replace('input:5', `input:${line[0]}`)]);
    }
  },
  'what a host would have to be': () => {
    const { text } = inline(['--no-guard', '--explain=-:1'], 'var lead = 35; due(lead);\n');
    assert.match(text, /\nwhat would have to hold:\n {2}of the host, that it is a host that neither sets nor reads the script's variables [^\n]* \(--host=apart\)\n/);
    assert.match(text, /\n {4}1 - var lead = 35; due\(lead\);\n {6}\+ const lead = 35; due\(lead\);\n/);
  },
  'what the guard saw': () => {
    const { status, text } = inline(['--explain', `${sampleFile('wheel_speed')}:18`]);
    assert.strictEqual(status, 3);
    assert.match(text, /^samples\/scripts\/wheel_speed\.js:18: the result does something else\n[^]*\nin the way:\n {4}script: {2}return limited[^]*\n {2}line 18, `change`: /);
  },
  'a line that the script does not have': () => {
    for (const [text, last] of [['g(1);', 1], ['g(1);\n', 1], ['g(1);\r\ng(2);\r\n', 2], ['', 1]]) {
      const { status, said, text: out } = inline(['--no-guard', `--explain=-:${last + 1}`], text);
      assert.deepStrictEqual([status, out], [2, '']);
      assert.ok(said.endsWith(`script/inline: --explain standard input:${last + 1}: the script ends on line ${last}\n`), said);
    }
  },
  'a line that nothing stands against': () => {
    assert.match(inline(['--no-guard', '--explain=-:1'], CORE).text, /^standard input:1: nothing stands against this line at --host=anything; lines that are not shown: 3, 5\n$/);
    assert.deepStrictEqual([inline(['--no-guard', '--explain=-:1'], 'const a = 1; f(a);').status, inline(['--no-guard', '--explain=-:1'], 'class A {}').status], [0, 1]);
  },
  'called wrongly': () => {
    for (const list of [['--explain', 'gate.js'], ['--explain', 'gate.js:0'], ['--explain', 'gate.js:x'], ['--explain', 'gate.js:1', 'other.js'], ['--explain', 'gate.js:1', '--check']]) assert.strictEqual(inline(list).status, 2, `${list}`);
  },
};

// What is offered names the same variables, and is shown where it is said to be.
const OFFERED = [CORE, 'function f(t) { var a = t + 1; g(); h(a); }', 'var lead = 35; due(lead);', 'function f(t) { for (var i = 0; i < 3; i++) { var a = t + i; g(); h(function () { return a; }); } }',
  'function f(t) { if (t) { var a = t + 1; g(); } h(a); }', 'let n = today; function f() { g(); return n; } today = 2;'];

function offered(text) {
  const { root, answer } = build(text, {});
  const { findings } = checkResult(root, answer.tree, 'anything');
  const names = new Set(findings.map(({ identity }) => identity).filter(Boolean));
  for (const rewrite of rewritesFor(root, text, names)) {
    const [before, after] = [root, treeOfText(rewrite.text)].map((tree) => [...preorder(tree)].filter(({ kind }) => kind === 20 || kind === 21).map(identityOf));
    if (before.length === after.length) assert.strictEqual(new Set(before).size, new Set(after).size, rewrite.text);
    if (/in the place of/.test(rewrite.words)) assert.doesNotMatch(text, /for \(/, rewrite.text);
  }
}

const GATES = { 'gates/a.js': 'const a = 1; f(a);', 'gates/b & "c".js': 'var x = 1; x;', 'gates/d.js': 'f();\nclass A {}\nimport("x");', 'gates/e.js': CORE };

// The accounts of the folder, and what a form makes of them.
function formed(name, more = []) {
  return inFolder(GATES, (folder) => inline(['--no-guard', `--format=${name}`, ...more, 'gates', 'gates/nowhere.js'], '', folder));
}

const FORMS = {
  json: () => {
    const { status, text } = formed('json');
    assert.deepStrictEqual([status, JSON.parse(text).scripts.map(({ file }) => file)], [2, ['gates/a.js', 'gates/b & "c".js', 'gates/d.js', 'gates/e.js', 'gates/nowhere.js']]);
  },
  sarif: () => {
    const { status, text } = formed('sarif');
    const { version, runs: [{ tool: { driver }, results, columnKind }] } = JSON.parse(text);
    assert.deepStrictEqual([status, version, driver.name, columnKind], [2, '2.1.0', 'negbosun', 'utf16CodeUnits']);
    const told = results.map(({ ruleId, level, message, locations: [{ physicalLocation: { artifactLocation: { uri }, region } }] }) => [ruleId, level, uri, region ? `${region.startLine}:${region.startColumn}` : null, message.text]);
    for (const one of [
      ['not-shown', 'warning', 'gates/b%20%26%20%22c%22.js', '1:5', "`x`: a host that reads this variable of the script's top finds it empty"],
      ['refused', 'error', 'gates/d.js', '2:1', 'a class cannot be built; write functions and plain objects'],
      ['not-shown', 'warning', 'gates/e.js', '5:10', '`change`: `last` is written on line 4 between this value and its use'],
      ['not-read', 'error', 'gates/nowhere.js', null, 'no such file; look at the name and at the folder that the command is run in'],
    ]) assert.ok(told.some((other) => other.every((part, index) => part === one[index])), `${one}\n${JSON.stringify(told, null, 1)}`);
    assert.ok(told.every(([, , uri]) => uri !== 'gates/a.js'));
    for (const { ruleId } of results) assert.ok(driver.rules.some(({ id }) => id === ruleId), ruleId);
  },
  junit: () => {
    const { status, text } = formed('junit');
    assert.strictEqual(status, 2);
    assert.match(text, /^<\?xml version="1\.0" encoding="UTF-8"\?>\n<testsuites tests="5" failures="2" errors="2">\n {2}<testsuite name="negbosun" tests="5" failures="2" errors="2" skipped="0">\n/);
    assert.match(text, /<testcase classname="negbosun" name="gates\/a\.js"\/>/);
    assert.match(text, /name="gates\/b &amp; &quot;c&quot;\.js">\n {6}<failure type="not-shown" message="not shown at --host=anything; shown at --host=apart; guard not asked">gates\/b &amp; /);
    assert.match(text, /name="gates\/d\.js">\n {6}<error type="refused" message="[^"]*">gates\/d\.js:2:1: refused: a class cannot be built; [^<]*\ngates\/d\.js:3:1: refused: import [^<]*<\/error>/);
    const lint = spawnSync('xmllint', ['--noout', '-'], { input: text, encoding: 'utf8' });
    if (!lint.error) assert.strictEqual(lint.status, 0, lint.stderr);
  },
  gcc: () => {
    const { text } = formed('gcc');
    // The pattern that editors have for it.
    const lines = text.trimEnd().split('\n').map((line) => /^(.*?):(\d+):(\d+):\s+(warning|error|note):\s+(.*)$/.exec(line));
    assert.ok(lines.every(Boolean), text);
    assert.ok(lines.some(([, file, line, column, severity, words]) => file === 'gates/e.js' && line === '5' && column === '10' && severity === 'warning' && /\[not-shown\]$/.test(words)));
    assert.ok(lines.some(([, file, line, , severity]) => file === 'gates/nowhere.js' && line === '1' && severity === 'error'));
  },
  'with a page, and into a file': () => inFolder(GATES, (folder) => {
    const { status, text } = inline(['--no-guard', '--format', 'junit', '--out', 'report.xml', '--page', 'pages', 'gates'], '', folder);
    assert.deepStrictEqual([status, text], [1, '']);
  }),
  'that is none': () => {
    assert.match(inline(['--format=xml', 'x.js']).said, /--format takes one of json, sarif, junit, gcc\n$/);
    assert.match(inline(['--json', '--format=sarif', 'x.js']).said, /--json and --format do not go together\n$/);
  },
};

// What is found different, put back or remarked has a rule and a gravity of its own.
function everyKind() {
  const place = (kind) => ({ line: 1, column: 2, variable: 'a', reason: 'so', kind });
  const account = { file: '/x/é.js', verdict: { status: 'different', summary: 'different', places: ['different', 'not shown', 'put back', 'note'].map(place) }, refusals: [] };
  const { results } = JSON.parse(FORMATS.sarif([account])).runs[0];
  assert.deepStrictEqual(results.map(({ ruleId, level }) => [ruleId, level]), [['different', 'error'], ['not-shown', 'warning'], ['put-back', 'note'], ['note', 'note']]);
  assert.strictEqual(results[0].locations[0].physicalLocation.artifactLocation.uri, 'file:///x/%C3%A9.js');
}

const named = (cases) => ([name]) => {
  try {
    cases[name]();
  } catch (error) {
    throw new Error(`${name}: ${error.message}`);
  }
};

function testExplain() {
  each('a line explained', Object.entries(PLACES), named(PLACES));
  each('rewrites that are offered', OFFERED, offered);
  each('forms for other programs', Object.entries(FORMS), named(FORMS));
  each('every kind of what is told', [0], everyKind);
}

module.exports = { testExplain };
