// Tests of the whole command with a port.
'use strict';

const assert = require('assert');
const { spawnSync } = require('child_process');
const fs = require('fs');
const os = require('os');
const path = require('path');
const { guard } = require('../guard/guard');
const { build } = require('../src/build');
const { takesLimit } = require('../src/port');
const { textOfTree } = require('../src/result_text');
const { writeTreeFile } = require('../src/tree_file');
const { treeOfText } = require('../src/to_tree');
const { ScriptTrouble } = require('../src/trouble');
const { anyScript } = require('./any_scripts');
const { ROOT, RESULTS, read, sampleFile, sampleText, samples, withoutProgress } = require('./files');
const { each } = require('./harness');

function inline(list, input = '', env = process.env) {
  const { status, stdout, stderr } = spawnSync(path.join(ROOT, 'script', 'inline'), list, { cwd: ROOT, input, env });
  return { status, out: stdout, text: stdout.toString(), said: withoutProgress(stderr.toString()) };
}

const lines = (count, make) => Array.from({ length: count }, (_, index) => make(index)).join('\n');

// Each refusal that a text can cause, with the place that is named.
const REFUSED = [
  [3, '1024:1', lines(1030, () => ';')],
  [3, '257:1', lines(260, (n) => `"${n}";`)],
  [3, '5:1', lines(6, (n) => `"${String(n).repeat(1000)}";`)],
  [6, '1:202', `x = ${'['.repeat(199)}${']'.repeat(199)};`],
  [7, '58:6', `[${Array.from({ length: 200 }, (_, n) => `a${n}`)}];\n${lines(60, () => '{let a0}')}`],
  [8, '3:1', 'g();\nconst a = a;\na;\ng();'],
  [8, '4:82', `g();\nfunction f(y) {\n  var z = y;\n  g(${'y && ['.repeat(13)}z${']'.repeat(13)});\n}\ng();`],
  [9, '2:1', `var x;\n${lines(510, () => 'x;')}`],
];

function refused([number, place, text]) {
  try {
    build(text, {});
  } catch (error) {
    if (!(error instanceof ScriptTrouble)) throw error;
    const [line] = error.lines('x');
    assert.ok(line.includes(`refusal ${number}: `), line);
    assert.ok(line.startsWith(`x:${place}: `), line);
    return;
  }
  assert.fail(`not refused: ${text.slice(0, 80)}`);
}

function testRefusals() {
  each('refusals in words with place', REFUSED, refused);
}

// What the pass makes of random scripts can be printed and reads as it was.
function testResults() {
  each('results of random scripts printed', Array.from({ length: 150 }, (_, seed) => seed), (seed) => {
    try {
      textOfTree(build(anyScript(seed, 5 + (seed % 80)), {}).answer.tree);
    } catch (error) {
      if (!(error instanceof ScriptTrouble)) throw error;
    }
  });
}

// Result and report are the stored ones; where the report is of no difference, the result was run beside the script and did the same.
function sampleResult(name) {
  const { text, said, status } = inline(['--accept', sampleFile(name)]);
  assert.strictEqual(status, 0);
  assert.strictEqual(text, read(path.join(RESULTS, `${name}.js`)));
  assert.strictEqual(said, read(path.join(RESULTS, `${name}.guard`)));
}

function sampleSize(name) {
  const nodes = writeTreeFile(treeOfText(sampleText(name))).readUInt32LE(8);
  assert.ok(nodes >= 100 && nodes <= 600, `${name}: ${nodes} nodes`);
}

function testSamples() {
  each('samples have 100 to 600 nodes', samples(), sampleSize);
  each('results of samples and what the guard says', samples(), sampleResult);
  each('comparison of a sample', [['midnight_sum', 0], ['tide', 0], ['wheel_speed', 3]], ([name, ended]) => {
    const { text, status } = inline(['--compare', sampleFile(name)]);
    assert.strictEqual(status, ended);
    assert.strictEqual(text, read(path.join(RESULTS, `${name}.compare`)));
  });
}

// Scripts by class from classes.txt.
function classified() {
  let number = 0;
  return read(path.join(__dirname, 'classes.txt')).split('\n').flatMap((line) => {
    const head = /^# (\d+)/.exec(line);
    if (head) number = Number(head[1]);
    return line && !line.startsWith('#') ? [{ number, text: line }] : [];
  });
}

const QUIET = [
  'const a = 7; log(a);', 'var x = 1; while (x) { x; }', 'function f(p) { var a = p; return a; }', 'let n = 5; function f(t) { return t > n; }',
  'const n = 300; function f(t, c) { var a = t; var a = t + c; if (a > n) g(); }',
];

// Finds its way out only where it can make functions from text; it then ends this program, which fails the tests.
const WAY_OUT = 'const a = 1; var out = this.constructor.constructor; try { out("return process")().exit(1); } catch (e) { log(e.name, a); }';

// Wrong results that run only deep inside: in objects and tables, after many calls, in a nested argument.
const DEEP = [
  'let last = 0; register({ onTick: function (level) { var change = level - last; last = level; report(change); } });',
  'let last = 0; const table = { tick: function (level) { var change = level - last; last = level; report(change); } };',
  'let last = 0; on([[function (level) { var change = level - last; last = level; report(change); }]]);',
  'let last = 0; let ticks = 0; function tick(level) { ticks++; if (ticks % 12 === 0) { var change = level - last; last = level; report(change); } }',
  'let last = 0; let over = 0; function tick(level) { if (level > 300) over++; else over = 0; if (over > 5) { var change = level - last; last = level; report(change); } }',
  'let last = 0; function tick(level) { var change = level - last; last = level; report({ a: { b: { c: { d: { e: change } } } } }); }',
];

// Built-ins that a script takes away are not the guard's.
const SABOTAGE = 'const a = 1; Array.prototype.map = Array.prototype.push = JSON.stringify = Object.keys = Map.prototype.get = null; log(a, [a]);';

function testGuardReaches() {
  const run = (text) => {
    const { root, answer } = build(text, {});
    return guard(root, answer.tree, { seed: 1, trials: 60 });
  };
  each('the guard finds what lies deep', DEEP, (text) => assert.deepStrictEqual(run(text).findings.map(({ number }) => number), [13], text));
  each('the guard names changes that never ran', [0], () => {
    const { neverRan, differing } = run('function tick(level) {\n  const most = 5;\n  if (typeof level === "symbol") {\n    report(most);\n  }\n}');
    assert.deepStrictEqual([neverRan, differing], [[4], 0]);
    const named = run('const most = 5;\nfunction tick(\n  level,\n  far = most() + 1) {\n  report(level);\n}');
    assert.deepStrictEqual([named.neverRan, named.differing], [[4], 0]);
  });
  each('arguments are left out where there is a default', [0], () => {
    const { neverRan, differing } = run('const most = 5;\nfunction tick({level, far = most}, list = [most], [from = most] = list) {\n  report(level, far, from);\n}');
    assert.deepStrictEqual([neverRan, differing], [[], 0]);
  });
  each('the guard keeps its own built-ins', [SABOTAGE], (text) => {
    const { unjudged, differing, trials } = run(text);
    assert.deepStrictEqual([unjudged, differing, trials], [0, 0, 60]);
  });
}

function testGuard() {
  const numbers = (text) => {
    const { root, answer } = build(text, {});
    return guard(root, answer.tree, { seed: 1, trials: 60 }).findings.map((finding) => finding.number);
  };
  each('the guard finds and sorts every class', classified(), ({ number, text }) => assert.deepStrictEqual(numbers(text), [number], text));
  each('a known way out of the sandbox is shut', [WAY_OUT], (text) => assert.deepStrictEqual(numbers(text), [], text));
  each('the guard is quiet where nothing differs', QUIET, (text) => assert.deepStrictEqual(numbers(text), [], text));
}

const SWAPPED = 'let from = 300, to = 480; [from, to] = [to, from]; raise(from);';
const DIFFERING = 'function f(t, c) { if (t + c > 300) { g(); } t = 0; }';

function outputIsWholeOrAbsent() {
  const folder = fs.mkdtempSync(path.join(os.tmpdir(), 'inline-'));
  const file = path.join(folder, 'out.js');
  try {
    assert.strictEqual(inline(['--out', file], DIFFERING).status, 3);
    assert.deepStrictEqual(fs.readdirSync(folder), []);
    assert.strictEqual(inline(['--no-guard', '--out', file], 'var x = 1; x;').status, 4);
    assert.deepStrictEqual(fs.readdirSync(folder), []);
    assert.strictEqual(inline(['--no-guard', '--host=apart', '--out', file], 'var x = 1; x;').status, 0);
    assert.strictEqual(read(file), 'var x; 1;');
    assert.strictEqual(inline(['--out', file], 'class A {}').status, 1);
    assert.strictEqual(read(file), 'var x; 1;');
    assert.strictEqual(inline(['--out', file, file]).status, 2);
    assert.strictEqual(inline(['--out', folder], 'f();').status, 2);
    assert.strictEqual(inline(['--out', '/dev/null'], 'f();').status, 2);
    assert.strictEqual(read(file), 'var x; 1;');
    assert.deepStrictEqual(fs.readdirSync(folder), ['out.js']);
  } finally {
    fs.rmSync(folder, { recursive: true });
  }
}

const WILD_FILE = path.join('script', 'test', 'wild.js');
const CORE = 'let last = 0;\non({ tick: function (level) {\n  var change = level - last;\n  last = level;\n  report(change);\n} });\n';

function notShown() {
  const { text, status, said } = inline(['--no-guard'], CORE);
  assert.deepStrictEqual([text, status], ['', 4]);
  assert.match(said, /standard input:5:10: not shown: `change`: `last` is written on line 4 between this value and its use/);
  const written = inline(['--no-guard', '--unshown'], CORE);
  assert.strictEqual(written.status, 0);
  assert.match(written.text, /report\(level - last\)/);
}

function keptOnly() {
  const { text, status, said } = inline(['--keep-shown'], CORE);
  assert.strictEqual(status, 0);
  assert.match(text, /var change = level - last;/);
  assert.match(said, /put back: `change`: `last` is written on line 4/);
  assert.match(said, /0 of 2 changes are kept; this is no longer the pass's own answer/);
}

// Page and JSON have the check's verdict, and only what is kept.
function accounts() {
  const told = (list, text) => {
    const { status, text: json } = inline(['--no-guard', '--json', ...list], text);
    return { status, ...JSON.parse(json).scripts[0] };
  };
  const held = told([], CORE);
  assert.deepStrictEqual([held.status, held.verdict.status, held.isWritten, held.changes.length], [4, 'not shown', false, 2]);
  assert.deepStrictEqual(held.verdict.places.map(({ line, variable, kind }) => [line, variable, kind]), [[3, 'change', 'not shown'], [5, 'change', 'not shown']]);
  const kept = told(['--keep-shown'], CORE);
  assert.deepStrictEqual([kept.status, kept.result, kept.changes], [0, CORE, []]);
  assert.ok(kept.verdict.places.some(({ variable, kind }) => variable === 'change' && kind === 'put back'));
  assert.doesNotMatch(inline(['--no-guard', '--keep-shown', '--compare'], CORE).text, /^ {6}\+/m);
  assert.match(told([], 'var x = 1; x;').verdict.least, /^apart, a host that neither sets nor reads the script's variables and calls/);
}

// A folder of results is held back with the one that is not shown.
function heldFolder() {
  const folder = fs.mkdtempSync(path.join(os.tmpdir(), 'inline-'));
  try {
    const [well, core, built] = ['well.js', 'core.js', 'built'].map((name) => path.join(folder, name));
    fs.writeFileSync(well, 'const a = 7; log(a);');
    fs.writeFileSync(core, CORE);
    const { status, said } = inline(['--no-guard', '--out-dir', built, well, core]);
    assert.strictEqual(status, 4);
    assert.match(said, /2 scripts: 1 not shown, 1 shown\nnothing was written to .*: 1 of 2 scripts has no result/);
    assert.strictEqual(fs.existsSync(built), false);
    assert.strictEqual(inline(['--no-guard', '--keep-shown', '--out-dir', built, well, core]).status, 0);
    assert.deepStrictEqual([read(path.join(built, 'well.js')), read(path.join(built, 'core.js'))], ['const a = 7; log(7);', CORE]);
  } finally {
    fs.rmSync(folder, { recursive: true });
  }
}

function remarks() {
  const said = (text) => inline(['--no-guard', '--host=plain'], text).said;
  assert.match(said('var lead = 35;\nlog(lead);'), /:1:5: note: `lead` of the script's top is emptied/);
  assert.match(said('const a = 7; log(a); eval("1");'), /note: `eval` makes code from text/);
  assert.match(said('const a = 7; log(a); new Function("1");'), /note: `Function` makes code from text/);
  assert.match(said('const a = 7; log(a); a = 8;'), /note: the constant `a` is written here/);
  assert.match(said('const a = "use strict"; function f() { a; return 1; }'), /note: this statement becomes a text in parentheses; without them it would be a directive/);
  assert.match(said('const limit = today; function f(today) { return limit > today; }'), /note: `today` is now called `today\$1`/);
}

// Something that the tool needs is broken: a status of its own, one line, no trace.
function toolFails() {
  const env = { ...process.env, NODE_OPTIONS: `--require ${path.join(__dirname, 'broken.js')}` };
  const { status, said, text } = inline([], 'f("text");', env);
  assert.deepStrictEqual([status, text], [5, '']);
  assert.match(said, /^script\/inline: an error of the tool itself, not of the script: .*\n$/);
  const many = inline(['--check', sampleFile('levels')], '', env);
  assert.strictEqual(many.status, 5);
  assert.match(many.text, /levels.js: an error of the tool itself.*\n1 script: 1 failed\n$/);
  const told = inline(['--json', sampleFile('levels'), sampleFile('tide')], '', env);
  assert.strictEqual(told.status, 5);
  assert.deepStrictEqual(JSON.parse(told.text).scripts.map(({ verdict }) => verdict.status), ['failed', 'failed']);
  assert.match(told.said, /levels.js: an error of the tool itself.*\n.*tide.js: an error of the tool itself.*\n2 scripts: 2 failed\n$/);
}

// Only a real configuration lets the changed place run.
function samplesOfHost() {
  const folder = fs.mkdtempSync(path.join(os.tmpdir(), 'inline-'));
  try {
    const script = path.join(folder, 'gate.js');
    fs.writeFileSync(script, 'let last = 0; var limits = JSON.parse(config());\nfunction tick(level) { if (limits.most > 1) { var change = level - last; last = level; report(change); } }\n');
    const before = inline([script]);
    assert.strictEqual(before.status, 4);
    assert.match(before.said, /changes on line 2 never ran/);
    fs.writeFileSync(path.join(folder, 'gate.samples.json'), '{"config()": ["{\\"most\\": 5}"]}');
    assert.strictEqual(inline([script]).status, 3);
    fs.writeFileSync(path.join(folder, 'gate.samples.json'), '{"config()": 5}');
    const wrong = inline([script]);
    assert.strictEqual(wrong.status, 2);
    assert.match(wrong.said, /gate\.samples\.json: an object of names with lists of values is needed: \{"config\(\)": /);
    assert.match(inline(['--samples', '/dev/zero', script]).said, /^script\/inline: samples \/dev\/zero: this is no plain file\n$/);
    assert.match(inline(['--samples', 'README.md', script]).said, /^script\/inline: samples README\.md: no JSON: /);
  } finally {
    fs.rmSync(folder, { recursive: true });
  }
}

// A checkout without programs: the command's own files, and the folder that makes it one.
function withoutTool() {
  const folder = fs.mkdtempSync(path.join(os.tmpdir(), 'inline-'));
  try {
    fs.cpSync(path.join(ROOT, 'script'), path.join(folder, 'script'), { recursive: true, filter: (name) => path.basename(name) !== 'test' });
    const { NEGBOSUN_PORT, NEGBOSUN_RESOLVER, ...unnamed } = process.env;
    const resolver = { ...unnamed, NEGBOSUN_RESOLVER: path.join(ROOT, 'caller', 'target', 'release', 'negbosun-inline') };
    const there = (list, env = resolver) => spawnSync(path.join(folder, 'script', 'inline'), list, { cwd: ROOT, env, encoding: 'utf8', input: 'f();' });
    const tool = ' needs the Rust tool negbosun-inline, which is not there; ';
    const again = 'install the package again: apt install --reinstall negbosun\n';
    const made = 'build it: tools/build pass && (cd caller && cargo build --release)\n';
    const told = { kinds: ['--kinds', 'samples/without_for_and_new.kinds'], runs: ['--runs', '3'] };
    const expect = (list, said) => {
      const outcome = there(list);
      assert.deepStrictEqual([outcome.status, outcome.stdout, outcome.stderr], [2, '', said]);
    };
    for (const [name, list] of Object.entries(told)) {
      expect([...list, '--check', 'samples/scripts'], `script/inline: --${name}${tool}${again}`);
      expect([...list, '-'], `script/inline: --${name}${tool}${again}`);
    }
    fs.mkdirSync(path.join(folder, 'docs'));
    expect(['--runs', '3', '--json', 'samples/scripts'], `script/inline: --runs${tool}${made}`);
    expect(['--check', 'samples/scripts'], 'script/inline: the program that does the pass is not there; build it: tools/build negbosun, or name one: --port PROGRAM\n');
    expect(['-'], 'script/inline: the program that does the pass is not there; build it: tools/build negbosun, or name one: --port PROGRAM\n');
    assert.strictEqual(there(['--tree', '-']).status, 0);
    for (const list of [['--check', 'samples/scripts'], ['-'], ['--tree', '-']]) {
      const { status, stdout, stderr } = there(list, unnamed);
      assert.deepStrictEqual([status, stdout, stderr], [2, '', `script/inline: the Rust tool negbosun-inline, which says which variable each name means, is not there; ${made}`]);
    }
    // The program that a look without proof leaves is taken, and it is said.
    fs.mkdirSync(path.join(folder, 'target', 'unproved'), { recursive: true });
    fs.symlinkSync(path.resolve(ROOT, NEGBOSUN_PORT || 'target/bin/negbosun'), path.join(folder, 'target', 'unproved', 'negbosun'));
    const unproved = 'script/inline: the program that does the pass is target/unproved/negbosun, of which nothing is proved; tools/build negbosun proves and builds it\n';
    assert.deepStrictEqual([there(['--no-guard', '-']).stderr, there(['--no-guard', '--check', '-']).status], [`${unproved}standard input: unchanged\n`, 0]);
  } finally {
    fs.rmSync(folder, { recursive: true });
  }
}

const COMMANDS = {
  'result on standard output': () => assert.strictEqual(inline([], 'const a = 7; a;').text, 'const a = 7; 7;'),
  'lines': () => assert.match(inline(['--no-guard', '--lines'], 'const a = 7; a;').text, /^ok runs 2 changed 0 nodes 7\n1 0 2 0 0000000000000000\n/),
  'tree file': () => assert.ok(inline(['--tree'], 'const a = 7; a;').out.equals(writeTreeFile(treeOfText('const a = 7; a;')))),
  'held back while it differs': () => {
    const { text, status, said } = inline([], DIFFERING);
    assert.deepStrictEqual([text, status], ['', 3]);
    assert.match(said, /class 5 of docs\/DIFFERENCES.md/);
    assert.match(said, /\nstandard input: different; \d+ of 60 trials differ\n/);
  },
  'accepted': () => assert.strictEqual(inline(['--accept'], DIFFERING).status, 0),
  'accepted by class': () => {
    assert.deepStrictEqual([inline(['--accept=5'], DIFFERING).status, inline(['--accept=7'], DIFFERING).status], [0, 3]);
    const accepted = inline(['--host=apart', '--accept=19'], SWAPPED);
    assert.strictEqual(accepted.status, 0);
    assert.match(accepted.said, /\nstandard input: accepted; .*; \d+ of 60 trials differ\n/);
    assert.match(inline(['--accept=22'], SWAPPED).said, /--accept takes a number from 1 to 21\n$/);
  },
  'without the guard the static check alone decides': () => {
    const { text, status, said } = inline(['--no-guard'], DIFFERING);
    assert.deepStrictEqual([text, status], ['', 4]);
    assert.match(said, /not shown: `t`: .*\n.*: not shown at any --host; guard not asked\n/);
    assert.strictEqual(inline(['--no-guard', '--accept'], DIFFERING).status, 0);
    assert.strictEqual(inline(['--no-guard'], 'const a = 7; log(a);').status, 0);
  },
  'not shown': notShown,
  'only what is shown is kept': keptOnly,
  'the verdict in JSON': accounts,
  'a folder with a result that is not shown': heldFolder,
  'accepted by class only if the rest is shown': () => {
    const rest = `${DIFFERING} function h(p) { var end = p + 30; closeGate(end); }`;
    assert.deepStrictEqual([inline(['--accept=5'], rest).status, inline(['--accept'], rest).status], [4, 0]);
  },
  'the level is printed, and the least that would do': () => {
    assert.match(inline(['--no-guard'], 'const a = 7; log(a);').said, /^standard input: shown at --host=anything; guard not asked\n {2}--host=anything: any host\n$/);
    const words = {
      apart: 'not shown at --host=anything; shown at --host=apart; guard not asked\n  --host=anything: any host\n  --host=apart: a host that neither ',
      differs: 'different; 19 of 60 trials differ\n  trials: script and result run beside each other, a test and no proof\n  results that are not shown or different are not written: --keep-shown ',
    };
    assert.ok(inline(['--no-guard'], 'var x = 1; x;').said.includes(`\nstandard input: ${words.apart}`));
    assert.ok(inline([sampleFile('wheel_speed')]).said.includes(`\n${sampleFile('wheel_speed')}: ${words.differs}`));
    assert.strictEqual(inline(['--host=nobody'], '').status, 2);
  },
  'remarks': remarks,
  'an error of the tool itself': toolFails,
  'samples of the host': samplesOfHost,
  'one run, where a port takes a limit': () => {
    const { NEGBOSUN_PORT, ...unnamed } = process.env;
    const { text, said } = inline(['--no-guard', '--lines', '--runs', '1'], 'var x = 1; x;', takesLimit() ? unnamed : process.env);
    assert.match(text + said, takesLimit() ? /^ok runs 1 changed 1 / : /^ok runs 1 changed 1 |takes no run limit/);
  },
  'a file that is not UTF-8': () => assert.match(inline([], Buffer.from([0x78, 0xff])).said, /not UTF-8/),
  'nested deeper than can be read': () => assert.match(inline([], `${'['.repeat(20000)}${']'.repeat(20000)}`).said, /refusal 6: /),
  'run limit out of range': () => assert.match(inline(['--runs', '17'], '').said, /refusal 1: /),
  'unknown option': () => assert.strictEqual(inline(['--what'], '').status, 2),
  'no port': () => assert.strictEqual(inline(['--port', 'nowhere'], '').status, 2),
  'no port is told once for many scripts, before the first': () => {
    for (const list of [['--check'], ['--json'], ['--page', 'nowhere/pages']]) {
      const { status, text, said } = inline(['--port', 'nowhere', ...list, 'samples/scripts', 'nowhere.js']);
      assert.deepStrictEqual([status, text], [2, '']);
      assert.match(said, /^script\/inline: the program that does the pass is not there: nowhere; .*\n$/);
    }
  },
  'what the Rust tool alone takes is told once where it is absent': withoutTool,
  'an empty script': () => assert.deepStrictEqual([inline([], '').text, inline([], '').status], ['', 0]),
  'check of well and differing files': () => {
    const { text, status } = inline(['--check', sampleFile('levels'), sampleFile('wheel_speed')]);
    assert.strictEqual(status, 3);
    assert.match(text, /\n2 scripts: 1 different, 1 shown\n$/);
    assert.strictEqual(text.split('  --host=anything: ').length, 2);
  },
  'check goes on whatever a script does': () => {
    const { text, status } = inline(['--check', WILD_FILE, sampleFile('levels')]);
    assert.strictEqual(status, 0);
    assert.match(text, /wild.js: shown .*; the guard could not judge: /);
    assert.match(text, /levels.js: shown [^]*\n2 scripts: 2 shown\n$/);
  },
  'check with a file that is not there': () => {
    const { text, status } = inline(['--check', 'nowhere.js', sampleFile('levels')]);
    assert.strictEqual(status, 2);
    assert.match(text, /^nowhere.js: no such file\n[^]*\n2 scripts: 1 not read, 1 shown\n$/);
  },
  'output whole or absent': outputIsWholeOrAbsent,
};

function testCommand() {
  each('the command', Object.entries(COMMANDS), ([name, act]) => {
    try {
      act();
    } catch (error) {
      throw new Error(`${name}: ${error.message}`);
    }
  });
}

module.exports = { COMMANDS, testCommand, testGuard, testGuardReaches, testRefusals, testResults, testSamples };
