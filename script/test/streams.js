// Tests of inputs that are no plain files or never end, of folders that may not be read, and of outputs that are full, slow or closed.
'use strict';

const assert = require('assert');
const { spawnSync } = require('child_process');
const fs = require('fs');
const path = require('path');
const { ROOT, inFolder, read, withoutProgress } = require('./files');
const { each } = require('./harness');

const COMMAND = path.join(ROOT, 'script', 'inline');
const OPTIONS = ['--no-guard', '--accept'];
const preloaded = (name) => ({ ...process.env, NODE_OPTIONS: `--require ${path.join(__dirname, name)}` });

function inline(cwd, list, { input = '', env = process.env, from = 'pipe' } = {}) {
  const { status, stdout, stderr } = spawnSync(COMMAND, [...OPTIONS, ...list], { cwd, input, env, stdio: [from, 'pipe', 'pipe'], encoding: 'utf8', timeout: 60000 });
  return { status, text: stdout, said: withoutProgress(stderr) };
}

// A line of the shell in which `inline` is the command; what it writes, and in the end the statuses of its last pipeline.
function shell(line, { input = '', env = process.env, cwd = ROOT } = {}) {
  const script = `inline() { "$0" ${OPTIONS.join(' ')} "$@"; }\n${line}\necho "\${PIPESTATUS[*]}"`;
  return spawnSync('bash', ['-c', script, COMMAND], { cwd, input, env, encoding: 'utf8', timeout: 60000 }).stdout;
}

const CLASSES = Array.from({ length: 2000 }, (_, n) => `class A${n} {}\n`).join('');

const STREAMS = {
  'no pipe and no device by name': () => inFolder({ 'gates/a.js': 'const a = 1; f(a);' }, (folder) => {
    assert.strictEqual(spawnSync('mkfifo', [path.join(folder, 'gates', 'p.js')]).status, 0);
    for (const list of [['gates/p.js'], ['/dev/zero']]) {
      const { status, text, said } = inline(folder, list);
      assert.deepStrictEqual([status, text], [2, '']);
      assert.match(said, /: this is no plain file\n {2}what a program writes is taken from standard input: PROGRAM \| script\/inline -\n$/);
    }
    const { status, text } = inline(folder, ['--check', 'gates']);
    assert.strictEqual(status, 2);
    assert.match(text, /^gates\/a\.js: shown [^]*\ngates\/p\.js: this is no plain file\n[^]*\n2 scripts: 1 not read, 1 shown\n$/);
  }),
  'standard input without an end': () => {
    const { status, text, said } = inline(ROOT, ['-'], { from: fs.openSync('/dev/zero', 'r') });
    assert.deepStrictEqual([status, text], [1, '']);
    assert.match(said, /^standard input: over 100,000,000 bytes, at most 1,000,000\n/);
  },
  'standard input that is a folder': () => assert.match(inline(ROOT, ['-'], { from: fs.openSync(ROOT, 'r') }).said, /^standard input: this is a folder\n/),
  'standard input in parts': () => assert.strictEqual(shell('(echo "const a = 1;"; sleep 0.3; echo "f(a);") | inline - 2>/dev/null'), 'const a = 1;\nf(1);\n0 0\n'),
  'a folder that may not be read': () => inFolder({ 'gates/a.js': 'const a = 1; f(a);', 'gates/shut/b.js': 'f();', 'gates/z.js': 'f();' }, (folder) => {
    const env = preloaded('shut.js');
    const { status, text } = inline(folder, ['--check', 'gates', 'gates/shut'], { env });
    assert.strictEqual(status, 2);
    const shut = 'gates/shut: this folder may not be read\n';
    assert.match(text, new RegExp(`^gates/a\\.js: shown [^]*\\n${shut}gates/z\\.js: [^]*\\n${shut}[^]*\n4 scripts: 2 not read, 1 shown, 1 unchanged\n$`));
    const built = inline(folder, ['--out-dir', 'built', 'gates'], { env });
    assert.match(built.said, /shut: this folder may not be read\n {2}let its owner allow it[^]*nothing was written to built: 1 of 3 scripts has no result/);
    assert.strictEqual(built.status, 2);
  }),
  'a folder without scripts': () => inFolder({ 'gates/readme.txt': 'none' }, (folder) => {
    for (const option of ['--check', '--json']) {
      const { status, said } = inline(folder, [option, 'gates']);
      assert.deepStrictEqual([status, said], [2, 'script/inline: gates: no *.js in there\n']);
    }
  }),
  'output onto the script itself': () => inFolder({ 'a.js': 'const a = 1; f(a);' }, (folder) => {
    assert.strictEqual(shell('inline a.js 2>&1 >>a.js', { cwd: folder }), 'script/inline: standard output is a.js itself, of which `>` leaves nothing; name another file, by --out or behind `>`\n2\n');
    assert.strictEqual(read(path.join(folder, 'a.js')), 'const a = 1; f(a);');
  }),
  'a slow reader': () => {
    const said = shell('inline - 2>&1 >/dev/null | (sleep 3; cat)', { input: CLASSES, env: preloaded('impatient.js') });
    assert.strictEqual(said.split('\n').filter((line) => /^standard input:\d+:1: a class cannot be built/.test(line)).length, 2000);
    assert.match(said, /\n1 0\n$/);
  },
  'a reader that is gone': () => {
    assert.strictEqual(shell('inline nowhere.js 2>&1 >/dev/null | true'), '2 0\n');
    assert.strictEqual(shell('(sleep 0.5; inline - 2>&1) | true', { input: CLASSES }), '1 0\n');
    const said = 'script/inline: standard output: what it was sent to has ended before it had read all';
    assert.strictEqual(shell('{ (sleep 0.5; inline --help 2>&3; echo $? >&3) | true; } 3>&1'), `${said}\n6\n0 0\n`);
  },
  'no room left': () => {
    const full = shell('inline - 2>&1 >/dev/full | cat', { input: 'f();' });
    assert.match(full, /\nscript\/inline: standard output: there is no room left on the disk\n6 0\n$/);
    assert.strictEqual(shell('inline - 2>/dev/full', { input: 'f();' }), 'f();0\n');
    assert.strictEqual(shell('inline nowhere.js 2>/dev/full'), '2\n');
  },
};

function testStreams() {
  each('inputs without end, outputs that are full', Object.entries(STREAMS), ([name, act]) => {
    try {
      act();
    } catch (error) {
      throw new Error(`${name}: ${error.message}`);
    }
  });
}

module.exports = { testStreams };
