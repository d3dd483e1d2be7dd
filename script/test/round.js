// Tests of many scripts side by side, and of what the guard has found being kept.
'use strict';

const assert = require('assert');
const { spawnSync } = require('child_process');
const fs = require('fs');
const path = require('path');
const { ROOT, inFolder, read, withoutProgress } = require('./files');
const { each } = require('./harness');

const COMMAND = path.join(ROOT, 'script', 'inline');
const HOOKED = { ...process.env, NODE_OPTIONS: `--require ${path.join(__dirname, 'open_hook.js')}` };

function inline(cwd, list, env = process.env) {
  const { status, stdout, stderr } = spawnSync(COMMAND, list, { cwd, env, encoding: 'utf8' });
  return { status, text: stdout, said: withoutProgress(stderr) };
}

const gates = (...names) => Object.fromEntries(names.map((name, index) => [`gates/${name}.js`, `const a = ${index}; f(a);`]));
const namesIn = (text) => [...text.matchAll(/^gates\/(\w+)\.js: /gm)].map((match) => match[1]);

const SIDES = {
  'any number of jobs says the same': () => inFolder({ ...gates(...'abcdefg'), 'gates/h.js': 'class A {}' }, (folder) => {
    const outcomes = ['1', '2', '5', '20'].map((jobs) => inline(folder, ['--no-guard', '--jobs', jobs, '--check', 'gates']));
    assert.deepStrictEqual(namesIn(outcomes[0].text), [...'abcdefg']);
    for (const { status, text } of outcomes) assert.deepStrictEqual([status, text], [1, outcomes[0].text]);
    const json = ['1', '3'].map((jobs) => inline(folder, ['--no-guard', '--jobs', jobs, '--json', 'gates']).text);
    assert.strictEqual(json[0], json[1]);
    assert.strictEqual(JSON.parse(json[0]).scripts.length, 8);
    const built = ['1', '3'].map((jobs) => inline(folder, ['--no-guard', '--jobs', jobs, '--page', `pages${jobs}`, 'gates']).status);
    assert.deepStrictEqual(built, [1, 1]);
    for (const name of ['a.js.html', 'h.js.html', 'index.html']) assert.strictEqual(read(path.join(folder, 'pages1', name)), read(path.join(folder, 'pages3', name)));
  }),
  'a number of jobs that is none': () => {
    for (const jobs of ['0', '257', 'x', '1.5']) assert.match(inline(ROOT, ['--jobs', jobs, '--check', 'samples']).said, /^script\/inline: --jobs takes a number from 1 to 256\n$/);
  },
  'a thread that ends takes only its script along': () => inFolder(gates('a', 'ends', 'g', 'h'), (folder) => {
    const { status, text } = inline(folder, ['--no-guard', '--jobs', '2', '--check', 'gates'], HOOKED);
    assert.match(text, /^gates\/a\.js: shown .*\ngates\/ends\.js: an error of the tool itself.*\ngates\/g\.js: shown .*\ngates\/h\.js: shown /);
    assert.match(text, /\n4 scripts: 1 failed, 3 shown\n$/);
    assert.strictEqual(status, 5);
  }),
  'a script is told as soon as it is done, and what the others wait for': () => inFolder(gates('a', 'slow', 'z'), (folder) => {
    const timed = 'cd "$1" && "$0" --no-guard --jobs 2 --check gates 2>said | while read -r line; do echo "$(date +%s%N) $line"; done';
    const { stdout, stderr } = spawnSync('bash', ['-c', timed, COMMAND, folder], { env: HOOKED, encoding: 'utf8' });
    assert.strictEqual(stderr, '');
    const at = (name) => Number(BigInt(new RegExp(`^(\\d+) gates/${name}\\.js: shown `, 'm').exec(stdout)[1]) / 1000000n);
    assert.ok(at('slow') - at('a') > 1000, stdout);
    assert.match(read(path.join(folder, 'said')), /^2 of 3 scripts done, at gates\/slow\.js\n/m);
  }),
};

// What all scripts would have ends the round, and the process with it.
const ENDED = `
const { round } = require(${JSON.stringify(path.join(ROOT, 'script', 'src', 'round'))});
const { readOptions } = require(${JSON.stringify(path.join(ROOT, 'script', 'src', 'options'))});
const scripts = ['a.js', 'b.js', 'c.js'].map((name) => ({ file: process.argv[1] + '/gates/' + name, inside: name }));
round(scripts, readOptions(['--jobs', '2', '--port', 'nowhere', '--check', 'x']), () => console.log('told')).catch((error) => console.log(error.message));`;

function endsAtOnce() {
  inFolder(gates('a', 'b', 'c'), (folder) => {
    const { status, stdout } = spawnSync(process.execPath, ['-e', ENDED, folder], { encoding: 'utf8', timeout: 60000 });
    assert.match(stdout, /^the program that does the pass is not there: nowhere; [^\n]*\n$/);
    assert.strictEqual(status, 0);
  });
}

function filesBelow(folder) {
  if (!fs.existsSync(folder)) return [];
  return fs.readdirSync(folder, { withFileTypes: true }).flatMap((entry) => (entry.isDirectory() ? filesBelow(path.join(folder, entry.name)) : [path.join(folder, entry.name)]));
}

const keptIn = (folder) => filesBelow(path.join(folder, 'cache', 'negbosun')).filter((name) => name.endsWith('.json'));
const withCache = (folder) => ({ ...process.env, XDG_CACHE_HOME: path.join(folder, 'cache') });
const WRONG = 'function f(t, c) { if (t + c > 300) { g(); } t = 0; }\n';

// What was kept is made to say something else, to be seen where it is used.
function mark(file) {
  const kept = JSON.parse(read(file));
  fs.writeFileSync(file, JSON.stringify({ ...kept, outcome: { ...kept.outcome, trials: 4321 } }));
}

const KEPT = {
  'what the guard found is kept, by content': () => inFolder({ 'a.js': WRONG, 'b.js': WRONG }, (folder) => {
    const env = withCache(folder);
    const first = inline(folder, ['a.js'], env);
    assert.deepStrictEqual([first.status, keptIn(folder).length], [3, 1]);
    assert.deepStrictEqual(inline(folder, ['a.js'], env), first);
    mark(keptIn(folder)[0]);
    assert.match(inline(folder, ['a.js'], env).said, /\d+ of 4321 trials differ/);
    // The same script under another name: its places have its own name.
    const other = inline(folder, ['b.js'], env).said;
    assert.match(other, /^b\.js:\d+:\d+: the result does something else: /);
    assert.match(other, /\nb\.js: different; \d+ of 4321 trials differ\n/);
    assert.strictEqual(keptIn(folder).length, 1);
  }),
  'other scripts, levels, samples, numbers of trials and seeds are others': () => inFolder({ 'a.js': WRONG, 'c.js': `${WRONG}\n`, 'a.json': '{"x": [1]}' }, (folder) => {
    const env = withCache(folder);
    const lists = [['a.js'], ['c.js'], ['--host=plain', 'a.js'], ['--samples', 'a.json', 'a.js'], ['--trials', '10', 'a.js'], ['--seed', '2', 'a.js']];
    lists.forEach((list, index) => {
      inline(folder, list, env);
      assert.strictEqual(keptIn(folder).length, index + 1, `${list}`);
    });
  }),
  'without the cache nothing is kept or used': () => inFolder({ 'a.js': WRONG }, (folder) => {
    const env = withCache(folder);
    inline(folder, ['--no-cache', 'a.js'], env);
    assert.strictEqual(keptIn(folder).length, 0);
    inline(folder, ['a.js'], env);
    mark(keptIn(folder)[0]);
    assert.match(inline(folder, ['--no-cache', 'a.js'], env).said, /\d+ of 60 trials differ/);
  }),
  'a kept file that is broken is none, and a folder that cannot be written does not matter': () => inFolder({ 'a.js': WRONG, 'cache/negbosun': 'in the way' }, (folder) => {
    const env = withCache(folder);
    const plain = inline(folder, ['a.js'], env);
    assert.strictEqual(plain.status, 3);
    fs.rmSync(path.join(folder, 'cache/negbosun'));
    inline(folder, ['a.js'], env);
    for (const broken of ['{', '{}', 'null', '{"outcome": {"findings": 1}}']) {
      fs.writeFileSync(keptIn(folder)[0], broken);
      assert.deepStrictEqual(inline(folder, ['a.js'], env), plain);
    }
  }),
  'what nobody has asked for in a month goes': () => inFolder({ 'a.js': WRONG }, (folder) => {
    const old = path.join(folder, 'cache/negbosun/guard/ab/old.json');
    fs.mkdirSync(path.dirname(old), { recursive: true });
    fs.writeFileSync(old, '{}');
    fs.utimesSync(old, new Date(2001, 0), new Date(2001, 0));
    inline(folder, ['a.js'], withCache(folder));
    assert.deepStrictEqual([fs.existsSync(old), keptIn(folder).length], [false, 1]);
  }),
};

function named(cases) {
  return ([name]) => {
    try {
      cases[name]();
    } catch (error) {
      throw new Error(`${name}: ${error.message}`);
    }
  };
}

function testRound() {
  each('scripts side by side', Object.entries(SIDES), named(SIDES));
  each('what all scripts would have ends the round', [0], endsAtOnce);
  each('what the guard found is kept', Object.entries(KEPT), named(KEPT));
}

module.exports = { testRound };
