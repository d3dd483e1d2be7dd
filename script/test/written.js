// Tests of the files that are written: their modes, what may not be replaced, what is left of scripts that are gone, names on pages, standard output that is closed.
'use strict';

const assert = require('assert');
const { spawnSync } = require('child_process');
const fs = require('fs');
const path = require('path');
const { ROOT, inFolder, read, withoutProgress } = require('./files');
const { each } = require('./harness');

const COMMAND = path.join(ROOT, 'script', 'inline');

function inline(cwd, list, input = '') {
  const { status, stdout, stderr } = spawnSync(COMMAND, ['--no-guard', '--accept', ...list], { cwd, input, encoding: 'utf8' });
  return { status, text: stdout, said: withoutProgress(stderr) };
}

const A = 'const a = 1; f(a);';
const MADE = 'const a = 1; f(1);';
const modeOf = (file) => (fs.statSync(file).mode & 0o7777).toString(8);

function filesIn(folder, inside = '') {
  return fs.readdirSync(path.join(folder, inside), { withFileTypes: true }).flatMap((entry) => {
    const name = path.join(inside, entry.name);
    return entry.isDirectory() ? filesIn(folder, name) : [name];
  }).filter((name) => !name.startsWith('.negbosun-')).sort();
}

const WRITTEN = {
  'a file keeps its mode': () => inFolder({ 'a.js': A, 'out.js': 'old', 'built/a.js': 'old', 'page.html': 'old' }, (folder) => {
    for (const name of ['out.js', 'built/a.js', 'page.html']) fs.chmodSync(path.join(folder, name), 0o751);
    assert.deepStrictEqual([inline(folder, ['--out', 'out.js', 'a.js']).status, inline(folder, ['--out-dir', 'built', 'a.js']).status, inline(folder, ['--page', 'page.html', 'a.js']).status], [0, 0, 0]);
    for (const name of ['out.js', 'built/a.js', 'page.html']) assert.strictEqual(modeOf(path.join(folder, name)), '751', name);
    assert.deepStrictEqual([read(path.join(folder, 'out.js')), read(path.join(folder, 'built/a.js'))], [MADE, MADE]);
  }),
  'a read-only file is not replaced': () => inFolder({ 'a.js': A, 'b.js': A, 'out.js': 'old', 'built/b.js': 'old' }, (folder) => {
    for (const name of ['out.js', 'built/b.js']) fs.chmodSync(path.join(folder, name), 0o444);
    const out = inline(folder, ['--out', 'out.js', 'a.js']);
    assert.strictEqual(out.status, 2);
    assert.match(out.said, /\nscript\/inline: --out out\.js: this file is read-only; name another one, or allow it: chmod u\+w\n$/);
    const built = inline(folder, ['--out-dir', 'built', 'a.js', 'b.js']);
    assert.strictEqual(built.status, 2);
    assert.match(built.said, /\nscript\/inline: --out-dir built: b\.js: this file is read-only; /);
    assert.deepStrictEqual([read(path.join(folder, 'out.js')), read(path.join(folder, 'built/b.js')), filesIn(path.join(folder, 'built'))], ['old', 'old', ['b.js']]);
  }),
  'what is left of scripts that are gone is told, and removed where that is asked for': () => inFolder({ 'gates/a.js': A, 'gates/b.js': A, 'gates/below/c.js': A }, (folder) => {
    inline(folder, ['--out-dir', 'built', '--page', 'pages', 'gates']);
    const [built, pages] = ['built', 'pages'].map((name) => path.join(folder, name));
    // Not the tool's own: it stays whatever is asked for.
    fs.writeFileSync(path.join(built, 'library.js'), 'theirs');
    fs.rmSync(path.join(folder, 'gates/b.js'));
    fs.rmSync(path.join(folder, 'gates/below'), { recursive: true });
    const left = ['built/b.js', 'built/below/c.js', 'pages/b.js.html', 'pages/below/c.js.html'];
    for (let turn = 0; turn < 2; turn++) {
      const { status, said } = inline(folder, ['--out-dir', 'built', '--page', 'pages', 'gates']);
      assert.strictEqual(status, 0);
      assert.deepStrictEqual(said.split('\n').filter((line) => /is gone/.test(line)), left.map((name) => `${name}: its script is gone; --clean removes it`));
    }
    assert.deepStrictEqual(filesIn(built), ['a.js', 'b.js', 'below/c.js', 'library.js']);
    const { said } = inline(folder, ['--clean', '--out-dir', 'built', '--page', 'pages', 'gates']);
    assert.deepStrictEqual(said.split('\n').filter((line) => /is gone/.test(line)), left.map((name) => `${name}: removed, its script is gone`));
    assert.deepStrictEqual([filesIn(built), filesIn(pages), fs.existsSync(path.join(built, 'below'))], [['a.js', 'library.js'], ['a.js.html', 'index.html'], false]);
    assert.doesNotMatch(inline(folder, ['--clean', '--out-dir', 'built', 'gates']).said, /is gone/);
  }),
  'nothing is removed where nothing is written, nor what a list names elsewhere': () => inFolder({ 'gates/a.js': A, 'gates/b.js': A, 'own.js': 'mine' }, (folder) => {
    inline(folder, ['--out-dir', 'built', 'gates']);
    fs.writeFileSync(path.join(folder, 'gates/a.js'), 'class A {}');
    fs.rmSync(path.join(folder, 'gates/b.js'));
    assert.strictEqual(inline(folder, ['--clean', '--out-dir', 'built', 'gates']).status, 1);
    assert.deepStrictEqual(filesIn(path.join(folder, 'built')), ['a.js', 'b.js']);
    fs.writeFileSync(path.join(folder, 'gates/a.js'), A);
    fs.writeFileSync(path.join(folder, 'built/.negbosun-results'), JSON.stringify(['../own.js', path.join(folder, 'own.js'), 'b.js', 7, 'gone.js', '.negbosun-results']));
    assert.match(inline(folder, ['--clean', '--out-dir', 'built', 'gates']).said, /\nbuilt\/b\.js: removed, its script is gone\n$/);
    assert.deepStrictEqual([read(path.join(folder, 'own.js')), filesIn(path.join(folder, 'built'))], ['mine', ['a.js']]);
    assert.match(inline(folder, ['--clean', '--check', 'gates']).said, /--clean goes with --out-dir or --page\n$/);
  }),
  'no page tells where on a machine its script was': () => inFolder({ 'gates/a.js': A, 'gates/b.js': 'class A {}' }, (folder) => {
    inline(ROOT, ['--page', path.join(folder, 'pages'), path.join(folder, 'gates')]);
    for (const name of ['a.js.html', 'b.js.html', 'index.html']) assert.ok(!read(path.join(folder, 'pages', name)).includes(folder), name);
    assert.match(read(path.join(folder, 'pages/a.js.html')), /<h1>a\.js<\/h1>/);
    inline(fs.realpathSync(folder), ['--page', 'page.html', path.join(fs.realpathSync(folder), 'gates/a.js')]);
    assert.match(read(path.join(folder, 'page.html')), /<h1>gates\/a\.js<\/h1>/);
  }),
  'standard output that is closed': () => inFolder({ 'a.js': A }, (folder) => {
    const closed = (list) => spawnSync('bash', ['-c', '"$0" --no-guard --accept "$@" >&-', COMMAND, ...list], { cwd: folder, encoding: 'utf8' });
    for (const list of [['a.js'], ['--check', 'a.js'], ['--json', 'a.js'], ['--page', '-', 'a.js'], ['--help'], ['--tree', 'a.js']]) {
      const { status, stderr } = closed(list);
      assert.strictEqual(status, 6, `${list}`);
      assert.match(stderr, /script\/inline: standard output is closed\n$/);
    }
    assert.deepStrictEqual([closed(['--out', 'out.js', 'a.js']).status, read(path.join(folder, 'out.js'))], [0, MADE]);
  }),
};

function testWritten() {
  each('files that are written', Object.entries(WRITTEN), ([name, act]) => {
    try {
      act();
    } catch (error) {
      throw new Error(`${name}: ${error.message}`);
    }
  });
}

module.exports = { testWritten };
