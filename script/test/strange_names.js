// Tests of names and texts that would steer a terminal, forge a line, or turn the order of what is read; and of names that are not UTF-8.
'use strict';

const assert = require('assert');
const { spawnSync } = require('child_process');
const fs = require('fs');
const path = require('path');
const { frame } = require('../src/frame');
const { visible, visibleJson } = require('../src/visible');
const { ROOT, inFolder, read, withoutProgress } = require('./files');
const { each } = require('./harness');

const COMMAND = path.join(ROOT, 'script', 'inline');

function inline(cwd, list, input = '') {
  const { status, stdout, stderr } = spawnSync(COMMAND, ['--no-guard', ...list], { cwd, input, encoding: 'utf8' });
  return { status, text: stdout, said: withoutProgress(stderr) };
}

const RED = '\u001b[31m';
const BACK = '\u202e';
const STEERING = /[\u0000-\u0008\u000b-\u001f\u007f-\u009f\u200b-\u200f\u2028-\u202e\u2060-\u206f]/;

const VISIBLE = [
  ['plain é 水 👍\tx', 'plain é 水 👍\tx'], ['\u001b[31m', '\\x1b[31m'], ['a\nb\rc', 'a\\x0ab\\x0dc'], ['\u0000\u007f\u009b', '\\x00\\x7f\\x9b'], ['a\u202eb\u2066c', 'a<U+202E>b<U+2066>c'],
  ['\u2028', '<U+2028>'], ['\ufeffx', '<U+FEFF>x'], ['\ud800', '<U+D800>'], ['\udc00x', '<U+DC00>x'], ['\u{e0041}', '<U+E0041>'],
];

// Whatever a name or a script has in it, what is said has none of it, and no line that begins with another script's name.
const SAID = {
  'a name that would forge a verdict': () => inFolder({ 'gates/a.js\ngates/b.js: shown at --host=anything\n.js': 'class A {}' }, (folder) => {
    const { text } = inline(folder, ['--check', 'gates']);
    assert.strictEqual(text, 'gates/a.js\\x0agates/b.js: shown at --host=anything\\x0a.js:1:1: a class cannot be built; write functions and plain objects\n1 script: 1 refused\n');
  }),
  'names that steer a terminal': () => inFolder({ [`gates/${RED}a.js`]: 'const a = 1; f(a);', [`gates/${BACK}sj.txt.js`]: 'var x = 1; x;' }, (folder) => {
    for (const list of [['--check', 'gates'], ['--json', 'gates'], ['--page', 'pages', 'gates'], ['--out-dir', 'built', 'gates'], ['--check', `gates/${RED}no.js`], [`gates/${RED}a.js`], ['--out', `${RED}no/x.js`, '-'], [`--${RED}`]]) {
      const { text, said } = inline(folder, list, 'f();');
      assert.doesNotMatch(text + said, STEERING, `${list}`);
      assert.ok(text.length + said.length > 10);
    }
    const [one, two] = JSON.parse(inline(folder, ['--json', 'gates']).text).scripts;
    assert.deepStrictEqual([one.file, two.file], [`gates/${RED}a.js`, `gates/${BACK}sj.txt.js`]);
    assert.doesNotMatch(read(path.join(folder, 'pages/index.html')), STEERING);
  }),
  'excerpts and names of a script': () => {
    const texts = [`f("${BACK}"); class A {} // ${RED}\u0007`, `var \u202da${BACK} = 1;`, `const a\u200d = "${RED}", b = 1; { var a\u200d; }`, `var x = g(); h("${RED}", x); x = "${BACK}"`];
    for (const text of texts) {
      for (const list of [[], ['--compare'], ['--json'], ['--check']]) {
        const { text: out, said } = inline(ROOT, [...list, '-'], text);
        assert.doesNotMatch(said + (list.length ? out : ''), STEERING);
      }
    }
    const { said } = inline(ROOT, ['-'], `f("${BACK}"); class A {}`);
    assert.strictEqual(said, 'standard input:1:9: a class cannot be built; write functions and plain objects\n    1 | f("<U+202E>"); class A {}\n      |                ^\n');
  },
  'a result on standard output is the script\'s own': () => assert.strictEqual(inline(ROOT, ['-'], `const a = 1; f(a, "${RED}${BACK}");`).text, `const a = 1; f(1, "${RED}${BACK}");`),
  'names that are not UTF-8': () => inFolder({ 'gates/a.js': 'const a = 1; f(a);', 'gates/z.js': 'f();' }, (folder) => {
    const odd = (name) => Buffer.concat([Buffer.from(path.join(folder, 'gates/')), Buffer.from(name, 'latin1')]);
    fs.writeFileSync(odd('h\xf6he.js'), 'f();');
    fs.writeFileSync(odd('h\xf6he.txt'), 'f();');
    fs.mkdirSync(odd('m\xfchle'));
    const { status, text } = inline(folder, ['--check', 'gates']);
    assert.strictEqual(status, 2);
    assert.match(text, /^gates\/a\.js: shown [^]*\ngates\/h\\xf6he\.js: this name is not UTF-8\ngates\/m\\xfchle: this name is not UTF-8\ngates\/z\.js: unchanged\n[^]*\n4 scripts: 2 not read, 1 shown, 1 unchanged\n$/);
    assert.strictEqual(inline(folder, ['--page', 'pages', 'gates']).status, 2);
    assert.ok(fs.existsSync(path.join(folder, 'pages', 'h\\xf6he.js.html')));
    const given = spawnSync('bash', ['-c', '"$0" "$(printf \'gates/h\\xf6he.js\')"', COMMAND], { cwd: folder, encoding: 'utf8' });
    assert.deepStrictEqual([given.status, given.stdout], [2, '']);
    assert.match(given.stderr, /no such file\n {2}a name that is not UTF-8 cannot be given; name the file otherwise, or give it on standard input: script\/inline - < FILE\n$/);
  }),
};

function testStrangeNames() {
  each('what would steer a terminal is written out', VISIBLE, ([text, shown]) => {
    assert.strictEqual(visible(text), shown);
    assert.strictEqual(JSON.parse(visibleJson(JSON.stringify({ text }, null, 2))).text, text);
  });
  each('a caret below what is written out', [0], () => assert.deepStrictEqual(frame(`a${BACK}b`, { line: 1, column: 2 }), ['    1 | a<U+202E>b', '      |          ^']));
  each('strange names and texts', Object.entries(SAID), ([name, act]) => {
    try {
      act();
    } catch (error) {
      throw new Error(`${name}: ${error.message}`);
    }
  });
}

module.exports = { testStrangeNames };
