// Tests of what the command takes and writes: folders, standard input, pages, JSON, results whole or not at all, errors in plain words.
'use strict';

const assert = require('assert');
const { spawnSync } = require('child_process');
const fs = require('fs');
const path = require('path');
const { writeFolder } = require('../src/folder');
const { frame } = require('../src/frame');
const { amiss } = require('../src/ready');
const { scopesIn } = require('../src/running');
const { treeOfText } = require('../src/to_tree');
const { VERSION } = require('../src/version');
const { ROOT, inFolder, read, withoutProgress } = require('./files');
const { each } = require('./harness');

const COMMAND = path.join(ROOT, 'script', 'inline');

// Whatever the verdict is, it is written.
function inline(cwd, list, input = '', env = process.env) {
  const { status, stdout, stderr } = spawnSync(COMMAND, ['--no-guard', '--accept', ...list], { cwd, input, env, encoding: 'utf8' });
  return { status, text: stdout, said: withoutProgress(stderr) };
}

const GATES = { 'gates/a.js': 'const a = 1; f(a);', 'gates/below/b.js': '// kept\nvar b = 2; g(b);', 'gates/readme.txt': 'no script' };
const BROKEN = { ...GATES, 'gates/c.js': 'class C {}' };

const filesIn = (folder, inside = '') => fs.readdirSync(path.join(folder, inside), { withFileTypes: true }).flatMap((entry) => {
  const name = path.join(inside, entry.name);
  return entry.isDirectory() ? filesIn(folder, name) : [name];
}).filter((name) => !name.startsWith('.negbosun-')).sort();

const times = (count, text) => text.repeat(count);
const SLOW = `${times(31, 'var v = function () {')}${times(31, '};')}`;

// The verdicts on BROKEN in one line each, as JSON, index and --check have them. With --accept and without the guard.
const SHORT = [
  'shown at --host=anything; guard not asked',
  'accepted; not shown at --host=anything; shown at --host=apart; guard not asked',
  'refused, line 1, column 1: a class cannot be built; write functions and plain objects',
];

const OUTPUTS = {
  'a folder of results': () => inFolder(GATES, (folder) => {
    assert.strictEqual(inline(folder, ['--out-dir', 'built', 'gates']).status, 0);
    assert.deepStrictEqual(filesIn(path.join(folder, 'built')), ['a.js', 'below/b.js']);
    assert.strictEqual(read(path.join(folder, 'built/below/b.js')), '// kept\nvar b; g(2);');
  }),
  'no results where one script has none': () => inFolder({ ...BROKEN, 'built/a.js': 'old' }, (folder) => {
    const { status, said } = inline(folder, ['--out-dir', 'built', 'gates']);
    assert.strictEqual(status, 1);
    assert.match(said, /nothing was written to built: 1 of 3 scripts has no result/);
    assert.deepStrictEqual([filesIn(path.join(folder, 'built')), read(path.join(folder, 'built/a.js'))], [['a.js'], 'old']);
  }),
  'no script is replaced': () => inFolder(GATES, (folder) => {
    const { status, said } = inline(folder, ['--out-dir', 'gates', 'gates']);
    assert.strictEqual(status, 2);
    assert.match(said, /a\.js is one of the scripts/);
    assert.strictEqual(read(path.join(folder, 'gates/a.js')), GATES['gates/a.js']);
  }),
  'what was there comes back': () => inFolder({ 'built/a.js': 'old', 'built/below': 'in the way' }, (folder) => {
    const built = path.join(folder, 'built');
    assert.throws(() => writeFolder(built, [{ inside: 'a.js', content: 'new' }, { inside: 'below/b.js', content: 'new' }], [], '--out-dir'));
    assert.deepStrictEqual([filesIn(built), read(path.join(built, 'a.js'))], [['a.js', 'below'], 'old']);
  }),
  'pages with an index': () => inFolder(BROKEN, (folder) => {
    assert.strictEqual(inline(folder, ['--page', 'pages', 'gates']).status, 1);
    assert.deepStrictEqual(filesIn(path.join(folder, 'pages')), ['a.js.html', 'below/b.js.html', 'c.js.html', 'index.html']);
    const index = read(path.join(folder, 'pages/index.html'));
    assert.match(index, /<a href="below\/b\.js\.html">gates\/below\/b\.js<\/a>/);
    assert.match(index, /<p>3 scripts: 1 refused, 1 accepted, 1 shown\.<\/p>/);
    const places = [SHORT[2], SHORT[1], SHORT[0], '<code>--host=anything</code>: any host', '<code>--host=apart</code>: a host that '].map((words) => index.indexOf(words));
    assert.deepStrictEqual([...places].sort((one, other) => one - other), places, 'the worst first, then what the levels mean');
    assert.ok(places[0] > 0);
    assert.match(read(path.join(folder, 'pages/below/b.js.html')), /<a href="\.\.\/index\.html">/);
    assert.match(read(path.join(folder, 'pages/c.js.html')), /line 1, column 1: a class cannot be built/);
  }),
  'one page': () => inFolder(GATES, (folder) => {
    assert.strictEqual(inline(folder, ['--page', 'a.html', 'gates/a.js']).status, 0);
    assert.match(read(path.join(folder, 'a.html')), /<h1>gates\/a\.js<\/h1>/);
  }),
  'JSON of all scripts': () => inFolder(BROKEN, (folder) => {
    const { text, status } = inline(folder, ['--json', 'gates']);
    const [a, b, c] = JSON.parse(text).scripts;
    assert.strictEqual(status, 1);
    assert.deepStrictEqual([a, b, c].map(({ verdict }) => verdict.summary), SHORT);
    assert.deepStrictEqual([a.result, b.result, c.result], ['const a = 1; f(1);', '// kept\nvar b; g(2);', null]);
    assert.deepStrictEqual(c.refusals.map(({ line, column }) => [line, column]), [[1, 1]]);
    assert.deepStrictEqual(b.changes.map(({ how, name, now, line }) => [how, name, now, line]), [['emptied', 'b', '', 2], ['replaced', 'b', '2', 2]]);
    assert.deepStrictEqual(b.variables.find(({ name }) => name === 'b'), { name: 'b', sort: 'var', line: 2, reads: 1, writes: 1, replaced: 1, left: 0, emptied: 1, counted: 1 });
  }),
  'comparison with what the pass counted': () => {
    const compared = (text) => inline(ROOT, ['--compare', '-'], text).text;
    assert.match(compared('var b = 2, c = 3;\ng(b, b, c);\n'), /\n\nreplaced by the pass, in all runs: b 2, c 1\n$/);
    assert.doesNotMatch(compared('const a = 1;\nvar b = g();\nf(a, b, b);\n'), /replaced by the pass/);
  },
  'JSON whatever is read': () => {
    const [only] = JSON.parse(inline(ROOT, ['--json', 'nowhere.js']).text).scripts;
    assert.deepStrictEqual([only.verdict.status, only.refusals[0].message, only.script], ['not read', 'no such file', null]);
    assert.strictEqual(only.verdict.summary, 'not read: no such file');
  },
  'standard input and output by name': () => assert.strictEqual(inline(ROOT, ['--out', '-', '-'], 'const a = 1; f(a);').text, 'const a = 1; f(1);'),
  'check of a folder': () => inFolder(BROKEN, (folder) => {
    const { text, status } = inline(folder, ['--check', 'gates']);
    assert.strictEqual(status, 1);
    assert.match(text, /^gates\/a\.js: [^]*^gates\/below\/b\.js: [^]*^gates\/c\.js:1:1: a class[^]*^3 scripts: 1 refused, 1 accepted, 1 shown$/m);
    for (const [name, short] of [['a', SHORT[0]], ['below/b', SHORT[1]]]) assert.ok(text.includes(`gates/${name}.js: ${short}\n`));
  }),
  'the result as the proved printer prints it': () => {
    const printed = (text) => inline(ROOT, ['--print', '-'], text);
    assert.strictEqual(printed('// before\nconst a = 1;\nf(-(-a), "b");').text, 'const a = 1 ;\nf ( - ( - 1 ) , "b" ) ;\n');
    assert.strictEqual(printed('let a = b; { let b; [a]; }').text, 'let a ;\n{ let b$1 ; [ b ] ; }\n');
    assert.strictEqual(printed('').text, '');
  },
  'what has no text is told with its place': () => {
    const told = [
      ['f();\nlet h\u00f6he = 1;\n', 'standard input:2:5: refusal 12: "h\u00f6he", which is no name of letters'],
      ['f("\u00e4");', 'standard input:1:3: refusal 12: "\u00e4", a string of other bytes than 32 to 126'], ['f(a, 1e300);', 'standard input:1:6: refusal 12: 1e300, a number of over 25 digits'],
      ['f({"a-b": 1});', 'refusal 12: "a-b", which is no name'],
    ];
    for (const [text, words] of told) {
      const { status, text: written, said } = inline(ROOT, ['--print', '-'], text);
      assert.deepStrictEqual([status, written], [1, '']);
      assert.ok(said.includes(words), said);
    }
  },
  'printed only where the result would be written': () => {
    const { status, stdout } = spawnSync(COMMAND, ['--no-guard', '--print', '-'], { input: 'var b = 2; g(b);', encoding: 'utf8' });
    assert.deepStrictEqual([status, stdout], [4, '']);
  },
  'version and help': () => {
    assert.strictEqual(inline(ROOT, ['--version']).text, `negbosun ${VERSION}\n`);
    assert.match(inline(ROOT, ['-h']).text, /^Usage: [^]*\nExit status: 0 /);
  },
  'the version is the crate\'s': () => {
    const manifest = path.join(ROOT, 'caller', 'Cargo.toml');
    if (fs.existsSync(manifest)) assert.strictEqual(/^version = "(.*)"$/m.exec(read(manifest))[1], VERSION);
  },
};

// Arguments, standard input, exit status, and what is said.
const SAID = [
  [['nowhere.js'], '', 2, /^nowhere\.js: no such file\n {2}look at the name/],
  [['samples'], '', 2, /^samples: this is a folder\n {2}name a script in it/],
  [['-'], times(1000001, ' '), 1, /^standard input: 1,000,001 bytes, at most 1,000,000\n/],
  [[], 'f(\n  1;\n', 1, /^standard input:2:4: syntax error: Unexpected token `;`\n {4}2 \| {3}1;\n {6}\| {4}\^\n {2}the \( of line 1, column 2 is not closed/],
  [[], 'f("abc);\ng();\n', 1, /^standard input:1:3: syntax error: Unterminated string constant\n {4}1 \| f\("abc\);\n {6}\| {3}\^\n {2}a text ends on the line on which it begins, with the quote that it begins with\n$/],
  [[], 'f(\u201cabc\u201d);', 1, /Unexpected character '\u201c'\n[^]*\n {2}texts stand in straight quotes: "open" or 'open'\n$/],
  [[], 'f(@);', 1, /Unexpected character '@'\n.*\n.*\^\n$/],
  [[], 'x = () => {a: 1, b: 2};', 1, /Unexpected token `:`\n[^]*\n {2}an object that an arrow gives stands in parentheses: `=> \(\{level: 1, open: true\}\)`\n$/],
  [[], 'import a from "b";\nf`x`;\nimport c from "d";\nclass A {}\nexport default 1;', 1,
    /^standard input:1:1: a module [^]*\nstandard input:2:1: a tagged [^]*\nstandard input:3:1: a module [^]*\nstandard input:4:1: a class [^]*\nstandard input:5:1: a module /],
  [[], `f([${times(65536, '1,')}1]);`, 1, /refusal 3: 65,542 nodes, at most 1,024\n/],
  [['--tree'], `f([${times(65536, '1,')}1]);`, 1, /refusal 3: 65,542 nodes, at most 1,024\n/],
  [[], 'if (a) {\n', 1, /^standard input:2:1: syntax error: the script ends too early\n[^]*the \{ of line 1, column 8 is not closed/],
  [[], times(20000, '['), 1, /^standard input:1:201: refusal 6: 20,000 brackets in one another, at most 200 nodes\n/],
  [[], `x = ${times(250, '[')}${times(250, ']')};`, 1, /refusal 6: 253 nodes in one another, at most 200\n {4}1 \| \.\.\.\[/],
  [[], times(300, 'f(1);\n'), 1, /^standard input:\d+:\d+: refusal 3: 1,201 nodes, at most 1,024\n {4}\d+ \| f\(1\);\n {4} +\| +\^\n {2}split the script/],
  [[], `[${Array.from({ length: 257 }, (_, n) => `v${n}`)}]`, 1, /refusal 3: 257 different names and texts, at most 256\n/],
  [[], `${times(40, '{')}f();${times(40, '}')}`, 1, /refusal 8: 41 scopes in one another \(the script, functions, [^)]*\), at most 32\n/],
  [[], `${times(13, 'b && [')}b${times(13, ']')};`, 1, /refusal 8: 13 right sides of && and \|\| in one another, at most 12\n/],
  [[], 'const a = a; a;', 1, /refusal 8: 201 nodes in one another, [^]*, at most 200; the constant a names itself\n/],
  [[], `var x;\n${times(510, 'x;\n')}`, 1, /refusal 9: 1,534 nodes once values are put in the place of names, at most 1,024; the script as written has 1,024\n/],
  [['--time-limit', '0.3'], SLOW, 1, /^standard input: the pass did not end within 0\.3 seconds\n {2}take functions out of one another.*--time-limit SECONDS\n$/],
  [['--time-limit', 'x'], '', 2, /--time-limit takes seconds/],
  [['--out-dir', 'x'], '', 2, /--out-dir takes the scripts to go through/],
  [['--json', '--lines', 'x.js'], '', 2, /--json and --lines do not go together/],
  [['--lines', '--print', 'x.js'], '', 2, /--lines and --print do not go together/],
  [['--out-dir', 'built', '--print', 'x.js'], '', 2, /--out-dir and --print do not go together/],
  [['a.js', 'b.js'], '', 2, /one file at a time/],
  [['--out', 'no/such/out.js'], 'f();', 2, /script\/inline: --out no\/such\/out\.js: the folder no\/such is not there; make it first\n$/],
  [['--page', '/dev/null', '-'], 'f();', 2, /\nscript\/inline: --page \/dev\/null: not a plain file\n$/],
  [['--page', 'no/such/page.html', '-'], 'f();', 2, /\nscript\/inline: --page no\/such\/page\.html: the folder no\/such is not there; make it first\n$/],
  [['--runs', '17'], '', 2, /^script\/inline: refusal 1: --runs takes a number from 1 to 16\n$/],
  [['--page', 'gate.js'], 'f();', 2, /^script\/inline: --page gate\.js: that is a script's name; name the page before the script: --page gate\.html gate\.js\n$/],
  [['--accept', '13', 'gate.js'], '', 2, /^script\/inline: --accept 13 accepts all; --accept=13 accepts these classes\n$/],
  [['--time-limit', '-1'], '', 2, /^script\/inline: Option '--time-limit' is followed by an option in the place of its value; --help lists the options\n$/],
  [['--out-dir', 'README.md/built', 'samples/scripts/levels.js'], '', 2, /\nscript\/inline: --out-dir README\.md\/built: a part of this name is a file and no folder\n$/],
  [['--port', 'samples'], 'f();', 2, /^script\/inline: samples: this is no program that may be run\n$/],
  [['--port', '/bin/true'], 'f();', 2, /^script\/inline: \/bin\/true is not the program that does the pass: it gave no such answer\n$/],
  [['--what'], '', 2, /^script\/inline: Unknown option '--what'; --help lists the options\n$/],
];

function checkSaid([list, input, status, pattern]) {
  const outcome = inline(ROOT, list, input);
  assert.match(outcome.said, pattern);
  assert.deepStrictEqual([outcome.status, outcome.text], [status, '']);
  assert.doesNotMatch(outcome.said, /\n {4}at /);
}

// The scopes that the pass opens at the deepest place of a script.
const SCOPES = [
  ['f();', 1], ['{ f(); }', 2], ['if (a) f();', 2], ['if (a) { f(); }', 3], ['while (a) { f(); }', 3], ['function f() { g(); }', 2],
  ['f = function () { g(); };', 2], ['f = () => { g(); };', 3], ['f = () => g();', 2], ['a && b;', 2], ['try { { f(); } } catch (e) { f(); }', 3],
  ['switch (a) { case 1: f(); }', 2],
];

// Before set-up there is one thing to say.
function beforeSetUp() {
  const absent = () => { throw new Error('not there'); };
  assert.match(amiss('16.20.2', () => ''), /^node 16\.20\.2 is too old: node 18\.3 or newer is needed/);
  assert.match(amiss('18.2.0', () => ''), /too old/);
  assert.strictEqual(amiss('18.3.0', () => ''), '');
  assert.strictEqual(amiss('20.1.0', absent), 'node does not find acorn, escodegen, magic-string');
  inFolder({}, (folder) => {
    for (const name of ['bash', 'dirname', 'readlink', 'env']) fs.symlinkSync(spawnSync('which', [name], { encoding: 'utf8' }).stdout.trim(), path.join(folder, name));
    for (const list of [['--help'], [], ['--check', 'x.js']]) {
      const { status, text, said } = inline(ROOT, list, '', { ...process.env, PATH: folder });
      assert.deepStrictEqual([status, text, said], [2, '', 'run script/setup\n']);
    }
  });
}

function checkFrames() {
  assert.deepStrictEqual(frame('a\n\tbc\n', { line: 2, column: 2 }), ['    2 |  bc', '      |   ^']);
  const [line, caret] = frame(`${times(300, 'x')}y${times(300, 'x')}`, { line: 1, column: 300 });
  assert.strictEqual(line[caret.indexOf('^')], 'y');
}

function testOutputs() {
  each('folders, pages, JSON', Object.entries(OUTPUTS), ([name, act]) => {
    try {
      act();
    } catch (error) {
      throw new Error(`${name}: ${error.message}`);
    }
  });
  each('errors in plain words', SAID, checkSaid);
}

// What needs no port.
function testPlaces() {
  each('before set-up', [0], beforeSetUp);
  each('lines with carets', [0], checkFrames);
  each('scopes in one another', SCOPES, ([text, count]) => assert.strictEqual(scopesIn(treeOfText(text)), count, text));
}

module.exports = { testOutputs, testPlaces };
