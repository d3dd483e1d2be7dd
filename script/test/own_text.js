// Tests of the result as edits in the script's own text.
'use strict';

const acorn = require('acorn');
const assert = require('assert');
const { build } = require('../src/build');
const { K, preorder } = require('../src/kinds');
const { ownText } = require('../src/own_text');
const { PARSER } = require('../src/parse');
const { treeOfText } = require('../src/to_tree');
const { ScriptTrouble } = require('../src/trouble');
const { anyScript } = require('./any_scripts');
const { sampleText, samples } = require('./files');
const { gateScript } = require('./gate_scripts');
const { each } = require('./harness');

// Scripts with the text that comes out of them.
const TEXTS = [
  ['// top\nconst a = 7;\n\n\n  f( a );  // end\n', '// top\nconst a = 7;\n\n\n  f( 7 );  // end\n'],
  ['var x = /* why */ 1; f(x);', 'var x /* why */; f(1);'],
  ['var x = [1, // one\n  2];\nf(x);', 'var x // one\n;\nf([1,\n  2]);'],
  ['const s = \'Höhe "ü" \\u00e4\'; log(s); // Maß', 'const s = \'Höhe "ü" \\u00e4\'; log(\'Höhe "ü" \\u00e4\'); // Maß'],
  ['const n = 0x1F, m = 31; f(n, m);', 'const n = 0x1F, m = 31; f(0x1F, 31);'],
  ['const n = 5; f(n.x, -n, o[n]);', 'const n = 5; f((5).x, -5, o[5]);'],
  ['var n = -1; y = 1-n;', 'var n; y = 1-(-1);'],
  ['function f(a, b) { var s = a + b; return 2 * s; }', 'function f(a, b) { var s; return 2 * (a + b); }'],
  ['function f(a, b) { var s = a * b; return 2 + s; }', 'function f(a, b) { var s; return 2 + a * b; }'],
  ['function f(a, b) { var s = a || b; return s && g; }', 'function f(a, b) { var s; return (a || b) && g; }'],
  ['function f(a, b) { var s = a ?? b; return s || g; }', 'function f(a, b) { var s; return (a ?? b) || g; }'],
  ['function f(a) { var s = a.b; return s[0](1); }', 'function f(a) { var s; return a.b[0](1); }'],
  ['function f(p) { var t = typeof/*c*/p; return t; }', 'function f(p) { var t /*c*/; return typeof p; }'],
  ['function f(p) { var t = p +/*c\n*/1; return [t]; }', 'function f(p) { var t /*c\n*/; return [p +\n1]; }'],
  ['const a = 1; f({a});', 'const a = 1; f({a: 1});'],
  ['const b = a; function f(a) { return {a}.a > b; }', 'const b = a; function f(a$1) { return {a: a$1}.a > a; }'],
  ['function h(p) {\n  var t = [p]\n  g = 1\n  t.x\n}', 'function h(p) {\n  var t\n  g = 1\n  ;[p].x\n}'],
  ['const a = "use strict";\nfunction f() { a; g(); }', 'const a = "use strict";\nfunction f() { ("use strict"); g(); }'],
  ['const a = "x";\nfunction f() { a; "use strict"; g(); }', 'const a = "x";\nfunction f() { ("x"); "use strict"; g(); }'],
  ['var x;\r\nx;\r\n', 'var x;\r\nvoid 0;\r\n'],
  ['\ufeffconst a = 1; f(a)', '\ufeffconst a = 1; f(1)'],
  ['const n = 5; function f({today, before = n}) { var d = today; g(); return d; }', 'const n = 5; function f({today, before = 5}) { var d; g(); return today; }'],
  ['const b = a; function f({a}) { return a > b; }', 'const b = a; function f({a: a$1}) { return a$1 > a; }'],
  ['const b = a; function f({a = 1, "x-y": [c]}) { return a > b; }', 'const b = a; function f({a: a$1 = 1, "x-y": [c]}) { return a$1 > a; }'],
  ['const b = a; function f([a]) { return ({a} = {a: b}); }', 'const b = a; function f([a$1]) { return ({a: a$1} = {a: a}); }'],
  ['let v = {a} = o; v;', 'let v; ({a} = o);'],
  ['let v = {a} = o; f(v);', 'let v; f({a} = o);'],
  ['let v = {a} = o; f(() => v);', 'let v; f(() => ({a} = o));'],
  ['let v = () => 1; [a = v] = o;', 'let v; [a = () => 1] = o;'],
  ['let v = p ? 1 : 2; function f(a = /* why */ v) {}', 'let v; function f(a = /* why */ p ? 1 : 2) {}'],
  ['const n = 5; for (const {a = n, b: [c = n]} of l) { f(a, c, n); }', 'const n = 5; for (const {a = 5, b: [c = 5]} of l) { f(a, c, 5); }'],
  ['const n = 5; try { f(); } catch ({message, code = n}) { g(message, code); }', 'const n = 5; try { f(); } catch ({message, code = 5}) { g(message, code); }'],
  ['const n = 010; function f() { "use strict"; g(n); } g(n);', 'const n = 010; function f() { "use strict"; g(8); } g(010);'],
  ['const s = "a\\07\\0"; function f() { "x"; \'use strict\'; g(() => s); } g(s);', 'const s = "a\\07\\0"; function f() { "x"; \'use strict\'; g(() => "a\\x07\\0"); } g("a\\07\\0");'],
  ['const s = "\\0 \\\\1"; function f() { "use strict"; g(s); }', 'const s = "\\0 \\\\1"; function f() { "use strict"; g("\\0 \\\\1"); }'],
  ['let a = [p, {"\\2": 08}]; g(function () { "use strict"; return a; });', 'let a; g(function () { "use strict"; return [\n  p,\n  { "\\x02": 8 }\n]; });'],
  ['let a = {"\\2": p}; g(function () { "use strict"; return a; });', 'let a; g(function () { "use strict"; return { "\\x02": p }; });'],
  ['#!/usr/bin/env node\nconst a = 1; f(a)', '#!/usr/bin/env node\nconst a = 1; f(1)'],
];

function resultOf(text) {
  const { root, answer } = build(text, {});
  return ownText(root, answer.tree, text);
}

// A script with a comment behind every token: all stay, in their order.
function commented(text) {
  let [made, at, count] = ['', 0, 0];
  for (const { end } of acorn.tokenizer(text, PARSER)) {
    made += `${text.slice(at, end)} /*${count++}*/`;
    at = end;
  }
  return made + text.slice(at);
}

function keepsComments(plain) {
  const text = commented(plain);
  const comments = (script) => script.match(/\/\*\d+\*\//g);
  const { text: result, edits } = resultOf(text);
  assert.deepStrictEqual(comments(result), comments(text), result);
  return edits.length;
}

// Random scripts that the port takes; the text is read again by ownText itself, which throws where it reads otherwise.
function randomResult(text) {
  try {
    const { root, answer } = build(text, {});
    ownText(root, answer.tree, text);
  } catch (error) {
    if (!(error instanceof ScriptTrouble) || /does not read as the result/.test(error.message)) throw error;
  }
}

// A tree with a name that no text has.
function notReadable() {
  const text = 'const a = 1; f(a);';
  const [root, result] = [treeOfText(text), treeOfText(text)];
  const read = [...preorder(result)].filter(({ kind }) => kind === K.identifier).at(-1);
  read.text = 'while';
  assert.throws(() => ownText(root, result, text), /does not read as the result, so nothing is written/);
}

function testOwnText() {
  each('the script\'s own text with edits', TEXTS, ([text, expected]) => assert.strictEqual(resultOf(text).text, expected));
  each('comments stay in samples', samples(), (name) => assert.ok(keepsComments(sampleText(name)) > 0));
  each('random scripts edited read as their results', Array.from({ length: 60 }, (_, seed) => seed), (seed) => {
    randomResult(anyScript(seed + 1000, 5 + (seed % 80)));
    randomResult(gateScript(seed + 1000));
  });
  each('an edited text that reads otherwise is none', [0], notReadable);
}

module.exports = { testOwnText };
