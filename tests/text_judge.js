// Outside judges of the printer: standard input has on each line a tree file and a text, both in hex digits. For each it prints what acorn and what V8 make of the
// text: acorn `same` (it reads as the tree, parentheses passed over on both sides), `other` or `unread`; V8, which shows no tree, `read`, `early` (an early error, which is
// no matter of the grammar), `astray` or `unread`.
'use strict';

const fs = require('fs');
const vm = require('vm');
const acorn = require('acorn');
const { estreeOf } = require('../script/src/from_tree');
const { readTreeFile } = require('../script/src/tree_file');

const OPTIONS = { ecmaVersion: 2022, sourceType: 'script', preserveParens: true };
// Of early errors acorn says nothing here: request 6 leaves them out. That `??` stands beside `||` or `&&` is against the grammar.
const EARLY_IN_ACORN = /^(?:Unsyntactic|Deleting|Binding|Assigning|Redefinition|Argument name clash)/;
const GrammarAlone = acorn.Parser.extend((Parser) => class extends Parser {
  raiseRecoverable(at, words) {
    if (/cannot be mixed/.test(words)) super.raise(at, words);
  }

  declareName() {}

  // No printed text has a regular expression. acorn takes `/` for the beginning of one behind a function in `a ? b : function ( ) { } / c`.
  readToken_slash() {
    this.exprAllowed = false;
    return super.readToken_slash();
  }

  raise(at, words) {
    if (!EARLY_IN_ACORN.test(words)) super.raise(at, words);
  }
});
const EARLY = new RegExp(['has already been declared', 'Illegal break', 'Illegal continue', 'Missing initializer in const', 'strict mode', 'Duplicate parameter name',
  'let is disallowed', "Illegal 'use strict'", 'no surrounding iteration'].join('|'));

// V8 refuses some calls with a pattern that is assigned to among the arguments, which are in the grammar: `g ( a /= b , { } = c )`.
const ASTRAY = /Invalid destructuring assignment target/;

// What a node of either tree has besides its children, and what of it is no matter here.
const PASSED_OVER = new Set(['start', 'end', 'raw', 'directive', 'shorthand', 'bare', 'sourceType', 'expression']);
const bare = (node) => (node && node.type === 'ParenthesizedExpression' ? bare(node.expression) : node);
// acorn does not tell `new X` from `new X()`; only the list reaches past the callee.
const hasNoList = (node) => node.bare ?? node.end === node.callee.end;

function same(given, read) {
  const [one, two] = [bare(given), bare(read)];
  if (one === null || two === null || typeof one !== 'object' || typeof two !== 'object') return Object.is(one, two);
  if (Array.isArray(one)) return Array.isArray(two) && one.length === two.length && one.every((part, index) => same(part, two[index]));
  if (one.type !== two.type) return false;
  if (one.type === 'NewExpression' && hasNoList(one) !== hasNoList(two)) return false;
  if (one.type === 'ArrowFunctionExpression' && one.expression !== two.expression) return false;
  if (one.type === 'ExpressionStatement') return same(one.expression, two.expression);
  const keys = Object.keys(one).filter((key) => !PASSED_OVER.has(key));
  return keys.every((key) => same(one[key], two[key]));
}

function readByAcorn(tree, text) {
  let read;
  try {
    read = GrammarAlone.parse(text, OPTIONS);
  } catch (error) {
    if (error instanceof SyntaxError) return 'unread';
    throw error;
  }
  return same(estreeOf(tree), read) ? 'same' : 'other';
}

function readByV8(text) {
  try {
    return new vm.Script(text) && 'read';
  } catch (error) {
    if (ASTRAY.test(error.message)) return 'astray';
    return EARLY.test(error.message) ? 'early' : 'unread';
  }
}

for (const line of fs.readFileSync(0, 'latin1').split('\n')) {
  if (line === '') continue;
  const [tree, text] = line.split(' ').map((hex) => Buffer.from(hex, 'hex'));
  console.log(readByAcorn(readTreeFile(tree), text.toString()), readByV8(text.toString()));
}
