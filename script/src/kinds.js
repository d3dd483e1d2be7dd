// The kinds of document 01, and of request 4 of document 02, with their forms, by name.
'use strict';

const NAMES = `script block empty expression declaration declarator function return if while do for forIn forOf throw try catch
switch case binding identifier null boolean number string this array object property unary update binary assign conditional call new
member computed functionExpression arrow parenthesis sequence break continue objectPattern arrayPattern patternProperty default`.split(/\s+/);

// Kind by name: 1 for the script, up to 48.
const K = Object.fromEntries(NAMES.map((name, index) => [name, index + 1]));

const DECLARATION = ['var', 'let', 'const'];
const UNARY = ['void', 'typeof', '!', '-', '+', '~', 'delete'];
const BINARY = '&& || == != === !== < <= > >= << >> >>> + - * / % | ^ & in instanceof ** ??'.split(' ');
const ASSIGN = '= += -= *= /= %= <<= >>= >>>= |= ^= &= **= &&= ||= ??='.split(' ');

const NAMED = new Set([K.binding, K.identifier]);
const TEXTED = new Set([K.binding, K.identifier, K.string, K.property, K.member, K.patternProperty]);
const PATTERNS = new Set([K.objectPattern, K.arrayPattern]);
const STATEMENTS = new Set([2, 3, 4, 5, 7, 8, 9, 10, 11, 12, 13, 14, 15, 16, 18, 43, 44]);
const FUNCTIONS = new Set([K.function, K.functionExpression, K.arrow]);

// Form bits of `for` and `try`: which children are there.
const FOR = { start: 1, test: 2, update: 4 };
const TRY = { handler: 1, finalizer: 2 };

const isStatement = (node) => STATEMENTS.has(node.kind);
const isFunction = (node) => FUNCTIONS.has(node.kind);

const isPattern = (node) => PATTERNS.has(node.kind);

// A function's own name, if it has one, its parameters and its body.
function partsOfFunction({ kind, form, children }) {
  const named = kind === K.function || (kind === K.functionExpression && form === 1);
  return { name: named ? children[0] : null, params: children.slice(named ? 1 : 0, -1), body: children.at(-1) };
}

// BoundNames: the bindings of a name, pattern or default in tree order; what stands in a default's value is none of them.
function boundNames(node) {
  if (node.kind === K.binding) return [node];
  if (node.kind === K.default) return boundNames(node.children[0]);
  return isPattern(node) || node.kind === K.patternProperty ? node.children.flatMap(boundNames) : [];
}

// A name and its context tell a variable.
const identityOf = (node) => `${node.text}:${node.bits}`;

const view = new DataView(new ArrayBuffer(8));

function bitsOfNumber(value) {
  view.setFloat64(0, value);
  return view.getBigUint64(0);
}

function numberOfBits(bits) {
  view.setBigUint64(0, bits);
  return view.getFloat64(0);
}

// All nodes under a node, itself first, in the tree file's order.
function* preorder(root) {
  const left = [root];
  while (left.length) {
    const node = left.pop();
    yield node;
    for (let index = node.children.length - 1; index >= 0; index--) left.push(node.children[index]);
  }
}

module.exports = {
  K, DECLARATION, UNARY, BINARY, ASSIGN, NAMED, TEXTED, FOR, TRY,
  isStatement, isFunction, isPattern, partsOfFunction, boundNames, identityOf, bitsOfNumber, numberOfBits, preorder,
};
