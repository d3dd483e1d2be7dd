// How tightly an expression binds, how tightly its place in the text wants it, and so whether it needs parentheses there.
'use strict';

const { K, BINARY, UNARY } = require('./kinds');

// Levels of the grammar, loosest first.
const P = { sequence: 0, assign: 1, conditional: 2, or: 3, equal: 8, unary: 14, postfix: 15, bareNew: 16, call: 17, member: 18, primary: 19 };
const OPERATORS = [
  ['||', '??'], ['&&'], ['|'], ['^'], ['&'], ['==', '!=', '===', '!=='], ['<', '<=', '>', '>=', 'in', 'instanceof'],
  ['<<', '>>', '>>>'], ['+', '-'], ['*', '/', '%'], ['**'],
];
const LEVELS = new Map(OPERATORS.flatMap((list, index) => list.map((operator) => [operator, P.or + index])));
const LOGICAL = new Set(['||', '&&', '??']);

const operatorOf = (node) => (node.kind === K.binary ? BINARY[node.form] : null);

const OWN = {
  [K.sequence]: () => P.sequence,
  [K.assign]: () => P.assign,
  [K.arrow]: () => P.assign,
  [K.conditional]: () => P.conditional,
  [K.binary]: (node) => LEVELS.get(operatorOf(node)),
  [K.unary]: () => P.unary,
  [K.update]: (node) => (node.form < 2 ? P.unary : P.postfix),
  [K.new]: (node) => (node.form ? P.member : P.bareNew),
  [K.call]: () => P.call,
};

const ownLevel = (node) => (OWN[node.kind] ? OWN[node.kind](node) : P.primary);

function binaryPlace(parent, index) {
  const operator = operatorOf(parent);
  const level = LEVELS.get(operator);
  if (operator === '**') return index ? level : P.postfix;
  return index ? level + 1 : level;
}

const list = (first) => (parent, index) => (index ? P.assign : first);

// The loosest level that may stand at a place; other places take anything.
const PLACE = {
  [K.declarator]: () => P.assign,
  [K.default]: () => P.assign,
  [K.forOf]: () => P.assign,
  [K.array]: () => P.assign,
  [K.property]: () => P.assign,
  [K.sequence]: () => P.assign,
  [K.arrow]: () => P.assign,
  [K.assign]: list(P.call),
  [K.conditional]: list(P.or),
  [K.call]: list(P.call),
  [K.new]: list(P.member),
  [K.member]: () => P.call,
  [K.computed]: (parent, index) => (index ? P.sequence : P.call),
  [K.unary]: () => P.unary,
  [K.update]: () => P.postfix,
  [K.binary]: binaryPlace,
};

const hasCall = (node) => node.kind === K.call || ([K.member, K.computed].includes(node.kind) && hasCall(node.children[0]));

// `a - -b` without its space is `a--b`, and `??` may not stand beside `||` or `&&`.
function clashes(parent, node) {
  const signed = node.kind === K.update || (node.kind === K.unary && '+-'.includes(UNARY[node.form]));
  if (signed && [K.unary, K.binary].includes(parent.kind)) return true;
  const [outer, inner] = [operatorOf(parent), operatorOf(node)];
  return LOGICAL.has(outer) && LOGICAL.has(inner) && (outer === '??') !== (inner === '??');
}

const BRACED = new Set([K.object, K.functionExpression, K.objectPattern]);

// At the beginning of a statement, and of an arrow's body, `{` and `function` mean something else; a text could be a directive, or let the next one be one.
function startsOtherwise(parent, node, level) {
  if (node.kind === K.string) return parent.kind === K.expression;
  const braced = BRACED.has((node.kind === K.assign ? node.children[0] : node).kind);
  return braced && (level > P.assign || [K.expression, K.arrow, K.sequence].includes(parent.kind));
}

// Whether `node` needs parentheses as the child `index` of `parent`.
function needsParentheses(parent, index, node) {
  if (node.kind === K.parenthesis) return false;
  const level = PLACE[parent.kind] ? PLACE[parent.kind](parent, index) : P.sequence;
  if (ownLevel(node) < level || clashes(parent, node) || startsOtherwise(parent, node, level)) return true;
  if (node.kind === K.number && parent.kind === K.member) return true;
  return parent.kind === K.new && index === 0 && hasCall(node);
}

module.exports = { needsParentheses };
