// The parser's tree to the nodes of a tree file. Each node keeps the parser's node as `at`.
'use strict';

const { K, DECLARATION, UNARY, BINARY, ASSIGN, FOR, TRY, bitsOfNumber } = require('./kinds');
const { addContexts } = require('./contexts');
const { deepest } = require('./brackets');
const { LIMITS, figure } = require('./limits');
const { PARSER, parse } = require('./parse');
const { HINTS } = require('./refusals');
const { trouble } = require('./trouble');

const present = (...children) => children.filter(Boolean);

// Marks a name that declares or is assigned; others are read. A pattern's names are marked where it is taken apart.
const bound = (node) => (node.type === 'Identifier' ? { type: 'Binding', at: node } : node);

const flag = (value, bit = 1) => (value ? bit : 0);
const binary = (node) => ({ kind: K.binary, form: BINARY.indexOf(node.operator), children: [node.left, node.right] });
const callable = (node) => [...node.params.map(bound), node.body];
const propertyText = ({ key }) => (key.type === 'Identifier' ? key.name : String(key.value));
const inPattern = (property) => ({ type: 'PatternProperty', at: property });

function literal({ value }) {
  if (value === null) return { kind: K.null };
  if (typeof value === 'boolean') return { kind: K.boolean, form: flag(value) };
  if (typeof value === 'number') return { kind: K.number, bits: bitsOfNumber(value) };
  return { kind: K.string, text: value };
}

function member(node) {
  if (node.computed) return { kind: K.computed, children: [node.object, node.property] };
  return { kind: K.member, text: node.property.name, children: [node.object] };
}

function loopOver(kind) {
  return (node) => ({ kind, children: [bound(node.left), node.right, node.body] });
}

function forLoop(node) {
  const form = flag(node.init, FOR.start) | flag(node.test, FOR.test) | flag(node.update, FOR.update);
  return { kind: K.for, form, children: present(node.init, node.test, node.update, node.body) };
}

function tryStatement(node) {
  const form = flag(node.handler, TRY.handler) | flag(node.finalizer, TRY.finalizer);
  return { kind: K.try, form, children: present(node.block, node.handler, node.finalizer) };
}

function newExpression(node) {
  // The parser does not tell `new X` from `new X()`; only the list reaches past the callee.
  const list = node.end > node.callee.end;
  return { kind: K.new, form: flag(list), children: [node.callee, ...node.arguments] };
}

function functionExpression(node) {
  return { kind: K.functionExpression, form: flag(node.id), children: [...present(node.id && bound(node.id)), ...callable(node)] };
}

function update(node) {
  return { kind: K.update, form: flag(node.operator === '--') + flag(!node.prefix, 2), children: [node.argument] };
}

// By the parser's node type: kind, form, text, bits and children in the tree file's order.
const SHAPES = {
  Program: (node) => ({ kind: K.script, children: node.body }),
  BlockStatement: (node) => ({ kind: K.block, children: node.body }),
  EmptyStatement: () => ({ kind: K.empty }),
  ExpressionStatement: (node) => ({ kind: K.expression, children: [node.expression] }),
  VariableDeclaration: (node) => ({ kind: K.declaration, form: DECLARATION.indexOf(node.kind), children: node.declarations }),
  VariableDeclarator: (node) => ({ kind: K.declarator, children: present(bound(node.id), node.init) }),
  FunctionDeclaration: (node) => ({ kind: K.function, children: [bound(node.id), ...callable(node)] }),
  ReturnStatement: (node) => ({ kind: K.return, children: present(node.argument) }),
  IfStatement: (node) => ({ kind: K.if, children: present(node.test, node.consequent, node.alternate) }),
  WhileStatement: (node) => ({ kind: K.while, children: [node.test, node.body] }),
  DoWhileStatement: (node) => ({ kind: K.do, children: [node.test, node.body] }),
  ForStatement: forLoop,
  ForInStatement: loopOver(K.forIn),
  ForOfStatement: loopOver(K.forOf),
  ThrowStatement: (node) => ({ kind: K.throw, children: [node.argument] }),
  TryStatement: tryStatement,
  CatchClause: (node) => ({ kind: K.catch, children: present(node.param && bound(node.param), node.body) }),
  SwitchStatement: (node) => ({ kind: K.switch, children: [node.discriminant, ...node.cases] }),
  SwitchCase: (node) => ({ kind: K.case, form: flag(node.test), children: present(node.test, ...node.consequent) }),
  BreakStatement: () => ({ kind: K.break }),
  ContinueStatement: () => ({ kind: K.continue }),
  Identifier: (node) => ({ kind: K.identifier, text: node.name }),
  Literal: literal,
  ThisExpression: () => ({ kind: K.this }),
  ArrayExpression: (node) => ({ kind: K.array, children: node.elements }),
  ObjectExpression: (node) => ({ kind: K.object, children: node.properties }),
  Property: (node) => ({ kind: K.property, text: propertyText(node), children: [node.value] }),
  UnaryExpression: (node) => ({ kind: K.unary, form: UNARY.indexOf(node.operator), children: [node.argument] }),
  UpdateExpression: update,
  BinaryExpression: binary,
  LogicalExpression: binary,
  AssignmentExpression: (node) => ({ kind: K.assign, form: ASSIGN.indexOf(node.operator), children: [bound(node.left), node.right] }),
  ConditionalExpression: (node) => ({ kind: K.conditional, children: [node.test, node.consequent, node.alternate] }),
  CallExpression: (node) => ({ kind: K.call, children: [node.callee, ...node.arguments] }),
  NewExpression: newExpression,
  MemberExpression: member,
  FunctionExpression: functionExpression,
  ArrowFunctionExpression: (node) => ({ kind: K.arrow, form: flag(node.expression), children: callable(node) }),
  ParenthesizedExpression: (node) => ({ kind: K.parenthesis, children: [node.expression] }),
  SequenceExpression: (node) => ({ kind: K.sequence, children: node.expressions }),
  Binding: ({ at }) => ({ kind: K.binding, text: at.name }),
  ObjectPattern: (node) => ({ kind: K.objectPattern, children: node.properties.map(inPattern) }),
  ArrayPattern: (node) => ({ kind: K.arrayPattern, children: node.elements.map(bound) }),
  PatternProperty: ({ at }) => ({ kind: K.patternProperty, text: propertyText(at), children: [bound(at.value)] }),
  AssignmentPattern: (node) => ({ kind: K.default, children: [bound(node.left), node.right] }),
};

function treeNode(node) {
  const { kind, form = 0, text = null, bits = 0n, children = [] } = SHAPES[node.type](node);
  return { kind, form, text, bits, children: children.map(treeNode), at: node.at || node };
}

// Nested so deep that it cannot even be parsed; the port refuses far less.
function tooDeep(text) {
  const { deep, place } = deepest(text, PARSER, LIMITS.depth);
  const counted = place ? `${figure(deep)} brackets in one another` : 'nested too deep to be read';
  return trouble(place, `refusal 6: ${counted}, at most ${LIMITS.depth} nodes`, HINTS[6]);
}

// Does what walks a whole tree, and refuses the text where that goes too deep.
function withinDepth(text, act) {
  try {
    return act();
  } catch (error) {
    if (error instanceof RangeError) throw tooDeep(text);
    throw error;
  }
}

// A script's text as a tree in which no name has a context yet.
const bareTreeOfText = (text) => withinDepth(text, () => treeNode(parse(text)));

// A script's text as a tree with contexts.
function treeOfText(text) {
  return withinDepth(text, () => {
    const root = treeNode(parse(text));
    addContexts(root);
    return root;
  });
}

module.exports = { bareTreeOfText, treeOfText, withinDepth };
