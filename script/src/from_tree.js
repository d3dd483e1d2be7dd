// The nodes of a tree file to the printer's tree (ESTree).
'use strict';

const { K, DECLARATION, UNARY, BINARY, ASSIGN, FOR, TRY, numberOfBits } = require('./kinds');

const LOGICAL = new Set(['&&', '||', '??']);
const PLAIN_NAME = /^[\p{ID_Start}$_][\p{ID_Continue}$\u200c\u200d]*$/u;

const name = (node) => ({ type: 'Identifier', name: node.text });
const body = (expression) => (node) => ({ type: 'BlockStatement', body: node.children.map(expression) });

function forLoop({ form, children }, convert) {
  const rest = [...children];
  const take = (bit) => (form & bit ? convert(rest.shift()) : null);
  const [init, test, update] = [take(FOR.start), take(FOR.test), take(FOR.update)];
  return { type: 'ForStatement', init, test, update, body: convert(rest[0]) };
}

function loopOver(type) {
  return ({ children: [left, right, statement] }, convert) => {
    const loop = { type, left: convert(left), right: convert(right), body: convert(statement) };
    return type === 'ForOfStatement' ? { ...loop, await: false } : loop;
  };
}

function tryStatement({ form, children }, convert) {
  const rest = [...children];
  const block = convert(rest.shift());
  const handler = form & TRY.handler ? convert(rest.shift()) : null;
  const finalizer = form & TRY.finalizer ? convert(rest.shift()) : null;
  return { type: 'TryStatement', block, handler, finalizer };
}

function catchClause({ children }, convert) {
  const param = children.length === 2 ? convert(children[0]) : null;
  return { type: 'CatchClause', param, body: convert(children.at(-1)) };
}

function switchCase({ form, children }, convert) {
  const rest = form ? children.slice(1) : children;
  return { type: 'SwitchCase', test: form ? convert(children[0]) : null, consequent: rest.map(convert) };
}

function property({ text, children }, convert) {
  const key = PLAIN_NAME.test(text) ? { type: 'Identifier', name: text } : { type: 'Literal', value: text };
  return { type: 'Property', kind: 'init', computed: false, method: false, shorthand: false, key, value: convert(children[0]) };
}

// `{today}` for `{today: today}`, with a default or without.
function patternProperty(node, convert) {
  const [target] = node.children;
  const name = target.kind === K.default ? target.children[0] : target;
  const shorthand = name.kind === K.binding && name.text === node.text;
  return { ...property(node, convert), shorthand };
}

function binary({ form, children }, convert) {
  const operator = BINARY[form];
  const type = LOGICAL.has(operator) ? 'LogicalExpression' : 'BinaryExpression';
  return { type, operator, left: convert(children[0]), right: convert(children[1]) };
}

function update({ form, children }, convert) {
  return { type: 'UpdateExpression', operator: form & 1 ? '--' : '++', prefix: form < 2, argument: convert(children[0]) };
}

// A function's parameters and body, after what comes before them.
function callable(type, children, convert, more) {
  const params = children.slice(0, -1).map(convert);
  return { type, params, body: convert(children.at(-1)), generator: false, async: false, ...more };
}

function functionExpression({ form, children }, convert) {
  const id = form ? convert(children[0]) : null;
  return callable('FunctionExpression', form ? children.slice(1) : children, convert, { id, expression: false });
}

function functionDeclaration({ children }, convert) {
  return callable('FunctionDeclaration', children.slice(1), convert, { id: convert(children[0]), expression: false });
}

function assign({ form, children }, convert) {
  return { type: 'AssignmentExpression', operator: ASSIGN[form], left: convert(children[0]), right: convert(children[1]) };
}

function conditional({ children }, convert) {
  const [test, consequent, alternate] = children.map(convert);
  return { type: 'ConditionalExpression', test, consequent, alternate };
}

function call({ children }, convert) {
  const [callee, ...list] = children.map(convert);
  return { type: 'CallExpression', callee, arguments: list, optional: false };
}

const member = (object, key, computed) => ({ type: 'MemberExpression', object, property: key, computed, optional: false });

function newExpression({ form, children }, convert) {
  const [callee, ...list] = children.map(convert);
  return { type: 'NewExpression', callee, arguments: list, bare: form === 0 };
}

function declarator({ children }, convert) {
  return { type: 'VariableDeclarator', id: convert(children[0]), init: children[1] ? convert(children[1]) : null };
}

function ifStatement({ children }, convert) {
  const [test, consequent, alternate = null] = children.map(convert);
  return { type: 'IfStatement', test, consequent, alternate };
}

const SHAPES = {
  [K.script]: (node, convert) => ({ type: 'Program', sourceType: 'script', body: node.children.map(convert) }),
  [K.block]: (node, convert) => body(convert)(node),
  [K.empty]: () => ({ type: 'EmptyStatement' }),
  [K.expression]: (node, convert) => ({ type: 'ExpressionStatement', expression: convert(node.children[0]) }),
  [K.declaration]: (node, convert) => ({ type: 'VariableDeclaration', kind: DECLARATION[node.form], declarations: node.children.map(convert) }),
  [K.declarator]: declarator,
  [K.function]: functionDeclaration,
  [K.return]: (node, convert) => ({ type: 'ReturnStatement', argument: node.children[0] ? convert(node.children[0]) : null }),
  [K.if]: ifStatement,
  [K.while]: (node, convert) => ({ type: 'WhileStatement', test: convert(node.children[0]), body: convert(node.children[1]) }),
  [K.do]: (node, convert) => ({ type: 'DoWhileStatement', test: convert(node.children[0]), body: convert(node.children[1]) }),
  [K.for]: forLoop,
  [K.forIn]: loopOver('ForInStatement'),
  [K.forOf]: loopOver('ForOfStatement'),
  [K.throw]: (node, convert) => ({ type: 'ThrowStatement', argument: convert(node.children[0]) }),
  [K.try]: tryStatement,
  [K.catch]: catchClause,
  [K.switch]: (node, convert) => ({ type: 'SwitchStatement', discriminant: convert(node.children[0]), cases: node.children.slice(1).map(convert) }),
  [K.case]: switchCase,
  [K.binding]: name,
  [K.identifier]: name,
  [K.null]: () => ({ type: 'Literal', value: null }),
  [K.boolean]: (node) => ({ type: 'Literal', value: node.form === 1 }),
  [K.number]: (node) => ({ type: 'Literal', value: numberOfBits(node.bits) }),
  [K.string]: (node) => ({ type: 'Literal', value: node.text }),
  [K.this]: () => ({ type: 'ThisExpression' }),
  [K.array]: (node, convert) => ({ type: 'ArrayExpression', elements: node.children.map(convert) }),
  [K.object]: (node, convert) => ({ type: 'ObjectExpression', properties: node.children.map(convert) }),
  [K.property]: property,
  [K.unary]: (node, convert) => ({ type: 'UnaryExpression', operator: UNARY[node.form], prefix: true, argument: convert(node.children[0]) }),
  [K.update]: update,
  [K.binary]: binary,
  [K.assign]: assign,
  [K.conditional]: conditional,
  [K.call]: call,
  [K.new]: newExpression,
  [K.member]: (node, convert) => member(convert(node.children[0]), name(node), false),
  [K.computed]: (node, convert) => member(convert(node.children[0]), convert(node.children[1]), true),
  [K.functionExpression]: functionExpression,
  [K.arrow]: (node, convert) => callable('ArrowFunctionExpression', node.children, convert, { id: null, expression: node.form === 1 }),
  [K.parenthesis]: (node, convert) => ({ type: 'ParenthesizedExpression', expression: convert(node.children[0]) }),
  [K.sequence]: (node, convert) => ({ type: 'SequenceExpression', expressions: node.children.map(convert) }),
  [K.objectPattern]: (node, convert) => ({ type: 'ObjectPattern', properties: node.children.map(convert) }),
  [K.arrayPattern]: (node, convert) => ({ type: 'ArrayPattern', elements: node.children.map(convert) }),
  [K.patternProperty]: patternProperty,
  [K.default]: (node, convert) => ({ type: 'AssignmentPattern', left: convert(node.children[0]), right: convert(node.children[1]) }),
  [K.break]: () => ({ type: 'BreakStatement', label: null }),
  [K.continue]: () => ({ type: 'ContinueStatement', label: null }),
};

// `around(node, made)` may put something in a made node's place; the guard counts steps so.
function estreeOf(root, around = (node, made) => made) {
  const convert = (node) => around(node, SHAPES[node.kind](node, convert));
  return convert(root);
}

module.exports = { estreeOf };
