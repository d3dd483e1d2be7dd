// A script's tree as text that counts its steps, tells which statement runs, and, to find a cause, which values names have.
'use strict';

const { K, UNARY, isFunction, isStatement, partsOfFunction, preorder } = require('../src/kinds');
const { estreeOf } = require('../src/from_tree');
const { print } = require('../src/print');
const { targetKey } = require('./shapes');

const LOOPS = new Set([K.while, K.do, K.for, K.forIn, K.forOf]);
const LISTS = { [K.script]: 'body', [K.block]: 'body', [K.case]: 'consequent' };

const literal = (value) => ({ type: 'Literal', value });
const list = (elements) => ({ type: 'ArrayExpression', elements });
const statement = (expression) => ({ type: 'ExpressionStatement', expression });

function hook(name, ...given) {
  const property = { type: 'Identifier', name };
  const callee = { type: 'MemberExpression', object: { type: 'Identifier', name: '$negbosun' }, property, computed: false };
  return { type: 'CallExpression', callee, arguments: given };
}

const step = (node) => statement(hook('at', literal(node.place || 0)));

const isDirective = (node) => node.kind === K.expression && node.children[0].kind === K.string;

// A parameter as the script names it; one that is taken apart has no name.
function nameOf(param, index) {
  const target = param.kind === K.default ? param.children[0] : param;
  return target.kind === K.binding ? target.was ?? target.text : `argument ${index + 1}`;
}

const LEAST_ARGUMENTS = 2;

// Parameters, by the names that the script has for them, with the shapes that the host makes its arguments by; some more where the function asks for `arguments`.
function parameters(node, shapes) {
  const { params } = partsOfFunction(node);
  const named = params.map((param, index) => list([literal(nameOf(param, index)), literal(shapes.byIdentity[targetKey(param)])]));
  const more = [...preorder(node)].some(({ kind, text, bits }) => kind === K.identifier && text === 'arguments' && bits === 0n) ? LEAST_ARGUMENTS : 0;
  while (named.length < more) named.push(list([literal(`argument ${named.length + 1}`), literal(null)]));
  return list(named);
}

// A list of statements with a step before each; its functions are announced first, since they are there from the start.
function stepped(node, made, shapes) {
  const statements = node.children.filter(isStatement);
  const directives = statements.findIndex((child) => !isDirective(child));
  const first = directives < 0 ? statements.length : directives;
  const announced = statements.filter((child) => child.kind === K.function)
    .map((child) => statement(hook('fn', parameters(child, shapes), { type: 'Identifier', name: child.children[0].text })));
  const rest = statements.slice(first).flatMap((child, index) => {
    const own = made[first + index];
    return child.kind === K.function ? [own] : [step(child), own];
  });
  return [...made.slice(0, first), ...announced, ...rest];
}

const block = (...body) => ({ type: 'BlockStatement', body });

// A branch that is no block gets one, with its step.
function branch(node, made) {
  return !node || !made || node.kind === K.block || node.kind === K.function ? made : block(step(node), made);
}

function withBranches({ children }, made) {
  return { ...made, consequent: branch(children[1], made.consequent), alternate: branch(children[2], made.alternate) };
}

function unwrapped(made) {
  if (made.type === 'ParenthesizedExpression') return { ...made, expression: unwrapped(made.expression) };
  return made.wrapped || made;
}

const NO_VALUE = new Set(['typeof', 'delete']);

// Where a name's value is not simply read, it is not asked for: a callee keeps its `this`.
function withoutValues(node, made) {
  if (node.kind === K.call) return { ...made, callee: unwrapped(made.callee) };
  if (node.kind === K.update || (node.kind === K.unary && NO_VALUE.has(UNARY[node.form]))) return { ...made, argument: unwrapped(made.argument) };
  return made;
}

// `reads` are the places whose values are told, none for a plain run.
function instrument(root, shapes, reads) {
  const around = (node, given) => {
    let made = withoutValues(node, given);
    if (LISTS[node.kind]) made = { ...made, [LISTS[node.kind]]: stepped(node, made[LISTS[node.kind]], shapes) };
    if (LOOPS.has(node.kind)) made = { ...made, body: block(step(node), made.body) };
    if (node.kind === K.if) made = withBranches(node, made);
    if (isFunction(node) && node.kind !== K.function) made = hook('fn', parameters(node, shapes), made);
    return reads.has(node.place) ? { ...hook('value', literal(node.place), made), wrapped: made } : made;
  };
  return print(estreeOf(root, around));
}

module.exports = { instrument };
