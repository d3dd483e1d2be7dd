// What script and result must be for anything to be shown: kinds and forms that the tables have, each where it may stand, no name of the language's own as a variable, each function in a list of its own.
'use strict';

const { K, ASSIGN, BINARY, DECLARATION, NAMED, UNARY, isFunction, isPattern, partsOfFunction, preorder } = require('../src/kinds');
const { MEMBERS, VALUES } = require('./expressions');
const { STATEMENTS } = require('./statements');

const PATTERN_PARTS = new Set([K.objectPattern, K.arrayPattern, K.patternProperty, K.default]);
const PARTS = new Set([K.script, K.declarator, K.catch, K.case, K.binding, K.property, ...PATTERN_PARTS]);
const FORMS = { [K.declaration]: DECLARATION, [K.unary]: UNARY, [K.binary]: BINARY, [K.assign]: ASSIGN };
const isKnown = ({ kind, form }) => (VALUES[kind] || STATEMENTS[kind] || PARTS.has(kind)) && (!FORMS[kind] || FORMS[kind][form] !== undefined);

const isTarget = ({ kind, children }) => kind === K.binding || isPattern({ kind }) || (kind === K.default && children.length === 2 && children[0].kind !== K.default && isTarget(children[0]));
const FIRST = new Set([K.declarator, K.forIn, K.forOf, K.default]);

// Whether a pattern, or a part of one, may be a child.
function takes(node, child, index) {
  if (isFunction(node)) return partsOfFunction(node).params.includes(child) && isTarget(child);
  const isFirst = FIRST.has(node.kind) || (node.kind === K.catch && node.children.length === 2) || (node.kind === K.assign && ASSIGN[node.form] === '=');
  return index === 0 && isFirst && isPattern(child);
}

// Whether a child is part of a pattern where none may stand, or is none where one must.
function isMisplaced(node) {
  const { kind, children } = node;
  if (kind === K.objectPattern) return children.some((child) => child.kind !== K.patternProperty);
  if (kind === K.arrayPattern) return !children.every(isTarget);
  if (kind === K.patternProperty) return children.length !== 1 || !isTarget(children[0]);
  return (kind === K.default && !isTarget(node)) || children.some((child, index) => PATTERN_PARTS.has(child.kind) && !takes(node, child, index));
}

// `undefined`, `NaN` and `Infinity` are read-only on the global object (19.1), `arguments` may be the arguments object (10.2.11), code that a call by the name `eval` runs sees every
// variable (19.2.1), `__proto__` as a key is a prototype (B.3.1) and an accessor (B.2.2.1).
const SPECIAL = new Set(['arguments', 'eval', 'undefined', 'NaN', 'Infinity', '__proto__']);
const NEVER = new Set(['eval', '__proto__']);
const KEYS = new Set([K.property, K.patternProperty, K.member, K.string]);
const isSpecial = ({ kind, text }) => (kind === K.binding && SPECIAL.has(text)) || (kind === K.identifier && NEVER.has(text)) || (KEYS.has(kind) && text === '__proto__');

// A declared function stands in the script's or a function's own list; anywhere else it may have two variables (B.3.2).
const isOwnList = (node, parent) => node.kind === K.script || (node.kind === K.block && isFunction(parent));
const innerFunction = (node, parent) => (isOwnList(node, parent) ? null : node.children.find(({ kind }) => kind === K.function));

// `delete` of a variable: whether it is one of the global object that can be deleted, the text does not tell (9.1.1.4.7).
const deletesVariable = ({ kind, form, children }) => kind === K.unary && UNARY[form] === 'delete' && children[0].kind === K.identifier && children[0].bits !== 0n;

// What is assigned or updated is a name, a member or a pattern.
function hasNoTarget({ kind, form, children }) {
  const isPlace = (target) => NAMED.has(target.kind) || MEMBERS.has(target.kind) || (isPattern(target) && kind === K.assign && ASSIGN[form] === '=');
  return (kind === K.assign || kind === K.update) && !isPlace(children[0]);
}

// The first node that the check does not go into, with the reason; null where there is none.
function firstForbidden(tree) {
  const parents = new Map();
  for (const node of preorder(tree)) {
    node.children.forEach((child) => parents.set(child, node));
    if (!isKnown(node) || isMisplaced(node) || hasNoTarget(node)) return { node, reason: 'a construct that this check does not know' };
    if (isSpecial(node)) return { node, reason: `\`${node.text}\` is no ordinary name` };
    const inner = innerFunction(node, parents.get(node));
    if (inner) return { node: inner, reason: 'a function that is declared in a block' };
    if (deletesVariable(node)) return { node, reason: `\`${node.children[0].text}\` may be deleted here` };
  }
  return null;
}

module.exports = { firstForbidden };
