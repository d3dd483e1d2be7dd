// The trees of the counted steps: unchanging nodes, each with its size and height, over the nodes of a script's tree.
'use strict';

const { K, boundNames, identityOf, isFunction, partsOfFunction, preorder } = require('../src/kinds');

const LITERALS = new Set([K.null, K.boolean, K.number, K.string]);
const AIMS = new Set([K.assign, K.update, K.forIn, K.forOf]);
const NAMES = new Set([K.binding, K.identifier]);

const isIdentifier = (node) => node.kind === K.identifier;
const isLiteral = (node) => LITERALS.has(node.kind);
const isMember = (node) => node.kind === K.member || node.kind === K.computed;
// A literal or an identifier.
const isCheap = (node) => isLiteral(node) || isIdentifier(node);

// The node with these children; a leaf's height is 1.
function withChildren(node, children) {
  const size = children.reduce((sum, child) => sum + child.size, 1);
  const height = 1 + children.reduce((most, child) => Math.max(most, child.height), 0);
  return { ...node, children, size, height };
}

const identifierOf = (binding) => ({ ...binding, kind: K.identifier, isTwice: false });

const voidZero = (at) => withChildren({ kind: K.unary, form: 0, text: null, bits: 0n, at }, [withChildren({ kind: K.number, form: 0, text: null, bits: 0n, at }, [])]);

// The value as it stands in a name's place: there every node of it is found.
const placedAt = (node, at) => ({ ...node, at, children: node.children.map((child) => placedAt(child, at)) });

// Whether `this` is read, in arrows too, but not in functions.
function hasThis(node) {
  if (node.kind === K.this) return true;
  return node.kind !== K.function && node.kind !== K.functionExpression && node.children.some(hasThis);
}

// The bindings and identifiers below a node, in order.
const namesIn = (node) => [...preorder(node)].filter(({ kind }) => NAMES.has(kind));

function aimedAt(node) {
  if (node.kind === K.declaration || node.kind === K.declarator) return aimedAt(node.children[0]);
  return isIdentifier(node) ? [node] : boundNames(node);
}

// What an assignment, an update or a head of for-in or for-of targets, anywhere in the script as read.
const targetsIn = (root) => new Set([...preorder(root)].filter(({ kind }) => AIMS.has(kind)).flatMap(({ children }) => aimedAt(children[0])).map(identityOf));

// The declarators of every `var` of a node, nested functions not.
function varDeclarators(node) {
  if (isFunction(node)) return [];
  const own = node.kind === K.declaration && node.form === 0 ? node.children : [];
  return [...own, ...node.children.flatMap(varDeclarators)];
}

const isLiteralSet = ([name, value]) => !value || (name.kind === K.binding && isLiteral(value));

// What the parameters and the `var`s of some nodes declare more than once, with a value that is no literal.
function declaredTwice(nodes) {
  const declared = [...nodes.flatMap(boundNames).map((name) => ({ name, isLiteral: true })), ...nodes.flatMap(varDeclarators).flatMap(({ children }) =>
    boundNames(children[0]).map((name) => ({ name, isLiteral: isLiteralSet(children) })))];
  const [counts, others] = [new Map(), new Set()];
  for (const { name, isLiteral: isPlain } of declared) {
    counts.set(identityOf(name), (counts.get(identityOf(name)) || 0) + 1);
    if (!isPlain) others.add(identityOf(name));
  }
  return new Set([...others].filter((identity) => counts.get(identity) > 1));
}

// The script's tree with each binding marked that a function, or the script, declares twice.
function marked(node, twice) {
  if (node.kind === K.binding) return withChildren({ ...node, isTwice: twice.has(identityOf(node)) }, []);
  if (!isFunction(node)) return withChildren(node, node.children.map((child) => marked(child, twice)));
  const { name, params, body } = partsOfFunction(node);
  const inside = declaredTwice([...params, body]);
  return withChildren(node, [...(name ? [marked(name, twice)] : []), ...[...params, body].map((child) => marked(child, inside))]);
}

// A function's own block is no function: what it declares counts with the parameters.
const treeOf = (root) => marked(root, declaredTwice(root.children));

module.exports = { hasThis, identifierOf, isCheap, isIdentifier, isMember, namesIn, placedAt, targetsIn, treeOf, voidZero, withChildren };
