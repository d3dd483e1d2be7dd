// Rows 8 and 9 in words: which limit the pass met while it ran, by the counted steps of script/steps; where these cannot say, what the script's
// text has of each.
'use strict';

const { MOST } = require('../steps/walks');
const { countSteps } = require('../steps/count');
const { K, identityOf, preorder } = require('./kinds');
const { figure, limitsOf } = require('./limits');

const ROW = { depth: 8, scopes: 8, rightSides: 8, nodes: 9, values: 9, records: 9 };

const SCOPE_WORDS = 'scopes in one another (the script, functions, blocks, loops, branches, cases, right sides of && and ||)';
const SIDE_WORDS = 'right sides of && and || in one another';
const VALUE_WORDS = 'nodes in the values kept for variables and constants';
const RECORD_WORDS = 'variables and constants kept in the functions, blocks, loops and branches that are open';

const sizeOf = (node) => [...preorder(node)].length;

const atMost = (count, most, words) => `${figure(count)} ${words}, at most ${figure(most)}`;

const LOOPS = new Set([K.while, K.do, K.for, K.forIn, K.forOf]);
const SCOPES = new Set([K.function, K.functionExpression, K.arrow, K.block, K.catch, K.case]);

const isRightSide = (node, index) => node.kind === K.binary && node.form < 2 && index === 1;
// A function's own block opens no scope beside the function's; an arrow's does.
const sharesScope = (node, child) => [K.function, K.functionExpression].includes(node.kind) && child.kind === K.block;

// The scopes that a node opens round one of its children.
function opened(node, child, index) {
  if (LOOPS.has(node.kind)) return child === node.children.at(-1) ? 1 : 0;
  if (node.kind === K.if) return index ? 1 : 0;
  return isRightSide(node, index) ? 1 : 0;
}

// What the pass never walks: a try's block and its finalizer.
const isWalked = (node, child) => node.kind !== K.try || child.kind === K.catch;

// The scopes open at the deepest place, the script's own counted.
const scopesIn = (root) => 1 + deepest(root);

function deepest(node, isShared = false) {
  const self = SCOPES.has(node.kind) && !isShared ? 1 : 0;
  const below = node.children.map((child, index) => (isWalked(node, child) ? opened(node, child, index) + deepest(child, sharesScope(node, child)) : 0));
  return self + Math.max(0, ...below);
}

function rightSidesIn(node) {
  return Math.max(0, ...node.children.map((child, index) => (isRightSide(node, index) ? 1 : 0) + (isWalked(node, child) ? rightSidesIn(child) : 0)));
}

// The nodes of all values that the script gives to names.
function valuesIn(root) {
  const sets = [...preorder(root)].filter(({ kind, children }) => (kind === K.declarator || kind === K.assign) && children.length > 1 && children[0].kind === K.binding);
  return sets.reduce((sum, { children }) => sum + sizeOf(children[1]), 0);
}

// Of constants that were followed to one another: does the last one stand for itself?
function circleWords(constants) {
  const [before, last] = constants.slice(-2);
  return last && identityOf(before) === identityOf(last) ? `; the constant ${last.text} names itself` : '';
}

function depthWords({ count, most, name, constants }) {
  if (name) return atMost(count, most, `nodes in one another where a value is put in the place of ${name.text}`);
  return `${atMost(count, most, 'nodes in one another, a constant that is followed counted with its value')}${circleWords(constants)}`;
}

const nodeWords = ({ count, most }, root) => `${atMost(count, most, 'nodes once values are put in the place of names')}; the script as written has ${figure(sizeOf(root))}`;

// As written a script can have more in one another than where the walk was stopped.
const MET = {
  depth: depthWords,
  scopes: ({ count, most }, root) => atMost(Math.max(count, scopesIn(root)), most, SCOPE_WORDS),
  rightSides: ({ count, most }, root) => atMost(Math.max(count, rightSidesIn(root)), most, SIDE_WORDS),
  nodes: nodeWords,
  values: ({ count, most }) => atMost(count, most, VALUE_WORDS),
  records: ({ count, most }) => atMost(count, most, RECORD_WORDS),
};

const HINTS = {
  depth: 'take inner parts out into functions or variables of their own; let no constant\'s value name the constant itself',
  scopes: 'take inner functions, blocks, loops and branches out of one another',
  rightSides: 'give an inner condition a variable of its own, or write it as an if',
  nodes: 'split the script in two, or take out what it does not use',
  values: 'split the script in two, or write long lists and objects where they are used and not as the value of a variable',
  records: 'use fewer variables and constants, or split the script in two',
};

// { at, words, hint } of the limit that the pass met, or null where the counted steps do not end in this refusal.
function metLimit(number, root, options) {
  const counted = countSteps(root, options);
  if (!counted || !counted.met || ROW[counted.met.limit] !== number) return null;
  const { met } = counted;
  return { at: met.at, words: MET[met.limit](met, root), hint: HINTS[met.limit] };
}

// What the script as written has of each of a row's limits; which of them was met stays open.
function countsOf(number, root) {
  const { nodes, depth, variables } = Object.fromEntries(limitsOf(root).map(({ name, count }) => [name, count]));
  const counts = number === 8
    ? [atMost(depth, MOST.depth, 'nodes in one another'), atMost(scopesIn(root), MOST.scopes, SCOPE_WORDS), atMost(rightSidesIn(root), MOST.rightSides, SIDE_WORDS)]
    : [atMost(nodes, MOST.nodes, 'nodes'), atMost(valuesIn(root), MOST.values, VALUE_WORDS), atMost(variables, MOST.records, 'variables')];
  return `one of these limits was met once values were put in the place of names; the script as written has ${counts.join('; ')}`;
}

module.exports = { countsOf, metLimit, scopesIn };
