// A tree as text that means the tree: names that would be caught by a nearer declaration get another, and what was printed is read again.
'use strict';

const { K, NAMED, identityOf, preorder } = require('./kinds');
const { estreeOf } = require('./from_tree');
const { print } = require('./print');
const { addContexts } = require('./contexts');
const { bareTreeOfText } = require('./to_tree');
const { ScriptTrouble, trouble } = require('./trouble');

// Pairs of nodes of a tree and of its printed text's tree, in which the printer may have added parentheses; null where they part.
function* readAgain(node, again) {
  const added = again && again.kind === K.parenthesis && node.kind !== K.parenthesis;
  if (added) return yield* readAgain(node, again.children[0]);
  const alike = again && node.kind === again.kind && node.form === again.form && node.children.length === again.children.length;
  yield alike ? [node, again] : null;
  if (!alike) return undefined;
  for (let i = 0; i < node.children.length; i++) yield* readAgain(node.children[i], again.children[i]);
  return undefined;
}

const sameText = ([node, again]) => node.text === again.text && (NAMED.has(node.kind) || node.bits === again.bits);

// A copy of a tree in which each node has its place in the printed text.
function placed(root, pairs) {
  const places = new Map(pairs.map(([node, again]) => [node, again.at]));
  const copy = (node) => ({ ...node, at: places.get(node), children: node.children.map(copy) });
  return copy(root);
}

// The same pairs, each name with the context that it has in the printed text. That is the tree but for parentheses, which have no part in what names mean and
// may be too many to be resolved.
function meant(root, pairs) {
  const again = placed(root, pairs);
  addContexts(again);
  const nodes = [...preorder(again)];
  return pairs.map(([node, read], index) => [node, { ...read, bits: nodes[index].bits }]);
}

// The pairs of a tree and its printed text, null where the text reads otherwise or not at all.
function pairsOf(root, printed) {
  try {
    const pairs = [...readAgain(root, bareTreeOfText(printed))];
    if (!pairs.every((pair) => pair && sameText(pair))) return null;
    return meant(root, pairs);
  } catch (error) {
    if (error instanceof ScriptTrouble) return null;
    throw error;
  }
}

// The identity that a nearer scope catches others with: among those that became one variable, the innermost scope's.
function catcher(pairs) {
  const owners = new Map();
  for (const [node, again] of pairs) {
    if (!NAMED.has(node.kind)) continue;
    const owner = owners.get(identityOf(again));
    if (!owner) owners.set(identityOf(again), node);
    else if (identityOf(owner) !== identityOf(node)) return owner.bits > node.bits ? owner : node;
  }
  return null;
}

function freshName(root, old) {
  const taken = new Set([...preorder(root)].map((node) => node.text));
  for (let n = 1; ; n++) if (!taken.has(`${old}$${n}`)) return `${old}$${n}`;
}

// A renamed node keeps its first name as `was`.
function renamed(node, identity, name) {
  const children = node.children.map((child) => renamed(child, identity, name));
  const hit = NAMED.has(node.kind) && identityOf(node) === identity;
  return hit ? { ...node, children, text: name, was: node.was ?? node.text } : { ...node, children };
}

function printedPairs(root) {
  for (const cautious of [false, true]) {
    const text = print(estreeOf(root), cautious);
    const pairs = pairsOf(root, text);
    if (pairs) return { text, pairs };
  }
  throw trouble(null, 'the result cannot be printed as text that reads as the result; --lines shows it');
}

// The tree with another name for a variable that would catch one of the same name; null where none would.
function renamedApart(root, pairs) {
  const caught = catcher(pairs);
  return caught && renamed(root, identityOf(caught), freshName(root, caught.text));
}

// The text of a tree, and the tree with the names and places that it has in the text.
function textOfTree(tree) {
  let root = tree;
  for (;;) {
    const { text, pairs } = printedPairs(root);
    const apart = renamedApart(root, pairs);
    if (!apart) return { text, root: placed(root, pairs) };
    root = apart;
  }
}

module.exports = { textOfTree, pairsOf, renamedApart };
