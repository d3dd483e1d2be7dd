// What the pass did to a script: node by node, the names it replaced and the declarations it emptied.
'use strict';

const { K, identityOf, preorder } = require('./kinds');

// A renamed node is compared by the name that it had.
const nameOf = (node) => node.was ?? node.text;
const sameNode = (a, b) => a.kind === b.kind && a.form === b.form && a.bits === b.bits && nameOf(a) === nameOf(b)
  && a.children.length === b.children.length;

const emptied = (node, after) => node.kind === K.declarator && after.kind === K.declarator && node.children.length > after.children.length;

// Calls `seen(node, after, how)` for each pair, `how` being same, replaced, emptied or other.
function walk(node, after, seen) {
  if (emptied(node, after)) {
    seen(node, after, 'emptied');
    walk(node.children[0], after.children[0], seen);
  } else if (sameNode(node, after)) {
    seen(node, after, 'same');
    node.children.forEach((child, index) => walk(child, after.children[index], seen));
  } else {
    seen(node, after, node.kind === K.identifier ? 'replaced' : 'other');
  }
}

// All changes, in the tree file's order.
function changesOf(root, result) {
  const changes = [];
  walk(root, result, (node, after, how) => {
    if (how !== 'same') changes.push({ how, node, after });
  });
  return changes;
}

// Numbers the script's nodes, and each node of the result that stands in the place of one by the same number.
function numberPlaces(root, result) {
  let last = 0;
  for (const node of preorder(root)) node.place = ++last;
  walk(root, result, (node, after) => { after.place = node.place; });
}

// The result with the given variables as the script has them: their declarations filled, their reads by name.
function putBack(node, after, variables) {
  if (emptied(node, after)) {
    const filled = variables.has(identityOf(node.children[0]));
    return filled ? { ...after, children: [after.children[0], node.children[1]] } : after;
  }
  if (sameNode(node, after)) return { ...after, children: node.children.map((child, index) => putBack(child, after.children[index], variables)) };
  return node.kind === K.identifier && variables.has(identityOf(node)) ? node : after;
}

module.exports = { walk, changesOf, numberPlaces, putBack };
