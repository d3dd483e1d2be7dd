// Results that the pass would not give: reads replaced and declarations emptied at random. What is shown of them must not differ either.
'use strict';

const { K, identityOf, preorder } = require('../src/kinds');

const clone = (node) => ({ ...node, at: undefined, children: node.children.map(clone) });
const node = (kind, children = []) => ({ kind, form: 0, text: null, bits: 0n, children });
const UNDEFINED = () => node(K.unary, [node(K.number)]);
const DELETE = 6;

// The parents and places of a variable's reads that may be replaced.
function readsOf(tree, id) {
  const found = [];
  for (const parent of preorder(tree)) {
    parent.children.forEach((child, index) => {
      const fixed = parent.kind === K.update || (parent.kind === K.unary && parent.form === DELETE);
      if (child.kind === K.identifier && identityOf(child) === id && !fixed) found.push([parent, index]);
    });
  }
  return found;
}

function change(result, declaration, declarator, random) {
  const value = clone(declarator.children[1]);
  const names = [...preorder(result)].filter((inner) => inner.kind === K.identifier && inner.bits !== 0n);
  const by = random.weighed([[6, () => value], [1, () => (names.length ? clone(random.pick(names)) : value)], [1, UNDEFINED]])();
  const all = random.chance(0.75);
  for (const [parent, index] of readsOf(result, identityOf(declarator.children[0]))) {
    if (all || random.chance(0.5)) parent.children[index] = clone(by);
  }
  if (random.chance(0.7) && declaration.form !== 2) declarator.children.pop();
}

// A changed copy of a tree, null where nothing can be changed.
function wrongResult(root, random) {
  const result = clone(root);
  let changed = false;
  for (let left = 1 + random.below(2); left > 0; left--) {
    const declarations = [...preorder(result)].filter(({ kind }) => kind === K.declaration);
    const pairs = declarations.flatMap((declaration) => declaration.children.filter(({ children }) => children.length > 1 && children[0].kind === K.binding).map((declarator) => [declaration, declarator]));
    if (!pairs.length) break;
    change(result, ...random.pick(pairs), random);
    changed = true;
  }
  return changed ? result : null;
}

module.exports = { wrongResult };
