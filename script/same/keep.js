// Of a result only what is shown: variables in the way are put back as the script has them, and the rest is checked again.
'use strict';

const { changesOf, putBack } = require('../src/changes');
const { identityOf } = require('../src/kinds');
const { checkResult } = require('./check');

const variableOf = ({ how, node }) => identityOf(how === 'emptied' ? node.children[0] : node);

// The findings that name a variable which the result still changes; where none does, all that it still changes.
function inTheWay(findings, changes) {
  const changed = new Map(changes.filter(({ how }) => how !== 'other').map((change) => [variableOf(change), change]));
  const named = findings.filter(({ identity }) => changed.has(identity));
  if (named.length) return named;
  const [{ reason }] = findings;
  return [...changed].map(([identity, { node }]) => ({ identity, name: identity.replace(/:\d+$/, ''), at: node.at ? node.at.loc.start : null, reason }));
}

// The result that is left, and the variables put back, each with the reason. It ends: each round puts one more back, and the script itself is shown.
function keepShown(root, result, level) {
  const back = new Map();
  const whole = changesOf(root, result).length;
  for (;;) {
    const tree = putBack(root, result, new Set(back.keys()));
    const { shown, changes, findings } = checkResult(root, tree, level);
    if (shown) return { tree, whole, kept: changes.length, back: [...back.values()] };
    const more = inTheWay(findings, changes).filter(({ identity }) => !back.has(identity));
    if (!more.length) return { tree: root, whole, kept: 0, back: [...back.values()] };
    for (const { identity, name, at, reason } of more) if (!back.has(identity)) back.set(identity, { identity, name, at, reason });
  }
}

module.exports = { keepShown };
