// Which variable each name means: worked out by the port's resolver, from a tree file whose contexts are all 0. Where it refuses the script, why, with the
// place in the text.
'use strict';

const { NAMED, preorder } = require('./kinds');
const { resolve } = require('./port');
const { placedTrouble } = require('./refusals');
const { contextsOfFile, hasFile, writeTreeFile } = require('./tree_file');
const { ScriptTrouble, trouble } = require('./trouble');
const { findUnsaid } = require('./unsaid');

const TOO_LONG = 3;
const TWICE = 13;
const SAID = /declared by (an? \w+) \(node (\d+)\) and again by (an? \w+) \(node (\d+)\)/;
const ANOTHER_NAME = 'another name for one of them';

const resolved = (root) => (hasFile(root) ? resolve(writeTreeFile(root)) : { refused: TOO_LONG });

// The resolver's words have nodes by their number; here they have lines.
function twiceTrouble(root, words) {
  const [, first, before, second, again] = SAID.exec(words) || [];
  if (!again) return trouble(null, `refusal ${TWICE}: ${words}`, ANOTHER_NAME);
  const nodes = [...preorder(root)];
  const [from, to] = [nodes[before - 1], nodes[again - 1]];
  const line = from.at.loc.start.line === to.at.loc.start.line ? 'this line' : `line ${from.at.loc.start.line}`;
  return trouble(to.at.loc.start, `refusal ${TWICE}: ${to.text} is declared by ${first} on ${line} and again by ${second} here`, ANOTHER_NAME);
}

function refusedTrouble({ refused, words }, root) {
  return refused === TWICE ? twiceTrouble(root, words) : placedTrouble(refused, root, (other) => resolved(other).refused);
}

// Writes the context of every name into the tree: 0 for the host's names, else the number of the scope that declares it. What contexts the tree has does
// not matter.
function addContexts(root) {
  const nodes = [...preorder(root)];
  for (const node of nodes) if (NAMED.has(node.kind)) node.bits = 0n;
  const answer = resolved(root);
  if (answer.refused) throw refusedTrouble(answer, root);
  const contexts = contextsOfFile(answer.file);
  nodes.forEach((node, index) => { node.bits = contexts[index]; });
  const findings = findUnsaid(root);
  if (findings.length) throw new ScriptTrouble(findings);
}

module.exports = { addContexts };
