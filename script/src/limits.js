// The limits of document 01 as counts of a script: how much of each it takes, and which it passes.
'use strict';

const { NAMED, TEXTED, identityOf, preorder } = require('./kinds');

const LIMITS = { nodes: 1024, texts: 256, textBytes: 4096, depth: 200, variables: 256 };

const WORDS = {
  nodes: 'nodes',
  texts: 'different names and texts',
  textBytes: 'bytes of names and texts',
  depth: 'nodes in one another',
  variables: 'different variables',
};

const figure = (number) => String(number).replace(/\B(?=(\d{3})+$)/g, ',');

const depthOf = (node) => 1 + node.children.reduce((most, child) => Math.max(most, depthOf(child)), 0);

function countsOf(root) {
  const nodes = [...preorder(root)];
  const texts = new Set(nodes.filter(({ kind }) => TEXTED.has(kind)).map(({ text }) => text));
  return {
    nodes: nodes.length,
    texts: texts.size,
    textBytes: [...texts].reduce((sum, text) => sum + Buffer.byteLength(text), 0),
    depth: depthOf(root),
    variables: new Set(nodes.filter(({ kind }) => NAMED.has(kind)).map(identityOf)).size,
  };
}

// Each limit with the script's count: { name, count, most, words }.
function limitsOf(root) {
  return Object.entries(countsOf(root)).map(([name, count]) => ({ name, count, most: LIMITS[name], words: WORDS[name] }));
}

const limitText = ({ count, most, words }) => `${figure(count)} ${words}, at most ${figure(most)}`;

module.exports = { LIMITS, figure, limitText, limitsOf };
