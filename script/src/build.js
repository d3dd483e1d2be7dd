// A script's text through the pass: tree, tree file, the port's answer.
'use strict';

const { checkKinds, runPort } = require('./port');
const { refusalTrouble, tableTrouble } = require('./refusals');
const { treeOfText, withinDepth } = require('./to_tree');
const { hasFile, writeTreeFile, meaningOf } = require('./tree_file');

const TOO_LONG = 3;

// A list of more parts than a tree file can count is refused as the script that is too long which it makes.
const answerTo = (root, options) => (hasFile(root) ? runPort(writeTreeFile(root), meaningOf(root), options) : { refused: TOO_LONG });

function refusalOf(number, root, options) {
  return tableTrouble(number, root, options.kinds) || refusalTrouble(number, root, (other) => answerTo(other, options).refused, { runs: options.runs });
}

// The script's tree and the port's answer, or a trouble with its place.
function build(text, options) {
  const root = treeOfText(text);
  return withinDepth(text, () => {
    const answer = answerTo(root, options);
    if (answer.refused) throw refusalOf(answer.refused, root, options);
    checkKinds(root, options.kinds);
    return { root, answer };
  });
}

// The script's tree file alone.
function treeFileOf(text) {
  const root = treeOfText(text);
  if (!hasFile(root)) throw refusalTrouble(TOO_LONG, root, () => TOO_LONG, {});
  return writeTreeFile(root);
}

module.exports = { build, treeFileOf };
