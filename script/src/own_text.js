// The result as the script's own text with edits where the tree changed: comments, blank lines and layout stay.
// The edited text is read again, and has to give the tree that the port gave; otherwise there is none.
'use strict';

const MagicString = require('magic-string');
const { editsOf } = require('./edits');
const { pairsOf, renamedApart } = require('./result_text');
const { trouble } = require('./trouble');

function edited(text, edits) {
  const made = new MagicString(text);
  for (const { start, end, text: written } of edits) {
    if (written === '') made.remove(start, end);
    else made.overwrite(start, end, written);
  }
  return made.toString();
}

// Text and edits that read as `result`, with the pairs of nodes that show it.
function readable(root, result, text) {
  for (const cautious of [false, true]) {
    const edits = editsOf(root, result, text, cautious);
    const made = edited(text, edits);
    const pairs = pairsOf(result, made);
    if (pairs) return { text: made, edits, pairs };
  }
  throw trouble(null, 'the edited script does not read as the result, so nothing is written; put semicolons at the ends of its statements, or see the result by --lines');
}

// `root` is the script's tree with its places in `text`, `tree` the port's result.
function ownText(root, tree, text) {
  let result = tree;
  for (;;) {
    const { pairs, ...made } = readable(root, result, text);
    const apart = renamedApart(result, pairs);
    if (!apart) return { ...made, result };
    result = apart;
  }
}

module.exports = { ownText };
