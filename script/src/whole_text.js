// What the proved printer prints (docs/TREE.md, "Printed as text"): the whole result, or a value alone; and where a script has what cannot be printed.
'use strict';

const { K, TEXTED, isStatement, preorder } = require('./kinds');
const { isResolverThere, printTree } = require('./port');
const { writeTreeFile } = require('./tree_file');
const { PortTrouble, trouble } = require('./trouble');

const HINT = 'without --print the result keeps the text that the script has there';
const NODE = /it has node (\d+) \(kind \d+\)(?: with (.*))?, (.*)$/s;

// What stands in the script as the node does in the result.
function placeOf(node, root) {
  const isIt = ({ kind, text, bits }) => kind === node.kind && (TEXTED.has(kind) ? text === node.text : kind !== K.number || bits === node.bits);
  const found = [...preorder(root)].find((one) => one.at && isIt(one));
  return found ? found.at.loc.start : null;
}

// Refused by 12, which has a node of the result; nothing else is refused of a result that the pass gave.
function noText(result, root, { refused, words }) {
  const [, number, written, why] = NODE.exec(words) || [];
  if (!number) return trouble(null, `refusal ${refused}: ${words}`);
  const place = placeOf([...preorder(result)][number - 1], root);
  return trouble(place, `refusal ${refused}: ${written ? `${written}, ` : ''}${why}; the printer has no text for it`, HINT);
}

// `result` has the names that the result's text has, `root` is the script's tree with its places.
function wholeText(result, root) {
  const answer = printTree(writeTreeFile(result));
  if (answer.refused) throw noText(result, root, answer);
  return answer.text;
}

const made = (kind, children, text = null) => ({ kind, form: 0, text, bits: 0n, children });
const EMPTY = made(K.script, []);
const VALUE = /^var a = (.*) ;\n$/s;

// A tool of before the printer takes its word for a file's name.
function asksPrinter() {
  try {
    return isResolverThere() && printTree(writeTreeFile(EMPTY)).text === '';
  } catch (error) {
    if (error instanceof PortTrouble) return false;
    throw error;
  }
}

let hasPrinter = null;

// A value as a declaration has it, or a statement; null where the printer has no text for it, or is not there.
function partText(node) {
  hasPrinter ??= asksPrinter();
  if (!hasPrinter) return null;
  const declared = () => made(K.declaration, [made(K.declarator, [made(K.binding, [], 'a'), node])]);
  const { text } = printTree(writeTreeFile(made(K.script, [isStatement(node) ? node : declared()])));
  if (text === undefined) return null;
  return isStatement(node) ? text.trimEnd() : VALUE.exec(text)[1];
}

module.exports = { partText, wholeText };
