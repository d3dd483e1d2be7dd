// What a person should know of a script and its result, whatever the verdict: emptied variables of the top, renamed names, code made from
// text, writes to constants, statements that would be directives but for their parentheses.
'use strict';

const { K, DECLARATION, NAMED, boundNames, identityOf, isFunction, preorder } = require('../src/kinds');
const { walk } = require('../src/changes');
const { makesCode } = require('./keys');
const { Variables } = require('./variables');

const TOP_CONTEXT = 1n;

function emptiedTop(changes) {
  const names = changes.filter(({ how, node }) => how === 'emptied' && node.children[0].bits === TOP_CONTEXT).map(({ node }) => node.children[0]);
  return names.map((name) => ({ node: name, text: `\`${name.text}\` of the script's top is emptied; a host that reads it finds undefined` }));
}

function renamed(root, printed) {
  const found = new Map();
  walk(root, printed, (node, after, how) => {
    if (how === 'same' && after.was !== undefined && !found.has(after.text)) found.set(after.text, { node, text: `\`${after.was}\` is now called \`${after.text}\`` });
  });
  return [...found.values()];
}

function codeFromText(root) {
  const named = [...preorder(root)].filter((node) => node.kind === K.identifier && (node.text === 'eval' || makesCode(node)));
  return named.map((node) => ({ node, text: `\`${node.text}\` makes code from text, which is not looked into` }));
}

// The names that `const` declares.
function constants(root) {
  const found = new Set();
  for (const node of preorder(root)) {
    if (node.kind === K.declaration && DECLARATION[node.form] === 'const') node.children.flatMap(({ children: [name] }) => boundNames(name)).forEach((name) => found.add(identityOf(name)));
  }
  return found;
}

function constantWrites(root) {
  const names = constants(root);
  const parents = new Map([...preorder(root)].flatMap((parent) => parent.children.map((node) => [node, parent])));
  const written = [...parents.keys()].filter((node) => NAMED.has(node.kind) && names.has(identityOf(node)) && Variables.writeOf(node, parents));
  return written.map((node) => ({ node, text: `the constant \`${node.text}\` is written here; that fails when it runs` }));
}

const isText = (node) => node.kind === K.expression && node.children[0].kind === K.string;

// A name that is a statement of its own and became a text at the start of a function or of the script.
function textsAtStart(root, result) {
  const found = [];
  walk(root, result, (node, after, how) => {
    if (how !== 'same' || (node.kind !== K.script && !isFunction(node))) return;
    const [list, other] = [node, after].map((whole) => (whole.kind === K.script ? whole : whole.children.at(-1)).children);
    const end = other.findIndex((statement) => !isText(statement));
    const start = list.slice(0, end < 0 ? other.length : end).filter((statement) => !isText(statement));
    found.push(...start.map((statement) => ({ node: statement, text: 'this statement becomes a text in parentheses; without them it would be a directive' })));
  });
  return found;
}

// In the script's order, each with its place.
function remarksOf(root, result, printed, changes) {
  const all = [...emptiedTop(changes), ...renamed(root, printed), ...codeFromText(root), ...constantWrites(root), ...textsAtStart(root, result)];
  return all.map(({ node, text }) => ({ at: node.at.loc.start, text })).sort((a, b) => a.at.line - b.at.line || a.at.column - b.at.column);
}

module.exports = { remarksOf };
