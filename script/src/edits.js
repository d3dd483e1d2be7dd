// What has to be changed in a script's own text to make it the result's: one edit for each replaced, emptied or renamed place.
'use strict';

const acorn = require('acorn');
const { K, identityOf, isFunction, isStatement, preorder } = require('./kinds');
const { walk } = require('./changes');
const { PARSER } = require('./parse');
const { needsParentheses } = require('./precedence');
const { Source } = require('./value_text');

function commentsOf(text) {
  const comments = [];
  acorn.parse(text, { ...PARSER, onComment: comments });
  return comments;
}

// Each node's parent, and which child of it the node is.
function parentsOf(root) {
  const parents = new Map();
  for (const node of preorder(root)) node.children.forEach((child, index) => parents.set(child, { parent: node, index }));
  return parents;
}

const LISTS = new Set([K.script, K.block, K.case]);
const SHORT = new Set([K.property, K.patternProperty]);

// Whether the text before a statement goes on with it where it begins with a bracket: `a = b` and a line below `(c)`.
function runsOn(statement, place, text) {
  if (!place || !LISTS.has(place.parent.kind) || place.index === 0) return false;
  const before = place.parent.children[place.index - 1];
  if (!isStatement(before)) return false;
  const last = text[before.at.end - 1];
  return last !== ';' && (last !== '}' || [K.declaration, K.expression, K.return, K.throw].includes(before.kind));
}

// Whether statements begin with the directive that makes what they stand in strict.
function beginsStrict(statements) {
  for (const { kind, children: [text], at } of statements) {
    if (kind !== K.expression || text.kind !== K.string) return false;
    if (at.directive === 'use strict') return true;
  }
  return false;
}

const isStrictList = ({ kind, children }) => (kind === K.script || kind === K.block) && beginsStrict(children);

class Editor {
  constructor(root, text, cautious) {
    this.text = text;
    this.cautious = cautious;
    this.parents = parentsOf(root);
    this.comments = commentsOf(text);
    this.source = new Source(root, text, this.comments);
  }

  // `was` is the value or name that stood there, without comments.
  edit(how, node, after, { start, end }, written) {
    const was = this.source.slice(how === 'emptied' ? node.children[1].at : node.at);
    return { how, node, after, start, end, was, text: written };
  }

  // A declaration without its value; the comments in between stay.
  emptied(node, after) {
    const [start, end] = [node.children[0].at.end, node.at.end];
    const kept = this.comments.filter((comment) => comment.start >= start && comment.end <= end);
    const written = kept.map((comment) => ` ${this.text.slice(comment.start, comment.end)}${comment.type === 'Line' ? '\n' : ''}`).join('');
    return this.edit('emptied', node, after, { start, end }, written);
  }

  // A function's directive holds for its parameters, too.
  isStrict(node) {
    for (let at = node; at; at = (this.parents.get(at) || {}).parent) if (isStrictList(at) || (isFunction(at) && isStrictList(at.children.at(-1)))) return true;
    return false;
  }

  // The statement that begins with this very node, if any.
  begun(node) {
    let [at, place] = [node, this.parents.get(node)];
    while (place && place.parent.at.start === node.at.start && !isStatement(at)) [at, place] = [place.parent, this.parents.get(place.parent)];
    return isStatement(at) && at.at.start === node.at.start ? at : null;
  }

  separated(node, written) {
    const statement = /^[([+\-/`]/.test(written) ? this.begun(node) : null;
    return statement && runsOn(statement, this.parents.get(statement), this.text) ? `;${written}` : written;
  }

  replaced(how, node, after) {
    if (isStatement(node)) return this.edit(how, node, after, node.at, this.source.printed(after, this.isStrict(node)));
    const { parent, index } = this.parents.get(node);
    const plain = this.source.valueText(after, node.text === null ? null : identityOf(node), this.isStrict(node));
    const closed = (this.cautious && plain.length > 1 && after.kind !== K.parenthesis) || needsParentheses(parent, index, after);
    const written = this.separated(node, closed ? `(${plain})` : plain);
    return this.edit(how, node, after, node.at, this.isShort(parent) ? `${parent.text}: ${written}` : written);
  }

  renamed(node, after) {
    const parent = this.targetOf(node);
    return this.edit('renamed', node, after, node.at, this.isShort(parent) ? `${parent.text}: ${after.text}` : after.text);
  }

  // `{a}`, in which one word is both the property's name and the variable.
  isShort(parent) {
    return SHORT.has(parent.kind) && parent.at.shorthand;
  }

  // The property of a pattern that a name, with a default or without, is the target of.
  targetOf(node) {
    const { parent, index } = this.parents.get(node);
    return parent.kind === K.default && index === 0 ? this.parents.get(parent).parent : parent;
  }
}

// The edits in the text's order; `cautious` puts parentheses round all that is put in.
function editsOf(root, result, text, cautious) {
  const editor = new Editor(root, text, cautious);
  const edits = [];
  walk(root, result, (node, after, how) => {
    if (how === 'emptied') edits.push(editor.emptied(node, after));
    else if (how !== 'same') edits.push(editor.replaced(how, node, after));
    else if (node.text !== after.text) edits.push(editor.renamed(node, after));
  });
  return edits.sort((a, b) => a.start - b.start);
}

module.exports = { editsOf };
