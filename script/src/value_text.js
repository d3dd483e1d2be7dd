// The text of what stands in a name's place: as the script itself writes it, and printed anew only where the script has it nowhere.
'use strict';

const { K, identityOf, preorder } = require('./kinds');
const { estreeOf } = require('./from_tree');
const { finishedText, print } = require('./print');
const { LINE_END } = require('./rows');
const { partText } = require('./whole_text');

// A number such as 010 and a text such as "\\07", which strict code may not have.
const LEGACY = /^(?:0\d|["'](?:[^\\]|\\[^\d]|\\0(?!\d))*\\(?:[1-9]|0\d))/;
const PROPERTIES = new Set([K.property, K.patternProperty]);
const writtenBy = ({ kind, at }) => (PROPERTIES.has(kind) ? at.key : at);
const isLegacy = (node) => Boolean(node.at) && LEGACY.test(writtenBy(node).raw ?? '');

const keyOf = (node) => `${node.kind} ${node.form} ${node.bits} ${JSON.stringify(node.text)}(${node.children.map(keyOf)})`;

// The values that the script gives to each variable.
function valuesOf(root) {
  const values = new Map();
  for (const { kind, children } of preorder(root)) {
    if (![K.declarator, K.assign].includes(kind) || children.length < 2 || children[0].kind !== K.binding) continue;
    const identity = identityOf(children[0]);
    values.set(identity, [...(values.get(identity) || []), children[1]]);
  }
  return values;
}

// The first text in quotes for each string, be it a value or a property's name.
function quotedTexts(root, text) {
  const quoted = new Map();
  const note = (value, { start, end }) => quoted.has(value) || quoted.set(value, text.slice(start, end));
  for (const { kind, at, text: value } of preorder(root)) {
    if (kind === K.string) note(value, at);
    if (PROPERTIES.has(kind) && typeof at.key.value === 'string') note(value, at.key);
  }
  return quoted;
}

// A script's text, by what may be copied from it.
class Source {
  constructor(root, text, comments) {
    this.text = text;
    this.comments = comments;
    this.values = valuesOf(root);
    this.quoted = quotedTexts(root, text);
    this.nodes = new Map();
    for (const node of preorder(root)) if (node.at && !this.nodes.has(keyOf(node))) this.nodes.set(keyOf(node), node);
  }

  // Comments stay where the script has them, and are not copied along; what they keep apart stays apart.
  slice({ start, end }) {
    let [at, made] = [start, ''];
    for (const comment of this.comments.filter((one) => one.start >= start && one.end <= end)) {
      made += this.text.slice(at, comment.start).replace(/[ \t]+$/, '') + this.apart(comment);
      at = comment.end;
    }
    return made + this.text.slice(at, end);
  }

  // A comment over several lines ends a line, too.
  apart(comment) {
    if (LINE_END.test(this.text.slice(comment.start, comment.end))) return '\n';
    return /\s/.test(this.text[comment.end] ?? ' ') ? '' : ' ';
  }

  // A name's own value first: `0x10` and `16` are one number, written in two ways. In strict code not what that may not have.
  written(node, identity, isStrict) {
    const key = keyOf(node);
    const own = (this.values.get(identity) || []).find((value) => keyOf(value) === key);
    const found = own || this.nodes.get(key);
    return found && !(isStrict && [...preorder(found)].some(isLegacy)) ? this.slice(found.at) : null;
  }

  // Printed anew: by the proved printer, or, where it has no text for it or is not there, with texts in quotes as the script has them.
  printed(node, isStrict = false) {
    const has = (text) => this.quoted.has(text) && !(isStrict && LEGACY.test(this.quoted.get(text)));
    const around = (part, made) => {
      if (part.kind === K.string && has(part.text)) return finishedText(this.quoted.get(part.text));
      if (PROPERTIES.has(part.kind) && made.key.type === 'Literal' && has(part.text)) return { ...made, key: finishedText(this.quoted.get(part.text)) };
      return made;
    };
    return partText(node) ?? print(estreeOf(node, around)).trimEnd();
  }

  // The text of `node` where it stands for the variable `identity`, in strict code or not.
  valueText(node, identity, isStrict = false) {
    return this.written(node, identity, isStrict) ?? this.printed(node, isStrict);
  }
}

module.exports = { Source };
