// What is known of each variable, and from it why the pass changed a place, in words.
'use strict';

const { K, DECLARATION, boundNames, identityOf, isFunction, partsOfFunction, preorder } = require('./kinds');

const HOST = 0n;

const lineOf = (node) => node.at.loc.start.line;

class Variables {
  constructor(root) {
    this.known = new Map();
    for (const node of preorder(root)) this.note(node);
  }

  of(name) {
    const identity = identityOf(name);
    if (!this.known.has(identity)) {
      const sort = name.bits === HOST ? 'a name of the host' : null;
      this.known.set(identity, { identity, name: name.text, sort, line: null, reads: 0, writes: [], replaced: 0, emptied: 0 });
    }
    return this.known.get(identity);
  }

  declare(name, sort) {
    const variable = this.of(name);
    if (variable.line === null) Object.assign(variable, { sort, line: lineOf(name) });
    return variable;
  }

  declareAll(target, sort) { boundNames(target).forEach((name) => this.declare(name, sort)); }

  noteFunction(node) {
    const { name, params } = partsOfFunction(node);
    if (name) this.declare(name, 'a function');
    params.forEach((param) => this.declareAll(param, 'a parameter'));
  }

  note(node) {
    const { kind, form, children } = node;
    if (kind === K.identifier) this.of(node).reads += 1;
    if (kind === K.declaration) children.forEach((declarator) => this.declareAll(declarator.children[0], DECLARATION[form]));
    if (isFunction(node)) this.noteFunction(node);
    if (kind === K.catch && children.length > 1) this.declareAll(children[0], 'what a catch caught');
    const sets = (kind === K.declarator && children.length > 1) || kind === K.assign;
    if (sets) boundNames(children[0]).forEach((name) => this.of(name).writes.push(lineOf(node)));
    if (kind === K.update && children[0].kind === K.identifier) this.of(children[0]).writes.push(lineOf(node));
  }
}

function list(lines) {
  const all = [...new Set(lines)].sort((a, b) => a - b);
  const shown = all.length > 4 ? [...all.slice(0, 3), 'others'] : all;
  return shown.length > 1 ? `lines ${shown.slice(0, -1).join(', ')} and ${shown.at(-1)}` : `line ${shown[0]}`;
}

// Why the pass put something in a name's place. It says what the pass went by, and not that this is right.
function whyReplaced({ name, sort, writes }) {
  if (!writes.length) return sort === 'var' ? `${name} is declared and given no value` : `nothing in the script writes ${name}`;
  if (sort === 'const') return `${name} is a constant, set on ${list(writes)}`;
  if (writes.length === 1) return `${name} is set once, on ${list(writes)}`;
  return `${name} is set on ${list(writes)}, and the pass goes by the value that it has recorded`;
}

function whyChanged({ how, node, after }, variables) {
  if (how === 'emptied') return `the pass has put the value in the place of each read of ${node.children[0].text} that it takes to have it`;
  if (how === 'renamed') return `what was put in would otherwise mean this nearer ${node.text}; it is called ${after.text} everywhere`;
  return node.kind === K.identifier ? whyReplaced(variables.of(node)) : 'parts of it were replaced';
}

// The variables of a script with how often each was replaced and emptied, in the order of their first place.
function countedVariables(root, edits) {
  const variables = new Variables(root);
  for (const { how, node } of edits) {
    if (how === 'replaced') variables.of(node).replaced += 1;
    if (how === 'emptied') variables.of(node.children[0]).emptied += 1;
  }
  return variables;
}

module.exports = { countedVariables, whyChanged };
