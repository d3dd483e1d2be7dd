// Which changed places have run: a replaced name where its value can be told, else the statement around it.
'use strict';

const { K, UNARY, isStatement, preorder } = require('../src/kinds');

const UNTOLD = new Set(['typeof', 'delete']);

class Coverage {
  constructor(root, changes) {
    this.parents = new Map();
    for (const node of preorder(root)) node.children.forEach((child) => this.parents.set(child, node));
    this.places = new Map();
    this.marks = new Set();
    for (const { how, node } of changes) {
      const told = how === 'replaced' && this.isTold(node);
      if (told) this.marks.add(node.place);
      const place = told ? node.place : this.stepOf(node);
      if (!this.places.has(place)) this.places.set(place, node.at ? node.at.loc.start.line : 0);
    }
  }

  // A callee keeps its `this`, and a statement of its own may be a directive; their values are not asked for.
  isTold(node) {
    const parent = this.parents.get(node);
    if (this.isWholeDefault(node)) return true;
    if (parent.kind === K.parenthesis || parent.kind === K.expression || parent.kind === K.update) return false;
    if (parent.kind === K.unary && UNTOLD.has(UNARY[parent.form])) return false;
    return !(parent.kind === K.call && parent.children[0] === node);
  }

  // A default, in parentheses or not.
  isWholeDefault(node) {
    const parent = this.parents.get(node);
    return parent.kind === K.default || (parent.kind === K.parenthesis && this.isWholeDefault(parent));
  }

  // The nearest statement that counts a step: one of a list, or a branch. The parameters of a declared function belong to none, and then
  // the place counts as one that has not run.
  stepOf(node) {
    let at = node;
    while (at && (!isStatement(at) || !this.isStep(at))) at = this.parents.get(at);
    return at ? at.place : -node.place;
  }

  isStep(node) {
    const parent = this.parents.get(node);
    const isList = [K.script, K.block, K.case].includes(parent.kind);
    return node.kind !== K.function && (isList || (parent.kind === K.if && node.kind !== K.block));
  }

  add(known, outcome) {
    if (outcome) outcome.ran.filter((place) => this.places.has(place)).forEach((place) => known.add(place));
    return known;
  }

  // The lines of changes that have not run in both.
  missing(one, two) {
    const lines = [...this.places].filter(([place]) => !one.has(place) || !two.has(place)).map(([, line]) => line);
    return [...new Set(lines)].sort((a, b) => a - b);
  }
}

module.exports = { Coverage };
