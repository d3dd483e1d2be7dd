// The places that are not shown, with their reasons; these are worded when they are asked for. It decides nothing.
'use strict';

const { K, NAMED, identityOf } = require('../src/kinds');
const { lateWords, lineOf, notNextWords, otherValueWords } = require('./reasons');

class Findings {
  constructor() {
    this.found = new Map();
  }

  find(node, { reason }) {
    const named = node.kind === K.declarator ? node.children[0] : node;
    const isName = NAMED.has(named.kind);
    const key = `${this.numberOf(node)} ${isName ? named.text : ''}`;
    if (this.found.has(key)) return;
    const at = node.at ? node.at.loc.start : null;
    const words = { get reason() { return typeof reason === 'function' ? reason() : reason; } };
    this.found.set(key, Object.assign(words, { at, line: lineOf(node), name: isName ? named.text : null, identity: isName ? identityOf(named) : null, node }));
  }

  // An event of the script that the result has not come to.
  late(entry, before) { this.find(entry.owner || entry.node, { reason: () => lateWords(this, entry, before) }); }

  // What a place of the script is done with another value than before.
  otherValue(source) { this.find(source, { reason: () => otherValueWords(this, source) }); }

  // The result does something that is not the script's next event: which of those was passed over tells the reason. Answers the event with which the check goes on.
  notNext(run, node, parts) {
    const { queue } = run.st;
    const source = this.sourceOf(node);
    const own = queue.find((entry) => entry.node === source && !entry.owner && entry.parts[0] === parts[0]);
    if (!own) {
      const place = run.reading || source || run.fn;
      const next = queue.find(({ isObject }) => !isObject);
      this.find(place, { reason: () => notNextWords(this, place, parts, next) });
      return this.serial('x');
    }
    const passed = queue.splice(0, queue.indexOf(own) + 1).slice(0, -1).filter(({ isObject }) => !isObject);
    passed.forEach((entry) => this.late(entry, { event: own }));
    if (!passed.length) this.find(source, { reason: 'it is done with other values' });
    return own.id;
  }

  list() { return [...this.found.values()].sort((a, b) => this.numberOf(a.node) - this.numberOf(b.node)); }
}

module.exports = { Findings };
