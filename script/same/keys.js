// By which keys the script may read or write properties, of whatever object: so a `var` of its top is met by another way than its name (9.1.1.4), and a name or method of the host's changed.
'use strict';

const { K, ASSIGN, BINARY, UNARY } = require('../src/kinds');

// They make code from text; `constructor` leads to Function (20.2.1).
const TEXT_TO_CODE = new Set(['eval', 'constructor', 'Function']);
// What the language itself writes, and asks of any object (23.1.3, 7.1.1.1, 25.5.2, 27.2.1).
const WRITTEN = ['length'];
const ASKED = ['toString', 'valueOf', 'toJSON', 'then'];
// Functions that are told which properties to write are got by a name in capitals or one of `__` (clauses 19 to 28, B.2.2). These write none of what they are given; the last three read all.
const REFLECTING = /^[A-Z].*[a-z]|^__|^JSON$/;
const READERS = ['JSON.stringify', 'Object.values', 'Object.entries'];
const HARMLESS = new Set(['Math', 'Number', 'String', 'Boolean', 'Date', 'Array.isArray', 'Array.from', 'Array.of', 'Object.keys', 'JSON.parse', 'Promise.resolve', 'Promise.all', ...READERS]);
// The language's own names in small letters but for those that answer numbers, texts, true or false.
const FROM_LANGUAGE = new Set(['arguments', 'globalThis', 'structuredClone']);
const ARITHMETIC = new Set('<< >> >>> - * / % | ^ & **'.split(' '));
const NUMBERING = new Set(['-', '+', '~']);

const isHosts = (node) => node.kind === K.identifier && node.bits === 0n;
// A name, or a member of one, by which one of those is meant.
const isHarmless = (node) => (node.kind === K.member ? isHosts(node.children[0]) && (HARMLESS.has(node.children[0].text) || HARMLESS.has(`${node.children[0].text}.${node.text}`)) : isHosts(node) && HARMLESS.has(node.text));
const KEYED = new Set([K.member, K.patternProperty, K.string]);

// Whether a node names what makes code from text.
const makesCode = (node) => (isHosts(node) || KEYED.has(node.kind)) && TEXT_TO_CODE.has(node.text);

// What is assigned, updated or deleted.
function targetOf({ kind, form, children }) {
  const isTarget = kind === K.assign || kind === K.update || (kind === K.unary && UNARY[form] === 'delete');
  return isTarget ? children[0] : null;
}

class Keys {
  constructor(variables) {
    Object.assign(this, { variables, reads: new Set(ASKED), writes: new Set(WRITTEN), readsAll: false, writesAll: false, hasCode: false });
    // What it puts on the global object by a name.
    this.put = new Set(variables.hostWritten);
    for (const v of variables.all()) if (v.top) this.put.add(v.name);
    for (const node of variables.parents.keys()) this.note(node);
  }

  note(node) {
    const { kind, text, children } = node;
    if (makesCode(node)) this.hasCode = true;
    if (makesCode(node) || this.isLoose(node) || this.mayReflect(node)) this.readsAll = this.writesAll = true;
    if (kind === K.member || kind === K.patternProperty) this.reads.add(text);
    if (kind === K.member && READERS.includes(`${children[0].text}.${text}`)) this.readsAll = true;
    if (kind === K.computed) this.noteKey(children[1], 'reads');
    const target = targetOf(node);
    if (target && (target.kind === K.member || isHosts(target))) this.writes.add(target.text);
    if (target && target.kind === K.computed) this.noteKey(target.children[1], 'writes');
  }

  noteKey(key, how) {
    if (key.kind === K.string) this[how].add(key.text);
    else if (!this.isNumber(key)) this[`${how}All`] = true;
  }

  // `this` and `globalThis` lead anywhere, but for a member by its name.
  isLoose(node) {
    return (node.kind === K.this || (isHosts(node) && node.text === 'globalThis')) && this.variables.parents.get(node).kind !== K.member;
  }

  mayReflect(node) {
    if (!(isHosts(node) || KEYED.has(node.kind)) || !REFLECTING.test(node.text)) return false;
    const parent = this.variables.parents.get(node);
    if (node.kind !== K.identifier) return node.kind !== K.string || parent.kind === K.computed;
    const isAsked = parent.kind === K.new || (parent.kind === K.binary && BINARY[parent.form] === 'instanceof');
    return !isAsked && !isHarmless(parent.kind === K.member ? parent : node);
  }

  // A key that is a number by its form is no variable's name.
  isNumber(node) {
    const { kind, form, children } = node;
    if (kind === K.number || kind === K.update || (kind === K.unary && NUMBERING.has(UNARY[form]))) return true;
    if (kind === K.binary) return ARITHMETIC.has(BINARY[form]) || (BINARY[form] === '+' && children.every((child) => this.isNumber(child)));
    return kind === K.identifier && this.isCounter(this.variables.of(node));
  }

  // A variable below the top that begins as a number and is only counted up or down.
  isCounter(v) {
    const isStep = ({ kind, form, children }) => kind === K.update || ARITHMETIC.has(ASSIGN[form].slice(0, -1)) || (ASSIGN[form] === '+=' && children[1].kind === K.number);
    const isCounting = ({ node, how }) => (how === 'value' ? node.children[1].kind === K.number : how === 'update' && isStep(this.variables.parents.get(node)));
    return v !== null && !v.top && v.kind !== 'param' && v.defs.length === 1 && v.writes.length > 0 && v.writes.every(isCounting);
  }

  mayWrite(name) { return this.writesAll || this.writes.has(name); }
  mayRead(name) { return this.readsAll || this.reads.has(name) || this.mayWrite(name); }

  // Whether a property of the host's keeps its value, as far as the script goes.
  keeps(name) { return !this.mayWrite(name) && !this.put.has(name); }

  // A name of the host's in small letters that the script neither declares nor changes, and what is found from there by such names: `tide.high`.
  isHostName(node) { return isHosts(node) && /^[a-z]/.test(node.text) && !FROM_LANGUAGE.has(node.text) && this.keeps(node.text); }
  isHostPath(node) { return this.isHostName(node) || (node.kind === K.member && this.keeps(node.text) && this.isHostPath(node.children[0])); }
}

module.exports = { Keys, isHarmless, makesCode };
