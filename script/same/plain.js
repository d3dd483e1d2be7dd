// Which variables and expressions are plain by all that the script gives them, or the level's promise: a variable is unless something else is given to it, the greatest set that holds of itself.
'use strict';

const { K, ASSIGN, BINARY, NAMED, UNARY, partsOfFunction } = require('../src/kinds');
const { LOGICAL, answersPlain } = require('./values');

const CONSTANTS = new Set(['undefined', 'NaN', 'Infinity']);
const LITERALS = new Set([K.null, K.boolean, K.number, K.string]);
const UNKNOWN = new Set(['own name', 'catch', 'function']);
const OPERATORS = { [K.unary]: (form) => UNARY[form], [K.binary]: (form) => BINARY[form], [K.assign]: (form) => ASSIGN[form].slice(0, -1) };

class Plain {
  constructor(variables, assumes) {
    Object.assign(this, { variables, keys: variables.keys, isPromised: Boolean(assumes.plain), known: new Set(variables.all()) });
    for (let before = null; before !== this.known.size;) {
      before = this.known.size;
      for (const v of this.known) if (!this.isVariable(v)) this.known.delete(v);
    }
  }

  // A `var` of the top may have a value of the host's before the script begins (16.1.7, CreateGlobalVarBinding).
  isVariable(v) {
    if (v.open || v.loose || UNKNOWN.has(v.kind) || (v.kind === 'var' && v.top && !this.isPromised)) return false;
    return (v.kind !== 'param' || this.isParameter(v)) && v.writes.every((write) => this.isWritten(write));
  }

  isWritten({ node, how }) {
    if (how === 'value') return this.of(node.children[1]);
    const parent = this.variables.parents.get(node);
    if (how === 'assign' || how === 'update') return (parent.kind === K.assign || parent.kind === K.update) && this.of(parent);
    const isName = node.kind === K.binding || (node.children.length === 1 && node.children[0].kind === K.binding);
    // The keys of an object are texts (14.7.5).
    return how === 'head' && isName && (node.kind === K.declarator ? this.variables.parents.get(parent) : parent).kind === K.forIn;
  }

  // The variable by which alone a function is known, null where there is none.
  nameOf(fn) {
    const { name } = partsOfFunction(fn);
    const parent = this.variables.parents.get(fn);
    const binding = fn.kind === K.function ? name : !name && parent.kind === K.declarator ? parent.children[0] : null;
    const v = binding && binding.kind === K.binding ? this.variables.of(binding) : null;
    return v && v.defs.length === 1 && v.writes.length === 1 && !v.foreign ? v : null;
  }

  // Whether all that call a function give plain values to its parameter; the host calls what the top declares.
  isParameter(v) {
    const { name, params } = partsOfFunction(v.fn);
    const index = params.findIndex((param) => param.kind === K.binding && this.variables.of(param) === v);
    if (params.some(({ kind }) => kind !== K.binding) || v.defs.length !== 1 || this.variables.withArguments.has(v.fn)) return false;
    const known = this.nameOf(v.fn);
    if (!known) return !name && this.isGiven(v.fn, index);
    return (!known.top || this.isPromised) && known.reads.every((node) => this.isGiven(node, index));
  }

  // What a use of a function gives to its parameter: a call's argument, or what the host does to which it is handed with plain values alone.
  isGiven(use, index) {
    const { kind, children } = this.variables.parents.get(use);
    if (kind !== K.call) return false;
    if (children[0] === use) return !children[index + 1] || this.of(children[index + 1]);
    return this.isHosts(children[0]) && children.every((child, at) => at === 0 || child === use || this.of(child));
  }

  // Where the script operates on what the host's names give, the promise of `plain` holds.
  isHosts(node) { return this.isPromised && this.keys.isHostName(node); }

  of(node) {
    const { kind, form, children } = node;
    if (NAMED.has(kind)) return node.bits === 0n ? CONSTANTS.has(node.text) || this.isHosts(node) : this.known.has(this.variables.of(node));
    if (kind === K.call) return this.isHosts(children[0]);
    if (kind === K.member) return this.isPromised && this.keys.isHostPath(node);
    if (kind === K.sequence || (kind === K.assign && form === 0)) return this.of(children.at(-1));
    if (kind === K.conditional) return this.of(children[1]) && this.of(children[2]);
    if (kind === K.update) return this.of(children[0]);
    const op = OPERATORS[kind] && OPERATORS[kind](form);
    const arePlain = op ? children.map((child) => this.of(child)) : [];
    return LITERALS.has(kind) || (LOGICAL.has(op) ? !arePlain.includes(false) : Boolean(op) && answersPlain(op, arePlain));
  }
}

module.exports = { Plain, CONSTANTS, LITERALS };
