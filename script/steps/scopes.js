// The scopes of the counted steps, as crates/def_pass/specs/Scope.antt has them: bindings, constants, barriers and unresolved names of each.
'use strict';

const { K, identityOf } = require('../src/kinds');
const { isIdentifier, isMember } = require('./tree');

const PREVENTED = new Set([K.update, K.call, K.new, K.parenthesis]);

const size = (value) => (value ? value.size : 0);
const names = (value, identity) => Boolean(value) && isIdentifier(value) && identityOf(value) === identity;

// A binding's own mark, or that of a method whose `this` would be another.
const isMarked = ({ isPrevented, isThisSensitive, value }) => isPrevented || (isThisSensitive && Boolean(value) && isMember(value));

class Scope {
  constructor(kind) {
    this.kind = kind;
    this.bindings = new Map();
    this.constants = new Map();
    this.unresolved = new Set();
    this.barriers = new Set();
  }

  add(binding) {
    this.bindings.set(binding.identity, { ...binding, place: this.bindings.size });
  }

  // Overwrites the record of the same variable at its place.
  put(binding) {
    const old = this.bindings.get(binding.identity);
    if (old) this.bindings.set(binding.identity, { ...binding, place: old.place });
    else this.add(binding);
  }

  // A barrier between two places, ends included.
  isBarred(one, two) {
    return [...this.barriers].some((place) => Math.min(one, two) <= place && place <= Math.max(one, two));
  }
}

const fresh = (identity, kind, isPrevented, isUndefined, value) =>
  ({ identity, kind, reads: 0, isPrevented, isUndefined, value, isThisSensitive: false, isHoisted: false });

class Scopes {
  constructor() {
    this.open = [new Scope('function')];
  }

  get current() { return this.open.at(-1); }

  outwards() { return [...this.open].reverse(); }

  push(kind) { this.open.push(new Scope(kind)); }

  // A scope's end: what is no function hands its `var` bindings outwards, emptied.
  close() {
    const closed = this.open.pop();
    if (!this.open.length) return;
    const around = this.current;
    for (const identity of closed.unresolved) around.unresolved.add(identity);
    if (closed.kind === 'function') return;
    for (const binding of closed.bindings.values()) {
      const isPrevented = binding.isPrevented || around.unresolved.has(binding.identity);
      if (binding.kind === 'var') around.put({ ...binding, isPrevented, isUndefined: false, value: null, isHoisted: true });
    }
  }

  here(identity) { return this.current.bindings.get(identity); }

  find(identity, from = this.open.length - 1) {
    for (let level = from; level >= 0; level--) {
      const binding = this.open[level].bindings.get(identity);
      if (binding) return binding;
    }
    return undefined;
  }

  // The nearest value of a constant; one without a value is passed by.
  constant(identity) {
    return this.outwards().map((scope) => scope.constants.get(identity)).find(Boolean) || null;
  }

  isConstant(identity) { return this.open.some((scope) => scope.constants.has(identity)); }

  prevent(identity) {
    for (const scope of this.open) {
      for (const binding of scope.bindings.values()) if (binding.identity === identity || names(binding.value, identity)) binding.isPrevented = true;
    }
  }

  preventParameters() {
    for (const scope of this.outwards()) {
      for (const binding of scope.bindings.values()) if (binding.kind === 'parameter') binding.isPrevented = true;
      if (scope.kind === 'function') return;
    }
  }

  isPrevented(node) {
    if (PREVENTED.has(node.kind)) return true;
    const name = isMember(node) ? node.children[0] : node;
    return isIdentifier(name) && Boolean((this.find(identityOf(name)) || {}).isPrevented);
  }

  // Outwards, a function, a loop or a condition is met before the binding.
  isBehindScope(identity) {
    const met = this.outwards().find((scope) => scope.bindings.has(identity) || scope.kind !== 'block');
    return Boolean(met) && !met.bindings.has(identity);
  }

  isPreventedByScope(identity) {
    return this.open.some((scope, level) => {
      const above = this.find(identity, level - 1);
      return scope.unresolved.has(identity) || (above && above.isHoisted && isMarked(above));
    });
  }

  read(identity, isArguments) {
    const found = this.find(identity);
    const isFree = Boolean(found) && (found.kind !== 'var' || found.isHoisted);
    if (!isFree && this.isBehindScope(identity)) this.prevent(identity);
    if (isArguments) this.preventParameters();
    if (!found) this.current.unresolved.add(identity);
    else Object.assign(found, { reads: Math.min(2, found.reads + 1), isPrevented: found.isHoisted || found.isPrevented });
  }

  write(identity, isArguments, isForced) {
    if (this.isBehindScope(identity)) this.prevent(identity);
    if (isArguments) this.preventParameters();
    const scope = this.outwards().find(({ bindings, constants }) => bindings.has(identity) || constants.has(identity)) || this.open[0];
    if (!scope.bindings.has(identity)) {
      if (!this.isConstant(identity)) this.current.add(fresh(identity, 'var', isForced, false, null));
      return;
    }
    this.find(identity).isUndefined = false;
    if (scope !== this.current || isForced) this.prevent(identity);
  }

  isInLoop() {
    const met = this.outwards().find(({ kind }) => kind === 'function' || kind === 'loop');
    return Boolean(met) && met.kind === 'loop';
  }

  // `value` is recorded, unless it is only seen, which keeps an old one.
  declare({ identity, isTwice }, { value, isSeen }, isUndefined, kind) {
    const { current } = this;
    const old = this.here(identity);
    const aim = value && isIdentifier(value) ? identityOf(value) : null;
    const target = aim === null ? undefined : { ...this.here(aim) };
    const isPrevented = isTwice || this.isPreventedByScope(identity) || Boolean(value && this.isPrevented(value));
    const place = old ? old.place : current.bindings.size;
    if (old) Object.assign(old, { reads: 0, isPrevented, isUndefined, value: isSeen ? old.value : value });
    else current.add(fresh(identity, kind, isPrevented, isUndefined, isSeen ? null : value));
    if (this.isInLoop()) this.prevent(identity);
    if (kind === 'parameter' || !target || target.kind === undefined || target.kind === 'parameter') return;
    if (place < target.place || current.isBarred(target.place, place)) {
      this.prevent(identity);
      this.prevent(aim);
    }
  }

  storeBarrier() {
    for (const scope of this.open) scope.barriers.add(scope.bindings.size);
  }

  // What row 9 counts: nodes of recorded values, and live bindings and constants.
  recorded() {
    const sum = (values) => values.reduce((total, value) => total + size(value), 0);
    return this.open.reduce((total, { bindings, constants }) => total + sum([...bindings.values()].map(({ value }) => value)) + sum([...constants.values()]), 0);
  }

  live() {
    return this.open.reduce((total, { bindings, constants }) => total + bindings.size + constants.size, 0);
  }
}

module.exports = { Scopes, isMarked };
