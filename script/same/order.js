// Which variables never change once they have a value, and which surely have it when a function's code runs.
'use strict';

const { K, BINARY, NAMED, UNARY, isFunction, preorder } = require('../src/kinds');
const { LITERALS } = require('./plain');
const { isHarmless } = require('./keys');
const { isLexical } = require('./variables');

const LOOPS = new Set([K.while, K.do, K.for, K.forIn, K.forOf]);
const LISTS = new Set([K.block, K.script, K.case]);
const ALL = 'all';

class Order {
  constructor(variables) {
    Object.assign(this, { variables, before: new Map() });
  }

  parent(node) { return this.variables.parents.get(node); }
  inLoop(node, fn) { return node !== fn && (LOOPS.has(node.kind) || this.inLoop(this.parent(node), fn)); }

  // Never changed once it has been given its value. A `var` in a loop is given one in every round, while functions of earlier rounds see it.
  isStable(v) {
    if (v.foreign || v.kind === 'own name') return !v.foreign;
    if (v.kind === 'param' || v.kind === 'catch') return v.defs.length === 1 && v.writes.length === 0;
    if (v.defs.length !== 1 || v.writes.length !== 1) return false;
    const [{ node, how }] = v.writes;
    return how === 'function' || (how === 'value' && (v.kind !== 'var' || LITERALS.has(node.children[1].kind) || !this.inLoop(node, v.fn)));
  }

  // The function directly inside `fn` that contains `inner`.
  outermost(inner, fn) {
    const around = this.variables.functions.get(inner);
    return around === fn ? inner : this.outermost(around, fn);
  }

  // The declarator that begins a `let` or `const`, or that alone gives a `var` its value, with its place in a list of statements; null where there is none such.
  giver(v) {
    const { node } = isLexical(v) ? v.defs[0] : v.writes.length === 1 && v.writes[0].how === 'value' ? v.writes[0] : { node: null };
    const statement = node && this.parent(node);
    const list = node && this.parent(statement);
    return list && LISTS.has(list.kind) ? { node, statement, list, index: list.children.indexOf(statement) } : null;
  }

  // Whether a node stands after a declarator, in its list or inside a later statement of it (14.2.2, 14.3: one after the other).
  isAfter(at, { node, statement, list, index }) {
    const place = (nodes) => nodes.findIndex((child) => this.variables.isInside(at, child));
    const there = place(list.children);
    return there === index ? place(statement.children) > statement.children.indexOf(node) : there > index;
  }

  // Whether a variable surely has begun, or has its value, whenever the code of `inner`, a function inside its own, runs.
  hasValueIn(v, inner) {
    if (v.kind === 'own name') return true;
    const called = this.outermost(inner, v.fn);
    // Parameters, and what a catch takes apart, have values before the body runs, but not before each other (10.2.11, 14.15.2).
    if (v.kind === 'param' || v.kind === 'catch') return v.defs.every(({ node }) => this.variables.isInside(called, node.children.at(-1)));
    if (v.kind === 'function') return v.defs.length === 1 && v.writes.length === 1;
    const giver = this.giver(v);
    if (!giver || called.kind !== K.function) return giver !== null && this.isAfter(called, giver);
    // A declared function is there from its list's start (10.2.11, 16.1.7), any other is made where it stands.
    return giver.list === this.parent(called) && this.isNotCalledBefore(called, giver);
  }

  // A function is reached by evaluating its name alone; one of the top is a property of the global object, too, and at `anything` the host may call it at any event.
  isNotCalledBefore(called, { node, statement, list, index }) {
    const { root, assumes, keys } = this.variables;
    if (!this.before.has(node)) {
      const before = [...list.children.slice(0, index).filter(({ kind }) => kind !== K.function), ...statement.children.slice(0, statement.children.indexOf(node) + 1)];
      const taken = list === root ? root.children.filter((child) => child.kind === K.function && keys.mayRead(child.children[0].text)).map(({ children }) => children[0]) : [];
      this.before.set(node, before.every(isQuiet) ? null : this.namedFrom([...before, ...taken], list === root));
    }
    const named = this.before.get(node);
    return named === null || ((list !== root || Boolean(assumes.calm)) && !named.has(called) && !named.has(ALL));
  }

  // Functions of the language ask what they are given for properties that no text names (`join`, 23.1.3.36; a Proxy's handler, 10.5); declared ones do not, nor those by the host's names in small letters, nor a harmless one.
  mayAsk({ kind, children: [callee, ...given] }) {
    const isOwn = () => isFunction(callee) || (callee.kind === K.identifier && callee.bits !== 0n);
    const isKnown = () => isOwn() || (kind === K.call && (isHarmless(callee) || this.variables.keys.isHostName(callee.kind === K.member ? callee.children[0] : callee)));
    return (kind === K.call || kind === K.new) && !given.every((each) => isMade(each) || isFunction(each)) && !isKnown();
  }

  // The declared functions that some nodes name, and those that these name, and so on; `ALL` where something may be asked for those of the top.
  namedFrom(nodes, isTop, found = new Set()) {
    for (const node of nodes.flatMap((each) => [...preorder(each)])) {
      if (isTop && this.mayAsk(node)) found.add(ALL);
      const v = NAMED.has(node.kind) ? this.variables.of(node) : null;
      const fresh = v ? v.defs.filter((def) => def.kind === 'function' && !found.has(def.node)).map((def) => def.node) : [];
      fresh.forEach((each) => found.add(each));
      this.namedFrom(fresh, isTop, found);
    }
    return found;
  }
}

// Runs no code and cannot fail.
const isOperator = ({ kind, form }) => (kind === K.unary && UNARY[form] !== 'delete') || (kind === K.binary && !['in', 'instanceof'].includes(BINARY[form]));
const isMade = (node) => LITERALS.has(node.kind) || (isOperator(node) && node.children.every(isMade));
const QUIET = new Set([K.empty, K.declaration, K.declarator, K.binding, K.expression, K.array, K.object, K.property]);
const isQuiet = (node) => isMade(node) || isFunction(node) || (QUIET.has(node.kind) && node.children.every(isQuiet));

module.exports = { Order };
