// The walks of the counted steps, as crates/def_pass/specs/Walk.antt has them, with each limit that a step can meet. Nothing here is proved:
// it names the limit that a refusal of the port has met, and decides nothing.
'use strict';

const { K, identityOf } = require('../src/kinds');
const { HANDLERS } = require('./handlers');
const { Scopes, isMarked } = require('./scopes');
const { isCheap, isIdentifier, namesIn, placedAt, targetsIn, treeOf, voidZero, withChildren } = require('./tree');

const MOST = { depth: 200, scopes: 32, rightSides: 12, nodes: 1024, values: 512, records: 256 };
// An ordinary script takes some thousands; only functions in one another's values double them.
const MOST_STEPS = 200000;

// A step met a limit: which, how much there was, at which node, in whose place a value was put, if one was, and through which constants.
class Met extends Error {
  constructor(limit, count, at, { name = null, constants = [] } = {}) {
    super(limit);
    Object.assign(this, { limit, count, most: MOST[limit], at, name, constants });
  }
}

// There are too many steps to count.
class TooManySteps extends Error {}

// `left` is how many walks may still be opened in one another, `depth` how deep a node stands in the tree, the script being 1.
class Walks {
  constructor(root, { mostSteps = MOST_STEPS, lifted = null } = {}) {
    this.targets = targetsIn(root);
    this.tree = treeOf(root);
    Object.assign(this, {
      scopes: new Scopes(), nodes: this.tree.size, isChanged: false, isInlining: false, isFirstRun: true, declares: 'var', pattern: 'declaring', isInTest: false,
      rightSides: 0, at: this.tree.at, constants: [], stepsLeft: mostSteps, lifted, most: 0,
    });
  }

  // A limit that is lifted is passed, and the most of it is kept.
  meet(limit, count, name) {
    if (limit !== this.lifted) throw new Met(limit, count, this.at, { name, constants: [...this.constants] });
    this.most = Math.max(this.most, count);
  }

  // Analysis, then Inlining.
  run() {
    for (const isInlining of [false, true]) {
      this.isInlining = isInlining;
      this.tree = this.own(MOST.depth - 1, 1, this.tree);
    }
    this.isInlining = false;
  }

  opened(left, node, walk) {
    if (left === 0) this.meet('depth', MOST.depth + 1);
    if (this.stepsLeft-- === 0) throw new TooManySteps();
    const before = this.at;
    this.at = node.at;
    const walked = walk();
    this.at = before;
    return walked;
  }

  // As its parent's default walk calls it; its kind's own handler; a function's body.
  full(left, depth, node) { return this.opened(left, node, () => this.after(left - 1, depth, this.own(left - 1, depth, node))); }
  bare(left, depth, node) { return this.opened(left, node, () => this.own(left - 1, depth, node)); }
  inner(left, depth, node) { return this.opened(left, node, () => this.statements(left - 1, depth, node)); }

  each(left, depth, nodes) { return nodes.map((node) => this.full(left, depth, node)); }
  plain(left, depth, node) { return withChildren(node, this.each(left, depth + 1, node.children)); }

  // Plainly in Analysis; in Inlining both ways.
  listed(left, depth, nodes) {
    if (!this.isInlining) return this.each(left, depth, nodes);
    this.isInlining = false;
    const once = this.each(left, depth, nodes);
    this.isInlining = true;
    return this.each(left, depth, once);
  }

  statements(left, depth, node) { return withChildren(node, this.listed(left, depth + 1, node.children)); }

  // All children but the last by the full walk, the last one by another.
  butLast(left, depth, nodes, last) {
    return nodes.map((node, index) => (index < nodes.length - 1 ? this.full(left, depth, node) : last(node)));
  }

  inScope(kind, walk) {
    const { open } = this.scopes;
    if (open.length >= MOST.scopes) this.meet('scopes', open.length + 1);
    const { isInlining, declares, pattern, isInTest } = this;
    this.scopes.push(kind);
    this.declares = 'var';
    const walked = walk();
    this.scopes.close();
    Object.assign(this, { isInlining, declares, pattern, isInTest });
    return walked;
  }

  // The statement of a loop or branch, in its scope.
  branch(left, depth, node, kind) { return this.inScope(kind, () => this.bare(left, depth, node)); }

  // After a change of the scopes that may add.
  checkRecords() {
    const [values, records] = [this.scopes.recorded(), this.scopes.live()];
    if (values > MOST.values) this.meet('values', values);
    if (records > MOST.records) this.meet('records', records);
  }

  replace(depth, old, value, name) {
    const count = this.nodes + value.size - old.size;
    const deepest = depth + value.height - 1;
    if (deepest > MOST.depth) this.meet('depth', deepest, name);
    if (count > MOST.nodes) this.meet('nodes', count, name);
    this.nodes = count;
  }

  write(isForced, name) {
    const before = this.at;
    this.at = name.at;
    this.scopes.write(identityOf(name), name.text === 'arguments', isForced);
    this.checkRecords();
    this.at = before;
  }

  writeAll(isForced, nodes) { nodes.flatMap(namesIn).forEach((name) => this.write(isForced, name)); }

  declare(name, init, isChange, kind) {
    const isUndefined = this.declares === 'var' && !isChange && !init.value && this.isInlining;
    this.scopes.declare({ identity: identityOf(name), isTwice: name.isTwice }, init, isUndefined, kind);
    this.checkRecords();
  }

  own(left, depth, node) {
    const handler = HANDLERS[node.kind];
    return handler ? handler(this, left, depth, node) : this.plain(left, depth, node);
  }

  // What an expression's own handler is followed by.
  after(left, depth, node) {
    if (isIdentifier(node)) return this.identifier(left, depth, node);
    if (node.kind === K.assign && node.form === 0) return this.isInlining ? this.firstValue(depth, node) : node;
    return this.logical(left, depth, node);
  }

  // A right side of && or ||, again in a scope of its own.
  logical(left, depth, node) {
    if (node.kind !== K.binary || node.form > 1) return node;
    const [first, right] = node.children;
    if (this.rightSides >= MOST.rightSides) {
      this.at = right.at;
      this.meet('rightSides', this.rightSides + 1);
    }
    this.rightSides += 1;
    const walked = this.inScope('condition', () => this.bare(left, depth + 1, right));
    this.rightSides -= 1;
    return withChildren(node, [first, walked]);
  }

  firstValue(depth, node) {
    const [target, value] = node.children;
    const binding = target.kind === K.binding && this.scopes.here(identityOf(target));
    if (!binding || !binding.isUndefined || isMarked(binding) || this.scopes.isPrevented(value)) return node;
    Object.assign(binding, { value, isUndefined: false });
    this.checkRecords();
    this.replace(depth, node, value, target);
    return value;
  }

  identifier(left, depth, node) {
    const constant = this.isFirstRun ? this.scopes.constant(identityOf(node)) : null;
    if (constant) return this.followed(left, depth, node, constant);
    return this.isInlining ? this.inlined(left, depth, node) : this.analysed(node);
  }

  // A constant's value stands in its place, and is walked there.
  followed(left, depth, node, value) {
    this.isChanged = true;
    this.replace(depth, node, value, node);
    this.constants.push(node);
    const walked = this.full(left, depth, placedAt(value, node.at));
    this.constants.pop();
    return walked;
  }

  analysed(node) {
    const identity = identityOf(node);
    const binding = this.scopes.find(identity);
    if (this.isInTest && binding && !(binding.value && isCheap(binding.value))) this.scopes.prevent(identity);
    this.scopes.read(identity, node.text === 'arguments');
    return node;
  }

  inlined(left, depth, node) {
    const binding = this.scopes.find(identityOf(node));
    if (!binding || isMarked(binding)) return node;
    const { value } = binding;
    if (!value && !binding.isUndefined) return node;
    const put = value ? placedAt(value, node.at) : voidZero(node.at);
    if (value && !(isIdentifier(value) && identityOf(value) === identityOf(node))) this.isChanged = true;
    this.replace(depth, node, put, node);
    return value ? this.logical(left, depth, put) : put;
  }
}

module.exports = { MOST, Met, TooManySteps, Walks };
