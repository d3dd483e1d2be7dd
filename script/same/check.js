// The static check: whether a result does what its script does, for every host of a level. Script and result are run beside each other on
// symbols, function by function; docs/SAME_MEANING.md has the method, the rules and their argument.
'use strict';

const { K, isFunction, isPattern, preorder } = require('../src/kinds');
const { walk, changesOf } = require('../src/changes');
const { firstForbidden } = require('./allowed');
const { Findings } = require('./findings');
const { LEVELS, levelOf } = require('./levels');
const { Order } = require('./order');
const { Plain } = require('./plain');
const { Run } = require('./run');
const { wholeFunction } = require('./statements');
const { Values } = require('./values');
const { Variables } = require('./variables');

// A tree without its parentheses, which mean nothing but what they order; a statement that is a text by itself keeps that in `isText`.
function bare(node) {
  if (node.kind === K.parenthesis) return bare(node.children[0]);
  const { kind, form, text, bits, at, was, children } = node;
  return { kind, form, text, bits, at, was, isText: kind === K.expression && children[0].kind === K.string, children: children.map(bare) };
}

// Whether a list of statements begins with the directive that makes it strict (11.2.1).
function isStrict(list) {
  const end = list.findIndex(({ isText }) => !isText);
  return list.slice(0, end < 0 ? list.length : end).some((node) => node.children[0].text === 'use strict');
}

class Check extends Findings {
  constructor(root, result, assumes) {
    super();
    Object.assign(this, { root: bare(root), result: bare(result), assumes, last: 0, afters: new Map(), replaced: new Set() });
    this.changes = changesOf(this.root, this.result);
    this.numbers = new Map([...preorder(this.root)].map((node, index) => [node, index + 1]));
    this.sources = new Map([...this.numbers.keys()].map((node) => [node, node]));
  }

  run() {
    if (!this.changes.length || !this.isCheckable()) return this.list();
    this.prepare();
    this.changes.filter(({ how }) => how === 'emptied').forEach(({ node }) => this.checkEmptied(node, this.variables.of(node.children[0])));
    this.checkFunction(this.root, this.result);
    for (const [node, after] of this.afters) if (isFunction(node) && !this.isReplaced(node)) this.checkFunction(node, after);
    return this.list();
  }

  // What the check does not know is not shown.
  isCheckable() {
    const other = this.changes.find(({ how, node }) => how === 'other' || (how === 'emptied' && isPattern(node.children[0])));
    if (other) this.find(other.node, { reason: 'a change of a form that is not known' });
    const [first, second] = [this.root, this.result].map(firstForbidden);
    if (first || second) this.find(first ? first.node : this.root, first || second);
    return this.found.size === 0;
  }

  prepare() {
    walk(this.root, this.result, (node, after, how) => {
      this.sources.set(after, node);
      this.afters.set(node, after);
      if (how === 'replaced') this.replaced.add(node);
    });
    this.values = new Values();
    this.variables = new Variables(this.root, new Set(this.changes.filter(({ how }) => how === 'emptied').map(({ node }) => node)), this.assumes);
    this.plain = new Plain(this.variables, this.assumes);
    this.order = new Order(this.variables);
    for (const v of this.variables.all()) v.stable = this.order.isStable(v);
    // Whether someone may ask a function for its name.
    this.namesCount = !this.assumes.plain || this.variables.keys.mayRead('name');
  }

  // The script's node in whose place a node stands, itself for one of the script; none inside what was moved.
  sourceOf(node) { return this.sources.get(node) || null; }

  isReplaced(node) { return this.replaced.has(node); }
  numberOf(node) { return this.numbers.get(node) ?? 0; }
  serial(prefix) { return `${prefix}${++this.last}`; }

  // A constant has to have a value (14.3.1.1); in sloppy mode a parameter's value is an element of `arguments`, too (10.4.4).
  checkEmptied(node, v) {
    if (v.kind === 'const') this.find(node, { reason: 'a constant without a value' });
    if (v.seen) this.find(node, { reason: 'a host that reads this variable of the script\'s top finds it empty' });
    if (v.kind === 'param' && this.variables.withArguments.has(v.fn)) this.find(node, { reason: 'a parameter that `arguments` has, too' });
  }

  // The pass's answer, read as a script, has to be strict where the script is.
  checkFunction(node, after) {
    const [list, other] = [node, after].map((whole) => (whole.kind === K.script ? whole : whole.children.at(-1)));
    if (list.kind !== K.binding && isStrict(list.children) !== isStrict(other.children)) {
      const first = list.children.find((child, at) => !child.isText && other.children[at].isText);
      this.find(first ? first.children[0] : node, { reason: 'the pass\'s answer has a directive "use strict" that the script does not have' });
    }
    wholeFunction(new Run(this, node, after), node, after);
  }
}

// What a level's name takes for granted, and the places that are not shown.
function checkResult(root, result, level) {
  const check = new Check(root, result, levelOf(level).assumes);
  const findings = check.run();
  return { level, changes: check.changes, shown: findings.length === 0, findings };
}

// The least level at which a result is shown, null where there is none.
const leastLevel = (root, result) => LEVELS.find(({ name }) => checkResult(root, result, name).shown) || null;

module.exports = { checkResult, leastLevel };
