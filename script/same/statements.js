// The statements of script and result in lock-step, by ECMA-262, clause 14: each expression on both sides, and no event left over where control parts or meets.
'use strict';

const { K, DECLARATION, FOR, boundNames, partsOfFunction } = require('../src/kinds');
const { ASSIGNED, BOUND, bind, takeApart, valueOf } = require('./expressions');
const { SIDES, newState } = require('./run');

// Both sides of an expression, the script's first; they have one value.
function same(run, node, after) {
  const script = run.on('p', () => valueOf(run, node));
  const result = run.on('r', () => valueOf(run, after));
  if (script !== result) run.check.otherValue(node);
  return script;
}

function statement(run, node, after) {
  if (run.st) STATEMENTS[node.kind](run, node, after);
}

// A list's functions are there from its start (10.2.11, 16.1.7).
function statements(run, list, after) {
  for (const node of list) if (node.kind === K.function) run.both(run.variables.of(node.children[0]), run.values.make(false, 'declared', run.check.numberOf(node)));
  list.forEach((node, index) => statement(run, node, after[index]));
}

// A pattern of the script and the result's, which has its own defaults, take one value apart; a name gets it.
function apart(run, targets, value, how) {
  SIDES.forEach((side, index) => run.on(side, () => bind(run, targets[index], () => value, how)));
}

function declarator(run, node, after, kind) {
  const [target, init] = node.children;
  if (run.variables.emptied.has(node)) emptied(run, node, run.variables.of(target), kind);
  // A `var` without a value does nothing (14.3.2.1).
  else if (init || kind !== 'var') apart(run, [target, after.children[0]], init ? same(run, init, after.children[1]) : run.values.undefined, BOUND);
}

// The script evaluates the value here, the result where it was moved to. An emptied `let` begins here in the result; until then other functions fail on it.
function emptied(run, node, v, kind) {
  const value = run.on('p', () => valueOf(run, node.children[1]), node);
  if (kind !== 'var' && v.captured) run.onBoth(() => run.emit(node, ['begin', v.id], { runsCode: false }));
  run.set('p', v, value);
  v.value ??= value;
  if (kind !== 'var') run.set('r', v, run.values.undefined);
}

// Nothing of this list comes after it.
function leave(run, node, after) {
  if (node.children.length) same(run, node.children[0], after.children[0]);
  run.settle('control goes elsewhere');
  run.st = null;
}

const pairs = (node, after) => node.children.map((child, index) => [child, after.children[index]]);
const ROUND = 'a round of a loop begins or ends';

// Statements of parts: how many are evaluated first, each once (`once`); of the others how many begin as these end (`exact`).
const PARTS = {
  [K.if]: { once: 1, exact: 2, where: 'control branches' },
  [K.while]: { once: 0, exact: 0, where: ROUND },
  [K.do]: { once: 0, exact: 0, where: ROUND },
  [K.for]: { once: 0, exact: 0, where: ROUND },
  [K.switch]: { once: 1, exact: 0, where: 'a case begins or ends' },
  [K.try]: { once: 0, exact: 1, where: 'a part of a try begins or ends' },
};

// A part that is not evaluated once may run, not run, run again, or end anywhere: any other begins with what holds anywhere in all of them, and what they write is unknown afterwards.
function parted(run, node, after) {
  const { once, exact, where } = PARTS[node.kind];
  const first = node.kind === K.for && node.form & FOR.start ? 1 : once;
  const region = node.children.slice(first);
  const parts = pairs(node, after);
  run.openScope(node);
  parts.slice(0, first).forEach((part) => piece(run, ...part));
  run.settle(where);
  const before = run.st;
  parts.slice(first).flatMap(piecesOf).forEach((part, index) => {
    run.st = index < exact ? newState(before.p, before.r) : run.without(before, region);
    piece(run, ...part);
    run.settle(where);
  });
  run.st = run.without(before, region);
  run.closeScope(node);
}

// A case's statements are reached by its test, or from the case before.
const piecesOf = ([node, after]) => (node.kind === K.case && node.form ? [[node.children[0], after.children[0]], [node, after]] : [[node, after]]);

function piece(run, node, after) {
  if (node.kind === K.case) pairs(node, after).slice(node.form).forEach((pair) => statement(run, ...pair));
  else if (node.kind === K.catch) handler(run, node, after);
  else (STATEMENTS[node.kind] ? statement : same)(run, node, after);
}

function handler(run, clause, other) {
  const [[target, its], body] = pairs(clause, other);
  if (body) {
    boundNames(target).forEach((name) => run.notBegun(run.variables.of(name)));
    apart(run, [target, its], run.values.make(false, 'caught', run.check.serial('c')), BOUND);
  }
  block(run, clause, other, clause.children.at(-1), other.children.at(-1));
}

// The block of a catch has no scope of its own.
function block(run, node, after, list = node, other = after) {
  run.openScope(node);
  statements(run, list.children, other.children);
  run.closeScope(node);
}

// What closing an iterator runs (7.4 IteratorClose) comes before what follows the loop, where all that others write is unknown.
function loopOver(run, node, after) {
  const [[head, other], right, body] = pairs(node, after);
  run.openScope(node);
  const list = same(run, ...right);
  run.onBoth(() => run.emit(node, ['iterate', list]));
  run.settle(ROUND);
  const before = run.st;
  run.st = run.without(before, [node]);
  const isDeclared = head.kind === K.declaration;
  if (isDeclared && head.children[0].children.length > 1) run.check.find(head, { reason: 'a loop\'s variable with a value of its own' });
  run.onBoth(() => run.emit(node, ['item']));
  const targets = [head, other].map((target) => (isDeclared ? target.children[0].children[0] : target));
  apart(run, targets, run.values.make(node.kind === K.forIn, 'item', run.check.serial('i')), isDeclared ? BOUND : ASSIGNED);
  run.settle(ROUND);
  statement(run, ...body);
  run.settle(ROUND);
  run.st = run.without(before, [node]);
  run.closeScope(node);
}

const STATEMENTS = {
  [K.empty]: () => {},
  [K.function]: () => {},
  [K.block]: (run, node, after) => block(run, node, after),
  [K.expression]: (run, node, after) => { same(run, node.children[0], after.children[0]); },
  [K.declaration]: (run, node, after) => pairs(node, after).forEach((pair) => declarator(run, ...pair, DECLARATION[node.form])),
  [K.forIn]: loopOver,
  [K.forOf]: loopOver,
};
for (const kind of [K.return, K.throw, K.break, K.continue]) STATEMENTS[kind] = leave;
for (const kind of Object.keys(PARTS)) STATEMENTS[kind] = parted;

// A whole function: its parameters, its own variables, then its body.
function wholeFunction(run, node, after) {
  const [list, others] = [node, after].map((each) => (node.kind === K.script ? [] : partsOfFunction(each).params));
  const isSimple = list.every(({ kind }) => kind === K.binding);
  run.begin(isSimple);
  if (!isSimple) list.forEach((param, index) => apart(run, [param, others[index]], run.values.make(false, 'argument', index), BOUND));
  run.beginBody();
  const [body, other] = node.kind === K.script ? [node, after] : [node.children.at(-1), after.children.at(-1)];
  if (body.kind === K.block || body.kind === K.script) statements(run, body.children, other.children);
  else same(run, body, other);
  run.settle('the function ends');
}

module.exports = { wholeFunction, STATEMENTS };
