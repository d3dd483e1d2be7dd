// What each kind's own handler does in the counted steps, as crates/def_pass/specs/Walk.antt has it. `walks` is the state with its walks, `left` how
// many walks may still be opened in one another, `depth` how deep the node stands.
'use strict';

const { DECLARATION, K, boundNames, identityOf, isPattern } = require('../src/kinds');
const { isMarked } = require('./scopes');
const { hasThis, identifierOf, isCheap, isIdentifier, isMember, withChildren } = require('./tree');

const NONE = { value: null, isSeen: false };
const recorded = (value) => ({ value, isSeen: false });
const seen = (value) => ({ value, isSeen: !isCheap(value) });

function declaration(walks, left, depth, node) {
  walks.declares = DECLARATION[node.form];
  return walks.plain(left, depth, node);
}

// In Analysis, after the value's walk; whether the name's walk is left out.
function analysedDeclarator(walks, name, value) {
  const { declares, scopes } = walks;
  if (declares === 'const') {
    if (!value || !walks.isFirstRun) return false;
    const isKept = isCheap(value) && !(isIdentifier(value) && walks.targets.has(identityOf(value)));
    scopes.current.constants.set(identityOf(name), isKept ? value : null);
    walks.checkRecords();
    return false;
  }
  walks.declare(name, value ? seen(value) : NONE, !value, declares);
  if (!value) return false;
  const isPrevented = isCheap(value) ? scopes.isPrevented(value) : hasThis(value);
  if (isPrevented) scopes.prevent(identityOf(name));
  return isPrevented && !isCheap(value);
}

// In Inlining, of `let` and `var`: the value behind a name, walked again and taken out where its reads have it.
function inlinedDeclarator(walks, left, depth, name, [value]) {
  const { declares, scopes } = walks;
  const identity = identityOf(name);
  const found = scopes.find(identity);
  if (found && found.isPrevented) return value ? [value] : [];
  if (found && value && found.isThisSensitive && isMember(value)) return [value];
  if (!value) {
    walks.declare(name, NONE, false, declares);
    return [];
  }
  const walked = walks.full(left, depth, value);
  if (isIdentifier(walked)) walks.declare(name, recorded(walked), false, declares);
  if (scopes.isPrevented(walked)) {
    scopes.prevent(identity);
    return [walked];
  }
  const binding = scopes.find(identity);
  if (!isCheap(walked) && !(binding && !binding.isPrevented && binding.reads === 1)) return [walked];
  walks.declare(name, recorded(walked), false, declares);
  walks.nodes -= walked.size;
  return [];
}

function declarator(walks, left, depth, node) {
  const [name, ...values] = node.children;
  const walked = walks.each(left, depth + 1, values);
  walks.pattern = 'declaring';
  const withName = () => withChildren(node, [walks.full(left, depth + 1, name), ...walked]);
  if (name.kind !== K.binding) return withName();
  if (!walks.isInlining) return analysedDeclarator(walks, name, walked[0]) ? withChildren(node, [name, ...walked]) : withName();
  return walks.declares === 'const' ? withName() : withChildren(node, [name, ...inlinedDeclarator(walks, left, depth + 1, name, walked)]);
}

function parametersAndBody(walks, left, depth, nodes) {
  return walks.inScope('function', () => {
    walks.pattern = 'parameter';
    return walks.butLast(left, depth, nodes, (body) => walks.inner(left, depth, body));
  });
}

function functionDeclaration(walks, left, depth, node) {
  const [name, ...rest] = node.children;
  if (!walks.isInlining) walks.declare(name, NONE, true, 'var');
  return withChildren(node, [name, ...parametersAndBody(walks, left, depth + 1, rest)]);
}

function functionExpression(walks, left, depth, node) {
  const own = node.form === 1 ? [node.children[0]] : [];
  own.forEach((name) => walks.write(true, name));
  return withChildren(node, [...own, ...parametersAndBody(walks, left, depth + 1, node.children.slice(own.length))]);
}

const arrow = (walks, left, depth, node) => walks.inScope('function', () => walks.plain(left, depth, node));
const block = (walks, left, depth, node) => walks.inScope('block', () => walks.statements(left, depth, node));
const script = (walks, left, depth, node) => walks.statements(left, depth, node);

function ifStatement(walks, left, depth, node) {
  const [test, ...branches] = node.children;
  const { isInTest } = walks;
  walks.isInTest = true;
  const tested = walks.full(left, depth + 1, test);
  walks.isInTest = isInTest;
  return withChildren(node, [tested, ...branches.map((branch) => walks.branch(left, depth + 1, branch, 'condition'))]);
}

const looped = (walks, left, depth, nodes) => walks.butLast(left, depth, nodes, (body) => walks.branch(left, depth, body, 'loop'));

function loop(walks, left, depth, node) {
  walks.writeAll(true, node.children.slice(0, -1));
  const walked = withChildren(node, looped(walks, left, depth + 1, node.children));
  if (node.kind === K.for && node.form === 0 && !walks.isInlining) walks.scopes.storeBarrier();
  return walked;
}

function loopOver(walks, left, depth, node) {
  walks.pattern = 'parameter';
  const head = walks.full(left, depth + 1, node.children[0]);
  const rest = node.children.slice(1);
  walks.writeAll(true, [head]);
  walks.writeAll(true, rest.slice(0, -1));
  return withChildren(node, [head, ...looped(walks, left, depth + 1, rest)]);
}

function tryStatement(walks, left, depth, node) {
  const [tried, ...rest] = node.children;
  walks.writeAll(true, [tried]);
  return withChildren(node, [tried, ...rest.map((part) => (part.kind === K.catch ? walks.full(left, depth + 1, part) : part))]);
}

function caught(walks, left, depth, node) {
  const walked = walks.full(left, depth, node);
  if (!walks.isInlining) boundNames(walked).forEach((name) => walks.scopes.prevent(identityOf(name)));
  return walked;
}

function catchClause(walks, left, depth, node) {
  return walks.inScope('block', () => {
    walks.pattern = 'catch';
    const { children } = node;
    return withChildren(node, children.map((part, index) => (index < children.length - 1 ? caught(walks, left, depth + 1, part) : walks.full(left, depth + 1, part))));
  });
}

function switchCase(walks, left, depth, node) {
  return walks.inScope('block', () => {
    const tests = node.children.slice(0, node.form).map((test) => walks.full(left, depth + 1, test));
    return withChildren(node, [...tests, ...walks.listed(left, depth + 1, node.children.slice(node.form))]);
  });
}

function binding(walks, left, depth, node) {
  const { pattern } = walks;
  if (pattern === 'parameter') walks.declare(node, recorded(identifierOf(node)), false, 'parameter');
  if (pattern === 'catch') walks.declare(node, recorded(identifierOf(node)), false, 'var');
  if (pattern === 'assigning' && !walks.scopes.here(identityOf(node))) walks.write(false, node);
  return node;
}

const DELETE = 6;

function unary(walks, left, depth, node) {
  if (node.form !== DELETE) return walks.plain(left, depth, node);
  walks.writeAll(true, node.children);
  return node;
}

function update(walks, left, depth, node) {
  walks.writeAll(true, node.children);
  return node;
}

// Before the value's walk.
function beforeAssign(walks, { form, children: [target, value] }) {
  if (form !== 0) {
    walks.writeAll(true, [target, value]);
    return;
  }
  walks.writeAll(false, [target, value]);
  if (isMember(target)) walks.writeAll(true, [target, value]);
}

// And after it.
function afterAssign(walks, [target, value]) {
  const { scopes } = walks;
  if (scopes.isPrevented(value)) boundNames(target).forEach((name) => scopes.prevent(identityOf(name)));
  else if (target.kind === K.binding) {
    walks.write(false, target);
    const found = scopes.find(identityOf(target));
    if (!found || isMarked(found)) return;
    found.value = isCheap(value) ? value : null;
    walks.checkRecords();
  }
}

function assign(walks, left, depth, node) {
  walks.pattern = 'assigning';
  beforeAssign(walks, node);
  const [target, value] = node.children;
  const isTargetWalked = node.form === 0 && isPattern(target);
  const walked = [isTargetWalked ? walks.full(left, depth + 1, target) : target, walks.full(left, depth + 1, value)];
  afterAssign(walks, walked);
  return withChildren(node, walked);
}

function call(walks, left, depth, node) {
  const { scopes } = walks;
  const [callee, ...list] = node.children;
  const called = walks.full(left, depth + 1, callee);
  if (!walks.isInlining && isIdentifier(called) && scopes.find(identityOf(called))) scopes.find(identityOf(called)).isThisSensitive = true;
  if (node.kind === K.call) walks.writeAll(false, list);
  const walked = walks.each(left, depth + 1, list);
  if (!walks.isInlining) scopes.storeBarrier();
  return withChildren(node, [called, ...walked]);
}

// By kind; the other kinds have the default walk.
const HANDLERS = {
  [K.script]: script, [K.block]: block, [K.declaration]: declaration, [K.declarator]: declarator, [K.function]: functionDeclaration, [K.if]: ifStatement,
  [K.while]: loop, [K.do]: loop, [K.for]: loop, [K.forIn]: loopOver, [K.forOf]: loopOver, [K.try]: tryStatement, [K.catch]: catchClause, [K.case]: switchCase,
  [K.binding]: binding, [K.unary]: unary, [K.update]: update, [K.assign]: assign, [K.call]: call, [K.new]: call,
  [K.functionExpression]: functionExpression, [K.arrow]: arrow,
};

module.exports = { HANDLERS };
