// What a script expects of the values it is given: guessed from their use, so that a made-up host can play along.
'use strict';

const { K, BINARY, ASSIGN, UNARY, identityOf, isPattern, numberOfBits, partsOfFunction } = require('../src/kinds');

const words = (text) => new Set(text.split(/\s+/));
const ARRAY_METHODS = words(`push pop shift unshift map filter forEach reduce some every sort reverse splice join concat slice
  indexOf includes length`);
const TEXT_METHODS = words('charAt charCodeAt toUpperCase toLowerCase split trim substring substr padStart padEnd startsWith endsWith replace');
const NUMBER_METHODS = words('toFixed toPrecision toString');
const COMPARED = words('== != === !== < <= > >=');
const ARITHMETIC = words('- * / % ** < <= > >= << >> >>> & | ^');

class Shape {
  constructor() {
    this.members = new Map();
    this.literals = new Set();
    this.params = [];
    this.parent = null;
    this.returns = null;
    this.items = null;
    this.called = false;
    this.own = false;
    this.iterated = false;
    this.tested = false;
    this.numeric = false;
    this.optional = false;
  }

  root() {
    let shape = this;
    while (shape.parent) shape = shape.parent;
    return shape;
  }

  member(name) {
    const { members } = this.root();
    if (!members.has(name)) members.set(name, new Shape());
    return members.get(name).root();
  }

  // The shape of what it returns, of its items, of its nth parameter.
  part(field) {
    const shape = this.root();
    if (!shape[field]) shape[field] = new Shape();
    return shape[field].root();
  }

  param(index) {
    const { params } = this.root();
    if (!params[index]) params[index] = new Shape();
    return params[index].root();
  }

  mark(flag) {
    this.root()[flag] = true;
    return this.root();
  }
}

// Two values that flow into each other have one shape.
function unify(one, two) {
  const [a, b] = [one.root(), two.root()];
  if (a === b) return a;
  b.parent = a;
  for (const flag of ['called', 'own', 'iterated', 'tested', 'numeric', 'optional']) a[flag] ||= b[flag];
  b.literals.forEach((literal) => a.literals.add(literal));
  for (const [name, shape] of b.members) join(a.root().members.get(name), shape, (part) => a.root().members.set(name, part));
  for (const field of ['returns', 'items']) if (b[field]) join(a.root()[field], b[field], (part) => { a.root()[field] = part; });
  b.params.forEach((shape, index) => join(a.root().params[index], shape, (part) => { a.root().params[index] = part; }));
  return a.root();
}

// A part that is lacking is taken over as it is; a new one for each would never end where shapes hold themselves.
function join(part, other, take) {
  if (part) unify(part, other);
  else take(other);
}

// Walks a script once; `of` answers an expression's shape.
class Shapes {
  constructor(root) {
    this.byIdentity = new Map();
    this.done = new Map();
    this.functions = [];
    this.numbers = new Set();
    this.of(root);
  }

  named(identity) {
    if (!this.byIdentity.has(identity)) this.byIdentity.set(identity, new Shape());
    return this.byIdentity.get(identity).root();
  }

  of(node) {
    if (!this.done.has(node)) this.done.set(node, (RULES[node.kind] || passOver)(node, this));
    return this.done.get(node).root();
  }
}

function passOver(node, shapes) {
  node.children.forEach((child) => shapes.of(child));
  return new Shape();
}

const through = (node, shapes) => shapes.of(node.children[0]);

function literal(value) {
  return (node, shapes) => {
    const shape = new Shape();
    shape.literals.add(value(node));
    if (node.kind === K.number) shapes.numbers.add(value(node));
    return shape;
  };
}

function callable(node, shapes, params, shape) {
  shape.mark('own');
  params.forEach((param, index) => unify(shape.param(index), shapes.of(param)));
  const body = node.children.at(-1);
  shapes.functions.push(shape);
  const value = shapes.of(body);
  shapes.functions.pop();
  if (body.kind !== K.block) unify(shape.part('returns'), value);
  return shape.root();
}

function anyFunction(node, shapes) {
  const { name, params } = partsOfFunction(node);
  return callable(node, shapes, params, name ? shapes.of(name) : new Shape());
}

// What tells a name or pattern apart from others, whatever its defaults have become.
function targetKey(node) {
  if (node.kind === K.binding) return identityOf({ ...node, text: node.was ?? node.text });
  if (node.kind === K.default) return targetKey(node.children[0]);
  const inner = node.children.map(targetKey);
  if (node.kind === K.patternProperty) return `${JSON.stringify(node.text)} ${inner}`;
  return node.kind === K.objectPattern ? `{${inner}}` : `[${inner}]`;
}

function objectPattern(node, shapes) {
  const shape = shapes.named(targetKey(node));
  node.children.forEach((child) => unify(shape.member(child.text), shapes.of(child.children[0])));
  return shape.root();
}

function arrayPattern(node, shapes) {
  const shape = shapes.named(targetKey(node)).mark('iterated');
  node.children.forEach((child) => unify(shape.part('items'), shapes.of(child)));
  return shape.root();
}

// What has a default may be left out.
function withDefault(node, shapes) {
  const [target, value] = node.children.map((child) => shapes.of(child));
  compare(target, value);
  return target.mark('optional');
}

function call(node, shapes) {
  const [callee, ...list] = node.children.map((child) => shapes.of(child));
  callee.mark('called');
  list.forEach((shape, index) => unify(callee.param(index), shape));
  return callee.part('returns');
}

function compare(left, right) {
  const [a, b] = [left.root(), right.root()];
  const literals = new Set([...a.literals, ...b.literals]);
  literals.forEach((value) => { a.literals.add(value); b.literals.add(value); });
}

function binary(node, shapes) {
  const operator = BINARY[node.form];
  const [left, right] = node.children.map((child) => shapes.of(child));
  if (operator === '&&') return right;
  if (operator === '||' || operator === '??') return unify(left, right);
  if (COMPARED.has(operator)) compare(left, right);
  if (ARITHMETIC.has(operator)) [left, right].forEach((shape) => shape.mark('numeric'));
  return new Shape();
}

function assign(node, shapes) {
  const [target, value] = node.children.map((child) => shapes.of(child));
  if (ASSIGN[node.form] === '=') return unify(target, value);
  if (ASSIGN[node.form] !== '+=') target.mark('numeric');
  return target.root();
}

function unary(node, shapes) {
  const shape = shapes.of(node.children[0]);
  if (UNARY[node.form] === '!') shape.mark('tested');
  if (UNARY[node.form] === '-') shape.mark('numeric');
  return new Shape();
}

function tested(node, shapes) {
  shapes.of(node.children[0]).mark('tested');
  return passOver(node, shapes);
}

function conditional(node, shapes) {
  shapes.of(node.children[0]).mark('tested');
  return unify(shapes.of(node.children[1]), shapes.of(node.children[2]));
}

function returned(node, shapes) {
  const current = shapes.functions.at(-1);
  if (node.children[0] && current) unify(current.part('returns'), shapes.of(node.children[0]));
  return passOver(node, shapes);
}

function loopOf(node, shapes) {
  const [head, list, statement] = node.children;
  const variable = head.kind === K.declaration ? head.children[0].children[0] : head;
  const shape = shapes.of(list).mark('iterated');
  unify(shape.part('items'), shapes.of(variable));
  shapes.of(statement);
  return isPattern(head) ? shapes.of(head) : passOver(head, shapes);
}

function array(node, shapes) {
  const shape = new Shape();
  node.children.forEach((child) => unify(shape.part('items'), shapes.of(child)));
  return shape;
}

function object(node, shapes) {
  const shape = new Shape();
  node.children.forEach((child) => unify(shape.member(child.text), shapes.of(child.children[0])));
  return shape;
}

function switched(node, shapes) {
  const shape = shapes.of(node.children[0]);
  node.children.slice(1).filter((child) => child.form).forEach((child) => compare(shape, shapes.of(child.children[0])));
  return passOver(node, shapes);
}

const RULES = {
  [K.binding]: (node, shapes) => shapes.named(identityOf(node)),
  [K.identifier]: (node, shapes) => shapes.named(identityOf(node)),
  [K.number]: literal((node) => numberOfBits(node.bits)),
  [K.string]: literal((node) => node.text),
  [K.boolean]: literal((node) => node.form === 1),
  [K.declarator]: (node, shapes) => (node.children[1] ? unify(shapes.of(node.children[0]), shapes.of(node.children[1])) : through(node, shapes)),
  [K.function]: anyFunction,
  [K.functionExpression]: anyFunction,
  [K.arrow]: anyFunction,
  [K.objectPattern]: objectPattern,
  [K.arrayPattern]: arrayPattern,
  [K.default]: withDefault,
  [K.return]: returned,
  [K.if]: tested,
  [K.while]: tested,
  [K.do]: tested,
  [K.conditional]: conditional,
  [K.forOf]: loopOf,
  [K.switch]: switched,
  [K.parenthesis]: through,
  [K.sequence]: (node, shapes) => node.children.map((child) => shapes.of(child)).at(-1),
  [K.call]: call,
  [K.new]: call,
  [K.member]: (node, shapes) => shapes.of(node.children[0]).member(node.text),
  [K.computed]: (node, shapes) => { shapes.of(node.children[1]); return shapes.of(node.children[0]).part('items'); },
  [K.binary]: binary,
  [K.assign]: assign,
  [K.unary]: unary,
  [K.array]: array,
  [K.object]: object,
};

const all = (names, set) => names.length > 0 && names.every((name) => set.has(name));

// What a value of a shape is made as.
function typeOf(shape) {
  const names = [...shape.members.keys()];
  if (shape.called) return 'function';
  if (shape.iterated || (shape.items && all(['length', ...names], ARRAY_METHODS)) || all(names, ARRAY_METHODS)) return 'array';
  if (all(names, NUMBER_METHODS)) return 'number';
  if (all(names, TEXT_METHODS)) return 'text';
  if (names.length || shape.items) return 'object';
  if (shape.numeric) return 'number';
  if (shape.tested && ![...shape.literals].some((value) => typeof value !== 'boolean')) return 'boolean';
  return 'plain';
}

// Shapes as plain data with numbers for one another, for the host inside the sandbox.
function plainShapes(shapes) {
  const list = [];
  const numbers = new Map();
  const number = (given) => {
    const shape = given.root();
    if (numbers.has(shape)) return numbers.get(shape);
    const index = list.length;
    numbers.set(shape, index);
    const plain = { type: typeOf(shape), literals: [...shape.literals].filter((value) => typeof value !== 'boolean'), optional: shape.optional };
    list.push(plain);
    plain.members = Object.fromEntries([...shape.members].map(([name, part]) => [name, number(part)]));
    plain.returns = shape.returns ? number(shape.returns) : null;
    plain.items = shape.items ? number(shape.items) : null;
    return index;
  };
  const byIdentity = Object.fromEntries([...shapes.byIdentity].map(([identity, shape]) => [identity, number(shape)]));
  return { list, byIdentity, numbers: [...shapes.numbers] };
}

const shapesOf = (root) => plainShapes(new Shapes(root));

module.exports = { shapesOf, targetKey };
