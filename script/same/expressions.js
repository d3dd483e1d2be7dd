// The value of an expression on one side, with the events that its evaluation makes, in the order of ECMA-262, clause 13.
'use strict';

const { K, UNARY, BINARY, ASSIGN, NAMED, identityOf, isFunction, isPattern, preorder } = require('../src/kinds');
const { CONSTANTS, LITERALS } = require('./plain');
const { LOGICAL, answersPlain, isPure } = require('./values');

const MEMBERS = new Set([K.member, K.computed]);

// A name's value is compared with what stands in its place in the result. Where they differ, the check goes on with the script's.
function valueOf(run, node, isBase = false) {
  const source = run.at.owner ? null : run.check.sourceOf(node);
  if (!source || !NAMED.has(source.kind)) return VALUES[node.kind](run, node, isBase);
  const before = run.reading;
  if (run.check.isReplaced(source)) run.reading = source;
  const value = VALUES[node.kind](run, node, isBase);
  run.reading = before;
  if (run.at.side === 'p') run.reads.set(source, value);
  const script = run.reads.get(source);
  if (script === value) return value;
  run.check.otherValue(source);
  return script ?? value;
}

const all = (run, nodes) => nodes.map((node) => valueOf(run, node));
const literal = (run, { kind, form, text, bits }) => (kind === K.null ? run.values.null : run.values.make(true, 'literal', kind, form, kind === K.string ? text : String(bits)));

// A name of the host's may be absent, a getter, and another value each time (9.1.1.4); at `plain` one that is called, or asked for a property, stays what it is, if the script changes it nowhere.
function name(run, node, isBase) {
  const { values, variables } = run;
  if (run.at.side === 'r' && (run.reading || !run.check.sourceOf(node))) caught(run, node);
  if (node.bits !== 0n) return run.read(node);
  if (node.text === 'undefined') return values.undefined;
  if (CONSTANTS.has(node.text)) return values.make(true, 'constant', node.text);
  const owner = variables.ownerOf(run.fn);
  if (node.text === 'arguments' && owner.kind !== K.script && !variables.hostWritten.has('arguments')) return values.make(false, 'arguments', run.check.numberOf(owner));
  return isBase && isSteady(run, node.text) ? values.make(false, 'host', node.text) : run.emit(node, ['host', node.text], { isPlain: run.plain.of(node) });
}

const isSteady = (run, text) => Boolean(run.assumes.plain) && run.variables.keys.keeps(text);

// Where a nearer variable has a moved name, the printer calls that one otherwise, which may be a function's name.
function caught({ check, variables, reading, fn }, node) {
  const [place, v] = [reading || fn, variables.of(node)];
  const isNearer = (w) => w.name === node.text && w !== v && variables.isInside(place, w.scope) && (!v || variables.isInside(w.scope, v.scope));
  if (check.namesCount && [...variables.all()].some(isNearer)) check.find(place, { reason: `a nearer \`${node.text}\` would be called otherwise` });
}

// An event of operands' values that makes an object: it runs no code and cannot fail, and until it is handed on nobody else has it.
const object = (run, node, ...parts) => run.emit(node, parts, { isObject: true });
const textOf = (node) => [node.kind, node.form, node.text, String(node.bits), node.children.map(textOf)];

// In its own place a function is compared by itself; a moved one must be the script's to the letter.
function closure(run, node) {
  const source = run.at.owner ? null : run.check.sourceOf(node);
  if (source && isFunction(source)) return object(run, node, 'function', run.check.numberOf(source));
  if (run.at.side === 'r') checkMoved(run, node);
  return object(run, node, 'function', textOf(node));
}

// A moved function's free names mean what they meant, none of them was emptied, and its own name is the same (8.4.5 NamedEvaluation).
function checkMoved(run, node) {
  const { variables, check } = run;
  for (const inner of preorder(node)) {
    if (!NAMED.has(inner.kind)) continue;
    caught(run, inner);
    const v = variables.of(inner);
    if (!v || !(v.fn === run.fn || variables.isInside(run.fn, v.scope))) continue;
    if (!run.env.vals.has(v.id)) run.nowhere(inner);
    if (v.emptied) check.find(run.reading || run.fn, { reason: `the moved function uses \`${v.name}\`, whose declaration was emptied` });
  }
  const isWhole = run.reading && check.afters.get(run.reading) === node && !(node.kind === K.functionExpression && node.form);
  if (check.namesCount && isWhole) check.find(run.reading, { reason: 'the moved function would have another name' });
}

function operate(run, node, op, ...operands) {
  const { values } = run;
  if (op === 'void') return values.undefined;
  const isPlain = answersPlain(op, operands.map((operand) => values.isPlain(operand)));
  const parts = ['operator', op, ...operands];
  return isPure(op, operands, values) ? values.make(isPlain, ...parts) : run.emit(node, parts, { isPlain });
}

function unary(run, node) {
  const op = UNARY[node.form];
  const [child] = node.children;
  if (op === 'delete' && MEMBERS.has(child.kind)) return run.emit(node, [op, ...reference(run, child)], { isPlain: true });
  // These two fail on no name (13.5.1.2, 13.5.3.1).
  const isHosts = child.kind === K.identifier && child.bits === 0n && !CONSTANTS.has(child.text);
  if ((op === 'delete' || op === 'typeof') && isHosts) return run.emit(node, [`${op} name`, child.text], { isPlain: true });
  return operate(run, node, op, valueOf(run, child));
}

function binary(run, node) {
  const op = BINARY[node.form];
  const left = valueOf(run, node.children[0]);
  return LOGICAL.has(op) ? branching(run, node, left, op) : operate(run, node, op, left, valueOf(run, node.children[1]));
}

// A part that may not be evaluated (13.13, 13.14, 13.15.2, defaults): without events a number made of both ways, else one event that holds both ways' events.
function branching(run, node, test, op, then = (value) => value) {
  const { values, env } = run;
  const parts = op === '?' ? node.children.slice(1) : [node.children[1]];
  const [one, two = { value: test, events: [], env }] = parts.map((part, index) => run.partly(index, () => then(valueOf(run, part))));
  const results = [...env.vals].map(([id, before]) => [id, before, one.env.vals.get(id), two.env.vals.get(id)]).filter(([, before, ...after]) => after.some((value) => value !== before));
  const isPlain = values.isPlain(one.value) && values.isPlain(two.value);
  if (!one.events.length && !two.events.length) {
    for (const [id, , ...both] of results) env.vals.set(id, values.make(both.every((value) => values.isPlain(value)), 'chosen', op, test, ...both));
    return values.make(isPlain, 'chosen', op, test, one.value, two.value);
  }
  const own = results.filter(([id]) => !run.variables.byId.get(id).foreign);
  const event = run.emit(node, ['either', op, test, one.events, one.value, two.events, two.value, own.map(([id, , ...both]) => [id, ...both])], { isPlain });
  for (const [id] of own) env.vals.set(id, values.make(false, 'after either', event, id));
  return event;
}

// Object and key of a member, evaluated in this order (13.3.2, 13.3.3).
function reference(run, node) {
  const base = valueOf(run, node.children[0], true);
  return [node.kind, base, node.kind === K.computed ? valueOf(run, node.children[1]) : node.text];
}

// What is assigned to: evaluated before the value, then read or written (13.15.2, 13.4). A key that may be an object becomes a text before the value is computed in some editions, after it in others.
function placeOf(run, target) {
  if (!MEMBERS.has(target.kind)) {
    if (target.bits === 0n) run.emit(target, ['resolve', target.text]);
    return { get: () => valueOf(run, target), set: (value) => run.write(target, value) };
  }
  const place = reference(run, target);
  if (target.kind === K.computed && !run.values.isPlain(place[2])) run.emit(target, ['key', place[2]]);
  return { get: () => run.emit(target, ['get to set', ...place]), set: (value) => run.emit(target, ['set', ...place, value]) };
}

// The new value is a number or a big integer, so its step runs no code.
function update(run, node) {
  const { values } = run;
  const place = placeOf(run, node.children[0]);
  const old = place.get();
  const number = values.isPlain(old) ? values.make(true, 'operator', '+', old) : run.emit(node, ['numeric', old]);
  const now = values.make(values.isPlain(number), 'step', node.form & 1, number);
  place.set(now);
  return node.form < 2 ? now : number;
}

function assign(run, node) {
  const op = ASSIGN[node.form].slice(0, -1);
  const [target, right] = node.children;
  if (isPattern(target)) {
    const value = valueOf(run, right);
    takeApart(run, target, value, ASSIGNED);
    return value;
  }
  const place = placeOf(run, target);
  const set = (value) => {
    place.set(value);
    return value;
  };
  if (!op) return set(valueOf(run, right));
  const old = place.get();
  return LOGICAL.has(op) ? branching(run, node, old, op, set) : set(operate(run, node, op, old, valueOf(run, right)));
}

// A member is called on its object, which is `this` there (13.3.6.2 EvaluateCall).
function callee(run, target) {
  if (!MEMBERS.has(target.kind)) return ['none', valueOf(run, target, true)];
  const place = reference(run, target);
  const [base] = target.children;
  const isFixed = target.kind === K.member && base.kind === K.identifier && base.bits === 0n && isSteady(run, base.text) && isSteady(run, target.text);
  return [place[1], isFixed ? run.values.make(false, 'method', ...place) : run.emit(target, ['method', ...place])];
}

// What a pattern (8.6.2, 13.15.5) does with a name: assigns it, or gives a variable its first value.
const ASSIGNED = (run, target) => placeOf(run, target).set;
const BOUND = (run, target) => (value) => run.give(run.variables.of(target), value, target);

// null and undefined have no properties, then each is read in its turn; of a list its iterator is asked for, each item, and it is closed.
function takeApart(run, pattern, value, how) {
  if (pattern.kind === K.objectPattern) {
    run.emit(pattern, ['take apart', value], { runsCode: false });
    for (const property of pattern.children) bind(run, property.children[0], () => run.emit(property, ['get', K.member, value, property.text]), how);
    return;
  }
  const iterator = run.emit(pattern, ['iterate', value]);
  pattern.children.forEach((target, index) => bind(run, target, () => run.emit(target, ['next', iterator, index]), how));
  run.emit(pattern, ['close', iterator]);
}

// A name, a pattern or either with a default gets what `fetch` gives.
function bind(run, target, fetch, how) {
  const inner = target.kind === K.default ? target.children[0] : target;
  const set = isPattern(inner) ? (value) => takeApart(run, inner, value, how) : how(run, inner);
  const part = fetch();
  set(target.kind === K.default ? branching(run, target, part, 'default') : part);
}

const get = (run, node) => run.emit(node, ['get', ...reference(run, node)], { isPlain: run.plain.of(node) });

const VALUES = {
  [K.this]: (run) => run.values.make(false, 'this', run.check.numberOf(run.variables.ownerOf(run.fn))),
  [K.sequence]: (run, node) => all(run, node.children).at(-1),
  [K.array]: (run, node) => object(run, node, 'array', ...all(run, node.children)),
  [K.object]: (run, node) => object(run, node, 'object', ...node.children.map((child) => [child.text, valueOf(run, child.children[0])])),
  [K.unary]: unary,
  [K.update]: update,
  [K.binary]: binary,
  [K.conditional]: (run, node) => branching(run, node, valueOf(run, node.children[0]), '?'),
  [K.assign]: assign,
  [K.call]: (run, node) => run.emit(node, ['call', ...callee(run, node.children[0]), ...all(run, node.children.slice(1))], { isPlain: run.plain.of(node) }),
  [K.new]: (run, node) => run.emit(node, ['new', valueOf(run, node.children[0], true), ...all(run, node.children.slice(1))]),
};
const SHARED = [[LITERALS, literal], [NAMED, name], [MEMBERS, get], [[K.functionExpression, K.arrow], closure]];
for (const [kinds, value] of SHARED) for (const kind of kinds) VALUES[kind] = value;

module.exports = { valueOf, bind, takeApart, ASSIGNED, BOUND, VALUES, MEMBERS };
