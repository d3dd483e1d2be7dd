// The made-up host. This text is run in a realm of its own as the body of a function of `config` and `script`, the script's global object.
// That realm's built-ins are frozen, so that no script can change what the host works with; a script meets no object from outside of the two.
// What the host gives depends only on the seed and on a value's path, so that script and result meet the same host.
'use strict';

/* global config, script */
const { seed, shapes, globals, before, numbers, samples, steps: limit, moving, steady, throwing, eager, logging } = config;
const LONGEST_TRACE = 2000;
const LARGEST_VALUE = 20000;
const MOST_FUNCTIONS = 200;
const ANY = { type: 'plain', literals: [], members: {}, items: null };
const stop = { stop: true };
const trace = [];
const values = [];
const callbacks = [];
const GLOBAL_OBJECTS = ['window', 'self', 'frames', 'global'];
const STANDARD_PROTOTYPES = [script.Object.prototype, script.Array.prototype, Object.prototype, Array.prototype];
const paths = new WeakMap();
const parameters = new WeakMap();
const counts = new Map();
const ran = new Set();
let place = 0;
let steps = 0;
let epoch = 0;
let stopped = false;
let own = [];

function hash(...parts) {
  let h = 2166136261 ^ seed;
  for (const char of parts.join('/')) h = Math.imul(h ^ char.codePointAt(0), 16777619);
  h = Math.imul(h ^ (h >>> 15), 2246822507);
  h = Math.imul(h ^ (h >>> 13), 3266489909);
  return (h ^ (h >>> 16)) >>> 0;
}

const pick = (list, ...parts) => list[hash(...parts) % list.length];

function halt() {
  stopped = true;
  throw stop;
}

function record(kind, text) {
  if (trace.length >= LONGEST_TRACE) halt();
  trace.push({ kind, text, place });
}

// What a script's own object answers may be anything, an error too.
function tried(act, otherwise) {
  try {
    return act();
  } catch (error) {
    if (error === stop) throw error;
    return otherwise;
  }
}

const sortOf = (value) => tried(() => Object.prototype.toString.call(value), '');
const dateOf = (value) => tried(() => Date.prototype.getTime.call(value), null);

function shownError(error) {
  const name = tried(() => String(error.name), 'Error');
  return name === 'Error' ? `Error ${tried(() => JSON.stringify(error.message), '')}` : name;
}

// A whole value as text: objects by what they hold, one that holds itself by how far up it stands.
function shown(value, around = [], size = { left: LARGEST_VALUE }) {
  if (typeof value === 'function') return paths.get(value) || 'function';
  if (typeof value === 'string') return JSON.stringify(value);
  if (typeof value !== 'object' || value === null) return Object.is(value, -0) ? '-0' : String(value);
  if (paths.has(value)) return paths.get(value);
  if (value === script) return 'global';
  if (sortOf(value) === '[object Error]') return shownError(value);
  const date = dateOf(value);
  if (date !== null) return `Date ${date}`;
  if (around.includes(value)) return `(${around.length - around.indexOf(value)} up)`;
  size.left -= 1;
  if (size.left < 0) halt();
  return shownParts(value, [...around, value], size);
}

function shownParts(value, around, size) {
  const keys = tried(() => Object.keys(value), []);
  const isList = Array.isArray(value);
  const parts = keys.map((key) => {
    const text = tried(() => shown(value[key], around, size), 'fails');
    return isList ? text : `${key}: ${text}`;
  });
  const prototype = tried(() => Object.getPrototypeOf(value), null);
  if (!STANDARD_PROTOTYPES.includes(prototype)) parts.push(`from ${tried(() => shown(prototype, around, size), 'something')}`);
  return isList ? `[${parts.join(', ')}]` : `{${parts.join(', ')}}`;
}

// A host's object with what it holds, for a person to read.
function inFull(value, depth = 0) {
  if (typeof value !== 'object' || value === null || !paths.has(value) || depth > 2) return shown(value);
  return `{${Object.keys(value).map((key) => `${key}: ${inFull(value[key], depth + 1)}`).join(', ')}}`;
}

function numberFor(shape, path, version) {
  const roll = hash('sort', path, version) % 100;
  const near = [...shape.literals, ...numbers].filter((value) => typeof value === 'number');
  if (roll < 45 && near.length) return pick(near, 'near', path, version) + pick([-1, 0, 0, 1], 'off', path, version);
  if (roll < 97) return hash('free', path, version) % pick([3, 60, 400, 1500], 'range', path, version);
  return pick([undefined, NaN, -1, 0.5], 'odd', path, version);
}

function textFor(shape, path, version) {
  const known = shape.literals.filter((value) => typeof value === 'string');
  return pick([...known, ...known, 'other', ''], 'text', path, version);
}

function plainFor(shape, path, version) {
  if (shape.type === 'boolean') return hash('flag', path, version) % 2 === 0;
  const textual = shape.type === 'text' || (shape.type === 'plain' && shape.literals.some((value) => typeof value === 'string'));
  return textual ? textFor(shape, path, version) : numberFor(shape, path, version);
}

const isPlain = (shape) => ['plain', 'number', 'text', 'boolean'].includes(shape.type);

// How often the host has changed a value of its own so far.
function version(path) {
  let changes = 0;
  for (let e = 1; e <= epoch; e++) changes += hash('moves', path, e) % 2;
  return changes;
}

// A place of the host that holds a value; it may change while the host is called.
function slot(shape, path, owner = () => undefined) {
  let held = null;
  let moves = isPlain(shape);
  const now = () => (moves ? version(path) : 0);
  return {
    get() {
      if (!held || held.version !== now()) held = { version: now(), value: make(shape, path, now(), owner) };
      return held.value;
    },
    set(value) {
      record('set', `${path} = ${shown(value)}`);
      keep(value);
      // What the script has set not every host changes.
      moves &&= hash('sets', path) % 2 === 0;
      held = { version: now(), value };
    },
  };
}

function hostObject(shape, path) {
  const slots = new Map();
  const target = {};
  for (const [name, index] of Object.entries(shape.members)) {
    slots.set(name, slot(shapes[index], `${path}.${name}`, () => proxy));
    Object.defineProperty(target, name, { enumerable: true, configurable: true, ...slots.get(name) });
  }
  const proxy = new Proxy(target, {
    get(_, key) {
      if (slots.has(key) || typeof key === 'symbol' || key in target || shape.items === null) return Reflect.get(target, key);
      return slotFor(key).get();
    },
    set(_, key, value) {
      slotFor(key).set(value);
      return true;
    },
  });
  function slotFor(key) {
    if (!slots.has(key)) slots.set(key, slot(shapes[shape.items] || ANY, `${path}[${shown(key)}]`));
    const made = slots.get(key);
    Object.defineProperty(target, key, { enumerable: true, configurable: true, ...made });
    return made;
  }
  paths.set(proxy, path);
  return proxy;
}

// A method called on something else than its owner says so.
function onWhat(receiver, owner) {
  return receiver === owner ? '' : ` on ${shown(receiver)}`;
}

function hostFunction(shape, path, owner) {
  const made = function (...list) {
    const count = (counts.get(path) || 0) + 1;
    counts.set(path, count);
    record('call', `${path}(${list.map((value) => shown(value)).join(', ')})${new.target ? '' : onWhat(this, owner())}`);
    list.forEach(keep);
    if (moving) epoch += 1;
    if (throwing && hash('throws', path, count) % 4 === 0) throw new Error('host');
    if (eager) list.filter((value) => typeof value === 'function' && !paths.has(value)).forEach((value) => enter(value, `${path}'s callback`, count));
    return shape.returns === null ? undefined : make(shapes[shape.returns], `${path}()`, count);
  };
  for (const [name, index] of Object.entries(shape.members)) {
    Object.defineProperty(made, name, { configurable: true, ...slot(shapes[index], `${path}.${name}`, () => made) });
  }
  paths.set(made, path);
  return made;
}

// Values that were given for a place of the host, in the realm's own objects.
function sampleFor(path, change) {
  const name = path.replace(/#\d+/g, '');
  if (!Object.hasOwn(samples, name)) return null;
  return { value: JSON.parse(JSON.stringify(pick(samples[name], 'sample', path, change))) };
}

function make(shape, path, change, owner = () => undefined) {
  const sample = sampleFor(path, change);
  if (sample) return sample.value;
  if (shape.optional && hash('left out', path, change) % 3 === 0) return undefined;
  const named = change ? `${path}#${change}` : path;
  if (shape.type === 'function') return hostFunction(shape, named, owner);
  if (shape.type === 'object') return hostObject(shape, named);
  if (shape.type !== 'array') return plainFor(shape, path, change);
  const length = hash('length', named) % 5;
  const item = shapes[shape.items] || { type: 'number', literals: [] };
  return Array.from({ length }, (_, index) => make(item, `${named}[${index}]`, 0));
}

// The functions in a value of the script: itself, or inside objects and lists, with the path to each.
function functionsIn(value, path, found = [], seen = new Set()) {
  const own = (typeof value === 'object' && value !== null) || typeof value === 'function';
  if (!own || paths.has(value) || value === script || seen.has(value) || seen.size > MOST_FUNCTIONS) return found;
  seen.add(value);
  if (typeof value === 'function') found.push([path, value]);
  for (const key of tried(() => Object.keys(value), [])) functionsIn(tried(() => value[key], null), `${path}.${key}`, found, seen);
  return found;
}

// Functions that the script hands over, in objects and lists too, are called back.
function keep(value) {
  for (const [, called] of functionsIn(value, '')) if (!callbacks.includes(called) && callbacks.length < MOST_FUNCTIONS) callbacks.push(called);
}

function enter(called, name, turn) {
  const list = (parameters.get(called) || []).map(([param, index]) => make(shapes[index] || ANY, `${param}`, steady ? 0 : turn));
  record('enter', `the host calls ${name}(${list.map((value) => inFull(value)).join(', ')})`);
  const answer = called(...list);
  keep(answer);
  record('return', `${name} returns ${shown(answer)}`);
  return answer;
}

function throws(error) {
  if (error === stop) return;
  // How much memory is left is no matter of the script's meaning.
  const isRoom = tried(() => error.name === 'RangeError' && /call stack|allocation failed/.test(error.message), false);
  if (isRoom || trace.length >= LONGEST_TRACE) stopped = true;
  else record('throw', `throws ${tried(() => shown(error), 'something')}`);
}

// All that the host may call: the script's functions, those in its tables, and those that were handed over.
function callable() {
  const named = own.filter(([name]) => config.entries.includes(name)).flatMap(([name, read]) => functionsIn(readOr(read), name));
  const known = new Set(named.map(([, value]) => value));
  return [...named, ...callbacks.map((value, index) => [`callback ${index + 1}`, value]).filter(([, value]) => !known.has(value))];
}

// One call of the host.
function turn(number) {
  if (stopped) return;
  const choices = callable();
  if (!choices.length) return;
  const [name, called] = pick(choices, 'turn', steady ? 0 : number);
  // Between its calls the host's time goes on.
  if (moving) epoch += 1;
  try {
    enter(called, name, 100 + number);
  } catch (error) {
    throws(error);
  }
}

function readOr(read) {
  try {
    return read();
  } catch {
    return 'not there';
  }
}

// The clock and the dice are the host's own, and stand still unless it is called. The text of a function shows every change inside it; that
// is no difference to speak of.
function standStill() {
  const now = () => 1700000000000 + 60000 * (hash('clock', epoch) % 1440);
  const RealDate = script.Date;
  script.Date = class extends RealDate {
    constructor(...list) { super(...(list.length ? list : [now()])); }
    static now() { return now(); }
  };
  let rolls = 0;
  script.Math.random = () => hash('dice', ++rolls) / 4294967296;
  script.Function.prototype.toString = () => 'function';
}

function provide() {
  for (const { name, index } of before) Reflect.set(script, name, make(shapes[index] || ANY, `${name} before`, 0));
  for (const { name, index } of globals) {
    if (GLOBAL_OBJECTS.includes(name)) Object.defineProperty(script, name, { configurable: true, writable: true, value: script });
    else Object.defineProperty(script, name, { configurable: true, enumerable: true, ...slot(shapes[index], name) });
  }
}

// A list of pairs from the script's realm, by what no script can change.
function pairsOf(list) {
  const pairs = [];
  for (let index = 0; index < list.length; index++) pairs.push([list[index][0], list[index][1]]);
  return pairs;
}

standStill();
provide();
const hooks = {
  at(number) {
    if (number) {
      place = number;
      ran.add(number);
    }
    steps += 1;
    if (stopped || steps > limit) halt();
  },
  value(number, value) {
    ran.add(number);
    if (logging && values.length < 20000) values.push({ place: number, text: shown(value), at: trace.length });
    return value;
  },
  fn(params, made) {
    parameters.set(made, pairsOf(params));
    return made;
  },
  reach(list) { own = pairsOf(list); },
};
const finals = () => own.map(([name, read]) => [name, tried(() => shown(readOr(read)), 'too large')]);

// Frozen, so that a script that finds the hooks cannot take them away.
Object.defineProperty(script, '$negbosun', { value: Object.freeze(hooks) });
return {
  turn,
  throws,
  outcome: () => JSON.stringify({ trace, values, stopped, steps, ran: [...ran], finals: finals() }),
};
