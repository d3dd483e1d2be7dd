// A host for one run of a script in a context of its own, as the body of a function of `config`; it is compiled in that context, so that its objects are of the script's realm. It does all that the level
// allows, by a seed: what it does depends on nothing but that and on what it has seen.
'use strict';

/* global config */
// A script may declare a variable of that name.
const page = globalThis;
const { seed, level, tops, RandomNumbers } = config;
const FUNCTIONS = 'g k readLevel minutesNow openGate closeGate setFlow log on'.split(' ');
const OBJECTS = 'o tide clock mill outlet'.split(' ');
const PLAIN_VALUES = 'h a b'.split(' ');
const LISTS = ['list'];
const MOST_EVENTS = 150;
const MOST_STEPS = 3000;
const MOST_DEPTH = 3;
const CALLS = 10;
const random = new RandomNumbers(seed);
const isAny = level === 'anything';
const isPlain = level === 'plain';
const isRead = isAny || level === 'reads';
const isWild = random.chance(0.6);
const stop = { name: 'stop' };
const lines = [];
const names = new Map();
const handed = [];
const values = new Map();
const things = new Map();
let depth = 0;
let steps = 0;
let events = 0;
let aborted = false;
let ended = false;
let onlyReading = false;

function abort() {
  aborted = true;
  throw stop;
}

function step() {
  if (++steps > MOST_STEPS) abort();
}

// A value for a line; every function that the script lets out can be called from then on.
function show(value, deep = 0) {
  if (value === page) return 'global';
  if (typeof value === 'symbol') return 'symbol';
  if (value === null || (typeof value !== 'object' && typeof value !== 'function')) return Object.is(value, -0) ? '-0' : JSON.stringify(value) ?? String(value);
  if (value instanceof Error) return value.constructor.name;
  if (!names.has(value)) names.set(value, `#${names.size}`);
  const id = names.get(value);
  if (id.startsWith('host')) return id;
  if (typeof value === 'function') {
    if (!onlyReading && !handed.includes(value)) handed.push(value);
    return isPlain ? id : `${id} ${value.name}`;
  }
  if (deep > 3) return id;
  const parts = Object.keys(value).map((key) => `${key}:${show(value[key], deep + 1)}`);
  const prototype = Object.getPrototypeOf(value);
  if (prototype !== Object.prototype && prototype !== Array.prototype) parts.push(`from ${show(prototype, deep + 1)}`);
  return `${id}${Array.isArray(value) ? '' : 'o'}{${parts}}`;
}

function own(value, name) {
  names.set(value, `host ${name}`);
  return value;
}

const plainValue = () => random.pick([0, 1, 5, 5, 7, 300, 60, 'x', undefined, null, true, '']);

// At `plain` only where the script does not operate on it may it be an object; that is what a method answers.
function some(isMethods = false) {
  const roll = random.below(isPlain && !isMethods ? 8 : 13);
  if (roll < 8) return plainValue();
  if (roll === 8 && handed.length) return random.pick(handed);
  if (roll === 9) return { valueOf: own(() => { event('valueOf'); return 3; }, 'valueOf') };
  if (roll === 10) return [1, plainValue()];
  if (roll === 11) return page;
  if (roll === 12) return things.get(random.pick(OBJECTS));
  return plainValue();
}

function call(called, how) {
  depth += 1;
  lines.push(`${how} ${show(called)}`);
  try {
    lines.push(`= ${show(called(some(), some()))}`);
  } catch (error) {
    if (error === stop) throw error;
    lines.push(`! ${show(error)}`);
  } finally {
    depth -= 1;
  }
}

// The script's top as a host of the level may use it.
function touch() {
  const { name, isFunction, isConstant, get, set } = random.pick(tops);
  const what = isAny ? random.below(3) : 0;
  // What a host that only reads finds there, it does not call.
  onlyReading = !isAny;
  try {
    if (what === 0) lines.push(`${name} is ${show(get())}`);
    if (what === 1 && !isConstant) set(some());
    if (what === 2 && isFunction && typeof get() === 'function') call(get(), 'top');
  } catch (error) {
    if (error === stop) throw error;
    lines.push(`${name} ! ${show(error)}`);
  } finally {
    onlyReading = false;
  }
}

// What the host was given, it may change.
function change(list) {
  const objects = list.filter((value) => typeof value === 'object' && value !== null && value !== page && !String(names.get(value)).startsWith('host'));
  if (!objects.length) return;
  const value = random.pick(objects);
  if (Array.isArray(value)) value.push(plainValue());
  else value[random.pick(['p', 'q', 'a0', 'valueOf', 'x'])] = random.chance(0.5) ? plainValue() : own(() => { event('changed'); return 4; }, 'changed');
}

// Anything that the script does to the host; then the host does what it likes.
function event(text, list = []) {
  lines.push(text);
  if (++events > MOST_EVENTS) abort();
  if (random.chance(0.3)) values.set(random.pick(PLAIN_VALUES), some());
  if (!isWild || depth >= MOST_DEPTH) return;
  if (list.length && random.chance(0.2)) change(list);
  if (handed.length && random.chance(0.3)) call(random.pick(handed), 'back');
  if (tops.length && isRead && random.chance(0.25)) touch();
  if (random.chance(0.04)) throw new RangeError('host');
}

function callable(name) {
  return own(function (...list) {
    const self = this === undefined || this === page ? '' : ` on ${show(this)}`;
    event(`${name}(${list.map((value) => show(value))})${self}`, list);
    return name === 'k' ? random.chance(0.55) : some(name.includes('.'));
  }, name);
}

function hostObject(name) {
  const method = callable(`${name}.q`);
  const asked = (key) => `${name}[${typeof key === 'symbol' ? 'symbol' : key}]`;
  const target = function () {};
  return own(new Proxy(target, {
    get(_, key) {
      if (isPlain && (key === 'q' || key === 'on')) return method;
      event(`get ${asked(key)}`);
      return key === 'q' || key === 'on' ? method : some();
    },
    set(_, key, value) {
      event(`set ${asked(key)} ${show(value)}`, [value]);
      return true;
    },
    has(_, key) {
      event(`has ${asked(key)}`);
      return random.chance(0.5);
    },
    deleteProperty(_, key) {
      event(`delete ${asked(key)}`);
      return true;
    },
    ownKeys() {
      event(`keys of ${name}`);
      return ['prototype', 'p', 'q'];
    },
    getOwnPropertyDescriptor(_, key) { return key === 'prototype' ? Reflect.getOwnPropertyDescriptor(target, key) : { value: 1, enumerable: true, configurable: true }; },
    apply(_, self, list) {
      event(`call ${name}(${list.map((value) => show(value))})`, list);
      return some();
    },
    construct(_, list) {
      event(`new ${name}(${list.map((value) => show(value))})`, list);
      return {};
    },
  }), name);
}

// A name of the host's is read: a getter, for all that the script can tell.
function read(name) {
  if (isPlain && things.has(name)) return things.get(name);
  event(`read ${name}`);
  if (LISTS.includes(name)) return isPlain ? [plainValue(), plainValue()] : [some(), some()];
  if (things.has(name)) return things.get(name);
  if (!values.has(name)) values.set(name, some());
  return values.get(name);
}

function provide() {
  // The language's own functions are not called: the clock would go on.
  for (const name of Object.getOwnPropertyNames(page)) if (typeof page[name] === 'function') own(page[name], name);
  for (const name of FUNCTIONS) things.set(name, callable(name));
  for (const name of OBJECTS) things.set(name, hostObject(name));
  for (const name of [...FUNCTIONS, ...OBJECTS, ...PLAIN_VALUES, ...LISTS]) {
    // What the script's top declares is no accessor; and some names may be absent.
    if (tops.some((top) => top.name === name) || (!isPlain && random.chance(0.02))) continue;
    const set = (value) => {
      event(`write ${name} ${show(value)}`, [value]);
      if (things.has(name)) things.set(name, value);
      else values.set(name, value);
    };
    Object.defineProperty(page, name, { configurable: true, get: () => read(name), set });
  }
  for (const name of ['window', 'self']) Object.defineProperty(page, name, { value: page, writable: true, configurable: true });
  Object.defineProperty(page, '$step', { value: step });
  Function.prototype.toString = () => 'function';
  // A `var` of the script's top may be there already; `NaN` and its like are read-only.
  for (const { name, isVar } of tops) if (isVar && !things.has(name) && random.chance(0.3)) Reflect.set(page, name, isPlain ? plainValue() : some());
}

provide();
return {
  // How a run of the script has ended.
  end(error, isError) {
    lines.push(isError ? `throws ${error === stop ? 'too much' : show(error)}` : 'ends');
    ended = !isError;
  },
  isOver: () => aborted,
  // One call after the script's end; at `anything` also one that failed.
  turn() {
    if (aborted) return;
    const found = ended || isAny ? tops.filter(({ isFunction }) => isFunction).map(({ get }) => { try { return get(); } catch { return null; } }) : [];
    const choices = [...found.filter((value) => typeof value === 'function' && !String(names.get(value)).startsWith('host')), ...handed];
    if (choices.length) call(random.pick(choices), 'enter');
    if (isAny && tops.length) touch();
  },
  turns: CALLS,
  finals() {
    if (!isRead || aborted) return;
    onlyReading = true;
    for (const { name, get } of tops) {
      try {
        lines.push(`${name} ends as ${show(get())}`);
      } catch (error) {
        lines.push(`${name} ends in ${show(error)}`);
      }
    }
  },
  log: () => JSON.stringify({ lines, aborted }),
};
