// One trial: script or result, run in a sandbox of its own against a host that a seed makes up.
'use strict';

const fs = require('fs');
const path = require('path');
const vm = require('vm');

const STEPS = 20000;
const MOST_TURNS = 6;
const LONG_TURNS = 40;
// For a whole trial, and only for what takes long within few steps; loops and calls end by their steps. Each limit starts and ends a thread, so that one
// for each call would take longer than the calls.
const BACKSTOP = { timeout: 10000 };

// A context of its own with an ordinary global object, where node has it (20.18, 22.8): nothing stands between a script's names and that. Else an object without a prototype, so that
// no object, and so no function, leads outside. Nor does code come from text.
const GLOBAL_OBJECT = (vm.constants && vm.constants.DONT_CONTEXTIFY) || null;
const realm = () => vm.createContext(GLOBAL_OBJECT || Object.create(null), { codeGeneration: { strings: false, wasm: false } });

// Every built-in of a realm that can be reached from its global object.
const FREEZE = `(function freeze(value, seen) {
  if ((typeof value !== 'object' && typeof value !== 'function') || value === null || seen.has(value)) return;
  seen.add(value);
  if (value !== globalThis) Object.freeze(value);
  freeze(Object.getPrototypeOf(value), seen);
  for (const key of Reflect.ownKeys(value)) {
    const { value: held, get, set } = Object.getOwnPropertyDescriptor(value, key);
    [held, get, set].forEach((part) => freeze(part, seen));
  }
})([globalThis, [][Symbol.iterator](), function* () {}, async () => {}], new Set())`;

// The host's realm, one for all trials: what a trial changes is its own.
function hostRealm() {
  const context = realm();
  const start = vm.runInContext(`(function (config, script) {${fs.readFileSync(path.join(__dirname, 'host.js'), 'utf8')}})`, context);
  const read = vm.runInContext('JSON.parse', context);
  vm.runInContext(FREEZE, context);
  return (config, script) => start(read(JSON.stringify(config)), script);
}

let startHost = null;

// Calls from outside of a context have no time limit of their own; one inside of it does.
const inside = vm.createContext({ act: null });
const CALL = new vm.Script('act()');

function limited(act) {
  inside.act = act;
  return CALL.runInContext(inside, BACKSTOP);
}

// Names that ECMA-262 itself provides are not the host's.
const STANDARD = new Set(vm.runInNewContext('Object.getOwnPropertyNames(globalThis)'));
STANDARD.delete('console');

// What kind of host a trial's number stands for; of those after the usual ones, made for what has not run, every other one repeats itself.
function modes(number, plan) {
  const long = number >= plan.usual;
  const turns = long ? LONG_TURNS : number % (MOST_TURNS + 1);
  return { turns, steady: long && number % 2 === 0, moving: number % 2 === 1, throwing: number % 8 === 7, eager: number % 4 === 2, absent: number % 3 === 2 };
}

function hostConfig(plan, number, logging) {
  const { moving, steady, throwing, eager, absent } = modes(number, plan);
  const globals = plan.globals.filter(({ mayBeAbsent }) => !(absent && mayBeAbsent));
  const { list: shapes, numbers } = plan.shapes;
  const { entries, samples, vars } = plan;
  // What a `var` of the top may have before; in some trials only, since most cabinets give it nothing.
  const before = number % 12 === 5 ? vars : [];
  return { seed: plan.seed * 1000003 + number, shapes, numbers, globals, before, entries, samples, steps: STEPS, moving, steady, throwing, eager, logging };
}

// How a piece of code ends: well, or with an error of its own. What runs out of time ends the trial, and no code of it is asked.
function isWell(host, act) {
  try {
    act();
    return true;
  } catch (error) {
    host.throws(error);
    return false;
  }
}

// What an act gives, null where time runs out.
const unlessLate = (act) => {
  try {
    return act();
  } catch (error) {
    if (error && error.code === 'ERR_SCRIPT_EXECUTION_TIMEOUT') return null;
    throw error;
  }
};

// The script, and the host's calls of what it has of it; what the host saw.
function wholeTrial(script, plan, number, context, host) {
  const isRun = isWell(host, () => script.runInContext(context));
  isWell(host, () => plan.reach.runInContext(context));
  // No cabinet goes on with a script that has failed.
  const { turns } = modes(number, plan);
  for (let turn = 0; turn < turns && isRun; turn++) isWell(host, () => host.turn(turn));
  return host.outcome();
}

// What the host saw; null where time ran out.
function runTrial(script, plan, number, logging = false) {
  startHost ||= hostRealm();
  const context = realm();
  vm.runInContext('delete globalThis.console', context);
  const host = startHost(hostConfig(plan, number, logging), vm.runInContext('globalThis', context));
  const outcome = unlessLate(() => limited(() => wholeTrial(script, plan, number, context, host)));
  return outcome && JSON.parse(outcome);
}

module.exports = { runTrial, STANDARD, STEPS };
