// Runs pairs of scripts and says whether an observer can tell them apart.
//
// Each line of standard input is a JSON list of two sources; each line of standard output is a
// JSON list of two traces, or null where one of them cannot be judged. An observer sees the calls
// of g and of the method o.q, with their arguments, the properties read from k, and how the
// script ends.
'use strict';
const vm = require('vm');
const readline = require('readline');

const hosts = new Set(Object.getOwnPropertyNames(globalThis));
let trace;
let fuel;

// The text of a function shows every change inside it; that is no difference to speak of.
Function.prototype.toString = () => 'function';

function shown(value, depth = 0) {
  if (typeof value === 'function') return 'function';
  if (typeof value !== 'object' || value === null) return Object.is(value, -0) ? '-0' : String(JSON.stringify(value) ?? value);
  if (value === globalThis) return 'global';
  if (value === globalThis.o) return 'o';
  if (value instanceof Error) return value.name;
  if (depth > 2) return 'object';
  if (Array.isArray(value)) return `[${value.map((item) => shown(item, depth + 1))}]`;
  return `{${Object.keys(value).map((key) => `${key}: ${shown(value[key], depth + 1)}`)}}`;
}

function reset() {
  trace = [];
  fuel = 4;
  for (const name of Object.getOwnPropertyNames(globalThis)) {
    if (!hosts.has(name)) delete globalThis[name];
  }
  globalThis.h = 5;
  globalThis.o = {
    p: 1,
    get m() { return fuel-- > 0; },
    q() { trace.push(`q this ${shown(this)}`); return 3; },
  };
  globalThis.k = new Proxy({}, {
    get(target, key) { trace.push(`k[${String(key)}]`); return 1; },
  });
  globalThis.g = (...args) => {
    trace.push(`g(${args.map((value) => shown(value)).join(', ')})`);
    if (trace.length > 400) throw new RangeError('too long');
    globalThis.h += 1;
    globalThis.o.p += 1;
    return trace.length;
  };
}

// A function around the script keeps its own variables from the host. `this` is the host's.
function run(source) {
  reset();
  let main;
  try {
    main = new vm.Script(`(function () { ${source}\n})`).runInThisContext();
  } catch (error) {
    return ['invalid: ' + error.message];
  }
  globalThis.run$ = () => main.call(globalThis);
  try {
    new vm.Script('run$()').runInThisContext({ timeout: 100 });
    trace.push('ends');
  } catch (error) {
    if (error instanceof RangeError || (error && error.code === 'ERR_SCRIPT_EXECUTION_TIMEOUT')) return null;
    trace.push(`throws ${shown(error)}`);
  }
  return trace;
}

readline.createInterface({ input: process.stdin }).on('line', (line) => {
  const [before, after] = JSON.parse(line);
  const one = run(before);
  const two = run(after);
  process.stdout.write(JSON.stringify(one && two ? [one, two] : null) + '\n');
});
