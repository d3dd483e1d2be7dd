// Small scripts with objects of their own in operators, methods that they set, names that they ask for, and functions in blocks: ways by which an object
// comes to an operator, and what changes it behind that; and scripts as dense_scripts.js makes them, with all this in them.
'use strict';

const { DenseScript } = require('./dense_scripts');
const { Random } = require('./random');

class OwnScript extends DenseScript {
  plain() { return this.random.pick(['0', '1', '5', '"x"']); }

  // What is an object, mostly.
  made() {
    return this.random.weighed([
      [3, () => `[${this.name()}]`], [2, () => `({ p: ${this.name()} })`], [2, () => `({ valueOf: () => ${this.name()} })`], [1, () => '({ toString: () => g(4) })'],
      [1, () => `({ valueOf: function () { ${this.target()} = ${this.plain()}; return 3; } })`], [1, () => '[[1]]'], [1, () => 'JSON.parse("[[1]]")'], [0.5, () => '"a:b".split(":")'],
      [1, () => `function () { return ${this.name()}; }`], [1, () => `() => ${this.name()}`], [0.5, () => 'new Object()'], [0.5, () => 'arguments'], [0.5, () => `[${this.name()}].concat(1)`],
    ])();
  }

  // An operator, or what asks for what an object holds.
  asked() {
    const a = this.name();
    return this.random.weighed([
      [4, () => `${a} + ${this.random.pick(['""', '1', this.name()])}`], [1, () => `-${a}`], [2, () => `${a} ${this.random.pick(['==', '<', '-', '!='])} ${this.random.pick(['1', '"x"', this.name()])}`],
      [1, () => `${a}.p`], [1, () => `${a}[0]`], [1, () => `${a}.name`], [0.5, () => `${a}["na" + "me"]`], [0.5, () => `o[${a}]`], [0.5, () => `${a}.length`], [0.5, () => `(${a}, ${this.name()}) + 1`],
    ])();
  }

  value() {
    this.deep = (this.deep || 0) + 1;
    const value = this.deep > 2 ? super.value() : this.random.weighed([
      [5, () => super.value()], [4, () => this.made()], [5, () => this.asked()], [2, () => 'o.p'], [1, () => `(o.q = ${this.value()})`], [0.5, () => `[1, ${this.name()}].map((x) => x + 1)`],
      [0.5, () => `[[1]].map(function (x) { return x + ${this.name()}; })`], [0.5, () => `((x) => x + 1)(${this.name()})`],
    ])();
    this.deep -= 1;
    return value;
  }

  // Few of these do what a host sees.
  simple(depth) {
    const a = this.name();
    return this.random.weighed([
      [5, () => super.simple(depth)], [2, () => `${a}.push(${this.plain()});`], [2, () => `${a}.p = ${this.plain()};`], [1, () => `${a}[0] = ${this.plain()};`],
      [1, () => `${a}.valueOf = () => ${this.plain()};`], [1, () => `if (${a}) { ${this.target()} = ${this.plain()}; }`], [2, () => `${this.target()} = ${this.plain()};`], [1, () => `o.q(${a});`],
      [0.5, () => `o.q = ${a};`], [1, () => `g(${this.asked()});`], [0.5, () => `o[${a}] = ${this.value()};`], [0.5, () => `o[${this.asked()}] = ${a};`], [0.5, () => `({ p: ${this.target()} } = ${a});`],
    ])();
  }

  // A block's own value is used behind what is no event, or is one for some hosts alone.
  blockOf(more) {
    const i = `i${this.count++}`;
    const between = () => this.random.pick([`function n${i}() { return ${this.name()}; }`, `${this.target()} = ${this.plain()};`, `var w${i} = ${this.plain()};`, more()]);
    return `{ ${this.random.pick(['let', 'let', 'const'])} ${i} = ${this.random.pick(['o.p', 'h', 'g(1)', this.value()])}; ${between()} ${this.random.chance(0.4) ? between() : ''} ${
      this.random.pick([`if (${i}) { ${more()} }`, `g(${i});`, `${this.target()} = ${i};`, `h = ${i};`])} }`;
  }

  statement(depth) {
    if (depth > 1) return this.simple(depth);
    const more = () => this.statement(depth + 1);
    return this.random.weighed([[6, () => super.statement(depth)], [2, () => this.blockOf(more)], [1, () => `try { ${more()} ${more()} } catch (e) { g(${this.random.pick(['1', 'e.name', this.name()])}); }`]])();
  }
}

const MADE = ['new (function () {})()', '[1]', '[1, 2]', '({ valueOf: () => v0 })', '({ toString: () => v0 })', '({ valueOf: function () { return g(v0); } })', 'function () {}', 'new Box(1)', '[[1]].pop()', '[1].slice()',
  'JSON.parse("[1]")', '"1".split(":")', 'Array.from([1])', '[1].map((x) => x)', 'arguments'];
// How the object x0 comes to w0.
const WAYS = [
  'var w0 = x0;', 'var w0 = k() ? x0 : 1;', 'var w0 = x0 || 1;', 'var w0 = (g(1), x0);', 'var w0; w0 = x0;', 'var w0 = null; w0 ??= x0;', 'var w0 = [x0][0];', 'var w0 = [x0].pop();', 'var w0 = ({ p: x0 }).p;',
  'var t0 = { p: x0 }; var w0 = t0.p;', 'var t0 = {}; t0.p = x0; var w0 = t0["p"];', 'var t0 = {}; t0[h] = x0; var w0 = t0[h];', 'var t0 = []; t0.push(x0); var w0 = t0[0];', 'var t0 = [x0]; var w0 = t0.at(0);',
  'function f0(y) { return y; } var w0 = f0(x0);', 'var w0 = ((y) => y)(x0);', 'const f0 = () => x0; var w0 = f0();', 'const t0 = { p: function (y) { return y; } }; var w0 = t0.p(x0);',
  'var w0 = [x0].map((y) => y)[0];', 'var w0 = [1].reduce((y) => y, x0);', 'var w0 = [1].map((y, i, l) => x0)[0];', 'function f0() { return this; } var w0 = f0.call(x0);', 'function f0(y) { return y; } var w0 = f0.apply(null, [x0]);',
  'function f0() { return arguments[0]; } var w0 = f0(x0);', 'function f0(y = x0) { return y; } var w0 = f0();', 'var w0 = new Box(x0).p;', 'let { p: w0 } = { p: x0 };', 'let [w0] = [x0];', 'let w0; ({ p: w0 } = { p: x0 });', 'let w0; [w0 = 1] = [x0];',
  'let { q: w0 = x0 } = {};', 'var w0; try { throw x0; } catch (e) { w0 = e; }', 'var w0; for (const y of [x0]) { w0 = y; }', 'for (var w0 of [x0]) { }', 'var w0 = Object.assign({}, { p: x0 }).p;', 'var w0 = Object.values({ p: x0 })[0];',
  'z0 = x0; var w0 = z0;', 'globalThis.z0 = x0; var w0 = z0;', 'var w0 = JSON.parse("[[1]]")[0]; x0 = w0;', 'const f0 = function (y) { return y; }.bind(null, x0); var w0 = f0();', 'var f0 = [(y) => y]; var w0 = f0[0](x0);', 'function f0(y) { u0 = y; } f0(x0); var w0 = u0;',
  'var w0 = [1].filter(function () { return true; }, x0); w0 = x0;', 'const t0 = { p() { return x0; } }.p; var w0 = t0();', 'const t0 = { q: { p: x0 } }; const { q: { p: w0 } } = t0;', 'var w0 = Reflect.get({ p: x0 }, "p");', 'var w0 = x0.valueOf();', 'var w0; Object.entries({ p: x0 }).forEach(([y, z]) => { w0 = z; });', 'var t0 = new Map(); t0.set(1, x0); var w0 = t0.get(1);',
  'var t0 = Object.create({ p: x0 }); var w0 = t0.p;', 'var t0 = {}; Object.defineProperty(t0, "p", { get: function () { return x0; } }); var w0 = t0.p;', 'var w0 = [[x0]].flat()[0];', 'var w0 = [x0].find((y) => y);', 'var w0 = [0].concat([x0])[1];',
  'var w0 = Array.from([1], () => x0)[0];', 'var t0 = JSON.parse("{}"); t0.p = x0; var w0 = t0.p;', 'var make = Object.values; var w0 = make({ p: x0 })[0];', 'var t0 = { p: x0 }; for (var y in t0) { var w0 = t0[y]; }', 'const t0 = { p: null }; t0.p ||= x0; var w0 = t0.p;',
  'var t0 = [1]; t0[0] = x0; var [w0] = t0;', 'switch (1) { case 1: var w0 = x0; }', 'var t0 = { p: function () { return this.q; }, q: x0 }; var w0 = t0.p();', 'var w0 = (function () { return this; }).bind(x0)();', 'var w0 = [x0].sort()[0];',
];
// How it comes to a function that is called with it.
const INSIDE = [
  '[x0].forEach(function (w0) { STEPS });', '[1].reduce(function (w0) { STEPS }, x0);', '[1].map(function (y, i, w0) { x0 = w0; STEPS });', 'function f0(w0) { STEPS } f0(x0);', 'function f0(w0) { STEPS } [x0].map(f0);',
  '(function (w0) { STEPS })(x0);', 'function f0(w0) { STEPS } f0.call(1, x0);', 'function f0() { var w0 = arguments[0]; STEPS } f0.apply(1, [x0]);', 'function f0() { var w0 = this; STEPS } f0.call(x0);',
  'const t0 = { p: function (w0) { STEPS } }; t0.p(x0);', 'const t0 = { p: function ({ q: w0 }) { STEPS } }; t0.p({ q: x0 });', 'const f0 = function (w0) { STEPS }.bind(1, x0); f0();', 'Array.from([x0], function (w0) { STEPS });', 'new Map([[1, x0]]).forEach(function (w0) { STEPS });',
  'const f0 = (w0) => { STEPS }; const f1 = k() ? f0 : f0; f1(x0);', 'function f0(y, w0 = x0) { STEPS } f0();', 'Object.values({ p: x0 }).forEach(function (w0) { STEPS });', 'function F0(w0) { STEPS } new F0(x0);', 'try { throw x0; } catch (w0) { STEPS }', 'for (const w0 of [x0]) { STEPS }',
];
const OPERATED = ['w0 + ""', 'w0 + 1', '1 + w0', '-w0', 'w0 == 1', 'w0 < 5', 'w0 - 1', '(w0, w0) + ""', '(k() ? w0 : 1) + 1', '[w0][0] + ""', 'typeof (w0 + 1)', '`${w0}`', 'w0 * 2', '!(w0 == 1)', '(w0 || 1) + 1', 'w0.name', 'w0["na" + "me"]', 'w0.constructor.name', 'w0.prototype + ""', 'o[w0]'];
const CHANGED = ['x0.push(2);', 'x0[0] = 5;', 'x0.valueOf = () => 7;', 'x0.toString = () => "t";', 'v0 = 8;', 'w0.push(2);', 'w0[0] = 5;', 'w0.valueOf = () => 7;', 'u0 = x0; u0.push(2);', 'x0.length = 0;', 'x0.p = 4; v0++;', 'o.q = x0; x0.push(3);'];
const USED = ['g(b0);', 'if (b0) { v0 = 9; }', 'return b0;', 'h = b0;', 'o.q(b0);', 'g(b0 + 1);'];

// An object is made, comes to a name by some way, meets an operator, is changed, and the operator's value is used.
function wayScript(random) {
  const kind = random.pick(['var', 'let']);
  const way = random.chance(0.2) ? random.pick(INSIDE) : `${random.pick(WAYS)} STEPS`;
  const some = () => (random.chance(0.2) ? 'g(3);' : '');
  const steps = `${some()} ${kind} b0 = ${random.pick(OPERATED)}; ${some()} ${random.pick(CHANGED)} ${random.chance(0.3) ? random.pick(CHANGED) : ''} ${random.pick(USED)}`;
  return `function Box(y) { this.p = y; }\nfunction m0() { var v0 = 1, u0; var x0 = ${random.pick(MADE)};\n${way.replace('STEPS', () => steps)}\n}\nm0(1);\n`;
}

function ownScript(seed) {
  const random = new Random(seed);
  return random.chance(0.4) ? wayScript(random) : new OwnScript(seed).text();
}

module.exports = { ownScript, wayScript };
