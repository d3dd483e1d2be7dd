// Random scripts of four to ten ordinary gate statements, by a seed: what a miller might write, not what breaks the pass.
'use strict';

const { Random } = require('./random');

const NAMES = 'start end total level lead hold wait flow gap rest'.split(' ');
const FLAGS = 'open wraps ready late dry'.split(' ');
const HOST_NUMBERS = ['tide.high', 'tide.low', 'clock.minutes', 'mill.level', 'readLevel()', 'minutesNow()'];
const HOST_CALLS = ['openGate', 'closeGate', 'setFlow', 'log'];
const LITERALS = [0, 1, 5, 30, 60, 190, 300, 720, 1440];

class GateScript {
  constructor(seed) {
    this.random = new Random(seed);
    this.left = 4 + this.random.below(7);
    // A `var` of a block is its function's, so each name is declared by one keyword only.
    this.declared = new Set();
    this.scopes = [{ numbers: [], flags: [], constants: new Set() }];
  }

  get scope() { return this.scopes.at(-1); }

  known(sort) { return this.scopes.flatMap((scope) => scope[sort]); }

  isConstant(name) { return this.scopes.some((scope) => scope.constants.has(name)); }

  // A variable, the latest ones before others, or a value of the host where there is none.
  variable() {
    const names = this.known('numbers');
    if (!names.length) return this.random.pick(HOST_NUMBERS);
    return this.random.chance(0.5) ? this.random.pick(names.slice(-2)) : this.random.pick(names);
  }

  number(depth = 0) {
    return this.random.weighed([
      [4, () => this.variable()],
      [2, () => String(this.random.pick(LITERALS))],
      [3, () => `${this.variable()} ${this.random.pick(['+', '-', '*', '%'])} ${this.random.pick(LITERALS.slice(1))}`],
      [2, () => `${this.variable()} + ${this.variable()}`],
      [2, () => this.random.pick(HOST_NUMBERS)],
      [depth ? 0 : 0.5, () => `${this.condition(1)} ? ${this.number(1)} : ${this.number(1)}`],
    ])();
  }

  condition(depth = 0) {
    const flags = this.known('flags');
    const right = () => (this.random.chance(0.6) ? this.random.pick(LITERALS) : this.variable());
    const left = () => (this.random.chance(0.3) ? `${this.variable()} + ${this.variable()}` : this.variable());
    return this.random.weighed([
      [6, () => `${left()} ${this.random.pick(['>', '<', '>=', '<=', '==='])} ${right()}`],
      [flags.length ? 3 : 0, () => `${this.random.pick(['', '!'])}${this.random.pick(flags)}`],
      [depth ? 0 : 1.5, () => `${this.condition(1)} ${this.random.pick(['&&', '||'])} ${this.condition(1)}`],
    ])();
  }

  // A new variable; now and then a `var` declares one again, as in scripts that grew.
  declaration(sort, value) {
    const names = sort === 'numbers' ? NAMES : FLAGS;
    const fresh = names.filter((name) => !this.declared.has(name));
    const again = this.scope[sort].filter((name) => !this.scope.lexical?.has(name) && !this.isConstant(name));
    if (again.length && (this.random.chance(0.08) || !fresh.length)) return `var ${this.random.pick(again)} = ${value};`;
    if (!fresh.length) return this.call();
    const name = this.random.pick(fresh);
    const keyword = this.random.weighed([[5, 'var'], [3, 'let'], [2, 'const']]);
    this.scope[sort].push(name);
    this.declared.add(name);
    if (keyword === 'const') this.scope.constants.add(name);
    if (keyword !== 'var') (this.scope.lexical ||= new Set()).add(name);
    return `${keyword} ${name} = ${value};`;
  }

  assignment() {
    const names = this.known('numbers').filter((name) => !this.isConstant(name));
    if (!names.length) return this.call();
    const name = this.random.pick(names);
    return this.random.weighed([
      [4, () => `${name} = ${this.number()};`],
      [3, () => `${name} ${this.random.pick(['+=', '-='])} ${this.random.pick(LITERALS.slice(1))};`],
      [2, () => `${name} = 0;`],
      [1, () => `${name}++;`],
    ])();
  }

  call() {
    const name = this.random.pick(HOST_CALLS);
    return name === 'log' ? `log("gate", ${this.number()});` : `${name}(${this.number()});`;
  }

  block(indent, most) {
    this.scopes.push({ numbers: [], flags: [], constants: new Set() });
    const text = this.statements(indent + 1, 1 + this.random.below(most));
    this.scopes.pop();
    return `{\n${text}${'  '.repeat(indent)}}`;
  }

  branch(indent) {
    const otherwise = this.random.chance(0.25) && this.left > 1;
    const head = `if (${this.condition()}) ${this.block(indent, 2)}`;
    return otherwise ? `${head} else ${this.block(indent, 1)}` : head;
  }

  loop(indent) {
    if (this.random.chance(0.5)) return `for (var i = 0; i < ${1 + this.random.below(4)}; i++) ${this.block(indent, 2)}`;
    return `while (readLevel() > ${this.random.pick(LITERALS)}) ${this.block(indent, 2)}`;
  }

  attempt(indent) {
    return `try ${this.block(indent, 1)} catch (e) {\n${'  '.repeat(indent + 1)}log("failed", e.message);\n${'  '.repeat(indent)}}`;
  }

  statement(indent) {
    this.left -= 1;
    return this.random.weighed([
      [6, () => this.declaration('numbers', this.number())],
      [2, () => this.declaration('flags', this.condition())],
      [5, () => this.assignment()],
      [4, () => this.call()],
      [4, () => (this.left > 0 ? this.branch(indent) : this.call())],
      [1, () => (this.left > 0 ? this.loop(indent) : this.call())],
      [0.5, () => (this.left > 0 ? this.attempt(indent) : this.call())],
      [1.5, () => `outlet.level = ${this.number()};`],
    ])();
  }

  statements(indent, most) {
    let text = '';
    for (let i = 0; i < most && this.left > 0; i++) text += `${'  '.repeat(indent)}${this.statement(indent)}\n`;
    return text;
  }

  gateFunction(name, params, most) {
    this.scopes.push({ numbers: [...params], flags: [], constants: new Set(), lexical: new Set() });
    const body = this.statements(1, most);
    const answer = this.random.chance(0.6) ? `  return ${this.random.pick([this.number(1), this.condition(1)])};\n` : '';
    this.scopes.pop();
    return `function ${name}(${params.join(', ')}) {\n${body}${answer}}\n`;
  }

  text() {
    return this.random.weighed([
      [2, () => this.statements(0, 2) + this.gateFunction('gate', ['t', 'c'], 9)],
      [1, () => this.statements(0, 10)],
      [1, () => this.statements(0, 2) + this.gateFunction('gate', ['t', 'c'], 4) + this.gateFunction('tick', ['now'], 4)],
    ])();
  }
}

const gateScript = (seed) => new GateScript(seed).text();

module.exports = { gateScript };
