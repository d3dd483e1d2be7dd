// Small scripts made to break the static check's rules: few variables, closures over them, hoisting, loops, try, switch, arguments.
'use strict';

const { Random } = require('./random');

// Names that the language has a use of its own for.
const SPECIAL = 'NaN Infinity undefined eval arguments globalThis name length __proto__ Date toString status'.split(' ');

const many = (count, make) => Array.from({ length: count }, make).join(' ');

// One to three variables, up to two functions that read and write them, few statements between.
class DenseScript {
  constructor(seed) {
    this.random = new Random(seed);
    this.vars = ['a0', 'b0', 'c0'].slice(0, 1 + this.random.below(3));
    this.kinds = this.vars.map(() => this.random.weighed([[4, 'var'], [4, 'let'], [2, 'const']]));
    this.functions = ['f0', 'f1'].slice(0, this.random.below(3));
    this.param = this.random.chance(0.6) && this.given('p0');
    this.vars[0] = this.given(this.vars[0]);
    if (this.functions.length) this.functions[0] = this.given(this.functions[0]);
    this.count = 0;
  }

  // A name, seldom another one that is special.
  given(name) { return this.random.chance(0.04) ? this.random.pick(SPECIAL) : name; }

  name() { return this.param && this.random.chance(0.2) ? this.param : this.random.pick(this.vars); }

  // A name that may be assigned.
  target() {
    const names = this.vars.filter((_, index) => this.kinds[index] !== 'const');
    if (this.param && this.random.chance(0.2)) return this.param;
    return names.length ? this.random.pick(names) : 'h';
  }

  literal() { return this.random.pick(['0', '1', '5', '"x"', 'null', 'undefined']); }

  value() {
    return this.random.weighed([
      [6, () => this.literal()], [4, () => this.name()], [1, () => `${this.name()} + 1`], [1, () => `!${this.name()}`], [0.4, () => `typeof ${this.name()}`],
      [1, () => `${this.name()} === ${this.name()}`], [0.8, () => 'g(1)'], [0.8, () => 'o.p'], [0.5, () => `o.q(${this.name()})`], [0.5, () => 'h'],
      [0.6, () => `[${this.name()}]`], [0.4, () => `({ p: ${this.name()} })`], [0.5, () => `() => ${this.name()}`], [0.3, () => `function () { return ${this.name()}; }`],
      [0.5, () => `() => { ${this.target()} = ${this.literal()}; }`], [0.5, () => `k() ? ${this.name()} : ${this.literal()}`],
      [0.5, () => `${this.name()} || g(2)`], [0.4, () => `${this.name()} - 1 < 5 && ${this.name()} + 1`], [0.3, () => `(${this.target()} = ${this.literal()})`],
      [0.3, () => `${this.target()}++`], [0.3, () => `(g(3), ${this.name()})`], [this.functions.length ? 0.8 : 0, () => `${this.random.pick(this.functions)}()`],
    ])();
  }

  simple(depth) {
    const calls = this.functions.length;
    return this.random.weighed([
      [5, () => `g(${this.name()});`], [3, () => `${this.target()} = ${this.random.chance(0.6) ? this.literal() : this.value()};`], [1, () => `${this.target()}++;`],
      [0.5, () => `${this.target()} ${this.random.pick(['+=', '-=', '&&=', '??='])} ${this.value()};`],
      [1, () => `k(${this.name()}, ${this.name()});`], [1, () => `o.p = ${this.name()};`], [1, () => `g(${this.value()});`],
      [calls ? 4 : 0, () => `${this.random.pick(this.functions)}();`], [calls ? 1.5 : 0, () => `g(${this.random.pick(this.functions)});`],
      [1, () => `g(() => ${this.name()});`], [1, () => `g(() => { ${this.target()} = ${this.literal()}; });`], [0.5, () => `g({ on: function (x) { return ${this.name()}; } });`],
      [0.4, () => `g(${this.name()} || g(${this.name()}));`], [0.4, () => `g(k() ? ${this.name()} : (${this.target()} = 7));`],
      [depth ? 0.5 : 0, () => `return ${this.name()};`], [this.param ? 0.5 : 0, () => 'arguments[0] = 9;'], [this.param ? 0.2 : 0, () => '(() => { arguments[0] = 8; })();'],
      [0.15, () => `throw ${this.name()};`],
    ])();
  }

  statement(depth) {
    if (depth > 1) return this.simple(depth);
    const more = () => many(1 + this.random.below(3), () => this.statement(depth + 1));
    const leave = () => `${this.random.chance(0.3) ? ' if (k()) break;' : ''}${this.random.chance(0.3) ? ' if (k()) continue;' : ''}`;
    const i = `i${this.count++}`;
    return this.random.weighed([
      [8, () => this.simple(depth)], [1, () => `if (k()) { ${more()} }`], [0.3, () => `if (${this.value()}) { ${more()} } else { ${more()} }`],
      [1, () => `while (k()) { ${more()}${leave()} ${more()} }`], [0.3, () => `do { ${more()} } while (k());`],
      [0.5, () => `for (let ${i} = 0; ${i} < 2; ${i}++) { ${more()}${leave()} }`], [0.3, () => `for (${this.random.pick(['var', 'let', 'const'])} ${i} of [1, 2]) { ${more()}${leave()} g(${i}); }`],
      [0.8, () => `try { ${more()} } catch (e) { ${more()} }`], [0.5, () => `try { ${more()} } finally { ${more()} }`],
      [0.3, () => `while (k()) { try { ${more()} if (k()) break; } finally { ${more()} } }`],
      [0.4, () => `switch (${this.name()}) { case 1: ${more()} case 5: ${more()} break; default: ${more()} }`], [0.4, () => `{ ${more()} }`],
      [0.3, () => `{ let ${i} = ${this.value()}; ${more()} g(${i}); function n${i}() { return ${i}; } g(n${i}); }`],
    ])();
  }

  declaration(index) {
    const text = `${this.kinds[index]} ${this.vars[index]} = ${this.value()};`;
    if (this.kinds[index] !== 'var' || !this.random.chance(0.12)) return text;
    return this.random.chance(0.5) ? `if (k()) { ${text} }` : `while (k()) { ${this.statement(2)} ${text} ${this.statement(2)} }`;
  }

  functionText(name) {
    const answer = this.random.chance(0.4) ? `return ${this.name()};` : '';
    return `function ${name}() { ${this.simple(3)} ${this.random.chance(0.5) ? this.simple(3) : ''} ${answer} }`;
  }

  parts() {
    const { random } = this;
    const parts = [];
    const some = (count) => { for (let left = count; left > 0; left--) parts.push(this.statement(0)); };
    this.vars.forEach((_, index) => {
      some(random.below(3));
      parts.push(this.declaration(index));
    });
    some(2 + random.below(4));
    const put = (text) => parts.splice(random.below(parts.length + 1), 0, text);
    this.functions.forEach((name) => put(this.functionText(name)));
    const again = random.below(this.vars.length);
    if (random.chance(0.1) && this.kinds[again] === 'var') put(`var ${this.vars[again]};`);
    return parts;
  }

  text() {
    const body = this.parts().join('\n');
    if (!this.param && this.random.chance(0.5)) return `${body.replace(/return [^;]*;/g, ';')}\n`;
    return `function m0(${this.param || ''}) {\n${body}\n}\nm0(${this.literal()});\n`;
  }
}

const denseScript = (seed) => new DenseScript(seed).text();

module.exports = { SPECIAL, DenseScript, denseScript };
