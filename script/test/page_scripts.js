// Small scripts of a page, all at its top, made to break the static check's rules there: variables under special names, declared again, beside parameters and functions of their name, met by way of the
// global object, written as members of anything, read by functions that are there early; strict or not; functions in blocks; parts that are left early.
'use strict';

const { SPECIAL, DenseScript } = require('./dense_scripts');

class PageScript extends DenseScript {
  constructor(seed) {
    super(seed);
    const { random } = this;
    this.param = false;
    if (random.chance(0.12)) this.vars[0] = random.pick(SPECIAL);
    if (random.chance(0.05)) this.functions[0] = random.pick(SPECIAL);
    this.params = random.pick(['', '', 'p0', this.vars[0], `p0, ${this.vars.at(-1)}`]);
  }

  // A way to the global object, as it may stand in a script.
  global() { return this.random.pick(['window', 'this', 'globalThis', 'self', 'window.window', 'self.self', 'g(4)', 'o.p', '(window)']); }

  // A member of the name of a variable or function.
  member() {
    const name = this.random.pick([...this.vars, ...this.functions]);
    const object = this.random.chance(0.6) ? this.global() : this.random.pick(['o', '({})', this.name()]);
    return this.random.weighed([[5, () => `${object}.${name}`], [2, () => `${object}["${name}"]`], [0.5, () => `${object}[${this.name()}]`], [0.5, () => `${object}["${name[0]}" + "${name.slice(1)}"]`]])();
  }

  value() {
    this.deeper = (this.deeper || 0) + 1;
    const made = this.deeper > 2 ? super.value() : this.random.weighed([
      [14, () => super.value()], [0.4, () => this.member()], [0.3, () => `[${this.name()}, ${this.name()}]`], [0.4, () => `${this.name()} + ${this.name()}`], [0.3, () => `-${this.name()}`], [0.3, () => 'this'],
      [0.3, () => `g(${this.name()}) + 1`], [0.3, () => `(${this.target()} = ${this.value()})`], [0.2, () => 'new Date(5)'], [0.2, () => 'Math.abs(-2)'], [0.2, () => 'JSON.parse("[1]")'],
    ])();
    this.deeper -= 1;
    return made;
  }

  simple(depth) {
    const f = this.functions.length ? this.random.pick(this.functions) : 'g';
    return this.random.weighed([
      [12, () => super.simple(depth)], [0.7, () => `${this.member()} = ${this.value()};`], [0.5, () => `g(${this.member()});`], [0.3, () => `delete ${this.member()};`], [0.15, () => `delete ${this.target()};`],
      [0.5, () => `${this.global()}.${f}();`], [0.5, () => `on(${f});`], [0.3, () => `o.on("x", ${f});`], [0.2, () => `Object.assign(${this.global()}, { ${this.vars[0]}: 3 });`],
      [0.15, () => `Object.defineProperty(${this.global()}, "${this.vars[0]}", { value: 4, writable: true, configurable: true });`], [0.15, () => `[].push.call(${this.random.pick(['this', 'globalThis'])}, 4);`],
      [0.2, () => `const { ${this.vars[0]}: w${this.count} } = ${this.global()}; g(w${this.count++});`], [0.3, () => `if (k()) { throw ${this.name()}; }`], [0.2, () => `g(${this.name()}.name);`],
      [depth ? 0 : 0.2, () => `var ${this.vars[0]};`], [depth ? 0 : 0.3, () => `var ${this.vars[0]} = ${this.value()};`], [0.2, () => `g(function () { return this; });`], [0.2, () => `(function (q) { g(q); })(${this.name()});`],
    ])();
  }

  statement(depth) {
    if (depth > 1) return this.simple(depth);
    const i = `n${this.count++}`;
    const more = () => this.statement(depth + 1);
    return this.random.weighed([
      [12, () => super.statement(depth)], [0.3, () => `{ ${more()} function ${i}() { g(${this.name()}); } ${more()} g(${i}); }`],
      [0.5, () => `do { ${more()} if (k()) { break; } const ${i} = ${this.value()}; ${more()} g(${i}, () => ${i}); } while (0);`], [0.4, () => `for (const ${i} of list) { ${more()} g(${i} + 1); }`],
      [0.3, () => `for (var ${i} = 0; ${i} < 2; ${i}++) { ${more()} }`], [0.3, () => `for (const ${i} in o) { ${more()} g(${i} + ${this.name()}); }`],
      [0.4, () => `{ let ${i} = ${this.value()}; ${more()} g(${i}); }`], [0.3, () => `try { ${more()} var ${i} = ${this.value()}; ${more()} g(${i}); } catch ({ message }) { g(message); }`],
    ])();
  }

  functionText(name) {
    const answer = this.random.chance(0.5) ? `return ${this.value()};` : '';
    const again = this.params && this.random.chance(0.2) ? `var ${this.params.split(', ')[0]} = ${this.value()};` : '';
    return `function ${name}(${this.params}) { ${again} ${this.simple(3)} ${this.random.chance(0.5) ? this.statement(1) : ''} ${answer} }`;
  }

  text() {
    const parts = this.parts();
    const { random } = this;
    const put = (text) => parts.splice(random.below(parts.length + 1), 0, text);
    if (random.chance(0.1)) put(this.functionText(this.vars[0]));
    if (random.chance(0.3)) put(`g(${this.name()} + 1);`);
    const directive = random.chance(0.15) ? '"use strict";\n' : '';
    return `${directive}${parts.join('\n')}\n`;
  }
}

const pageScript = (seed) => new PageScript(seed).text();

module.exports = { pageScript };
