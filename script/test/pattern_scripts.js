// Small scripts as dense_scripts.js makes them, with patterns and defaults in every place that takes them.
'use strict';

const { DenseScript } = require('./dense_scripts');

class PatternScript extends DenseScript {
  // What stands in a pattern for a name, with a default or without.
  part(name) { return this.random.chance(0.35) ? `${name} = ${this.value()}` : name; }

  // A pattern over names, and a value that it takes apart, mostly without an error.
  apart(names) {
    const parts = names.map((name) => this.part(name));
    return this.random.weighed([
      [4, () => [`[${parts.join(', ')}]`, `[${names.slice(this.random.below(2)).map(() => this.value()).join(', ')}]`]],
      [2, () => [`{ ${parts.map((part, index) => `${'pqr'[index]}: ${part}`).join(', ')} }`, 'o']],
      [2, () => [`{ ${parts.map((part, index) => `${'pqr'[index]}: ${part}`).join(', ')} }`, `{ p: ${this.value()}, q: ${this.value()} }`]],
      [0.3, () => [`[[${parts.join(', ')}] = []]`, this.random.pick(['[]', '[[1, 2]]', 'g(5)'])]],
      [0.3, () => [`{ ${parts.map((part) => `p: ${part}`).join(', ')} }`, this.name()]],
    ])();
  }

  targets() { return this.random.chance(0.4) ? [this.target(), this.target()] : [this.target()]; }

  assignment() {
    const [pattern, value] = this.apart(this.targets());
    return `(${pattern} = ${value})`;
  }

  value() {
    this.deep = (this.deep || 0) + 1;
    const made = this.deep > 2 ? super.value() : this.random.weighed([
      [12, () => super.value()], [0.4, () => this.assignment()], [0.5, () => `(x0 = ${this.name()}) => x0`], [0.3, () => `([x0 = ${this.name()}]) => x0`],
      [0.3, () => `({ p: x0 = ${this.value()} }) => { ${this.target()} = x0; }`], [0.2, () => `((x0 = ${this.value()}, y0 = x0) => y0)()`],
    ])();
    this.deep -= 1;
    return made;
  }

  simple(depth) {
    return this.random.weighed([[8, () => super.simple(depth)], [3, () => `${this.assignment()};`], [0.5, () => `g(${this.assignment()});`]])();
  }

  over(more) {
    const [i, j] = [`i${this.count++}`, `j${this.count}`];
    const [pattern] = this.apart([i, j]);
    return this.random.weighed([
      [2, () => `for (${this.random.pick(['var', 'let', 'const'])} ${pattern} of [[1], [2, 3], o]) { ${more()} g(${i}, ${j}); }`],
      [1, () => `for ([${this.part(this.target())}] of [[1], []]) { ${more()} }`],
      [1, () => `try { ${more()} throw o; } catch ({ p: ${this.part(i)}, q: ${this.part(j)} }) { ${more()} g(${i}); }`],
    ])();
  }

  statement(depth) {
    if (depth > 1) return this.simple(depth);
    return this.random.chance(0.15) ? this.over(() => this.statement(depth + 1)) : super.statement(depth);
  }

  declaration(index) {
    if (this.random.chance(0.5)) return super.declaration(index);
    const [pattern, value] = this.apart([this.vars[index]]);
    return `${this.kinds[index]} ${pattern} = ${value};`;
  }

  functionText(name) {
    if (this.random.chance(0.5)) return super.functionText(name);
    const [pattern, value] = this.apart(['x0', 'y0']);
    const list = this.random.pick([`x0 = ${this.value()}`, `x0 = ${this.value()}, y0 = x0`, `${pattern} = ${value}`, `x0 = () => y0, y0 = ${this.value()}`]);
    return super.functionText(name).replace('()', () => `(${list})`).replace(/\}$/, 'g(x0); }');
  }

  text() {
    const text = super.text();
    if (!this.param || this.random.chance(0.4)) return text;
    const [pattern] = this.apart([this.param]);
    const list = this.random.pick([pattern, `${pattern} = o`, `${this.param} = ${this.literal()}`, `q0 = ${this.literal()}, ${this.param} = q0`]);
    const given = this.random.pick(['', 'o', '[1]', '[]', '{}', '5']);
    return text.replace(`(${this.param})`, () => `(${list})`).replace(/m0\([^)]*\);\n$/, () => `m0(${given});\n`);
  }
}

const patternScript = (seed) => new PatternScript(seed).text();

module.exports = { patternScript };
