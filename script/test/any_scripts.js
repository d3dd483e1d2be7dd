// Random scripts over every kind and form that the tree file has, as text; they need not make sense, only be JavaScript.
'use strict';

const { Random } = require('./random');
const { ASSIGN, BINARY, UNARY } = require('../src/kinds');

const NAMES = ['a', 'b', 'c', 'd', 'arguments', 'é', '$x'];
const PROPERTIES = ['p', 'if', 'length', '"q-r"', '7', '""', '"ä"', 'a'];
const STRINGS = ['""', '"a"', '"it\'s"', '"\\n\\u2028\\0"', '"ü€😀"', '"</script>"'];
const NUMBERS = ['0', '1', '0.5', '1e21', '5e-324', '1e400', '0x1f', '9007199254740993', '.25'];

class AnyScript {
  constructor(seed, size) {
    this.random = new Random(seed);
    this.left = size;
    this.names = 0;
    this.loops = 0;
    this.switches = 0;
    this.functions = 0;
  }

  name() { return this.random.pick(NAMES); }

  // A name of its own, so that no two lexical declarations meet.
  fresh() { return `n${this.names++}`; }

  list(make, most) { return Array.from({ length: this.random.below(most + 1) }, make); }

  small() {
    return this.random.weighed([
      [4, () => this.name()], [2, () => this.random.pick(NUMBERS)], [2, () => this.random.pick(STRINGS)],
      [1, () => 'null'], [1, () => 'true'], [1, () => 'false'], [1, () => 'this'], [1, () => '[]'], [1, () => 'new X'],
    ])();
  }

  // Every operand is a name, a literal or in parentheses, so that no precedence is asked for.
  operand() {
    return this.random.chance(0.5) ? this.small() : `(${this.expression()})`;
  }

  target() {
    return this.random.weighed([[3, () => this.name()], [1, () => `${this.name()}.p`], [1, () => `${this.name()}[${this.operand()}]`]])();
  }

  property() {
    return this.random.chance(0.2) ? 'b' : `${this.random.pick(PROPERTIES)}: ${this.operand()}`;
  }

  functionBody() {
    const [loops, switches] = [this.loops, this.switches];
    this.loops = this.switches = 0;
    this.functions++;
    const body = this.block(2);
    this.functions--;
    [this.loops, this.switches] = [loops, switches];
    return body;
  }

  // A name or pattern with a default or without, over names that `name` makes.
  part(name, deep) {
    const target = this.left > 0 && deep < 2 && this.random.chance(0.3) ? this.pattern(name, deep + 1) : name();
    return this.random.chance(0.3) ? `${target} = ${this.operand()}` : target;
  }

  patternProperty(name, deep) {
    if (this.random.chance(0.7)) return `${this.random.pick(PROPERTIES)}: ${this.part(name, deep)}`;
    return this.random.pick(['', ` = ${this.operand()}`]).replace(/^/, name());
  }

  pattern(name, deep = 0) {
    this.left -= 1;
    return this.random.weighed([
      [1, () => `[${this.list(() => this.part(name, deep), 3).join(', ')}]`],
      [1, () => `{${this.list(() => this.patternProperty(name, deep), 3).join(', ')}}`],
    ])();
  }

  nameOrPattern(name) { return this.left > 0 && this.random.chance(0.25) ? this.pattern(name) : name(); }

  // Where there are patterns or defaults no name may come twice.
  params() {
    if (this.left > 0 && this.random.chance(0.3)) return this.list(() => this.part(() => this.fresh(), 0), 2).join(', ');
    return [...new Set(this.list(() => this.random.pick(['a', 'b', this.fresh()]), 2))].join(', ');
  }

  arrow() {
    return this.random.chance(0.5) ? `(${this.params()}) => ${this.functionBody()}` : `(${this.params()}) => ${this.operand()}`;
  }

  unary() {
    const operator = this.random.pick(UNARY);
    return `${operator} ${operator === 'delete' ? 'a.p' : this.operand()}`;
  }

  update() {
    const [sign, target] = [this.random.pick(['++', '--']), this.target()];
    return this.random.chance(0.5) ? sign + target : target + sign;
  }

  // Chains of operators without parentheses, as people write them.
  chain() {
    const [first, second] = [this.random.pick(['+', '-', '*', '<', '===', '&&', '|']), this.random.pick(['+', '%', '>>', '!=', '&&', '^'])];
    return `${this.name()} ${first} ${this.small()} ${second} ${this.name()}`;
  }

  expression() {
    this.left -= 1;
    if (this.left <= 0) return this.small();
    const forms = [
      [4, () => this.small()], [2, () => this.unary()], [2, () => this.update()], [2, () => this.chain()],
      [4, () => `${this.operand()} ${this.random.pick(BINARY)} ${this.operand()}`],
      [3, () => `${this.target()} ${this.random.pick(ASSIGN)} ${this.operand()}`], [1, () => `${this.pattern(() => this.name())} = ${this.operand()}`],
      [2, () => `${this.operand()} ? ${this.operand()} : ${this.operand()}`],
      [3, () => `${this.operand()}(${this.list(() => this.operand(), 2).join(', ')})`],
      [1, () => `new ${this.name()}(${this.list(() => this.operand(), 2).join(', ')})`],
      [2, () => `${this.operand()} .p`], [2, () => `${this.operand()}[${this.expression()}]`],
      [1, () => `function ${this.random.pick(['', this.fresh()])}(${this.params()}) ${this.functionBody()}`],
      [1, () => this.arrow()],
      [1, () => `[${this.list(() => this.operand(), 3).join(', ')}]`],
      [1, () => `{${this.list(() => this.property(), 3).join(', ')}}`],
      [1, () => `${this.operand()}, ${this.operand()}`],
    ];
    return this.random.weighed(forms)();
  }

  inParentheses() { return `(${this.expression()})`; }

  block(most) { return `{ ${this.list(() => this.statement(), most).join(' ')} }`; }

  body() { return this.random.chance(0.6) ? this.block(2) : `${this.inParentheses()};`; }

  declaration() {
    const declarator = (required) => {
      const target = this.nameOrPattern(() => this.fresh());
      return `${target}${required || /^[[{]/.test(target) || this.random.chance(0.6) ? ` = ${this.operand()}` : ''}`;
    };
    return this.random.weighed([
      [4, () => `var ${this.random.pick(['a', 'b', this.fresh()])}${this.random.chance(0.6) ? ` = ${this.operand()}` : ''}, ${declarator(false)};`],
      [2, () => `let ${declarator(false)};`],
      [2, () => `const ${declarator(true)}, ${declarator(true)};`],
    ])();
  }

  inLoop(make) {
    this.loops++;
    const text = make();
    this.loops--;
    return text;
  }

  forLoop() {
    const start = this.random.pick(['', `var ${this.fresh()} = ${this.operand()}`, this.inParentheses(), `let ${this.fresh()} = ${this.small()}`]);
    return `for (${start}; ${this.random.pick(['', this.operand()])}; ${this.random.pick(['', this.operand()])}) ${this.body()}`;
  }

  loopOver() {
    const word = this.random.pick(['var ', 'let ', 'const ', '']);
    const head = word + this.nameOrPattern(() => (word ? this.fresh() : this.name()));
    return `for (${head} ${this.random.pick(['in', 'of'])} ${this.operand()}) ${this.body()}`;
  }

  loop() {
    return this.inLoop(() => this.random.weighed([
      [1, () => `while (${this.expression()}) ${this.body()}`], [1, () => `do ${this.body()} while (${this.expression()});`],
      [2, () => this.forLoop()], [2, () => this.loopOver()],
    ])());
  }

  attempt() {
    const handler = this.random.pick([`catch (${this.nameOrPattern(() => this.fresh())}) ${this.block(1)}`, `catch ${this.block(1)}`]);
    const last = `finally ${this.block(1)}`;
    return `try ${this.block(2)} ${this.random.pick([handler, last, `${handler} ${last}`])}`;
  }

  selection() {
    this.switches++;
    const cases = this.list(() => `case ${this.operand()}: ${this.list(() => this.statement(), 2).join(' ')}`, 2).join(' ');
    const text = `switch ${this.inParentheses()} { ${cases} ${this.random.chance(0.5) ? `default: ${this.statement()}` : ''} }`;
    this.switches--;
    return text;
  }

  statement() {
    this.left -= 1;
    if (this.left <= 0) return ';';
    return this.random.weighed([
      [5, () => `${this.inParentheses()};`], [2, () => `${this.name()} = ${this.operand()};`], [4, () => this.declaration()],
      [1, () => `function ${this.fresh()}(${this.params()}) ${this.functionBody()}`],
      [1, () => this.block(3)], [1, () => ';'], [1, () => `throw ${this.expression()};`],
      [2, () => `if ${this.inParentheses()} ${this.body()} ${this.random.pick(['', `else ${this.body()}`])}`],
      [2, () => this.loop()], [1, () => this.attempt()], [1, () => this.selection()],
      [this.functions ? 2 : 0, () => `return ${this.random.pick(['', this.operand()])};`],
      [this.loops || this.switches ? 1 : 0, () => 'break;'], [this.loops ? 1 : 0, () => 'continue;'],
    ])();
  }

  text() {
    let text = '';
    while (this.left > 0) text += `${this.statement()}\n`;
    return text;
  }
}

const anyScript = (seed, size) => new AnyScript(seed, size).text();

module.exports = { anyScript };
