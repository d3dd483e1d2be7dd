// Runs script and result beside each other as what they are, scripts of a page: each in a fresh context, against a host (page_host.js) that does all that a level allows, at every chance. Both meet the same host by a seed.
'use strict';

const fs = require('fs');
const path = require('path');
const vm = require('vm');
const { K, DECLARATION, boundNames, isFunction } = require('../src/kinds');
const { estreeOf } = require('../src/from_tree');
const { print } = require('../src/print');
const { textOfTree } = require('../src/result_text');
const { Random } = require('./random');

const LOOPS = new Set([K.while, K.do, K.for, K.forIn, K.forOf]);
const STEP = { type: 'ExpressionStatement', expression: { type: 'CallExpression', callee: { type: 'Identifier', name: '$step' }, arguments: [] } };
const isDirective = ({ type, expression }) => type === 'ExpressionStatement' && expression.type === 'Literal' && typeof expression.value === 'string';

const HOST = new vm.Script(`(function (config) {${fs.readFileSync(path.join(__dirname, 'page_host.js'), 'utf8')}})`);
const RANDOM = new vm.Script(`(${Random.toString()})`);

// A step after a function's directives.
function steppedBody(body) {
  const start = body.body.findIndex((statement) => !isDirective(statement));
  const at = start < 0 ? body.body.length : start;
  return { ...body, body: [...body.body.slice(0, at), STEP, ...body.body.slice(at)] };
}

// Without steps a wrong result could run for ever.
function stepped(node, made) {
  if (LOOPS.has(node.kind)) return { ...made, body: { type: 'BlockStatement', body: [STEP, made.body] } };
  return isFunction(node) && made.body.type === 'BlockStatement' ? { ...made, body: steppedBody(made.body) } : made;
}

// The names of a script's top, those of its blocks' functions too.
function topNames(root) {
  const names = new Map();
  const visit = (node, isTop) => {
    if (node.kind === K.declaration && (isTop || node.form === 0)) for (const name of node.children.flatMap(({ children }) => boundNames(children[0]))) names.set(name.text, DECLARATION[node.form]);
    if (node.kind === K.function) names.set(node.children[0].text, 'function');
    if (!isFunction(node)) node.children.forEach((child) => visit(child, node.kind === K.script));
  };
  visit(root, true);
  return [...names].filter(([name]) => name !== 'arguments' && name !== 'eval');
}

// Ways to the top's variables for other code of the page; no script's function can be told from its text, so all is on one line.
function waysTo(names) {
  const ways = names.map(([name, kind]) => `{ name: ${JSON.stringify(name)}, isFunction: ${kind === 'function'}, isConstant: ${kind === 'const'}, isVar: ${kind === 'var'}, `
    + `get: () => ${name}, set: ($v) => { ${name} = $v; } }`);
  return new vm.Script(`([${ways}])`);
}

const compiled = (tree) => new vm.Script(print(estreeOf(tree, stepped)));

// An ordinary global object, where node has it (20.18, 22.8).
const freshContext = () => vm.createContext(vm.constants ? vm.constants.DONT_CONTEXTIFY : undefined);

function runScript(script, context, host) {
  try {
    script.runInContext(context);
    host.end(null, false);
  } catch (error) {
    host.end(error, true);
  }
}

// One run: what the host saw. At `anything` the script may be run again.
function runOnce(script, ways, seed, level) {
  const context = freshContext();
  const tops = ways.runInContext(context);
  const host = HOST.runInContext(context)({ seed, level, tops, RandomNumbers: RANDOM.runInContext(context) });
  runScript(script, context, host);
  if (level === 'anything' && seed % 5 === 0 && !host.isOver()) runScript(script, context, host);
  for (let turn = 0; turn < host.turns; turn++) {
    try {
      host.turn();
    } catch {
      break;
    }
  }
  host.finals();
  return JSON.parse(host.log());
}

// Where the lines part; what was broken off is compared as far as it goes.
function partingOf(one, two) {
  const lengths = [one.lines.length, two.lines.length];
  const length = one.aborted || two.aborted ? Math.min(...lengths) - 1 : Math.max(...lengths);
  for (let at = 0; at < length; at++) if (one.lines[at] !== two.lines[at]) return at;
  return -1;
}

class Page {
  constructor(root, result) {
    this.ways = waysTo(topNames(root));
    this.scripts = [compiled(root), compiled(textOfTree(result).root)];
  }

  // The first difference in a number of runs at a level, or null.
  difference(level, runs, seed = 1) {
    for (let turn = 0; turn < runs; turn++) {
      const [a, b] = this.scripts.map((script) => runOnce(script, this.ways, seed * 1000 + turn, level));
      const at = partingOf(a, b);
      if (at >= 0) return { turn, script: a.lines[at], result: b.lines[at], before: a.lines.slice(Math.max(0, at - 4), at) };
    }
    return null;
  }
}

const difference = (root, result, level, runs, seed) => new Page(root, result).difference(level, runs, seed);

module.exports = { Page, difference };
