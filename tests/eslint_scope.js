// An outside judge of the resolver: which names of a script are one variable by eslint-scope. Standard input has a tree file in hex digits on each line; for each
// it prints the number of the variable of each name, in the order of the nodes, 0 for a name that the script does not declare; or `leaves A` or `leaves B`
// where the script is of one of the two classes in which eslint-scope parts from ECMA-262, or `leaves C` where it is no script of ECMA-262's grammar, and stands
// by request 7's own words (docs/requests/7.md).
'use strict';

const fs = require('fs');
const scopes = require('eslint-scope');
const { estreeOf } = require('../script/src/from_tree');
const { K, NAMED, boundNames, isFunction, partsOfFunction, preorder } = require('../script/src/kinds');
const { readTreeFile } = require('../script/src/tree_file');

const OPTIONS = { ecmaVersion: 2022, sourceType: 'script', ignoreEval: true };
const ARGUMENTS = 'arguments';

// The names that a function's body declares by `var`, or by a function at its top: what stands in functions inside is left out.
function varNames(node) {
  if (isFunction(node)) return [];
  const own = node.kind === K.declaration && node.form === 0 ? node.children.flatMap(({ children }) => boundNames(children[0])) : [];
  return [...own, ...node.children.flatMap(varNames)];
}

function namesOfBody({ children }) {
  const functions = children.filter(({ kind }) => kind === K.function).map((node) => node.children[0]);
  return new Set([...functions, ...children.flatMap(varNames)].map(({ text }) => text));
}

const holds = (nodes, test) => nodes.some((node) => [...preorder(node)].some(test));
const holdsDefault = (nodes) => holds(nodes, ({ kind }) => kind === K.default);
const isArguments = ({ kind, text }) => NAMED.has(kind) && text === ARGUMENTS;

// A: a function with a default among its parameters declares one of their names in its body: one variable by eslint-scope, two by ECMA-262.
function isClassA({ params, body }) {
  if (body.kind !== K.block) return false;
  const declared = namesOfBody(body);
  return params.flatMap(boundNames).some(({ text }) => declared.has(text));
}

// B: `arguments` among the parameters of a function with a default, in a script that binds a variable of that name: the one around by eslint-scope, the
// function's own object by ECMA-262.
const isClassB = ({ params }, binds) => binds && holds(params, isArguments);

// C: a let, const or function that is itself the body of a `for`, or of branches and loops that are: the loop's own name by the request; eslint-scope knows no
// such body.
const FOR = new Set([K.for, K.forIn, K.forOf]);
const PASSES = new Set([K.if, K.while, K.do]);
const declares = ({ kind, form, children }) => kind === K.function || (kind === K.declaration && form > 0) || (PASSES.has(kind) && children.some(declares));
const isClassC = ({ kind, children }) => FOR.has(kind) && declares(children.at(-1));

function leaves(root) {
  if (holds([root], isClassC)) return 'leaves C';
  const binds = holds([root], (node) => node.kind === K.binding && isArguments(node));
  const functions = [...preorder(root)].filter(isFunction).map(partsOfFunction).filter(({ params }) => holdsDefault(params));
  if (functions.some(isClassA)) return 'leaves A';
  return functions.some((parts) => isClassB(parts, binds)) ? 'leaves B' : null;
}

// The tree for eslint-scope, each node with its place as range, which it compares; and the names of the tree with their nodes there.
function withPlaces(root) {
  const places = new Map([...preorder(root)].map((node, index) => [node, index]));
  const names = new Map();
  const program = estreeOf(root, (node, made) => {
    made.range = [places.get(node), places.get(node)];
    if (NAMED.has(node.kind)) names.set(node, made);
    return made;
  });
  return { program, names };
}

// The variable of each of its names; a reference to a global is left open by eslint-scope.
function variablesOf(manager) {
  const found = new Map();
  const globals = manager.globalScope.set;
  for (const { variables } of manager.scopes) {
    for (const variable of variables) for (const name of variable.identifiers) found.set(name, variable);
  }
  for (const { references } of manager.scopes) {
    for (const { identifier, resolved } of references) found.set(identifier, resolved || globals.get(identifier.name) || null);
  }
  return found;
}

function judged(root) {
  const { program, names } = withPlaces(root);
  const found = variablesOf(scopes.analyze(program, OPTIONS));
  const numbers = new Map();
  const numberOf = (variable) => {
    if (!variable || !variable.defs.length) return 0;
    if (!numbers.has(variable)) numbers.set(variable, numbers.size + 1);
    return numbers.get(variable);
  };
  return [...preorder(root)].filter(({ kind }) => NAMED.has(kind)).map((node) => numberOf(found.get(names.get(node)))).join(' ');
}

for (const line of fs.readFileSync(0, 'latin1').split('\n')) {
  if (line === '') continue;
  const root = readTreeFile(Buffer.from(line, 'hex'));
  console.log(leaves(root) || judged(root));
}
