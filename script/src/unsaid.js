// What an engine does with a script and no tree file says: a variable that starts with a parameter's value, and a block's function that is one of the
// function around, too. Such scripts are refused with the place. The tree has its contexts, the numbers of the scopes in its own order.
'use strict';

const { K, boundNames, isFunction, isPattern, partsOfFunction, preorder } = require('./kinds');
const { message } = require('./unsupported');

const LOOPS = new Set([K.for, K.forIn, K.forOf]);
const VAR = 0;

// Does a binding or a pattern hold a default, one that binds nothing (`[[] = 1]`) included: what stands in no pattern is not looked at.
const inPattern = (node) => isPattern(node) || node.kind === K.patternProperty;
const holdsDefault = (nodes) => nodes.some((node) => node.kind === K.default || (inPattern(node) && holdsDefault(node.children)));
const textsOf = (nodes) => nodes.map(({ text }) => text);

// The names of a declaration's declarators.
const declaredNames = ({ children }) => children.flatMap((declarator) => boundNames(declarator.children[0]));

// The names that statements declare by `var`: what stands in functions is left out.
function varNames(node) {
  if (isFunction(node)) return [];
  return [...(node.kind === K.declaration && node.form === VAR ? declaredNames(node) : []), ...node.children.flatMap(varNames)];
}

const namesAtTop = (node) => (node.kind === K.function ? [node.children[0]] : varNames(node));

// Where a parameter has a default, the body's own variables are apart from the parameters; one of the same name starts with the
// parameter's value, and no kind says that.
function repeatedParameters(node) {
  const { params, body } = partsOfFunction(node);
  if (body.kind !== K.block || !holdsDefault(params)) return [];
  const left = new Set(textsOf(params.flatMap(boundNames)));
  return body.children.flatMap(namesAtTop).filter(({ text }) => left.delete(text)).map((name) => ({
    at: name.at.loc.start, message: message([`${name.text}, declared again in a function with default values,`, 'another name for one of them']),
  }));
}

const isLexical = ({ kind, form }) => kind === K.declaration && form !== VAR;
const lexicalTexts = (statements) => textsOf(statements.filter(isLexical).flatMap(declaredNames));

// Of a scope: the names by which a function in a block inside it stays in the block.
function keptTexts(node) {
  const { kind, children } = node;
  if (isFunction(node)) {
    const { params, body } = partsOfFunction(node);
    return [...textsOf(params.flatMap(boundNames)), ...(body.kind === K.block ? lexicalTexts(body.children) : [])];
  }
  if (kind === K.switch) return lexicalTexts(children.slice(1).flatMap((one) => one.children));
  return lexicalTexts(kind === K.catch ? children.at(-1).children : children);
}

// A text that stands alone at the beginning of a script or a body, without parentheses, is a directive.
function isStrictBody(statements) {
  const end = statements.findIndex(({ kind, children }) => kind !== K.expression || children[0].kind !== K.string);
  return statements.slice(0, end < 0 ? statements.length : end).some(({ children }) => children[0].text === 'use strict');
}

// Walks a tree with the scopes around, numbered in the tree file's order, and collects the functions of blocks.
class Blocks {
  constructor() {
    this.count = 0;
    this.functions = [];
  }

  // `body` is the number of a function's body where that has a scope of its own.
  open(node, around, isStrict) {
    return { node, around, number: ++this.count, body: null, holdsVars: node.kind === K.script || isFunction(node), isStrict, kept: new Set(keptTexts(node)) };
  }

  all(nodes, scope) { nodes.forEach((node) => this.walk(node, scope)); }

  // Statements at the top of a script or of a body, whose functions are no block's.
  top(statements, scope) {
    for (const node of statements) {
      if (node.kind === K.function) this.function(node, scope);
      else this.walk(node, scope);
    }
  }

  function(node, around) {
    const { params, body } = partsOfFunction(node);
    if (node.kind === K.functionExpression && node.form) this.count += 1;
    const isBlock = body.kind === K.block;
    const scope = this.open(node, around, around.isStrict || (isBlock && isStrictBody(body.children)));
    this.all(params, scope);
    if (isBlock && holdsDefault(params)) scope.body = ++this.count;
    if (isBlock) this.top(body.children, scope);
    else this.walk(body, scope);
  }

  catch(node, around) {
    const scope = this.open(node, around, around.isStrict);
    const binding = node.children.slice(0, -1);
    this.all(binding, scope);
    if (holdsDefault(binding)) this.count += 1;
    this.all(node.children.at(-1).children, scope);
  }

  walk(node, scope) {
    const { kind, children } = node;
    if (kind === K.script) this.top(children, this.open(node, null, isStrictBody(children)));
    else if (kind === K.block || LOOPS.has(kind) || kind === K.switch) this.all(children, this.open(node, scope, scope.isStrict));
    else if (kind === K.catch) this.catch(node, scope);
    else if (kind === K.function) {
      if (!scope.holdsVars && !scope.isStrict) this.functions.push({ name: children[0], scope });
      this.function(node, scope);
    } else if (isFunction(node)) this.function(node, scope);
    else this.all(children, scope);
  }
}

// Names that are read or set, in the tree file's order.
function* used(node) {
  const { kind, children } = node;
  if (kind === K.identifier) yield node;
  if (kind === K.assign || (kind === K.declarator && children.length > 1)) yield* boundNames(children[0]);
  if (kind === K.forIn || kind === K.forOf) yield* children[0].kind === K.declaration ? declaredNames(children[0]) : boundNames(children[0]);
  for (const child of children) yield* used(child);
}

// In sloppy mode an engine also gives a block's function to the function around, unless a parameter, `let` or `const` between keeps it in the block; the
// tree file has no place for that. A name means that function's, or one further out, if no scope in between declares it.
function usedOutside({ name, scope }) {
  let top = scope;
  while (!top.holdsVars) {
    top = top.around;
    if (top.kept.has(name.text)) return null;
  }
  const isBetween = ({ bits }) => bits > BigInt(top.number) && bits !== (top.body && BigInt(top.body));
  return [...used(top.node)].find((node) => node.text === name.text && node.bits !== name.bits && !isBetween(node)) || null;
}

function blockFunctions(root) {
  const blocks = new Blocks();
  blocks.walk(root, null);
  return blocks.functions.map(usedOutside).filter(Boolean).map((name) => ({
    at: name.at.loc.start, message: message([`a block's function ${name.text} used outside of its block`, 'the function outside of the block']),
  }));
}

function findUnsaid(root) {
  return [...[...preorder(root)].filter(isFunction).flatMap(repeatedParameters), ...blockFunctions(root)];
}

module.exports = { findUnsaid };
