// Constructs that the kinds of the tree file do not hold: their names and what to write instead.
'use strict';

const { ofChain, ofLabel: ofLabelled, ofRestParameter, ofSpread } = require('./advice');

const CLASS = ['a class', 'functions and plain objects'];
const TEMPLATE = ['a template', 'strings joined by `+`'];
const MODULE = ['a module', 'a script by itself; the host\'s names are global'];
const HALF = /\p{Cs}/u;

// By the parser's node type; where only some nodes of a type are unsupported, by a function in PARTLY.
const NEVER = {
  ClassDeclaration: CLASS,
  ClassExpression: CLASS,
  TemplateLiteral: TEMPLATE,
  TaggedTemplateExpression: ['a tagged template', 'a call with strings'],
  YieldExpression: ['yield', 'a function that returns its values in an array'],
  AwaitExpression: ['await', 'a function that is called when the value is there'],
  WithStatement: ['with', 'the object\'s name before each property'],
  DebuggerStatement: ['debugger', 'nothing in its place'],
  MetaProperty: ['new.target or import.meta', 'a parameter'],
  ImportExpression: ['import', 'a script by itself; the host\'s names are global'],
  Super: ['super', 'the function\'s own name'],
  PrivateIdentifier: ['a private name', 'a variable'],
  ImportDeclaration: MODULE,
  ExportNamedDeclaration: MODULE,
  ExportDefaultDeclaration: MODULE,
  ExportAllDeclaration: MODULE,
};

function ofFunction(node) {
  if (node.generator) return ['a generator', 'a function that returns its values in an array'];
  if (node.async) return ['an async function', 'a function that is called when the value is there'];
  return null;
}

function ofLiteral(node) {
  if (node.regex) return ['a regular expression', 'string methods such as `indexOf`'];
  if (node.bigint) return ['a big integer', 'a number'];
  if (typeof node.value === 'string' && HALF.test(node.value)) {
    return ['half of a character (a lone surrogate) in a string', 'whole characters; texts are UTF-8'];
  }
  return null;
}

// What stands in a pattern: names, patterns and either with a default.
const TARGETS = new Set(['Identifier', 'ObjectPattern', 'ArrayPattern', 'AssignmentPattern']);
const AFTER = 'a variable there, and an assignment after it: `[a] = list; o.p = a;`';

function ofPatternPart(node) {
  if (TARGETS.has(node.type)) return null;
  return node.type === 'ParenthesizedExpression' ? ['parentheses in a pattern', 'it without parentheses'] : ['a member in a pattern', AFTER];
}

function ofArrayPattern(node) {
  if (node.elements.includes(null)) return ['a hole in a pattern', 'a variable at its place that is not used'];
  return null;
}

function ofRest(node, parent, text) {
  if (parent.type === 'ArrayPattern') return ['the rest of a list in a pattern', 'the list by a name, and `slice`: `let rest = list.slice(1);`'];
  if (parent.type === 'ObjectPattern') return ['the rest of an object in a pattern', 'each property by itself'];
  return ofRestParameter(node, parent, text);
}

function ofPatternProperty(node) {
  return node.computed ? ['a computed name in a pattern', 'a variable of its own: `var a = o[name];`'] : ofPatternPart(node.value);
}

function ofProperty(node, parent) {
  if (parent.type === 'ObjectPattern') return ofPatternProperty(node);
  if (node.kind !== 'init') return ['a getter or setter', 'a function: `level: function () { ... }`'];
  if (node.method) return ['a method', 'a property with a function: `open: function () { ... }`'];
  if (node.computed) return ['a computed property name', 'an assignment after the object: `o[name] = value;`'];
  if (node.shorthand && node.key.name === '__proto__') return ['the short property __proto__', 'another name'];
  return null;
}

const HEADS = new Set(['VariableDeclaration', 'Identifier', 'ObjectPattern', 'ArrayPattern']);

// Parentheses and members have no place left of a loop's `in` or `of`.
function ofLoopHead(node) {
  if (node.await) return ['for await', 'a plain loop'];
  const { left } = node;
  if (HEADS.has(left.type)) return null;
  return [`${targetName(left)} as a loop's variable`, 'a variable, assigned on in the loop'];
}

const targetName = (node) => (node.type === 'ParenthesizedExpression' ? 'parentheses' : 'a member');

function ofTarget(node) {
  return node.type === 'ParenthesizedExpression' ? ['parentheses around what is assigned', 'it without parentheses'] : null;
}

// An escaped directive is none, yet printed without its escapes it would be one.
function ofDirective(node) {
  if (node.directive === undefined || node.expression.value !== 'use strict' || node.directive === 'use strict') return null;
  return ['an escaped directive', '"use strict" plainly'];
}

function ofLabel(node) {
  return node.label ? ['a label', 'a function that is left by `return`, or a variable that the outer loop tests'] : null;
}

const PARTLY = {
  FunctionDeclaration: ofFunction,
  FunctionExpression: ofFunction,
  ArrowFunctionExpression: ofFunction,
  Literal: ofLiteral,
  Property: ofProperty,
  ForInStatement: ofLoopHead,
  ForOfStatement: ofLoopHead,
  AssignmentExpression: (node) => ofTarget(node.left),
  UpdateExpression: (node) => ofTarget(node.argument),
  ExpressionStatement: ofDirective,
  BreakStatement: ofLabel,
  ContinueStatement: ofLabel,
  ArrayExpression: (node) => (node.elements.includes(null) ? ['a hole in an array', '`undefined` at its place'] : null),
  ArrayPattern: ofArrayPattern,
  AssignmentPattern: (node) => ofPatternPart(node.left),
  RestElement: ofRest,
  SpreadElement: ofSpread,
  ChainExpression: ofChain,
  LabeledStatement: ofLabelled,
};

const isNode = (value) => value !== null && typeof value === 'object' && typeof value.type === 'string';

// The parts of a parser's node that are nodes themselves, in the text's order.
function parts(node) {
  const found = Object.values(node).flat().filter(isNode);
  return found.sort((a, b) => a.start - b.start);
}

// `before` is the parent's parent.
function unsupportedAt(node, parent, text, before) {
  if (NEVER[node.type]) return NEVER[node.type];
  const isElement = parent && parent.type === 'ArrayPattern' && node.type !== 'RestElement';
  return (isElement && ofPatternPart(node)) || (PARTLY[node.type] ? PARTLY[node.type](node, parent, text, before) : null);
}

const message = ([construct, instead]) => `${construct} cannot be built; write ${instead}`;

function found(node, parent, text, before) {
  const here = unsupportedAt(node, parent, text, before);
  if (here) return [{ at: node.loc.start, message: message(here) }];
  return parts(node).flatMap((part) => found(part, node, text, parent));
}

const inOrder = ({ at: one }, { at: other }) => one.line - other.line || one.column - other.column;

// Every unsupported construct, the outermost of each nest, in the text's order.
const findUnsupported = (program, text) => found(program, null, text, null).sort(inOrder);

module.exports = { MODULE, findUnsupported, message };
