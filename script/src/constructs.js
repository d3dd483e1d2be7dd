// The constructs of a script by the words that those who write scripts know them by.
'use strict';

const { K, ASSIGN, BINARY, DECLARATION, UNARY } = require('./kinds');

// A kind table has a line for each parent kind and in it a digit for each child kind.
const SIDE = 48;

const code = (text) => `\`${text}\``;
const UPDATE = ['++', '--'];

// By kind: the name, and where a node directly under it stands. A name may go by the form.
const WORDS = {
  [K.script]: ['a script', 'at the top of a script'],
  [K.block]: [`a block ${code('{ ... }')}`, 'directly in a block'],
  [K.empty]: [`an empty statement ${code(';')}`, null],
  [K.expression]: ['an expression as a statement', 'as a statement'],
  [K.declaration]: [({ form }) => code(DECLARATION[form]), 'in a declaration'],
  [K.declarator]: ['a declared name', ({ children }) => (children[0].text === null ? 'in a declaration' : `in the declaration of ${code(children[0].text)}`)],
  [K.function]: [`a ${code('function')} declaration`, 'in a function declaration'],
  [K.return]: [code('return'), `behind ${code('return')}`],
  [K.if]: [code('if'), `directly under ${code('if')}`],
  [K.while]: [code('while'), `directly under ${code('while')}`],
  [K.do]: [code('do'), `directly under ${code('do')}`],
  [K.for]: [code('for'), `directly under ${code('for')}`],
  [K.forIn]: [code('for ... in'), `directly under ${code('for ... in')}`],
  [K.forOf]: [code('for ... of'), `directly under ${code('for ... of')}`],
  [K.throw]: [code('throw'), `behind ${code('throw')}`],
  [K.try]: [code('try'), `directly under ${code('try')}`],
  [K.catch]: [code('catch'), `directly under ${code('catch')}`],
  [K.switch]: [code('switch'), `directly under ${code('switch')}`],
  [K.case]: [({ form }) => code(form ? 'case' : 'default'), ({ form }) => `directly under ${code(form ? 'case' : 'default')}`],
  [K.binding]: [({ text }) => `the name ${code(text)}`, null],
  [K.identifier]: [({ text }) => `the name ${code(text)}`, null],
  [K.null]: [code('null'), null],
  [K.boolean]: [({ form }) => code(form ? 'true' : 'false'), null],
  [K.number]: ['a number', null],
  [K.string]: ['a text', null],
  [K.this]: [code('this'), null],
  [K.array]: [`a list ${code('[ ... ]')}`, 'directly in a list'],
  [K.object]: [`an object ${code('{ ... }')}`, 'in an object'],
  [K.property]: [({ text }) => `a property ${code(text)}`, 'as the value of a property'],
  [K.unary]: [({ form }) => code(UNARY[form]), ({ form }) => `behind ${code(UNARY[form])}`],
  [K.update]: [({ form }) => code(UPDATE[form % 2]), ({ form }) => `with ${code(UPDATE[form % 2])}`],
  [K.binary]: [({ form }) => code(BINARY[form]), ({ form }) => `beside ${code(BINARY[form])}`],
  [K.assign]: [({ form }) => code(ASSIGN[form]), ({ form }) => `beside ${code(ASSIGN[form])}`],
  [K.conditional]: [code('? :'), `in ${code('? :')}`],
  [K.call]: ['a call', 'in a call'],
  [K.new]: [code('new'), `under ${code('new')}`],
  [K.member]: [({ text }) => `a member ${code(`.${text}`)}`, ({ text }) => `before ${code(`.${text}`)}`],
  [K.computed]: [`a member ${code('[ ... ]')}`, `in or before a member ${code('[ ... ]')}`],
  [K.functionExpression]: [`a ${code('function')} as a value`, `in a ${code('function')} that is a value`],
  [K.arrow]: [`an arrow function ${code('=>')}`, 'in an arrow function'],
  [K.parenthesis]: [`parentheses ${code('( ... )')}`, 'directly in parentheses'],
  [K.sequence]: [`a comma ${code(',')} between expressions`, `beside a comma ${code(',')}`],
  [K.break]: [code('break'), null],
  [K.continue]: [code('continue'), null],
  [K.objectPattern]: [`a pattern ${code('{ ... }')}`, `in a pattern ${code('{ ... }')}`],
  [K.arrayPattern]: [`a pattern ${code('[ ... ]')}`, `in a pattern ${code('[ ... ]')}`],
  [K.patternProperty]: [({ text }) => `the property ${code(text)} of a pattern`, 'in a property of a pattern'],
  [K.default]: [`a default ${code('=')}`, `beside a default ${code('=')}`],
};

const worded = (words, node) => (typeof words === 'function' ? words(node) : words);

// A node's name, and the words for where its children stand.
function nameOfConstruct(node) {
  const [name, under] = WORDS[node.kind];
  return { name: worded(name, node), under: worded(under, node) };
}

module.exports = { SIDE, nameOfConstruct };
