// What to write in the place of a construct, with the script's own names where these are short; otherwise an example.
'use strict';

const LONGEST = 100;

// A stretch of the script on one line.
const sourceOf = (node, text) => text.slice(node.start, node.end).replace(/\s+/g, ' ');

// Advice as long as the script's own parts is none.
const short = (made, otherwise) => (made.length <= LONGEST ? made : otherwise);

const isPure = (node) => ['Identifier', 'ThisExpression'].includes(node.type)
  || (node.type === 'MemberExpression' && isPure(node.object) && (!node.computed || isPure(node.property) || node.property.type === 'Literal'));

// ---- optional chaining

const inner = (node) => (node.type === 'MemberExpression' ? node.object : node.callee);
const isLink = (node) => node.type === 'MemberExpression' || node.type === 'CallExpression';

// A chain's links from the outside in, as far as the chain goes.
function linksOf(node) {
  return isLink(node) ? [node, ...linksOf(inner(node))] : [];
}

// A chain's text without its question marks.
function plainText(node, text) {
  if (node.type === 'CallExpression') return `${plainText(node.callee, text)}(${node.arguments.map((part) => sourceOf(part, text)).join(', ')})`;
  if (node.type !== 'MemberExpression') return sourceOf(node, text);
  const object = plainText(node.object, text);
  return node.computed ? `${object}[${sourceOf(node.property, text)}]` : `${object}.${sourceOf(node.property, text)}`;
}

// By the first link with a question mark: its name and an example.
function namedChain(link) {
  if (link.type === 'CallExpression') return ['an optional call `?.()`', 'a test: `open == null ? undefined : open()`'];
  return link.computed ? ['an optional index `?.[]`', 'a test: `list == null ? undefined : list[0]`'] : ['optional chaining `?.`', 'a test: `a == null ? undefined : a.b`'];
}

// Where a condition stands without parentheses.
const LOOSE = new Set([
  'VariableDeclarator', 'AssignmentExpression', 'CallExpression', 'ReturnStatement', 'ArrayExpression', 'Property', 'IfStatement', 'WhileStatement', 'ParenthesizedExpression',
]);

function chainText(chain, parent, text) {
  const tested = linksOf(chain.expression).filter((link) => link.optional).map(inner).reverse();
  const plain = plainText(chain.expression, text);
  if (tested.length === 1 && !isPure(tested[0])) {
    const value = plainText(tested[0], text);
    return `\`var it = ${value};\` before it, and \`it == null ? undefined : it${plain.slice(value.length)}\` there`;
  }
  if (!tested.every(isPure)) return 'a variable for each step, and a test of each: `var it = a == null ? undefined : a.b();`';
  const tests = (sign, joined) => tested.map((part) => `${plainText(part, text)} ${sign} null`).join(joined);
  if (parent && parent.type === 'ExpressionStatement') return `\`if (${tests('!=', ' && ')}) ${plain};\``;
  if (parent && parent.type === 'UnaryExpression' && parent.operator === 'delete') return `\`if (${tests('!=', ' && ')}) delete ${plain};\``;
  const whole = `${tests('==', ' || ')} ? undefined : ${plain}`;
  return parent && LOOSE.has(parent.type) ? `\`${whole}\`` : `\`(${whole})\``;
}

function ofChain(node, parent, text) {
  const [name, example] = namedChain(linksOf(node.expression).filter((link) => link.optional).at(-1));
  return [name, short(chainText(node, parent, text), example)];
}

// ---- spread

// Lists of a call or an array, joined: [a, ...b, c] is [a].concat(b, [c]).
function joined(parts, text) {
  const lists = [];
  for (const part of parts) {
    if (part.type === 'SpreadElement') lists.push(sourceOf(part.argument, text));
    else if (lists.length && lists.at(-1).endsWith(']\u0000')) lists.push(`${lists.pop().slice(0, -2)}, ${sourceOf(part, text)}]\u0000`);
    else lists.push(`[${sourceOf(part, text)}]\u0000`);
  }
  const [first, ...rest] = lists.map((list) => list.replace(/\u0000$/, ''));
  const start = /^[\w$.[\]]+$/.test(first) || first.startsWith('[') ? first : `(${first})`;
  return rest.length ? `${start}.concat(${rest.join(', ')})` : first;
}

function calledWith({ callee, arguments: parts }, text) {
  const list = joined(parts, text);
  if (callee.type === 'Identifier') return `\`${callee.name}.apply(null, ${list})\``;
  return isPure(callee) ? `\`${sourceOf(callee, text)}.apply(${sourceOf(callee.object, text)}, ${list})\`` : '`apply`: `gate.set.apply(gate, list)`';
}

const copied = (list) => (/^\[/.test(list) ? list : `${list}.slice()`);

// By where it stands: in a call, behind `new`, in a list, in an object.
function ofSpread(node, parent, text) {
  if (parent.type === 'CallExpression') return ['spread in a call', short(calledWith(parent, text), '`apply`: `f.apply(null, list)`')];
  if (parent.type === 'NewExpression') return ['spread behind `new`', `each value by itself: \`${short(`new ${sourceOf(parent.callee, text)}`, 'new Gate')}(list[0], list[1])\``];
  if (parent.type === 'ArrayExpression') {
    const list = joined(parent.elements.filter(Boolean), text);
    return ['spread in a list', short(`\`${parent.elements.length === 1 ? copied(list) : list}\``, '`concat`: `[first].concat(list)`')];
  }
  const parts = parent.properties.map((part) => (part.type === 'SpreadElement' ? sourceOf(part.argument, text) : `{${sourceOf(part, text)}}`));
  return ['spread in an object', short(`\`Object.assign({}, ${parts.join(', ')})\``, '`Object.assign({}, tide, {level: 1})`')];
}

// ---- parameters and bodies

function ofRestParameter(node, parent, text) {
  const before = parent.params.slice(0, -1);
  if (parent.type !== 'ArrowFunctionExpression') return ['a rest parameter', `\`arguments\`, from \`arguments[${before.length}]\` on`];
  const params = before.map((param) => sourceOf(param, text)).join(', ');
  const name = short(`\`function (${params}) { ... }\``, '`function () { ... }`');
  return ['a rest parameter of an arrow', `${name} with \`arguments[${before.length}]\` and on (an arrow has no \`arguments\` of its own), or a list as its last parameter`];
}

// `=> {open: 1}`: what should be an object is a block with a label.
function ofLabel(node, parent, text, before) {
  const isFirst = parent && parent.type === 'BlockStatement' && parent.body[0] === node && node.body.type === 'ExpressionStatement';
  if (isFirst && before && before.type === 'ArrowFunctionExpression') return ['a label', `parentheses round the object that an arrow gives: ${short(`\`=> (${sourceOf(parent, text)})\``, '`=> ({level: 1})`')}`];
  return ['a label', 'a function that is left by `return`, or a variable that the outer loop tests'];
}

module.exports = { ofChain, ofLabel, ofRestParameter, ofSpread };
