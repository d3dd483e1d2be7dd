// The printer's tree to text. What this printer does not know (parentheses kept as written, `??`, `new X` without a list)
// is handed to it as finished text with a precedence.
'use strict';

const escodegen = require('escodegen');

const OPTIONS = { format: { indent: { style: '  ' }, quotes: 'double' }, verbatim: 'finished' };
const { Precedence } = escodegen;

// Expressions that may not stand beside `??` without parentheses.
const LOOSER = new Set(['SequenceExpression', 'AssignmentExpression', 'ConditionalExpression', 'ArrowFunctionExpression']);

const finished = (content, precedence) => ({ type: 'Identifier', name: '', finished: { content, precedence } });

// A part that is printed as this text, which binds as tightly as a name.
const finishedText = (content) => finished(content, Precedence.Primary);

const isNode = (value) => value !== null && typeof value === 'object' && typeof value.type === 'string';
const isCoalesce = (node) => node.type === 'LogicalExpression' && node.operator === '??';

const text = (node) => escodegen.generate(node, OPTIONS);
const inParentheses = (node) => finished(`(${text(node)})`, Precedence.Primary);

function beside(operand, prepared, left) {
  const loose = LOOSER.has(operand.type) || (operand.type === 'LogicalExpression' && !(left && isCoalesce(operand)));
  return text(loose ? inParentheses(prepared) : prepared);
}

function coalesce(node, prepare) {
  const left = beside(node.left, prepare(node.left), true);
  const right = beside(node.right, prepare(node.right), false);
  return finished(`${left} ?? ${right}`, Precedence.LogicalOR);
}

// The grammar keeps `??` and `||` apart, whatever their precedence.
function logical(node, prepare) {
  const side = (operand) => (isCoalesce(operand) ? inParentheses(prepare(operand)) : prepare(operand));
  return { ...node, left: side(node.left), right: side(node.right) };
}

function bareNew(node, prepare) {
  const withList = text({ ...node, callee: prepare(node.callee) });
  return finished(withList.replace(/\(\)$/, ''), Precedence.Postfix);
}

// Between brackets anything may stand; below `new` the printer would put parentheses round calls there.
function indexed(node, prepare) {
  return { ...node, object: prepare(node.object), property: finished(text(prepare(node.property)), Precedence.Sequence) };
}

// What a printer or a parser may take for something else: `in` in a loop's head, a function before an operator.
const isRisky = (node) => node.operator === 'in' || node.type === 'FunctionExpression';

function preparer(cautious) {
  const every = (value) => (Array.isArray(value) ? value.map(every) : isNode(value) ? prepare(value) : value);
  const prepare = (node) => {
    if (node.type === 'ParenthesizedExpression') return inParentheses(prepare(node.expression));
    if (isCoalesce(node)) return coalesce(node, prepare);
    if (node.type === 'LogicalExpression') return logical(node, prepare);
    if (node.type === 'NewExpression' && node.bare) return bareNew(node, prepare);
    if (node.type === 'MemberExpression' && node.computed) return indexed(node, prepare);
    const made = Object.fromEntries(Object.entries(node).map(([key, value]) => [key, every(value)]));
    return cautious && isRisky(node) ? inParentheses(made) : made;
  };
  return prepare;
}

// `cautious` adds parentheses that are seldom needed.
function print(program, cautious = false) {
  const printed = text(preparer(cautious)(program));
  return printed === '' ? '' : `${printed}\n`;
}

module.exports = { finishedText, print };
