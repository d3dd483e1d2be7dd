// What the brackets of a text tell where it cannot be parsed: one that is not closed, and where they are too deep in one another.
'use strict';

const acorn = require('acorn');

const CLOSING = { '(': ')', '[': ']', '{': '}', '${': '}' };
const CLOSERS = new Set(Object.values(CLOSING));

// The text's brackets up to where it cannot be read on.
function* bracketsOf(text, options) {
  try {
    for (const { type: { label }, loc } of acorn.tokenizer(text, options)) {
      if (CLOSING[label] || CLOSERS.has(label)) yield { label, at: loc.start };
    }
  } catch (error) {
    if (!(error instanceof SyntaxError)) throw error;
  }
}

// The innermost bracket that is open at the text's end, or that another one's partner closes; null where all are closed.
function unclosed(text, options) {
  const open = [];
  for (const bracket of bracketsOf(text, options)) {
    if (CLOSING[bracket.label]) open.push(bracket);
    else if (!open.length || CLOSING[open.at(-1).label] !== bracket.label) return open.at(-1) || null;
    else open.pop();
  }
  return open.at(-1) || null;
}

// The tokens of a text up to where it cannot be read on.
function tokensOf(text, options) {
  const tokens = [];
  try {
    for (const token of acorn.tokenizer(text, options)) tokens.push(token);
  } catch (error) {
    if (!(error instanceof SyntaxError)) throw error;
  }
  return tokens;
}

// The token at a place, as the script has it, and the one before it; null where none begins there.
function tokenAt(text, options, place) {
  const tokens = tokensOf(text, options);
  const index = tokens.findIndex(({ start }) => start === place);
  if (index < 0) return null;
  const written = ({ start, end }) => text.slice(start, end);
  return { token: written(tokens[index]), before: index ? { text: written(tokens[index - 1]), at: tokens[index - 1].loc.start } : null };
}

// Whether a place stands in braces that an arrow's body begins with and that have a name and a colon first: an object, most likely.
function isObjectBody(text, options, place) {
  const tokens = tokensOf(text, options).filter(({ start }) => start < place);
  const open = [];
  tokens.forEach(({ type: { label } }, index) => {
    if (CLOSING[label]) open.push(index);
    else if (CLOSERS.has(label)) open.pop();
  });
  const at = open.at(-1);
  const labels = [-1, 0, 1, 2].map((more) => (tokens[at + more] ? tokens[at + more].type.label : null));
  return labels[0] === '=>' && labels[1] === '{' && ['name', 'string', 'num'].includes(labels[2]) && labels[3] === ':';
}

// How deep brackets stand in one another, and the place of the first one past `most`.
function deepest(text, options, most) {
  let [depth, deep, place] = [0, 0, null];
  for (const { label, at } of bracketsOf(text, options)) {
    depth += CLOSING[label] ? 1 : -1;
    deep = Math.max(deep, depth);
    if (depth > most && !place) place = at;
  }
  return { deep, place };
}

module.exports = { deepest, isObjectBody, tokenAt, unclosed };
