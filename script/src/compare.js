// Script and result line by line as plain text, with a note for each replaced name and each emptied declaration.
'use strict';

const { rowsOf, textOf } = require('./rows');
const { visible } = require('./visible');

const oneLine = (text) => text.replace(/\s+/g, ' ').trim();

// What an edit did, in words.
function noteOf({ how, node, after, was, text }) {
  if (how === 'emptied') return `declaration of ${node.children[0].text} emptied, its value was ${oneLine(was)}`;
  if (how === 'renamed') return `${node.text} is now called ${after.text}`;
  return `${oneLine(was)} replaced by ${oneLine(text)}`;
}

function noteLine(edit) {
  const { line, column } = edit.node.at.loc.start;
  return `          ${line}:${column + 1} ${noteOf(edit)}`;
}

function rowText({ scriptLine, script, result, isSame, edits }) {
  const number = String(scriptLine ?? '').padStart(5);
  if (isSame) return [`${number}   ${textOf(script)}`.trimEnd()];
  const lines = [];
  if (script) lines.push(`${number} - ${textOf(script)}`.trimEnd());
  if (result) lines.push(`      + ${textOf(result)}`.trimEnd());
  return [...lines, ...edits.filter((edit) => edit.node.at.loc.start.line === scriptLine).map(noteLine)];
}

// How often the pass put the value of a variable of the script's top in a name's place: those of which it did, where the port tells it.
function countedLines(roots) {
  const told = roots.filter(({ counted }) => counted);
  return told.length ? ['', `replaced by the pass, in all runs: ${told.map(({ name, counted }) => `${name} ${counted}`).join(', ')}`] : [];
}

// `text` is the script's own text, `own` its edits, `roots` the variables of its top.
function compare(text, own, roots = []) {
  return `${[...rowsOf(text, own.edits).flatMap(rowText), ...countedLines(roots)].map(visible).join('\n')}\n`;
}

module.exports = { compare, noteOf };
