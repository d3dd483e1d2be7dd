// The line of a place with a caret below it, and a trouble in full: place, what is wrong, the line, what to do.
'use strict';

const { LINE_END } = require('./rows');
const { visible } = require('./visible');

const WIDEST = 100;

// A long line is cut round the place.
function cut(line, column) {
  if (line.length <= WIDEST) return { shown: line, column };
  const from = Math.max(0, Math.min(column - WIDEST / 2, line.length - WIDEST));
  const shown = `${from ? '...' : ''}${line.slice(from, from + WIDEST)}${from + WIDEST < line.length ? '...' : ''}`;
  return { shown, column: column - from + (from ? 3 : 0) };
}

// Two lines: the text of the place's line, and the caret.
function frame(text, { line, column }) {
  const own = text.split(LINE_END)[line - 1];
  if (own === undefined) return [];
  const { shown, column: at } = cut(own.replace(/\t/g, ' '), Math.min(column, own.length));
  const number = String(line);
  // What is written out is longer than it was.
  const before = visible(shown.slice(0, at)).length;
  return [`    ${number} | ${visible(shown)}`.trimEnd(), `    ${' '.repeat(number.length)} | ${' '.repeat(before)}^`];
}

// All lines of a script's trouble; `text` is null where the script could not be read.
function troubleLines(error, file, text) {
  const heads = error.lines(file);
  return error.findings.flatMap(({ at, hint }, index) => [
    heads[index],
    ...(at && text !== null ? frame(text, at) : []),
    ...(hint ? [visible(`  ${hint}`)] : []),
  ]);
}

module.exports = { frame, troubleLines };
