// A mill's own kind table: its 48 lines, and where a script has what it forbids.
'use strict';

const fs = require('fs');
const { SIDE, nameOfConstruct } = require('./constructs');
const { UsageTrouble } = require('./trouble');

// What is no table, with line and column.
function problemOf(lines) {
  for (let index = 0; index < Math.max(lines.length, SIDE); index++) {
    const line = lines[index];
    const told = (column, words) => `line ${index + 1}, column ${column}: ${words}`;
    if (line === undefined || index >= SIDE) return told(1, `${lines.length} lines, where a table has ${SIDE}`);
    const characters = [...line];
    const wrong = characters.slice(0, SIDE).findIndex((digit) => digit !== '0' && digit !== '1');
    if (wrong >= 0) return told(wrong + 1, `${JSON.stringify(characters[wrong])}, where 0 or 1 belongs`);
    if (characters.length !== SIDE) return told(Math.min(characters.length, SIDE) + 1, `${characters.length} digits, where a line has ${SIDE}`);
  }
  return null;
}

class KindTable {
  constructor(file, lines) {
    this.file = file;
    this.lines = lines;
  }

  allows(parent, child) { return this.lines[parent - 1][child - 1] === '1'; }

  // Whether a kind may stand under some other one.
  allowsSomewhere(child) { return this.lines.some((line) => line[child - 1] === '1'); }

  // The first node, in the file's order, that stands under a parent under which it may not: { node, parent }; null where there is none.
  firstForbidden(root) {
    const left = [{ node: root, parent: null }];
    while (left.length) {
      const { node, parent } = left.pop();
      if (parent && !this.allows(parent.kind, node.kind)) return { node, parent };
      for (let index = node.children.length - 1; index >= 0; index--) left.push({ node: node.children[index], parent: node });
    }
    return null;
  }
}

// The table of a file; `option` is what named it, in messages.
function readKindTable(file, option = '--kinds') {
  let text = null;
  try {
    text = fs.readFileSync(file, 'utf8');
  } catch (error) {
    throw new UsageTrouble(`${option} ${file}: ${error.code === 'ENOENT' ? 'no such file' : error.message}`);
  }
  const lines = text.split(/\r?\n/);
  if (lines.at(-1) === '') lines.pop();
  const problem = problemOf(lines);
  if (problem) throw new UsageTrouble(`${option} ${file}: no kind table: ${problem}`);
  return new KindTable(file, lines);
}

// What the table forbids there, in words with the line: all of a kind, or the kind under another one.
function forbiddenWords(table, { node, parent }) {
  const under = table.allowsSomewhere(node.kind) ? ` ${nameOfConstruct(parent).under}` : '';
  return `${nameOfConstruct(node).name}${under} is not allowed at this mill, line ${node.at.loc.start.line}`;
}

module.exports = { forbiddenWords, readKindTable };
