// Script and result line by line, side by side: the script's text cut at line ends and at the edits made in it.
'use strict';

const LINE_END = /\r\n|[\n\r\u2028\u2029]/;

// Stretches of the text: kept ones with `edit` null, and one for each edit.
function stretchesOf(text, edits) {
  const stretches = [];
  let at = 0;
  for (const edit of edits) {
    stretches.push({ edit: null, script: text.slice(at, edit.start), result: text.slice(at, edit.start) });
    stretches.push({ edit, script: text.slice(edit.start, edit.end), result: edit.text });
    at = edit.end;
  }
  return [...stretches, { edit: null, script: text.slice(at), result: text.slice(at) }];
}

// One side's lines: for each row the parts of a line, null where the side has no line in that row.
class Side {
  constructor() {
    this.row = 0;
    this.cells = [[]];
  }

  add(text, edit) {
    this.cells[this.row].push({ text, edit });
  }

  next(row) {
    while (this.cells.length < row) this.cells.push(null);
    this.cells.push([]);
    this.row = row;
  }
}

function addKept(script, result, text) {
  text.split(LINE_END).forEach((part, index) => {
    if (index) {
      const row = Math.max(script.row, result.row) + 1;
      script.next(row);
      result.next(row);
    }
    if (part === '') return;
    script.add(part, null);
    result.add(part, null);
  });
}

function addEdited(side, text, edit) {
  text.split(LINE_END).forEach((part, index) => {
    if (index) side.next(side.row + 1);
    side.add(part, edit);
  });
}

const textOf = (cell) => (cell ? cell.map((part) => part.text).join('') : null);

// Numbers the lines of both sides; a text's last line end begins no further line.
function numbered(script, result) {
  const count = Math.max(script.cells.length, result.cells.length);
  const last = { script: 0, result: 0 };
  const rows = Array.from({ length: count }, (_, index) => {
    const [left, right] = [script.cells[index] ?? null, result.cells[index] ?? null];
    const edits = [...new Set((left || []).map((part) => part.edit).filter(Boolean))];
    return {
      script: left, result: right, edits, isSame: textOf(left) === textOf(right),
      scriptLine: left ? ++last.script : null, resultLine: right ? ++last.result : null,
    };
  });
  const end = rows.at(-1);
  return textOf(end.script) === '' && textOf(end.result) === '' ? rows.slice(0, -1) : rows;
}

// Rows with each side's parts and line number, and the edits that begin or go on in the script's line.
function rowsOf(text, edits) {
  const [script, result] = [new Side(), new Side()];
  for (const stretch of stretchesOf(text, edits)) {
    if (!stretch.edit) addKept(script, result, stretch.script);
    else {
      addEdited(script, stretch.script, stretch.edit);
      addEdited(result, stretch.result, stretch.edit);
    }
  }
  return numbered(script, result);
}

module.exports = { LINE_END, rowsOf, textOf };
