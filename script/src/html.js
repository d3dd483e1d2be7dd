// HTML from texts: what is not made by these functions is escaped, and what would turn the order of what is read is written out.
'use strict';

const { visible } = require('./visible');

const ENTITIES = { '&': '&amp;', '<': '&lt;', '>': '&gt;', '"': '&quot;', "'": '&#39;' };

const escaped = (text) => visible(text).replace(/[&<>"']/g, (sign) => ENTITIES[sign]);

// Finished HTML, which is not escaped again.
class Html {
  constructor(text) {
    this.text = text;
  }

  toString() {
    return this.text;
  }
}

function part(value) {
  if (value === null || value === undefined || value === false) return '';
  if (Array.isArray(value)) return value.map(part).join('');
  return value instanceof Html ? value.text : escaped(value);
}

// A template whose values are escaped, but for HTML and lists of it.
const html = (strings, ...values) => new Html(strings.reduce((made, string, index) => made + part(values[index - 1]) + string));

// Words in which a script's own text stands in backquotes.
const worded = (text) => text.split(/`([^`]*)`/).map((part, index) => (index % 2 ? html`<code>${part}</code>` : part));

// A plain table: heads are names of columns, `number` saying that a column has numbers; rows are lists of cells.
function table(heads, rows) {
  const sort = (index) => (heads[index].number ? ' class="number"' : '');
  const head = ({ name }, index) => new Html(`<th${sort(index)} scope="col">${escaped(name)}</th>`);
  // On a phone a number has its column's name beside it.
  const named = (index) => (heads[index].number ? ` data-head="${escaped(heads[index].name)}"` : '');
  const cell = (value, index) => new Html(`<td${sort(index)}${named(index)}>${part(value)}</td>`);
  const lines = rows.map((row) => html`<tr>${row.map(cell)}</tr>\n`);
  return html`<table class="plain"><thead><tr>${heads.map(head)}</tr></thead>
<tbody>
${lines}</tbody></table>`;
}

// A whole page, which loads nothing: style and text stand in it.
function documentOf(title, style, body) {
  return `<!DOCTYPE html>
<html lang="en">
<head>
<meta charset="utf-8">
<meta name="viewport" content="width=device-width, initial-scale=1">
<meta name="color-scheme" content="light dark">
<meta http-equiv="Content-Security-Policy" content="default-src 'none'; style-src 'unsafe-inline'">
<title>${escaped(title)}</title>
<style>
${style}</style>
</head>
<body>
${body}
</body>
</html>
`;
}

module.exports = { documentOf, html, table, worded };
