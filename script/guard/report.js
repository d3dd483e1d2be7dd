// What the guard found, for a person: class, statement, and the concrete values that show it.
'use strict';

const { K } = require('../src/kinds');
const { estreeOf } = require('../src/from_tree');
const { DOCS } = require('../src/name');
const { print } = require('../src/print');

const LONGEST = 90;

function oneLine(text) {
  const line = text.replace(/\s+/g, ' ').trim();
  return line.length > LONGEST ? `${line.slice(0, LONGEST - 4)} ...` : line;
}

const shownNode = (node) => oneLine(print(estreeOf(node)));
const source = (node, text) => oneLine(text.slice(node.at.start, node.at.end));

function valueLine({ read, node, inPlace }, text) {
  if (!read) return [];
  const now = inPlace ? shownNode(inPlace) : node.text;
  return [`    ${source(node, text)} is ${read.script} in the script; ${now} in its place is ${read.result} in the result`];
}

const classOf = ({ number, title }) => (number ? `${title} (class ${number} of ${DOCS}/DIFFERENCES.md)` : `no class of ${DOCS}/DIFFERENCES.md fits`);

// `about` has the script's name and text.
function findingLines(finding, { name, text }) {
  const { line, column } = finding.node.at.loc.start;
  const kept = finding.node.kind === K.script ? [] : [`    script:  ${source(finding.statement, text)}`];
  const after = finding.after && finding.after.kind !== K.script ? [`    result:  ${shownNode(finding.after)}`] : [];
  const entered = finding.entered ? [`    when ${finding.entered.text}:`] : ['    when the script is run:'];
  return [
    `${name}:${line}:${column + 1}: the result does something else: ${classOf(finding)}`,
    ...kept, ...after, ...valueLine(finding, text), ...entered,
    `      the script:  ${oneLine(finding.shown.script)}`,
    `      the result:  ${oneLine(finding.shown.result)}`,
  ];
}

module.exports = { findingLines };
