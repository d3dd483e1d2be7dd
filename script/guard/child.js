// The guard as a program of its own: a script and its result on standard input as JSON, what was found on standard output.
'use strict';

const fs = require('fs');
const { writeAll } = require('../src/descriptor');
const { treeOfText } = require('../src/to_tree');
const { guard, variableOf } = require('./guard');
const { findingLines } = require('./report');

// Contexts and numbers are whole numbers of 64 bits, which JSON does not have.
const revived = (node) => ({ ...node, bits: BigInt(node.bits), children: node.children.map(revived) });

// A finding without its trees: its place, what it was told from, and its lines.
function plainFinding(finding, about) {
  const { number, title, shown, entered } = finding;
  const { text, at } = finding.node;
  const node = { text, at: { loc: { start: at.loc.start } } };
  return { number, title, shown, entered, node, variable: variableOf(finding), lines: findingLines(finding, about) };
}

function answerTo({ name, text, tree, ...options }) {
  const { findings, ...outcome } = guard(treeOfText(text), revived(tree), options);
  return { ...outcome, findings: findings.map((finding) => plainFinding(finding, { name, text })) };
}

writeAll(1, Buffer.from(JSON.stringify(answerTo(JSON.parse(fs.readFileSync(0, 'utf8'))))));
