// One line that is not shown, explained: script and result beside each other, what is in the way, what would have to hold, and the smallest rewrite
// that was found with which it is shown.
'use strict';

const { checkResult } = require('../same/check');
const { LEVELS } = require('../same/levels');
const { build } = require('./build');
const { rewritesFor } = require('./rewrites');
const { rowsOf, textOf } = require('./rows');
const { ScriptTrouble, UsageTrouble } = require('./trouble');

const WIDEST = 64;

const lineOf = ({ at }) => (at ? at.line : null);

// Those of the line; of a variable named there all, wherever they are.
function concerned(findings, line) {
  const here = findings.filter((finding) => lineOf(finding) === line);
  const names = new Set(here.map(({ identity }) => identity).filter(Boolean));
  return { here, all: findings.filter((finding) => here.includes(finding) || names.has(finding.identity)), names };
}

function besideLines(text, edits, lines) {
  const rows = rowsOf(text, edits).filter(({ scriptLine }) => scriptLine !== null && lines.has(scriptLine));
  const plain = (cell) => (textOf(cell) ?? '').replace(/\t/g, '  ');
  const cells = rows.map(({ scriptLine, script, result }) => ({ number: String(scriptLine).padStart(5), script: plain(script), result: plain(result) }));
  const width = Math.max(6, ...cells.map(({ script }) => script.length));
  if (width > WIDEST) return cells.flatMap(({ number, script, result }) => [`${number} script | ${script}`, `      result | ${result}`]);
  return [`      ${'script'.padEnd(width)} | result`, ...cells.map(({ number, script, result }) => `${number} ${script.padEnd(width)} | ${result}`.trimEnd())];
}

// The least level beyond the chosen one at which nothing of these variables is found any more.
function levelFor(root, tree, level, names) {
  const later = LEVELS.slice(LEVELS.findIndex(({ name }) => name === level) + 1);
  return later.find(({ name }) => !checkResult(root, tree, name).findings.some(({ identity, at }) => names.has(identity) || (!names.size && at))) || null;
}

function holdsLines(root, tree, level, names) {
  const least = levelFor(root, tree, level, names);
  return least ? [`  of the host, that it is ${least.words} (--host=${least.name})`] : ['  that nothing of what is told above happens; no level of --host says so'];
}

// What a rewrite makes of the script: is the place shown, and the whole?
function outcomeOf(text, level, names) {
  try {
    const { root, answer } = build(text, {});
    const { shown, findings } = checkResult(root, answer.tree, level);
    return { shown, isGone: !findings.some(({ name }) => names.has(name)), left: findings.length };
  } catch (error) {
    if (error instanceof ScriptTrouble) return { shown: false, isGone: false, left: 0 };
    throw error;
  }
}

// The first, in the order of how much they change, with which none of the names is found.
function smallest(rewrites, level, names) {
  for (const rewrite of rewrites) {
    const outcome = outcomeOf(rewrite.text, level, names);
    if (outcome.isGone) return { ...rewrite, ...outcome };
  }
  return null;
}

function rewriteLines(found, before) {
  if (!found) return ['  none of those that are tried here is shown; --keep-shown leaves the variable as the script has it'];
  const after = found.shown ? 'with it the whole result is shown' : `with it this is shown; ${found.left} of ${before} places stay`;
  return [...found.lines.flatMap(({ line, was, now }) => [`  ${String(line).padStart(3)} - ${was.trim()}`, `      + ${now.trim()}`]), `  ${found.words}; ${after}`];
}

function checkLine(name, text, line) {
  const count = Math.max(1, rowsOf(text, []).length);
  if (line > count) throw new UsageTrouble(`--explain ${name}:${line}: the script ends on line ${count}`);
}

// `judged` is the judge's word on the result, `own` its text and edits.
function explained({ name, text, root, answer, judged, own }, line) {
  checkLine(name, text, line);
  const { level, findings } = judged.check;
  const { here, all, names } = concerned(findings, line);
  const seen = judged.outcome ? judged.outcome.findings.filter(({ node }) => node.at.loc.start.line === line) : [];
  if (!here.length && !seen.length) {
    const others = [...new Set(findings.map(lineOf).filter(Boolean))].sort((a, b) => a - b);
    const elsewhere = others.length ? `; lines that are not shown: ${others.join(', ')}` : '';
    return [`${name}:${line}: nothing stands against this line at --host=${level}${elsewhere}`];
  }
  const lines = new Set([line, ...all.map(lineOf).filter(Boolean)]);
  const variables = new Set(all.map((finding) => finding.name).filter(Boolean));
  const rewrites = variables.size ? rewritesFor(root, text, names, line) : [];
  return [
    `${name}:${line}: ${seen.length ? 'the result does something else' : `not shown at --host=${level}`}`,
    '', ...besideLines(text, own.edits, lines),
    '', 'in the way:', ...seen.flatMap((finding) => finding.lines.slice(1)),
    ...all.map((finding) => `  line ${lineOf(finding)}${finding.name ? `, \`${finding.name}\`` : ''}: ${finding.reason}`),
    '', 'what would have to hold:', ...holdsLines(root, judged.tree, level, names),
    '', 'the smallest rewrite that is shown:', ...rewriteLines(smallest(rewrites, level, variables), findings.length),
  ];
}

module.exports = { explained };
