// What --json tells, in the forms that other programs read: SARIF for code scanners, JUnit for builds, and the lines of compilers for editors.
'use strict';

const path = require('path');
const { LEVELS } = require('../same/levels');
const { visible, visibleJson } = require('./visible');
const { VERSION } = require('./version');

// By the kind of what is told: how grave it is, and what it means.
const KINDS = {
  failed: { level: 'error', words: 'The tool itself has failed on the script.' },
  'not read': { level: 'error', words: 'The file cannot be read as a script.' },
  refused: { level: 'error', words: 'The script has something in it that cannot be built, or is too long.' },
  different: { level: 'error', words: 'A run was found in which the result does something else than the script.' },
  'not shown': { level: 'warning', words: 'It is not shown that the result does what the script does.' },
  'put back': { level: 'note', words: 'A change that is not shown was left out of the result.' },
  note: { level: 'note', words: 'What a person should know of script and result.' },
};

const GOOD = new Set(['shown', 'unchanged', 'accepted']);

// All that is told of one script: { kind, line, column, text }, line and column null where it has no place.
function tellingsOf({ verdict, refusals }) {
  const kind = verdict.status;
  const refused = refusals.map(({ line, column, message, hint }) => ({ kind, line, column, text: hint ? `${message}; ${hint}` : message }));
  const places = verdict.places.map(({ line, column, variable, reason, kind: own }) => ({ kind: own ?? kind, line, column, text: variable ? `\`${variable}\`: ${reason}` : reason }));
  const all = [...refused, ...places];
  const isTold = GOOD.has(kind) || all.some((one) => one.kind === kind);
  return isTold ? all : [{ kind, line: null, column: null, text: verdict.summary }, ...all];
}

const idOf = (kind) => kind.replace(' ', '-');

// A file's name as a reference; one that is absolute names the machine's own file.
function uriOf(file) {
  const parts = file.split(path.sep).map(encodeURIComponent).join('/');
  return path.isAbsolute(file) ? `file://${parts}` : parts;
}

function sarifResult({ file }, { kind, line, column, text }) {
  const region = line === null || line === undefined ? {} : { region: { startLine: line, startColumn: column ?? 1 } };
  const physicalLocation = { artifactLocation: { uri: uriOf(file) }, ...region };
  return { ruleId: idOf(kind), level: KINDS[kind].level, message: { text }, locations: [{ physicalLocation }] };
}

const sarifRule = ([kind, { level, words }]) => ({ id: idOf(kind), shortDescription: { text: words }, defaultConfiguration: { level } });

function sarifOf(accounts) {
  const driver = { name: 'negbosun', semanticVersion: VERSION, rules: Object.entries(KINDS).map(sarifRule) };
  const results = accounts.flatMap((account) => tellingsOf(account).map((telling) => sarifResult(account, telling)));
  const run = { tool: { driver }, columnKind: 'utf16CodeUnits', results };
  return `${visibleJson(JSON.stringify({ $schema: 'https://json.schemastore.org/sarif-2.1.0.json', version: '2.1.0', runs: [run] }, null, 2))}\n`;
}

const ENTITIES = { '&': '&amp;', '<': '&lt;', '>': '&gt;', '"': '&quot;' };
const xml = (text) => visible(text).replace(/[&<>"]/g, (sign) => ENTITIES[sign]);

const lineOf = ({ file }, { kind, line, column, text }) => `${line ? `${file}:${line}:${column ?? 1}` : file}: ${kind}: ${text}`;

// A script that has no result, or none that may be written, has failed: with an error where it could not be built at all.
function junitCase(account) {
  const { file, verdict } = account;
  const head = `<testcase classname="negbosun" name="${xml(file)}"`;
  if (GOOD.has(verdict.status)) return `    ${head}/>\n`;
  const tag = verdict.status === 'different' || verdict.status === 'not shown' ? 'failure' : 'error';
  const lines = tellingsOf(account).map((telling) => xml(lineOf(account, telling))).join('\n');
  return `    ${head}>\n      <${tag} type="${idOf(verdict.status)}" message="${xml(verdict.summary)}">${lines}</${tag}>\n    </testcase>\n`;
}

function junitOf(accounts) {
  const cases = accounts.map(junitCase);
  const count = (tag) => cases.filter((one) => one.includes(`<${tag} `)).length;
  const counts = `tests="${cases.length}" failures="${count('failure')}" errors="${count('error')}"`;
  return `<?xml version="1.0" encoding="UTF-8"?>\n<testsuites ${counts}>\n  <testsuite name="negbosun" ${counts} skipped="0">\n${cases.join('')}  </testsuite>\n</testsuites>\n`;
}

// As compilers write: FILE:LINE:COLUMN: SEVERITY: TEXT, which editors take apart. What has no place is told at the file's beginning.
function gccOf(accounts) {
  return accounts.flatMap((account) => tellingsOf(account).map(({ kind, line, column, text }) =>
    `${visible(`${account.file}:${line ?? 1}:${column ?? 1}: ${KINDS[kind].level}: ${text} [${idOf(kind)}]`)}\n`)).join('');
}

// What the levels mean stands once, the verdicts name them.
function jsonOf(accounts) {
  const levels = Object.fromEntries(LEVELS.map(({ name, words }) => [name, words]));
  return `${visibleJson(JSON.stringify({ version: VERSION, levels, scripts: accounts }, null, 2))}\n`;
}

const FORMATS = { json: jsonOf, sarif: sarifOf, junit: junitOf, gcc: gccOf };

module.exports = { FORMATS };
