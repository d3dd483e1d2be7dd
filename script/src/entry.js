// One of many scripts: what came of it, as plain data. No error on a script ends the round, but one that all of them would have.
'use strict';

const path = require('path');
const { refusedAccount } = require('./account');
const { troubleLines } = require('./frame');
const { nameOf, readScript } = require('./input');
const { pageOf } = require('./page');
const { runOne } = require('./run_one');
const { shortTrouble } = require('./short');
const { findingsOf, sortOfError } = require('./status');
const { ScriptTrouble } = require('./trouble');
const { statusOf, withoutVerdict } = require('./verdict');

const refusalOf = ({ at, message, hint = null }) => ({ line: at ? at.line : null, column: at ? at.column + 1 : null, message, hint });

// A page can be sent to others: a script's name on it is that in the folder that the command runs in, or, of another place, that in its own folder.
function nameOnPage({ file, inside }) {
  if (!path.isAbsolute(file)) return nameOf(file);
  const below = path.relative(process.cwd(), file);
  return below.startsWith('..') ? inside : below;
}

const onPage = ({ account, ...script }) => ({ ...account, file: nameOnPage(script) });

// What is asked for beside the result: the account for JSON and index, and the page.
function shown({ page, format }, account, edits, script) {
  const made = page !== undefined || format ? account() : null;
  return { account: made, page: page === undefined ? null : pageOf(onPage({ ...script, account: made }), edits(), script.home) };
}

// A script that has no result, with what is said of it.
function withoutResult(script, error, text, options) {
  const name = nameOf(script.file);
  const [sort, findings] = [sortOfError(error), findingsOf(error)];
  const status = statusOf(sort);
  const short = shortTrouble(status, findings);
  const account = () => refusedAccount(name, text, findings.map(refusalOf), withoutVerdict(status, short));
  const trouble = new ScriptTrouble(findings);
  const more = shown(options, account, () => null, script);
  return { ...script, name, sort, status, short, lines: trouble.lines(name), told: troubleLines(trouble, name, text), content: null, ...more };
}

function withResult(script, name, { content, lines, short, sort, account, edits }, options) {
  return { ...script, name, sort, status: statusOf(sort), short, lines, told: lines, content, ...shown(options, account, edits, script) };
}

// `script` has the file, its name in its folder, and the way from its page to the index, if there is one. `lines` are one for each place, `told` has
// excerpts and advice beside them.
function entryOf(script, options) {
  const name = nameOf(script.file);
  let text = null;
  try {
    text = readScript(script.file, script.isOdd);
    return withResult(script, name, runOne(text, name, { ...options, output: 'result' }), options);
  } catch (error) {
    return withoutResult(script, error, text, options);
  }
}

module.exports = { entryOf, onPage, withoutResult };
