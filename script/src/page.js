// One static page for one script: the verdict, script and result side by side with every change marked, the variables, the refusals at their place.
'use strict';

const { documentOf, html, table, worded } = require('./html');
const { figure } = require('./limits');
const { STYLE } = require('./page_style');
const { rowsOf } = require('./rows');

const plural = (count, one, many = `${one}s`) => `${figure(count)} ${count === 1 ? one : many}`;

function countWords({ replaced, emptied, renamed, nodes, runs }) {
  const others = renamed ? `, ${plural(renamed, 'place')} with another name for a variable` : '';
  return `${plural(replaced, 'name')} replaced, ${plural(emptied, 'declaration')} emptied${others}; ${plural(nodes, 'node')}, ${plural(runs, 'run')} of the pass.`;
}

function verdictPart({ verdict, isWritten, counts }) {
  const level = verdict.level ? html`<p>Level: ${verdict.level}</p>` : '';
  const least = verdict.least ? html`<p>It is shown at another level: ${verdict.least}</p>` : '';
  const written = isWritten || !counts ? '' : html`<p>The result was held back: it is shown here to be looked at, and was not written.</p>`;
  const changed = counts ? html`<p>${countWords(counts)}</p>` : '';
  return html`<section class="verdict" aria-label="Verdict">
<p><strong><span class="sign" aria-hidden="true">${verdict.sign}</span> ${verdict.title}</strong></p>
<p class="short"><code>${verdict.summary}</code></p>
<p>${verdict.words}</p>${level}${least}${verdict.tests ? html`<p>${verdict.tests}</p>` : ''}${written}${changed}
</section>`;
}

// A part of a line; the number of a change stands behind its first part, and leads to its note.
function partHtml({ text, edit }, isResult, isFirst) {
  if (!edit) return html`${text}`;
  const mark = isFirst ? html`<sup><a href="#change-${edit.number}">${edit.number}</a></sup>` : '';
  if (!isResult) return html`<del>${text}</del>${mark}`;
  const isEmpty = edit.how === 'emptied' && edit.text === '';
  return isEmpty ? html`<ins class="empty">(emptied)</ins>${mark}` : html`<ins>${text}</ins>${mark}`;
}

function cellHtml(cell, isResult, seen) {
  return cell.map((part) => {
    const isFirst = part.edit && !seen.has(part.edit);
    if (part.edit) seen.add(part.edit);
    return partHtml(part, isResult, isFirst);
  });
}

function sideHtml(row, isResult, seen) {
  const [cell, line] = isResult ? [row.result, row.resultLine] : [row.script, row.scriptLine];
  const name = isResult ? 'result' : 'script';
  if (!cell) return html`<td class="at none ${name}"></td><td class="code none ${name}"></td>`;
  const sign = row.isSame ? '' : (isResult ? ' +' : ' −');
  return html`<td class="at ${name}">${line}${sign}</td><td class="code ${name}">${cellHtml(cell, isResult, seen)}</td>`;
}

const sentence = (text) => (/[.!?]$/.test(text) ? text : `${text}.`);
const begun = (text) => `${text[0].toUpperCase()}${text.slice(1)}`;

const changeNote = ({ number, note, why }) => html`<li id="change-${number}"><b>${number}</b> ${note}: ${sentence(why)}</li>`;

const SIGNS = { 'not shown': '?', different: '≠', 'put back': '↩', note: 'i' };

function placeNote({ line, variable, reason, kind }, { sign, status }) {
  const of = variable ? html` <code>${variable}</code>` : '';
  const where = line ? `, line ${line}` : '';
  return html`<li class="place"><b>${kind ? SIGNS[kind] ?? '?' : sign} ${kind ?? status}</b>${where}${of}: ${worded(sentence(reason))}</li>`;
}

function findingNote({ when, script, result }) {
  return html`<li class="finding"><b>≠</b> When ${when}: the script does <code>${script}</code>, the result <code>${result}</code>.</li>`;
}

function refusalNote({ line, column, message, hint }, { status }) {
  const place = line === null ? '' : html`, line ${line}, column ${column}`;
  return html`<li class="refusal"><b>✕ ${status}</b>${place}: ${worded(sentence(message))} ${hint ? worded(begun(sentence(hint))) : ''}</li>`;
}

// All that is told of a line of the script.
function notesOf(account, line) {
  const here = (list) => list.filter((one) => (one.shownAt ?? one.line) === line);
  return [
    ...here(account.refusals).map((refusal) => refusalNote(refusal, account.verdict)),
    ...here(account.verdict.places).map((place) => placeNote(place, account.verdict)),
    ...here(account.trials ? account.trials.findings : []).map(findingNote),
    ...here(account.changes).map(changeNote),
  ];
}

function rowHtml(row, account, seen) {
  const notes = row.scriptLine === null ? [] : notesOf(account, row.scriptLine);
  const told = notes.length ? html`<tr class="notes"><td colspan="4"><ul>${notes}</ul></td></tr>\n` : '';
  return html`<tr class="${row.isSame ? 'same' : 'changed'}" id="row-${row.number}">${sideHtml(row, false, seen.script)}${sideHtml(row, true, seen.result)}</tr>\n${told}`;
}

const headCells = (names) => names.map((name) => html`<th${name === 'Line' ? html` class="at"` : ''} scope="col">${name}</th>`);

const sidesTable = (names, lines) => html`<table class="sides"><thead><tr>${headCells(names)}</tr></thead>
<tbody>
${lines}</tbody></table>`;

const LEGEND = 'A line marked − is the script\'s, a line marked + the result\'s. Struck through is what went, underlined what came; '
  + 'the number leads to the note below the line.';

// The edits of a page carry the numbers of the account's changes.
function sidesPart(account, edits) {
  const numberedEdits = edits.map((edit, index) => ({ ...edit, number: index + 1 }));
  const rows = rowsOf(account.script, numberedEdits).map((row, index) => ({ ...row, number: index + 1 }));
  const seen = { script: new Set(), result: new Set() };
  const lines = rows.map((row) => rowHtml(row, account, seen));
  return html`<h2>Script and result, line by line</h2>
<p class="soft">${LEGEND}</p>
${sidesTable(['Line', 'Script', 'Line', 'Result'], lines)}`;
}

// A script without a result stands alone; what is told of its very end is told at its last line.
function scriptPart(account) {
  const rows = rowsOf(account.script, []);
  const refusals = account.refusals.map((one) => (one.line > rows.length ? { ...one, shownAt: rows.length } : one));
  const lines = rows.map(({ script, scriptLine }) => {
    const notes = notesOf({ ...account, refusals }, scriptLine);
    const told = notes.length ? html`<tr class="notes"><td colspan="2"><ul>${notes}</ul></td></tr>\n` : '';
    const sign = notes.length ? ' ✕' : '';
    const code = script.map(({ text }) => text);
    return html`<tr class="${sign ? 'changed' : 'same'}"><td class="at script">${scriptLine}${sign}</td><td class="code script">${code}</td></tr>\n${told}`;
  });
  return html`<h2>The script</h2>
${sidesTable(['Line', 'Script'], lines)}`;
}

// What has no line of its own.
function unplacedPart(account) {
  const notes = [
    ...account.refusals.filter(({ line }) => line === null).map((refusal) => refusalNote(refusal, account.verdict)),
    ...account.verdict.places.filter(({ line }) => !line).map((place) => placeNote(place, account.verdict)),
  ];
  return notes.length ? html`<ul>${notes}</ul>` : '';
}

const number = (name) => ({ name, number: true });

function variablesPart({ variables }) {
  if (!variables.length) return '';
  const heads = [{ name: 'Name' }, { name: 'What it is' }, number('Reads'), number('Replaced'), number('Left'), number('Emptied'), number('Counted')];
  const rows = variables.map(({ name, sort, line, reads, replaced, left, emptied, counted }) => {
    return [html`<code>${name}</code>`, `${sort}${line ? `, line ${line}` : ''}`, reads, replaced, left, emptied, counted === null ? '–' : figure(counted)];
  });
  const note = 'Counted: how often the pass put the value of a variable of the script\'s top in a name\'s place, in all its runs. Constants are not counted.';
  return html`<h2>Variables</h2>\n${table(heads, rows)}\n<p>${note}</p>`;
}

function limitsPart({ limits }) {
  if (!limits.length) return '';
  const rows = limits.map(({ words, count, most }) => [words, count > most ? `✕ ${figure(count)}` : figure(count), figure(most)]);
  return html`<h2>Room that the script takes</h2>\n${table([{ name: 'What is limited' }, number('Here'), number('At most')], rows)}`;
}

// `edits` are the result's edits in the script's text, null where there is no result; `home` leads to the index, if there is one.
function pageOf(account, edits, home = null) {
  const shown = edits ? sidesPart(account, edits) : (account.script === null ? '' : scriptPart(account));
  const parts = [
    home && html`<p><a href="${home}">All scripts</a></p>`,
    html`<h1>${account.file}</h1>`,
    verdictPart(account), unplacedPart(account), shown, variablesPart(account), limitsPart(account),
  ];
  return documentOf(`${account.file}: ${account.verdict.title}`, STYLE, html`${parts}`);
}

module.exports = { pageOf };
