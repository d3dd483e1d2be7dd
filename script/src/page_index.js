// The index of a folder of pages: each script with its verdict and counts, the worst first.
'use strict';

const { documentOf, html, table } = require('./html');
const { STYLE } = require('./page_style');
const { levelsIn } = require('./short');
const { summaryOf, worstFirst } = require('./verdict');

const summary = (accounts) => summaryOf(accounts.map(({ verdict }) => verdict.status));

function rowOf({ account, link }) {
  const { verdict, counts } = account;
  const said = html`<span class="sign" aria-hidden="true">${verdict.sign}</span> ${verdict.summary}`;
  return [html`<a href="${link}">${account.file}</a>`, said, counts ? counts.replaced : '–', counts ? counts.emptied : '–'];
}

const HEADS = [{ name: 'Script' }, { name: 'Verdict' }, { name: 'Names replaced', number: true }, { name: 'Declarations emptied', number: true }];

// What the levels mean that the verdicts name.
function legendPart(accounts) {
  const levels = levelsIn(accounts.map(({ verdict }) => verdict.summary).join('\n'));
  return levels.map(({ name, words }) => html`<p class="soft"><code>--host=${name}</code>: ${words}</p>\n`);
}

// `entries` have an account and the link to its page. The worst verdicts stand first.
function indexOf(entries) {
  const accounts = entries.map(({ account }) => account);
  const sorted = [...entries].sort((one, other) => worstFirst(one.account.verdict.status, other.account.verdict.status));
  const body = html`<h1>Gate scripts and their results</h1>
<p>${accounts.length} ${accounts.length === 1 ? 'script' : 'scripts'}: ${summary(accounts)}.</p>
${table(HEADS, sorted.map(rowOf))}
${legendPart(accounts)}`;
  return documentOf('Gate scripts and their results', STYLE, body);
}

module.exports = { indexOf, summary };
