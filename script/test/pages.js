// Tests of the pages: their text and marks as written, and as a browser has them where there is one.
'use strict';

const assert = require('assert');
const { readOptions } = require('../src/options');
const { pageOf } = require('../src/page');
const { indexOf, summary } = require('../src/page_index');
const { refusedAccount } = require('../src/account');
const { runOne } = require('../src/run_one');
const { verdictOf, verdictOfCheck } = require('../src/verdict');
const { sampleText, samples } = require('./files');
const { each } = require('./harness');

const OPTIONS = readOptions(['--no-guard', '--accept', 'x.js']);
const ENTITIES = { '&amp;': '&', '&lt;': '<', '&gt;': '>', '&quot;': '"', '&#39;': "'" };

const plain = (html) => html.replace(/<[^>]*>/g, '').replace(/&(amp|lt|gt|quot|#39);/g, (sign) => ENTITIES[sign]);
const all = (html, pattern) => [...html.matchAll(pattern)].map((match) => match[1]);

function made(name, text) {
  const { account, edits } = runOne(text, name, OPTIONS);
  return { account: account(), edits: edits(), page: pageOf(account(), edits(), 'index.html') };
}

// One side's lines, without what the page adds: numbers of changes and the word for an emptied value.
function sideText(page, side) {
  const cells = all(page, new RegExp(`<td class="code ${side}">([^]*?)</td>`, 'g'));
  return cells.map((cell) => plain(cell.replace(/<sup>.*?<\/sup>/g, '').replace(/<ins class="empty">.*?<\/ins>/g, ''))).join('\n');
}

// Both sides are script and result, and each change is marked on both sides and told once.
function checkPage(name) {
  const { account, page } = made(name, sampleText(name));
  assert.strictEqual(sideText(page, 'script'), account.script.trimEnd());
  assert.strictEqual(sideText(page, 'result'), account.result.trimEnd());
  for (const { number, note } of account.changes) {
    assert.strictEqual(page.split(`href="#change-${number}"`).length, 3, `change ${number} is not marked twice`);
    assert.strictEqual(page.split(`<li id="change-${number}">`).length, 2, `change ${number} is not told once`);
    assert.ok(plain(page).includes(note), note);
  }
  assert.strictEqual(all(page, /(<del>)/g).length, account.changes.length);
  assert.ok(plain(page).includes(account.verdict.title));
}

function checkCounts(name) {
  const { account, page } = made(name, sampleText(name));
  const rows = all(page, /<tr><td><code>([^]*?)<\/tr>/g).map(plain);
  for (const { name: variable, sort, line, reads, replaced, left, emptied, counted } of account.variables) {
    assert.ok(rows.includes(`${variable}${sort}${line ? `, line ${line}` : ''}${reads}${replaced}${left}${emptied}${counted ?? '–'}`), variable);
  }
  const sum = (key) => account.variables.reduce((total, variable) => total + variable[key], 0);
  assert.deepStrictEqual([sum('replaced'), sum('emptied')], [account.counts.replaced, account.counts.emptied]);
}

// A page loads nothing, runs nothing, and holds no text of a script as HTML.
function checkAlone() {
  const { page } = made('<b>.js', 'const a = "<script>alert(1)</script>"; f(a); // <img src=x> & "quotes"\n');
  assert.doesNotMatch(page, /<script|<img|<link|https?:|url\(|@import/);
  assert.match(page, /&lt;script&gt;/);
  assert.match(page, /default-src 'none'/);
}

function checkRefused() {
  const refusals = [{ line: 2, column: 5, message: 'a class cannot be built', hint: 'write functions' }, { line: null, column: null, message: 'too long', hint: null }];
  const page = pageOf(refusedAccount('x.js', 'f();\nclass A {}\n', refusals), null);
  assert.match(page, /<td class="code script">class A \{\}<\/td><\/tr>\n<tr class="notes">.*line 2, column 5: a class cannot be built\. Write functions\./);
  assert.match(page, /This script cannot be built/);
  assert.match(page, /<li class="refusal"><b>✕ refused<\/b>: too long\./);
  const end = pageOf(refusedAccount('x.js', 'if (a) {\n', [{ line: 2, column: 1, message: 'ends too early', hint: null }]), null);
  assert.match(end, /line 2, column 1: ends too early\./);
  assert.ok(!end.includes('Room that the script takes'));
}

// A script that can be read shows how much room it takes, and where that is too much; how many variables it has nobody tells while it is too long.
function checkTooLong() {
  const account = refusedAccount('x.js', 'f(1);\n'.repeat(300), [{ line: 256, column: 3, message: 'too long', hint: null }]);
  assert.deepStrictEqual(account.limits.map(({ count }) => count), [1201, 1, 1, 4]);
  assert.match(plain(pageOf(account, null)), /Room that the script takes[^]*nodes[^]*✕ 1,201[^]*1,024[^]*different names and texts/);
}

// A verdict of a check, with parts absent, is shown with its sign, level and places.
function checkVerdicts() {
  const { account, edits } = made('x.js', 'var a = 1;\nf(a);\n');
  const shown = (given) => plain(pageOf({ ...account, verdict: verdictOf({ given, outcome: null }) }, edits));
  assert.match(shown({ status: 'shown', level: 'any host' }), /✓ The result does what the script does\.[^]*Level: any host/);
  assert.match(shown({ status: 'not shown', places: [{ line: 2, variable: 'a', reason: 'a is written on line 9' }] }), /\? not shown, line 2 a: a is written on line 9\./);
  assert.match(shown({ status: 'different', places: [{ reason: 'somewhere' }] }), /≠ different: somewhere\./);
  assert.match(shown({ status: 'unchanged' }), /= Nothing was changed/);
  const checked = { sort: 'unshown', least: { name: 'plain', words: 'a plain host' }, check: { findings: [{ at: { line: 2, column: 2 }, name: 'a', reason: 'a is written on line 9' }] },
    kept: { back: [{ at: { line: 1, column: 4 }, name: 'a', reason: 'the host may read it' }] }, remarks: [{ at: null, text: 'eval is used' }] };
  const said = shown(verdictOfCheck(checked, 'any host'));
  assert.match(said, /\? It is not shown[^]*Level: any host[^]*It is shown at another level: plain, a plain host/);
  for (const note of ['? not shown, line 2 a: a is written on line 9.', '↩ put back, line 1 a: the host may read it.', 'i note: eval is used.']) assert.ok(said.includes(note), note);
}

function checkIndex() {
  const entries = samples().map((name) => ({ account: made(name, sampleText(name)).account, link: `${name}.js.html` }));
  const page = indexOf(entries);
  for (const name of samples()) assert.ok(page.includes(`<a href="${name}.js.html">${name}</a>`), name);
  const counts = summary(entries.map(({ account }) => account));
  assert.strictEqual(counts.match(/\d+/g).reduce((sum, count) => sum + Number(count), 0), samples().length);
  assert.ok(plain(page).includes(`${samples().length} scripts: ${counts}.`));
}

function testPages() {
  each('pages of samples: text and marks', samples(), checkPage);
  each('pages of samples: counts', samples(), checkCounts);
  each('a page stands alone', [0], checkAlone);
  each('a page of a refused script', [0], checkRefused);
  each('a page of a script that is too long', [0], checkTooLong);
  each('verdicts on a page', [0], checkVerdicts);
  each('the index', [0], checkIndex);
}

module.exports = { made, testPages };
