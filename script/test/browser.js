// Tests of the pages in a browser, where Debian's chromium is there: all samples, refused scripts and the index, on a screen and a phone, light and dark, and printed.
'use strict';

const assert = require('assert');
const { spawnSync } = require('child_process');
const fs = require('fs');
const path = require('path');
const { refusedAccount } = require('../src/account');
const { pageOf } = require('../src/page');
const { indexOf } = require('../src/page_index');
const { inFolder, sampleText, samples } = require('./files');
const { each } = require('./harness');
const { made } = require('./pages');

const WIDTHS = { screen: 1200, phone: 360 };
// As the browser numbers them.
const MODES = { dark: 0, light: 1 };

// What is found on a page that stands in a frame. A contrast is that of WCAG 2: 21 for black on white, 4.5 the least that text should have.
const FACTS = `
const part = (value) => (value <= 10.31475 ? value / 3294.6 : ((value / 255 + 0.055) / 1.055) ** 2.4);
const light = (colour) => colour.match(/[\\d.]+/g).slice(0, 3).map(Number).map(part).reduce((sum, value, at) => sum + value * [0.2126, 0.7152, 0.0722][at], 0);
function factsOf({ contentDocument: page, contentWindow: window }) {
  const list = (selector) => [...page.querySelectorAll(selector)];
  const shown = (one) => one.getClientRects().length > 0;
  const count = (selector) => list(selector).filter(shown).length;
  const styled = (one, name) => window.getComputedStyle(one)[name];
  const ground = (one) => {
    const colour = styled(one, 'backgroundColor');
    if (colour !== 'rgba(0, 0, 0, 0)') return colour;
    return one.parentElement ? ground(one.parentElement) : 'rgb(255, 255, 255)';
  };
  const contrast = (one) => {
    const [low, high] = [light(ground(one)), light(styled(one, 'color'))].sort((a, b) => a - b);
    return (high + 0.05) / (low + 0.05);
  };
  const worded = list('body *').filter((one) => shown(one) && [...one.childNodes].some(({ nodeType, data }) => nodeType === 3 && data.trim()));
  const lined = (selector, line) => list(selector).every((one) => styled(one, 'textDecorationLine') === line);
  return {
    tooWide: page.documentElement.scrollWidth > window.innerWidth, outside: worded.filter((one) => one.getBoundingClientRect().right > window.innerWidth + 1).length,
    struck: count('del'), underlined: count('ins'), lined: lined('del', 'line-through') && lined('ins', 'underline'), notes: count('.notes li'), refusals: count('li.refusal'),
    sameResults: count('tr.same td.code.result'), results: count('tr.changed td.code.result'), heads: count('.sides thead'), rows: count('.plain tbody tr'),
    contrast: Math.min(...worded.map(contrast)), ground: light(ground(page.body)), text: page.body.innerText,
  };
}
addEventListener('load', () => {
  document.documentElement.dataset.facts = encodeURIComponent(JSON.stringify([...document.querySelectorAll('iframe')].map(factsOf)));
});`;

const escaped = (page) => page.replace(/&/g, '&amp;').replace(/"/g, '&quot;');

// Pages of one width beside each other, as they are written.
const frames = (all, width) => `<!DOCTYPE html><meta charset="utf-8"><meta name="color-scheme" content="light dark"><script>${FACTS}</script>
${all.map(({ page }) => `<iframe width="${width}" height="900" srcdoc="${escaped(page)}"></iframe>`).join('\n')}`;

function browsed(browser, folder, list) {
  const given = ['--headless', '--disable-gpu', '--no-first-run', `--user-data-dir=${folder}/profile`, ...list];
  return spawnSync(browser, process.getuid() === 0 ? ['--no-sandbox', ...given] : given, { encoding: 'utf8', timeout: 120000, maxBuffer: 1 << 28 }).stdout || '';
}

// The facts of all pages, in their order; null where the browser does not start.
function factsOf(browser, folder, all, width, mode) {
  const file = path.join(folder, 'frames.html');
  fs.writeFileSync(file, frames(all, width));
  const found = /data-facts="([^"]*)"/.exec(browsed(browser, folder, [`--blink-settings=preferredColorScheme=${mode}`, '--window-size=1400,1000', '--dump-dom', `file://${file}`]));
  return found && JSON.parse(decodeURIComponent(found[1]));
}

const REFUSED = refusedAccount('refused.js', 'f();\nclass A {}\n', [{ line: 2, column: 1, message: 'a class cannot be built', hint: 'write `function`' }, { line: null, column: null, message: 'too long', hint: null }]);

function pages() {
  const results = samples().map((name) => ({ name: `${name}.html`, ...made(name, sampleText(name)) }));
  const refused = { name: 'refused.html', account: REFUSED, page: pageOf(REFUSED, null) };
  const index = { name: 'index.html', page: indexOf([...results, refused].map(({ name, account }) => ({ account, link: name }))), scripts: results.length + 1 };
  return [...results, refused, index];
}

// What holds of each page in each way of looking at it.
function checkLook({ page }, facts, mode) {
  assert.deepStrictEqual([facts.tooWide, facts.outside, facts.lined], [false, 0, true]);
  assert.ok(facts.contrast >= 4.5, `contrast ${facts.contrast}`);
  assert.ok(mode === 'dark' ? facts.ground < 0.05 : facts.ground > 0.9, `ground ${facts.ground}`);
  assert.ok(facts.text.length > 50 && page.length > facts.text.length);
}

// Side by side where there is room; on a phone one below the other, unchanged lines once.
function checkSides({ account }, facts, width) {
  const changes = account.changes.length;
  assert.strictEqual(facts.notes, changes + account.verdict.places.filter(({ line }) => line).length);
  assert.ok(facts.struck >= changes && facts.underlined >= changes && facts.results > 0 && facts.text.length > account.script.length);
  assert.ok(account.changes.every(({ note }) => facts.text.includes(note)));
  if (width === 'phone') assert.deepStrictEqual([facts.sameResults, facts.heads], [0, 0]);
  else assert.ok(facts.sameResults > 0 && facts.heads === 1);
  assert.strictEqual(facts.rows, account.variables.length + account.limits.length);
}

function checkFacts(shown, facts, width, mode) {
  checkLook(shown, facts, mode);
  if (shown.scripts) assert.strictEqual(facts.rows, shown.scripts);
  else if (shown.account === REFUSED) assert.deepStrictEqual([facts.refusals, facts.notes], [2, 1]);
  else checkSides(shown, facts, width);
}

const squeezed = (text) => text.replace(/\s+/g, '');

// A page on paper, and its file.
function printed(browser, folder, { name }) {
  const file = path.join(folder, 'page.pdf');
  browsed(browser, folder, [`--print-to-pdf=${file}`, '--no-pdf-header-footer', `file://${path.join(folder, name)}`]);
  return file;
}

function checkPrint(browser, folder, shown) {
  assert.strictEqual(fs.readFileSync(printed(browser, folder, shown)).subarray(0, 5).toString(), '%PDF-');
}

// On paper all that is told of a script stands.
function checkPrintedText(browser, folder, shown) {
  const { account } = shown;
  const { status, stdout } = spawnSync('pdftotext', ['-raw', printed(browser, folder, shown), '-'], { encoding: 'utf8' });
  assert.strictEqual(status, 0);
  const text = squeezed(stdout);
  for (const told of [account.verdict.title, ...account.changes.map(({ note }) => note), ...account.variables.map((one) => one.name)]) assert.ok(text.includes(squeezed(told)), told);
}

const browserOf = () => ['chromium', 'chromium-browser', 'google-chrome'].find((name) => spawnSync(name, ['--version'], { timeout: 60000 }).status === 0);

const readsPrint = () => !spawnSync('pdftotext', ['-v']).error;

function testLooks(browser, folder, all) {
  for (const [width, pixels] of Object.entries(WIDTHS)) {
    for (const [mode, number] of Object.entries(MODES)) {
      const facts = factsOf(browser, folder, all, pixels, number);
      if (!facts) return false;
      each(`pages in a browser, ${width}, ${mode}`, all.map((shown, index) => [shown, facts[index]]), ([shown, found]) => checkFacts(shown, found, width, mode));
    }
  }
  return true;
}

function testInBrowser() {
  const browser = browserOf();
  const all = browser ? pages() : [];
  const isSeen = browser && inFolder(Object.fromEntries(all.map(({ name, page }) => [name, page])), (folder) => {
    if (!testLooks(browser, folder, all)) return false;
    const one = all.filter(({ name }) => name === 'wheel_speed.html');
    each('a page printed', one, (shown) => checkPrint(browser, folder, shown));
    if (readsPrint()) each('the text of a printed page', one, (shown) => checkPrintedText(browser, folder, shown));
    else console.log('the text of a printed page: skipped, pdftotext is absent (apt-get install poppler-utils)');
    return true;
  });
  const why = browser ? `${browser} does not start here` : 'chromium is absent (apt-get install chromium)';
  if (!isSeen) console.log(`pages in a browser: skipped, ${why}\nthe text of a printed page: skipped, ${why}`);
}

module.exports = { testInBrowser };
