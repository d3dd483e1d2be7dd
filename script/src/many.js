// Many scripts at once: results into a folder, pages with an index, JSON. Each script is taken through the pass once.
'use strict';

const path = require('path');
const { endLines } = require('./check');
const { onPage } = require('./entry');
const { writeFolder } = require('./folder');
const { FORMATS } = require('./formats');
const { isFolder, scriptsOf } = require('./input');
const { write } = require('./output');
const { indexOf } = require('./page_index');
const { round } = require('./round');
const { worstOf } = require('./status');
const { UsageTrouble } = require('./trouble');
const { visible } = require('./visible');

// One script's page is a file; of more there is a folder with an index, to which each page leads back.
function withHomes(scripts, { page, files }) {
  const isOneFile = page !== undefined && scripts.length === 1 && !page.endsWith('/') && !isFolder(page) && !files.some(isFolder);
  if (page === '-' && !isOneFile) throw new UsageTrouble('--page - is for one script; name a folder for many');
  const homeOf = ({ inside }) => `${'../'.repeat(inside.split(path.sep).length - 1)}index.html`;
  return { isOneFile, scripts: scripts.map((script) => ({ ...script, home: isOneFile ? null : homeOf(script) })) };
}

const linkOf = (name) => name.split(path.sep).map(encodeURIComponent).join('/');

// The page of each script, and the index.
function pageFiles(entries) {
  const pages = entries.map(({ inside, page }) => ({ inside: `${inside}.html`, content: page }));
  const index = indexOf(entries.map((entry) => ({ account: onPage(entry), link: linkOf(`${entry.inside}.html`) })));
  return [...pages, { inside: 'index.html', content: index }];
}

// What is left of scripts that are gone.
function sayLeft(folder, left, { clean }, say) {
  for (const name of left) say(visible(`${path.join(folder, name)}: ${clean ? 'removed, its script is gone' : 'its script is gone; --clean removes it'}`));
}

function writePages(entries, options, isOneFile, say) {
  const { page, files, clean } = options;
  if (isOneFile) write(entries[0].page, page === '-' ? undefined : page, files, '--page');
  else sayLeft(page, writeFolder(page, pageFiles(entries), entries.map(({ file }) => file), '--page', clean), options, say);
}

// All results or none.
function writeResults(entries, options, say) {
  const { outDir, clean } = options;
  const without = entries.filter(({ content }) => content === null).length;
  if (without) {
    say(visible(`nothing was written to ${outDir}: ${without} of ${entries.length} scripts ${without === 1 ? 'has' : 'have'} no result that may be written`));
    return;
  }
  sayLeft(outDir, writeFolder(outDir, entries, entries.map(({ file }) => file), '--out-dir', clean), options, say);
}

// The worst of all decides.
async function many(options, say) {
  const { isOneFile, scripts } = withHomes(scriptsOf(options.files.length ? options.files : ['-']), options);
  const entries = await round(scripts, options, ({ told }) => told.forEach((line) => say(line)));
  const end = endLines(entries);
  (entries.length > 1 ? end : end.slice(0, -1)).forEach((line) => say(line));
  if (options.outDir !== undefined) writeResults(entries, options, say);
  if (options.page !== undefined) writePages(entries, options, isOneFile, say);
  if (options.format) write(FORMATS[options.format](entries.map(({ account }) => account)), options.out, options.files);
  return worstOf(entries.map(({ sort }) => sort));
}

module.exports = { many };
