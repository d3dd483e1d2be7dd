// What the guard has found is kept under the user's cache folder, by all that it goes by, and is not looked for again.
'use strict';

const crypto = require('crypto');
const fs = require('fs');
const os = require('os');
const path = require('path');
const acorn = require('acorn');
const escodegen = require('escodegen');
const { guardApart } = require('../guard/apart');
const { VERSION } = require('./version');

// Its own sources and what they stand on.
const SOURCES = ['guard', 'src'].map((name) => path.join(__dirname, '..', name));
const DAY = 24 * 60 * 60 * 1000;
const LONGEST_KEPT = 30 * DAY;

// A cache that cannot be read or written is none.
function orNull(act) {
  try {
    return act();
  } catch {
    return null;
  }
}

const homeOf = () => path.join(process.env.XDG_CACHE_HOME || path.join(os.homedir(), '.cache'), 'negbosun', 'guard');

let known = null;

// The version of all that has a say in what is found: its sources, the libraries, node.
function toolVersion() {
  if (known) return known;
  const hash = crypto.createHash('sha256');
  for (const folder of SOURCES) for (const name of fs.readdirSync(folder).sort()) hash.update(`${name}\0`).update(fs.readFileSync(path.join(folder, name)));
  known = [VERSION, hash.digest('hex'), acorn.version, escodegen.version, process.version].join(' ');
  return known;
}

const plain = ({ kind, form, text, bits, children }) => [kind, form, text, String(bits), children.map(plain)];

function keyOf(tree, text, { level, samples, seed, trials }) {
  return crypto.createHash('sha256').update(JSON.stringify([toolVersion(), text, plain(tree), level, samples, seed, trials])).digest('hex');
}

const placeOf = (key) => path.join(homeOf(), key.slice(0, 2), `${key.slice(2)}.json`);

// A finding's first line names the script; the same script may have another name now.
function named(finding, was, name) {
  const [first, ...rest] = finding.lines;
  return { ...finding, lines: [first.startsWith(`${was}:`) ? `${name}${first.slice(was.length)}` : first, ...rest] };
}

function readKept(place, name) {
  const kept = orNull(() => JSON.parse(fs.readFileSync(place, 'utf8')));
  if (!kept || !kept.outcome || !Array.isArray(kept.outcome.findings)) return null;
  orNull(() => fs.utimesSync(place, new Date(), new Date()));
  return { ...kept.outcome, findings: kept.outcome.findings.map((finding) => named(finding, kept.name, name)) };
}

// A file is there whole or not at all.
function keep(place, kept) {
  const beside = `${place}.${process.pid}.${crypto.randomBytes(4).toString('hex')}`;
  fs.mkdirSync(path.dirname(place), { recursive: true, mode: 0o700 });
  fs.writeFileSync(beside, JSON.stringify(kept), { flag: 'wx', mode: 0o600 });
  fs.renameSync(beside, place);
}

// Once a day what nobody has asked for in a month is removed.
function tidy(home) {
  const stamp = path.join(home, 'tidied');
  const last = orNull(() => fs.statSync(stamp).mtimeMs) ?? 0;
  if (Date.now() - last < DAY) return;
  fs.writeFileSync(stamp, '');
  for (const folder of fs.readdirSync(home).filter((name) => /^[0-9a-f]{2}$/.test(name))) {
    for (const name of fs.readdirSync(path.join(home, folder))) {
      const file = path.join(home, folder, name);
      if (Date.now() - fs.statSync(file).mtimeMs > LONGEST_KEPT) fs.rmSync(file);
    }
  }
}

// As the guard's own answer. What it could not judge is looked for again.
function guardKept(tree, about, options) {
  const place = options.cache ? orNull(() => placeOf(keyOf(tree, about.text, options))) : null;
  if (!place) return guardApart(tree, about, options);
  const kept = readKept(place, about.name);
  if (kept) return kept;
  const outcome = guardApart(tree, about, options);
  if (!outcome.failed) {
    orNull(() => keep(place, { name: about.name, outcome }));
    orNull(() => tidy(homeOf()));
  }
  return outcome;
}

module.exports = { guardKept };
