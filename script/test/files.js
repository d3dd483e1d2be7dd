// The files that the tests use.
'use strict';

const fs = require('fs');
const os = require('os');
const path = require('path');

const ROOT = path.join(__dirname, '..', '..');
const SCRIPTS = path.join(ROOT, 'samples', 'scripts');
const RESULTS = path.join(ROOT, 'samples', 'results');

const read = (file) => fs.readFileSync(file, 'utf8');
const samples = () => fs.readdirSync(SCRIPTS).filter((name) => name.endsWith('.js')).map((name) => name.replace(/\.js$/, ''));
const sampleFile = (name) => path.join('samples', 'scripts', `${name}.js`);
const sampleText = (name) => read(path.join(ROOT, sampleFile(name)));

// The lines of a list of scripts, without its remarks.
const listed = (name) => read(path.join(__dirname, name)).split('\n').filter((line) => line && !line.startsWith('#'));

// Runs `act` in a folder that holds the given files, and removes it.
function inFolder(files, act) {
  const folder = fs.mkdtempSync(path.join(os.tmpdir(), 'inline-'));
  try {
    for (const [name, content] of Object.entries(files)) {
      fs.mkdirSync(path.dirname(path.join(folder, name)), { recursive: true });
      fs.writeFileSync(path.join(folder, name), content);
    }
    return act(folder);
  } finally {
    fs.rmSync(folder, { recursive: true });
  }
}

// A line that says how far many scripts are comes where they take long.
const withoutProgress = (said) => said.replace(/^\d+ of \d+ scripts done, at .*\n/gm, '');

// The command keeps what its guard finds; the tests have a folder of their own for that, which goes with them.
function ownCache() {
  const folder = fs.mkdtempSync(path.join(os.tmpdir(), 'inline-cache-'));
  process.env.XDG_CACHE_HOME = folder;
  process.on('exit', () => fs.rmSync(folder, { recursive: true, force: true }));
}

module.exports = { ownCache, withoutProgress, ROOT, RESULTS, inFolder, read, samples, sampleFile, sampleText, listed };
