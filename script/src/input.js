// A script's text, from a file or standard input; files and folders by name.
'use strict';

const fs = require('fs');
const path = require('path');
const tty = require('tty');
const { figure } = require('./limits');
const { bytesOf, oddName, sizeText } = require('./plain_file');
const { UsageTrouble, trouble } = require('./trouble');

// Far more than 1,024 nodes with their comments take; what is longer is not even parsed.
const MOST_BYTES = 1000000;

const isStandard = (file) => file === undefined || file === '-';
const nameOf = (file) => (isStandard(file) ? 'standard input' : file);

// `isOdd`: the name is not UTF-8, and only written out.
function readScript(file, isOdd = false) {
  if (isOdd) throw oddName();
  if (file === undefined && tty.isatty(0)) throw new UsageTrouble('name a script, or - for standard input; --help lists the options');
  const { bytes, size } = bytesOf(isStandard(file) ? null : file, MOST_BYTES);
  if (size > MOST_BYTES) {
    throw trouble(null, `${sizeText(size)}, at most ${figure(MOST_BYTES)}`, 'a gate script is far shorter: is this the right file? Otherwise split it');
  }
  try {
    return new TextDecoder('utf-8', { fatal: true, ignoreBOM: true }).decode(bytes);
  } catch {
    throw trouble(null, 'not UTF-8; save the script as UTF-8');
  }
}

const isFolder = (name) => name !== '-' && fs.existsSync(name) && fs.statSync(name).isDirectory();

// What a folder has in it; null where that cannot be read.
function entriesOf(folder) {
  try {
    return fs.readdirSync(folder, { withFileTypes: true, encoding: 'buffer' }).sort((a, b) => Buffer.compare(a.name, b.name));
  } catch {
    return null;
  }
}

// A name as text; of one that is not UTF-8 each strange byte is written out, and `isOdd` says so.
function namedOf(bytes) {
  const name = bytes.toString('utf8');
  if (Buffer.from(name, 'utf8').equals(bytes)) return { name, isOdd: false };
  const written = [...bytes].map((byte) => (byte < 0x80 ? String.fromCharCode(byte) : `\\x${byte.toString(16)}`)).join('');
  return { name: written, isOdd: true };
}

// The scripts below a folder, by their names in it. A folder that cannot be read stands in their place, and reading it says why; so does a name that is
// not UTF-8, be it a script's or a folder's.
function scriptsBelow(folder, inside = '') {
  const entries = entriesOf(path.join(folder, inside));
  if (!entries) return [{ inside, isOdd: false }];
  return entries.flatMap((entry) => {
    const { name, isOdd } = namedOf(entry.name);
    const place = path.join(inside, name);
    if (name.startsWith('.') || name === 'node_modules') return [];
    const isScript = name.endsWith('.js');
    if (isOdd) return isScript || entry.isDirectory() ? [{ inside: place, isOdd }] : [];
    if (entry.isDirectory()) return scriptsBelow(folder, place);
    return isScript ? [{ inside: place, isOdd }] : [];
  });
}

// The scripts that names stand for: { file, inside, isOdd }, `inside` being its name in the folder, or alone.
function scriptsOf(names) {
  const scripts = names.flatMap((name) => {
    if (!isFolder(name)) return [{ file: name, inside: name === '-' ? 'standard-input.js' : path.basename(name), isOdd: false }];
    return scriptsBelow(name).map(({ inside, isOdd }) => ({ file: path.join(name, inside), inside: inside || path.basename(name), isOdd }));
  });
  if (!scripts.length) throw new UsageTrouble(`${names.join(', ')}: no *.js in there`);
  return scripts;
}

module.exports = { isFolder, nameOf, readScript, scriptsOf };
