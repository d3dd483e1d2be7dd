// How the command is called, and where its documents and the programs beside it are: in a checkout, or installed.
'use strict';

const fs = require('fs');
const path = require('path');

const NAME = process.env.NEGBOSUN_COMMAND || 'script/inline';
const IS_CHECKOUT = fs.existsSync(path.join(__dirname, '..', '..', 'docs'));
const DOCS = IS_CHECKOUT ? 'docs' : '/usr/share/doc/negbosun';
const SAMPLES = IS_CHECKOUT ? 'samples' : '/usr/share/doc/negbosun/examples';
const PROGRAM = IS_CHECKOUT ? 'target/bin/negbosun' : '/usr/bin/negbosun';
// What to do where a program is not there.
const GET = IS_CHECKOUT
  ? { pass: 'build it: tools/build negbosun', tool: 'build it: tools/build pass && (cd caller && cargo build --release)' }
  : { pass: 'install the package again: apt install --reinstall negbosun', tool: 'install the package again: apt install --reinstall negbosun' };

module.exports = { DOCS, GET, NAME, PROGRAM, SAMPLES };
