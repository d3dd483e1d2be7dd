// What a call asks of the program that does the pass is looked for before the first script, so that it is told once.
'use strict';

const fs = require('fs');
const path = require('path');
const { build } = require('./build');
const { GET } = require('./name');
const { takesLimit } = require('./port');
const { PortTrouble, UsageTrouble } = require('./trouble');

const ONLY_THERE = ['kinds', 'runs'];

// The program that a checkout has takes no run limit and no kind table; whoever names another one knows what it takes.
function checkTool(options) {
  const asked = ONLY_THERE.find((name) => options[name] !== undefined);
  if (!asked || options.port || process.env.NEGBOSUN_PORT || takesLimit()) return;
  throw new UsageTrouble(`--${asked} needs the Rust tool negbosun-inline, which is not there; ${GET.tool}`);
}

const BIN = path.join(__dirname, '..', '..', 'target');
const UNPROVED = path.join(BIN, 'unproved', 'negbosun');

// Where nobody names a program and the proved one is not built, the one that tests/run_sample --unproved leaves is taken, and it is said. Threads and the
// programs that are called have the environment.
function chooseProgram(options) {
  if (options.port || process.env.NEGBOSUN_PORT || ONLY_THERE.some((name) => options[name] !== undefined)) return null;
  if (fs.existsSync(path.join(BIN, 'bin', 'negbosun')) || !fs.existsSync(UNPROVED)) return null;
  process.env.NEGBOSUN_PORT = UNPROVED;
  return 'the program that does the pass is target/unproved/negbosun, of which nothing is proved; tools/build negbosun proves and builds it';
}

// Does what runs the program. Where it is absent and nobody has named another one, what to do is that of the place where this command stands.
function asking(options, act) {
  try {
    return act();
  } catch (error) {
    if (error.isResolver && !process.env.NEGBOSUN_RESOLVER) {
      throw new UsageTrouble(`the Rust tool negbosun-inline, which says which variable each name means, is not there; ${GET.tool}`);
    }
    const named = options.port || process.env.NEGBOSUN_PORT;
    if (!(error instanceof PortTrouble && error.isAbsent) || error.isResolver || named) throw error;
    throw new UsageTrouble(`the program that does the pass is not there; ${GET.pass}, or name one: --port PROGRAM`);
  }
}

// The empty script is built as all others will be. What fails otherwise is told of each script.
function checkPort(options) {
  checkTool(options);
  try {
    asking(options, () => build('', options));
  } catch (error) {
    if (error instanceof PortTrouble || error instanceof UsageTrouble) throw error;
  }
}

module.exports = { asking, checkPort, checkTool, chooseProgram };
