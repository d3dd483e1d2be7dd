// The command: options in, output and exit status out.
'use strict';

const { asking, checkPort, checkTool, chooseProgram } = require('./asked');
const { check } = require('./check');
const { troubleLines } = require('./frame');
const { nameOf, readScript } = require('./input');
const { many } = require('./many');
const { NAME } = require('./name');
const { readOptions } = require('./options');
const { runOne } = require('./run_one');
const { legendLines } = require('./short');
const { STATUS, statusOf } = require('./status');
const { FileTrouble, OutputTrouble, PortTrouble, ScriptTrouble, UsageTrouble, toolError } = require('./trouble');
const { refuseOwnOutput, say, write } = require('./output');
const { visible } = require('./visible');

function single(options) {
  const [file] = options.files;
  if (options.output !== 'tree') checkTool(options);
  options.text = readScript(file);
  const { content, lines, short, sort } = asking(options, () => runOne(options.text, nameOf(file), options));
  [...lines, ...legendLines([short], [sort])].forEach((line) => say(line));
  if (content !== null) write(content, options.out, options.files);
  return statusOf(sort);
}

function failed(error, options) {
  if (error instanceof ScriptTrouble) {
    troubleLines(error, nameOf(options.files[0]), options.text ?? null).forEach(say);
    return error instanceof FileTrouble ? STATUS.wrong : STATUS.refused;
  }
  if (error instanceof OutputTrouble) {
    say(visible(`${NAME}: ${error.message}`));
    return STATUS.unheard;
  }
  if (error instanceof UsageTrouble || error instanceof PortTrouble || error.syscall) {
    say(visible(`${NAME}: ${error.message}`));
    return STATUS.wrong;
  }
  say(visible(`${NAME}: ${toolError(error)}`));
  return STATUS.tool;
}

async function main(list) {
  let options = { files: [] };
  try {
    options = readOptions(list);
    if (options.help) {
      write(options.help);
      return STATUS.well;
    }
    refuseOwnOutput(options.files);
    const unproved = options.output === 'tree' ? null : chooseProgram(options);
    if (unproved) say(`${NAME}: ${unproved}`);
    if (options.isMany || options.output === 'check') checkPort(options);
    if (options.isMany) return await many(options, say);
    return options.output === 'check' ? await check(options) : single(options);
  } catch (error) {
    return failed(error, options);
  }
}

// Whatever goes wrong is told in a line.
main(process.argv.slice(2)).catch((error) => failed(error, { files: [] })).then((status) => { process.exitCode = status; });
