// What keeps a script from being built, with its place.
'use strict';

const { visible } = require('./visible');

// Findings have a place `at` or null, a message, and may have a hint: what to do.
class ScriptTrouble extends Error {
  constructor(findings) {
    super(findings.map((finding) => finding.message).join('\n'));
    this.findings = findings;
  }

  // One line for each finding, as editors and builds read it. Neither a name nor a text of the script makes a line of its own.
  lines(file) {
    return this.findings.map(({ at, message }) => visible(at ? `${file}:${at.line}:${at.column + 1}: ${message}` : `${file}: ${message}`));
  }
}

// A file that cannot be read.
class FileTrouble extends ScriptTrouble {}

// A mistake in how the command was called.
class UsageTrouble extends Error {}

// Standard output took no more.
class OutputTrouble extends Error {}

// The port could not be run, or answered what no port answers.
class PortTrouble extends Error {}

// Anything else is a mistake in the tool itself.
const toolError = (error) => `an error of the tool itself, not of the script: ${String(error && error.message ? error.message : error).split('\n')[0]}`;

const trouble = (at, message, hint = null) => new ScriptTrouble([{ at, message, hint }]);

module.exports = { FileTrouble, OutputTrouble, ScriptTrouble, UsageTrouble, PortTrouble, toolError, trouble };
