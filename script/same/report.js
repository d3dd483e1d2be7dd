// The verdict for a person: a line for each place, and a short one that sums up.
'use strict';

const { shortVerdict } = require('../src/short');

const place = (name, at) => (at ? `${name}:${at.line}:${at.column + 1}` : name);
const quoted = (name) => (name ? `\`${name}\`: ` : '');

// Places without a variable's name only where no other tells more.
function unshownLines({ findings }, name) {
  const named = findings.filter((finding) => finding.name);
  return (named.length ? named : findings).map((finding) => `${place(name, finding.at)}: not shown: ${quoted(finding.name)}${finding.reason}`);
}

function keptLines({ whole, kept, back }, name) {
  if (!back.length) return [];
  const lines = back.map((item) => `${place(name, item.at)}: put back: ${quoted(item.name)}${item.reason}`);
  return [...lines, `${name}: ${kept} of ${whole} changes are kept; this is no longer the pass's own answer`];
}

// `about` has the script's name and text.
function verdictLines(judged, about) {
  const { name } = about;
  const { outcome, kept, check, remarks } = judged;
  return [
    ...(outcome ? outcome.findings.flatMap(({ lines }) => lines) : []),
    ...(kept ? keptLines(kept, name) : []),
    ...unshownLines(check, name),
    ...remarks.map(({ at, text }) => `${place(name, at)}: note: ${text}`),
    `${name}: ${shortVerdict(judged)}`,
  ];
}

module.exports = { verdictLines };
