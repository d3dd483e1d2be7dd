// What is to be thought of a result, in words that a miller understands.
'use strict';

// The worst first. `sign` carries the verdict where colour does not.
const WORDS = {
  failed: { sign: '✕', title: 'The tool failed on this script.', words: 'There is no result. That is a mistake of the tool, not of the script.' },
  'not read': { sign: '✕', title: 'This script could not be read.', words: 'There is no result. The file, and not what stands in it, is in the way.' },
  refused: { sign: '✕', title: 'This script cannot be built.', words: 'There is no result. What stands in the way is told at its place.' },
  different: {
    sign: '≠', title: 'The result does something else than the script.',
    words: 'A run was found in which they part. Do not give the result to a cabinet; write the marked places in another way.',
  },
  'not shown': {
    sign: '?', title: 'It is not shown that the result does what the script does.',
    words: 'Nothing is known that tells them apart, but that is no proof. Look at the marked places before a cabinet runs the result.',
  },
  accepted: {
    sign: '!', title: 'The result was accepted as it is.',
    words: 'It is not shown that it does what the script does, and it was written because the command was told to. The places are marked.',
  },
  shown: { sign: '✓', title: 'The result does what the script does.', words: 'This was shown, whatever the host does within the level named.' },
  unchanged: { sign: '=', title: 'Nothing was changed: the result is the script.', words: 'The pass found no name to replace.' },
};

const STATUSES = Object.keys(WORDS);

const worstFirst = (one, other) => STATUSES.indexOf(one) - STATUSES.indexOf(other);

// How many scripts have each status, the worst first.
function summaryOf(statuses) {
  const counted = [...new Set(statuses)].sort(worstFirst).map((status) => [status, statuses.filter((one) => one === status).length]);
  return counted.map(([status, count]) => `${count} ${status}`).join(', ');
}

function placeOf(finding) {
  const { line, column } = finding.node.at.loc.start;
  const reason = finding.number ? `${finding.title} (class ${finding.number})` : 'no known class fits';
  return { line, column: column + 1, variable: finding.node.text, reason, kind: 'different' };
}

function trialWords({ trials, differing, unjudged, neverRan = [], failed = null }) {
  if (failed) return `Script and result could not be run beside each other: ${failed}.`;
  const judged = unjudged ? `; ${unjudged} could not be judged` : '';
  const unseen = neverRan.length ? `; changes on line ${neverRan.join(', ')} never ran` : '';
  return `Script and result were run beside each other in ${trials} trials: ${differing || 'none'} differed${judged}${unseen}.`;
}

// `outcome` is null where script and result were not run.
function testWords(outcome, status) {
  if (outcome) return trialWords(outcome);
  return status === 'unchanged' ? null : 'Script and result were not run beside each other.';
}

// A level by its name and what it stands for.
const wordsOf = ({ name, words }) => `${name}, ${words}`;

// By what a run of the command has come to for a script.
const STATUS_OF = {
  tool: 'failed', wrong: 'not read', refused: 'refused', differs: 'different', unshown: 'not shown', accepted: 'accepted', shown: 'shown', unchanged: 'unchanged',
};
const statusOf = (sort) => STATUS_OF[sort] || sort;

const told = (kind) => ({ at, name = null, reason, text }) => ({ line: at ? at.line : null, column: at ? at.column + 1 : null, variable: name, reason: reason ?? text, kind });

// The verdict of a static check as page and JSON take it; `level` is what is taken for granted of the host, in words, `summary` the verdict in one line.
function verdictOfCheck({ sort, check, kept = null, outcome = null, least = null, remarks = [] }, level, summary = null) {
  const findings = outcome ? outcome.findings.map(placeOf) : [];
  const back = kept ? kept.back.map(told('put back')) : [];
  const places = [...findings, ...check.findings.map(told('not shown')), ...back, ...remarks.map(told('note'))];
  return { status: statusOf(sort), summary, level, least: least && wordsOf(least), places };
}

// `given` is the verdict of a check, { status, summary, level, least, places }, of which parts may be absent. A place is
// { line, variable, reason } and may have a kind of its own (put back, note); without one it is of the verdict's.
function verdictOf({ given, outcome }) {
  const { status, summary = null, level = null, least = null, places = [] } = given;
  const known = WORDS[status] || { sign: '?', title: status, words: '' };
  return { status, summary: summary ?? status, level, least, ...known, tests: testWords(outcome, status), places };
}

// The verdict on a script that has no result.
const withoutVerdict = (status, summary = status) => ({ status, summary, level: null, least: null, ...WORDS[status], tests: null, places: [] });

module.exports = { statusOf, summaryOf, verdictOf, verdictOfCheck, withoutVerdict, wordsOf, worstFirst };
