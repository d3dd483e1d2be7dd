// The verdict on one result: shown or not at the chosen level, what the guard saw, what was put back, and what a person should know.
'use strict';

const { putBack } = require('../src/changes');
const { guardKept } = require('../src/guard_kept');
const { textOfTree } = require('../src/result_text');
const { readSamples } = require('../guard/samples');
const { checkResult, leastLevel } = require('./check');
const { keepShown } = require('./keep');
const { remarksOf } = require('./remarks');

// Whether all but the accepted differences is shown.
function restIsShown(root, tree, findings, level) {
  const variables = new Set(findings.map(({ variable }) => variable).filter(Boolean));
  return findings.length > 0 && checkResult(root, putBack(root, tree, variables), level).shown;
}

function sortOf({ root, tree, check, outcome }, { accepted, acceptsAll, unshown, level }) {
  const findings = outcome ? outcome.findings : [];
  if (!check.changes.length) return 'unchanged';
  if (!findings.every(({ number }) => accepted(number))) return 'differs';
  if (check.shown && !findings.length) return 'shown';
  if (acceptsAll || unshown || restIsShown(root, tree, findings, level)) return 'accepted';
  return 'unshown';
}

// `about` has the script's name and text. `options`: level, keepShown, guard, accepted, acceptsAll, unshown, and the guard's own.
function judge(root, result, about, options) {
  const kept = options.keepShown ? keepShown(root, result, options.level) : null;
  const tree = kept ? kept.tree : result;
  const check = checkResult(root, tree, options.level);
  const least = check.shown ? null : leastLevel(root, tree);
  const printed = textOfTree(tree).root;
  const outcome = options.guard && check.changes.length ? guardKept(tree, about, { ...options, samples: readSamples(options.samples, about.name) }) : null;
  const judged = { root, tree, check, least, kept, outcome, remarks: remarksOf(root, tree, printed, check.changes) };
  return { ...judged, sort: sortOf(judged, options) };
}

// May be written: unchanged, shown, or accepted.
const isWritten = ({ sort }) => sort === 'unchanged' || sort === 'shown' || sort === 'accepted';

module.exports = { judge, isWritten };
