// Everything there is to tell of one script, as plain data: --json prints it, the page shows it.
'use strict';

const { noteOf } = require('./compare');
const { preorder } = require('./kinds');
const { limitsOf } = require('./limits');
const { countedVariables, whyChanged } = require('./reasons');
const { bareTreeOfText, treeOfText, withinDepth } = require('./to_tree');
const { ScriptTrouble } = require('./trouble');
const { verdictOf, withoutVerdict } = require('./verdict');

const count = (edits, how) => edits.filter((edit) => edit.how === how).length;

function changeOf(edit, index, variables) {
  const { line, column } = edit.node.at.loc.start;
  const name = edit.how === 'emptied' ? edit.node.children[0].text : edit.node.text;
  return { number: index + 1, line, column: column + 1, how: edit.how, name, was: edit.was, now: edit.text, note: noteOf(edit), why: whyChanged(edit, variables) };
}

// `counted`: how often the pass put its value in a name's place, in all runs, copies in other values among them; null of what is no variable of the script's top.
function variableOf({ identity, name, sort, line, reads, writes, replaced, emptied }, roots) {
  const root = roots.find((one) => one.identity === identity);
  return { name, sort, line, reads, writes: writes.length, replaced, left: reads - replaced, emptied, counted: root ? root.counted : null };
}

// Where the guard saw script and result part.
function findingOf({ number, title, node, shown, entered }) {
  const { line, column } = node.at.loc.start;
  return { line, column: column + 1, class: number, title, when: entered ? entered.text : 'the script is run', script: shown.script, result: shown.result };
}

function testOf(outcome) {
  if (!outcome) return null;
  const { trials, differing, unjudged, neverRan, failed = null, findings } = outcome;
  return { trials, differing, unjudged, neverRan, failed, findings: findings.map(findingOf) };
}

// `facts` has the script's tree, the port's answer, the result's own text, what the guard says, and the check's verdict.
function accountOf({ name, text, root, answer, own, outcome, verdict, isHeld }) {
  const variables = countedVariables(root, own.edits);
  return {
    file: name,
    verdict: verdictOf({ given: verdict, outcome }),
    isWritten: !isHeld,
    counts: {
      nodes: [...preorder(root)].length, runs: answer.runs,
      replaced: count(own.edits, 'replaced') + count(own.edits, 'other'), emptied: count(own.edits, 'emptied'), renamed: count(own.edits, 'renamed'),
    },
    limits: limitsOf(root),
    variables: [...variables.known.values()].filter(({ sort }) => sort !== null).map((variable) => variableOf(variable, answer.roots)),
    changes: own.edits.map((edit, index) => changeOf(edit, index, variables)),
    trials: testOf(outcome),
    refusals: [],
    script: text,
    result: own.text,
  };
}

function orNull(act) {
  try {
    return act();
  } catch (error) {
    if (error instanceof ScriptTrouble) return null;
    throw error;
  }
}

// The room that a script takes, as far as it can be read at all; how many variables it has is known of one alone whose names are resolved.
function limitsOfText(text) {
  const [bare, root] = text === null ? [null, null] : [bareTreeOfText, treeOfText].map((read) => orNull(() => withinDepth(text, () => limitsOf(read(text)))));
  return root || (bare || []).filter(({ name }) => name !== 'variables');
}

// A script that has no result: `refusals` have line, column (both null where there is no place), message and what to do.
function refusedAccount(name, text, refusals, verdict = withoutVerdict('refused')) {
  const limits = verdict.status === 'failed' ? [] : limitsOfText(text);
  return { file: name, verdict, isWritten: false, counts: null, limits, variables: [], changes: [], trials: null, refusals, script: text, result: null };
}

module.exports = { accountOf, refusedAccount };
