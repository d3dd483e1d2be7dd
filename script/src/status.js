// Exit statuses, and which of many scripts' outcomes decides.
'use strict';

const { FileTrouble, PortTrouble, ScriptTrouble, UsageTrouble, toolError } = require('./trouble');

const STATUS = { well: 0, refused: 1, wrong: 2, differs: 3, unshown: 4, tool: 5, unheard: 6 };
const WORST_FIRST = ['tool', 'wrong', 'refused', 'differs', 'unshown'];

// shown, unchanged and accepted are well.
const statusOf = (sort) => STATUS[sort] ?? STATUS.well;
const worstOf = (sorts) => statusOf(WORST_FIRST.find((sort) => sorts.includes(sort)));

// What an error on one of many scripts is; one that all of them would have is thrown on.
function sortOfError(error) {
  if (error instanceof PortTrouble && error.isAbsent) throw error;
  if (error instanceof FileTrouble || error instanceof UsageTrouble) return 'wrong';
  return error instanceof ScriptTrouble ? 'refused' : 'tool';
}

// Such an error as findings: places, words, hints.
function findingsOf(error) {
  if (error instanceof ScriptTrouble) return error.findings;
  const isWorded = error instanceof UsageTrouble || error instanceof PortTrouble;
  return [{ at: null, message: isWorded ? error.message : toolError(error) }];
}

module.exports = { STATUS, findingsOf, sortOfError, statusOf, worstOf };
