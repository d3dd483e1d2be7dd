// One script: what is written, the verdict on it, and its report.
'use strict';

const { accountOf } = require('./account');
const { build, treeFileOf } = require('./build');
const { compare } = require('./compare');
const { isWritten, judge } = require('../same/judge');
const { levelOf } = require('../same/levels');
const { verdictLines } = require('../same/report');
const { explained } = require('./explain');
const { ownText } = require('./own_text');
const { shortVerdict } = require('./short');
const { verdictOfCheck, wordsOf } = require('./verdict');
const { visible } = require('./visible');
const { wholeText } = require('./whole_text');

const explainedText = ({ name, text, root, answer, judged, own }, { line }) => `${explained({ name, text, root, answer, judged, own: own() }, line).map(visible).join('\n')}\n`;

const CONTENT = {
  result: ({ own }) => own().text,
  print: ({ own, root }) => wholeText(own().result, root),
  lines: ({ answer }) => answer.lines,
  compare: ({ text, own, answer }) => compare(text, own(), answer.roots),
  explain: explainedText,
};

// A value that is made when it is first asked for.
function once(make) {
  let made = null;
  return () => (made ??= make());
}

const RUNS = ['result', 'print'];

// Comparison and lines are for looking at; what a cabinet could run is held back unless it is shown or accepted.
function runOne(text, name, options) {
  if (options.output === 'tree') return { content: treeFileOf(text), lines: [], short: '', sort: 'unchanged' };
  const { root, answer } = build(text, options);
  const judged = judge(root, answer.tree, { name, text }, options);
  const own = once(() => ownText(root, judged.tree, text));
  const isHeld = !isWritten(judged) && RUNS.includes(options.output);
  const content = isHeld ? null : CONTENT[options.output]({ name, text, root, answer, judged, own }, options);
  const lines = verdictLines(judged, { name, text }).map(visible);
  const short = shortVerdict(judged);
  const verdict = verdictOfCheck(judged, wordsOf(levelOf(judged.check.level)), short);
  const account = () => accountOf({ name, text, root, answer, own: own(), outcome: judged.outcome, verdict, isHeld });
  return { content, lines, short, sort: judged.sort, judged, account, edits: () => own().edits };
}

module.exports = { runOne };
