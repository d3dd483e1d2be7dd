// Scripts with the pass's results, many at once: by a port that takes --batch where NEGBOSUN_BATCH names one, else one by one.
'use strict';

const { spawnSync } = require('child_process');
const { build } = require('../src/build');
const { treeOfText } = require('../src/to_tree');
const { meaningOf, treeOfLines, writeTreeFile } = require('../src/tree_file');
const { ScriptTrouble } = require('../src/trouble');

const orNull = (act) => {
  try {
    return act();
  } catch (error) {
    if (error instanceof ScriptTrouble) return null;
    throw error;
  }
};

function one(text) {
  const built = orNull(() => build(text, {}));
  return built && { text, root: built.root, result: built.answer.tree };
}

function answered(text, root, answer) {
  const [head, ...lines] = answer.split('\n');
  const count = /^ok runs \d+ changed [01] nodes (\d+)$/.exec(head);
  return count && { text, root, result: treeOfLines(lines.slice(0, Number(count[1])), meaningOf(root)) };
}

function batch(texts, program) {
  const scripts = texts.map((text) => [text, orNull(() => treeOfText(text))]).filter(([, root]) => root);
  const input = scripts.map(([, root]) => `${writeTreeFile(root).toString('hex')}\n`).join('');
  const { stdout } = spawnSync(program, ['--batch'], { input, encoding: 'utf8', maxBuffer: 1 << 30 });
  const answers = stdout.split('\n\n');
  return scripts.map(([text, root], index) => answered(text, root, answers[index] || ''));
}

// Refused scripts are left out.
function resultsOf(texts) {
  const program = process.env.NEGBOSUN_BATCH;
  return (program ? batch(texts, program) : texts.map(one)).filter(Boolean);
}

module.exports = { resultsOf };
