// A verdict in one short line: the same in a report, in --check, on a page and in JSON. What its words stand for is said once a run.
'use strict';

const { LEVELS, levelOf } = require('../same/levels');

const at = (level) => `--host=${level}`;
const plural = (count, one) => `${count} ${one}${count === 1 ? '' : 's'}`;

// What the guard saw; what could not be judged counts against.
function guardWords(outcome) {
  if (!outcome) return 'guard not asked';
  if (outcome.failed) return `the guard could not judge: ${outcome.failed}`;
  const { trials, differing, unjudged, neverRan } = outcome;
  const silent = 2 * unjudged > trials ? `the guard cannot say in ${plural(trials, 'trial')}` : `no difference in ${plural(trials, 'trial')}`;
  const parts = [differing ? `${differing} of ${plural(trials, 'trial')} differ` : silent];
  if (unjudged) parts.push(`${unjudged} not judged`);
  if (neverRan.length) parts.push(`changes on line ${neverRan.join(', ')} never ran`);
  return parts.join(', ');
}

const unshown = ({ check, least }) => (least ? `not shown at ${at(check.level)}; shown at ${at(least.name)}` : 'not shown at any --host');

const WORDS = {
  unchanged: ({ kept }) => (kept && kept.back.length ? 'unchanged, all is put back' : 'unchanged'),
  shown: ({ check }) => `shown at ${at(check.level)}`,
  unshown,
  accepted: (judged) => `accepted; ${judged.check.shown ? `shown at ${at(judged.check.level)}` : unshown(judged)}`,
  differs: () => 'different',
};

// `judged` is what the judge says of one result.
function shortVerdict(judged) {
  const { sort, kept, outcome } = judged;
  const parts = [WORDS[sort](judged)];
  if (kept && kept.back.length && sort !== 'unchanged') parts.push(`${kept.kept} of ${plural(kept.whole, 'change')} kept`);
  return [...parts, ...(sort === 'unchanged' ? [] : [guardWords(outcome)])].join('; ');
}

// Of a script that has no result: its first finding and how many more there are.
function shortTrouble(status, findings) {
  const [{ at: place, message }, ...more] = findings;
  const where = place ? `, line ${place.line}, column ${place.column + 1}` : '';
  return `${status}${where}: ${message}${more.length ? `; and ${plural(more.length, 'place')} more` : ''}`;
}

// The levels that a text names, from the least to the most, with what each means.
function levelsIn(text) {
  const named = new Set([...text.matchAll(/--host=(\w+)/g)].map((match) => match[1]));
  return LEVELS.filter(({ name }) => named.has(name)).map(({ name, words }) => ({ name, words }));
}

const HELD = 'results that are not shown or different are not written: --keep-shown writes what is shown, --unshown what is not shown, --accept whatever was found';

// Once a run: what the levels in the verdicts mean, what a trial is, and what may be done. `sorts` are those of the scripts.
function legendLines(verdicts, sorts) {
  const all = verdicts.join('\n');
  const lines = levelsIn(all).map(({ name }) => `  ${at(name)}: ${levelOf(name).words}`);
  if (/ trials?\b/.test(all)) lines.push('  trials: script and result run beside each other, a test and no proof');
  if (sorts.some((sort) => sort === 'unshown' || sort === 'differs')) lines.push(`  ${HELD}`);
  return lines;
}

module.exports = { legendLines, levelsIn, shortTrouble, shortVerdict };
