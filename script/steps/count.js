// Which limit the pass meets on a script, and how much of it the script takes.
'use strict';

const { Met, TooManySteps, Walks } = require('./walks');

const MOST_RUNS = 16;
// Past these the walks can go on.
const LIFTED = new Set(['nodes', 'values', 'records']);

function runAll(walks, most) {
  for (let runs = 1; ; runs++) {
    walks.isChanged = false;
    walks.run();
    if (!walks.isChanged || runs === most) return runs;
    walks.isFirstRun = false;
  }
}

// What the walks end in: a limit that was met, no more steps to count, or the runs that were made.
function endOf(walks, most) {
  try {
    return { runs: runAll(walks, most), walks };
  } catch (error) {
    if (error instanceof Met) return { met: error };
    if (error instanceof TooManySteps) return null;
    throw error;
  }
}

// What the pass ends in by these steps: { met } where a limit is, { runs, walks } where none is, null where there are too many steps to say.
// Of a limit past which the walks can go on, the count is the most that they come to without it.
function countSteps(root, { runs = MOST_RUNS, mostSteps } = {}) {
  const end = endOf(new Walks(root, { mostSteps }), runs);
  if (!end || !end.met || !LIFTED.has(end.met.limit)) return end;
  const walks = new Walks(root, { mostSteps, lifted: end.met.limit });
  endOf(walks, runs);
  end.met.count = walks.most;
  return end;
}

module.exports = { countSteps };
