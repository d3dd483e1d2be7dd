// The options for many scripts and for what is made of them beside the result: pages, JSON, a folder of results, a time limit.
'use strict';

const os = require('os');
const { FORMATS } = require('./formats');
const { SECONDS } = require('./port');
const { UsageTrouble } = require('./trouble');

const LONGEST = 86400;
const MOST_JOBS = 256;

const FLAGS = ['json', 'version', 'no-cache', 'clean'];
const VALUES = ['page', 'out-dir', 'time-limit', 'jobs', 'format'];

const WRITTEN = `  --out-dir DIR     the result of each script into this folder: all of them, or none
  --page PATH       a page to look at, script and result side by side: a file for one script, else a folder with an index
  --clean           with these: remove what an earlier run has written there for scripts that are gone (it is told otherwise)
  --json            everything that the page shows, as JSON; the same as --format=json
  --format NAME     the same for other programs: sarif, junit, or gcc (FILE:LINE:COLUMN: SEVERITY: TEXT, for editors)
`;
const LIMITS = `  --time-limit N    at most N seconds for each script (${SECONDS})
`;
const ROUND = `  --jobs N          N scripts side by side, where there are many (as many as there are processors)
`;
const CACHE = `  --no-cache        neither use nor keep what it found before for the same script, result and host (negbosun/guard in the cache
                    folder, XDG_CACHE_HOME or ~/.cache)
`;

// A scheduler may leave a program fewer processors than the machine has; older nodes do not tell.
const processors = () => (os.availableParallelism ? os.availableParallelism() : os.cpus().length) || 1;

function jobsOf(text) {
  if (text === undefined) return Math.min(processors(), MOST_JOBS);
  if (!/^\d+$/.test(text) || Number(text) < 1 || Number(text) > MOST_JOBS) throw new UsageTrouble(`--jobs takes a number from 1 to ${MOST_JOBS}`);
  return Number(text);
}

function secondsOf(text) {
  if (text === undefined) return SECONDS;
  const seconds = Number(text);
  if (!/^\d+(\.\d+)?$/.test(text) || seconds <= 0 || seconds > LONGEST) throw new UsageTrouble(`--time-limit takes seconds, more than 0 and at most ${LONGEST}`);
  return seconds;
}

// null: none is asked for.
function formatOf({ json, format }) {
  if (format !== undefined && !Object.hasOwn(FORMATS, format)) throw new UsageTrouble(`--format takes one of ${Object.keys(FORMATS).join(', ')}`);
  if (json && format !== undefined && format !== 'json') throw new UsageTrouble('--json and --format do not go together');
  return format ?? (json ? 'json' : null);
}

// A page is never put where a script is, nor a script taken for the page's name.
function checkPage(page) {
  if (page !== undefined && page.endsWith('.js')) throw new UsageTrouble(`--page ${page}: that is a script's name; name the page before the script: --page gate.html gate.js`);
}

// What is made of many scripts; `kinds` are the outputs that are written in another way.
function readMany(values, files, kinds) {
  const format = formatOf(values);
  const made = ['out-dir', 'page', 'json', 'format'].filter((name) => values[name] !== undefined && values[name] !== false);
  if (made.length && kinds.length) throw new UsageTrouble(`--${made[0]} and --${kinds[0]} do not go together`);
  if (values.out !== undefined && made.length && !format) throw new UsageTrouble(`--out and --${made[0]} do not go together; --out is for one file`);
  checkPage(values.page);
  if (values.clean && values['out-dir'] === undefined && values.page === undefined) throw new UsageTrouble('--clean goes with --out-dir or --page');
  if (values['out-dir'] !== undefined && files.length === 0) throw new UsageTrouble('--out-dir takes the scripts to go through');
  if (files.filter((name) => name === '-').length > 1) throw new UsageTrouble('standard input can be read once only');
  return {
    isMany: made.length > 0, format, page: values.page, outDir: values['out-dir'], seconds: secondsOf(values['time-limit']),
    jobs: jobsOf(values.jobs), cache: !values['no-cache'], clean: Boolean(values.clean),
  };
}

module.exports = { CACHE, FLAGS, LIMITS, ROUND, VALUES, WRITTEN, readMany };
