// The command's options.
'use strict';

const { parseArgs } = require('util');
const { TITLES } = require('../guard/classify');
const { DEFAULT_LEVEL, LEVELS, levelOf } = require('../same/levels');
const many = require('./many_options');
const { readKindTable } = require('./kind_table');
const { DOCS, NAME, PROGRAM, SAMPLES } = require('./name');
const { MOST_RUNS } = require('./port');
const { UsageTrouble } = require('./trouble');
const { VERSION } = require('./version');

const HELP = `Usage: ${NAME} [OPTIONS] [FILE.js]
       ${NAME} --check|--json|--page DIR|--out-dir DIR [OPTIONS] FILE.js|FOLDER...

Takes a gate script (a file, or standard input, also named -) through the proved pass and prints the result: the script's own
text, with its comments and layout, in which the names that the pass replaces are replaced, if it is shown to do what the script
does for every host (what runs it, the cabinet) of the chosen sort. Otherwise the places in the way are told and nothing is
written. As a second opinion both are run beside each other against made-up hosts. Of a folder all *.js below it are taken.

  ${NAME} gate.js                  the result on standard output, the verdict on standard error
  ${NAME} --compare gate.js        what becomes of the script, line by line
  ${NAME} --page pages gates       pages to look at in a browser, for all scripts of a folder
  ${NAME} --out-dir built gates    for a build: all results, or none

What is written:
  --compare         script and result line by line, with each replaced name and each emptied declaration
  --explain FILE:LINE  a line that is not shown: script and result beside each other, what is in the way, what would have to hold,
                    and the smallest rewrite that is shown
  --check           go through many files: a line for each, a summary, an exit status
  --out FILE        write there instead of to standard output (-), whole or not at all
${many.WRITTEN}  --tree            the script's one tree file alone
  --print           the result as the proved printer prints it: a line for each statement of the script, without comments and layout
  --lines           the lines of the program that does the pass

When it is written:
  --host SORT       what is taken for granted of the host (${DEFAULT_LEVEL}):
                      anything  nothing: it may read, set and call all that the script's top declares, at any moment
                      reads     it sets none of the script's variables, and calls its functions only after the script's end,
                                but for those handed to it
                      apart     and it does not read them either
                      plain     and its values are plain, its functions and objects stay what they are
  --keep-shown      keep only the changes that are shown, put the rest back as the script has it, and say what and why
  --unshown         write the result although it is not shown, if the guard has nothing against it
  --accept          write the result whatever was found; --accept=1,13 for these classes only, if all the rest is shown

The guard, the second opinion:
  --samples FILE    real values of the host for it (the script's name with .samples.json, if it is there)
  --trials N        how many made-up hosts (60)
  --seed N          other made-up hosts (1)
  --no-guard        do not run script and result beside each other; the verdict is by what is shown alone
${many.CACHE}
The pass:
  --kinds FILE      the mill's own kind table, 48 lines of 48 digits: what it forbids is refused
                    (${SAMPLES}/without_for_and_new.kinds)
  --runs N          at most N runs, 1 to ${MOST_RUNS} (${MOST_RUNS})
${many.LIMITS}${many.ROUND}  --port PROGRAM    the program that does it (NEGBOSUN_PORT, or ${PROGRAM})

  --version         the version
  -h, --help        this text

Exit status: 0 shown, unchanged or accepted; 1 refused (with many scripts: at least one); 2 called wrongly, no such file, or
the program that does the pass is not there; 3 the result does something else; 4 not shown, and no difference found; 5 an error
of the tool itself; 6 standard output is closed or full. Classes are those of ${DOCS}/DIFFERENCES.md. ${DOCS}/MILLERS.md says what may be written in a script.
`;

const FLAGS = ['tree', 'lines', 'print', 'compare', 'check', 'no-guard', 'keep-shown', 'unshown', 'help', ...many.FLAGS];
const VALUES = ['explain', 'out', 'runs', 'trials', 'seed', 'port', 'accept', 'host', 'samples', 'kinds', ...many.VALUES];
const SHORT = { help: { type: 'boolean', short: 'h' } };
const MOST_TRIALS = 100000;
const LAST_CLASS = Math.max(...Object.keys(TITLES));

function whole(text, name, low, high) {
  const value = Number(text);
  if (!/^\d+$/.test(text) || value < low || value > high) throw new UsageTrouble(`--${name} takes a number from ${low} to ${high}`);
  return value;
}

function runLimit(text) {
  if (!/^\d+$/.test(text) || Number(text) < 1 || Number(text) > MOST_RUNS) throw new UsageTrouble(`refusal 1: --runs takes a number from 1 to ${MOST_RUNS}`);
  return Number(text);
}

// None, all, or the numbers of the accepted classes.
function acceptedClasses(text) {
  if (text === undefined) return () => false;
  if (text === '') return () => true;
  const classes = new Set(text.split(',').map((part) => whole(part, 'accept', 1, LAST_CLASS)));
  return (number) => classes.has(number);
}

function hostLevel(text = DEFAULT_LEVEL) {
  if (!levelOf(text)) throw new UsageTrouble(`--host takes one of ${LEVELS.map(({ name }) => name).join(', ')}`);
  return text;
}

function parsed(list) {
  const options = Object.fromEntries([...FLAGS.map((name) => [name, { type: 'boolean' }]), ...VALUES.map((name) => [name, { type: 'string' }])]);
  // `--accept` by itself accepts every class.
  const given = list.map((word) => (word === '--accept' ? '--accept=' : word));
  try {
    return parseArgs({ args: given, options: { ...options, ...SHORT }, allowPositionals: true });
  } catch (error) {
    const [first] = error.message.split(/\.(?:\s|$)/);
    throw new UsageTrouble(`${first.replace('argument is ambiguous', 'is followed by an option in the place of its value')}; --help lists the options`);
  }
}

// FILE:LINE, as verdicts name a place; a column behind it does no harm. The file takes its place among the files.
function explainedPlace(text, files) {
  if (text === undefined) return { line: null };
  const place = /^(.+?):(\d+)(?::\d+)?$/.exec(text);
  if (!place || Number(place[2]) < 1) throw new UsageTrouble('--explain takes FILE:LINE, as gate.js:16');
  if (files.length) throw new UsageTrouble('--explain takes the file with its line, and no other file');
  files.push(place[1]);
  return { line: Number(place[2]) };
}

// Numbers behind `--accept` stand for classes only with the sign between.
function checkAccept(text, files) {
  const numbers = text === '' ? files.find((name) => /^\d+(,\d+)*$/.test(name)) : undefined;
  if (numbers !== undefined) throw new UsageTrouble(`--accept ${numbers} accepts all; --accept=${numbers} accepts these classes`);
}

function readOptions(list) {
  const { values, positionals: files } = parsed(list);
  if (values.help) return { help: HELP };
  if (values.version) return { help: `negbosun ${VERSION}\n` };
  checkAccept(values.accept, files);
  const kinds = ['tree', 'lines', 'print', 'compare', 'explain', 'check'].filter((name) => values[name] !== undefined && values[name] !== false);
  const { line } = explainedPlace(values.explain, files);
  if (kinds.length > 1) throw new UsageTrouble(`--${kinds[0]} and --${kinds[1]} do not go together`);
  const more = many.readMany(values, files, kinds);
  if (!values.check && !more.isMany && files.length > 1) throw new UsageTrouble('one file at a time; --check, --out-dir, --page and --json take many');
  if (values.check && !files.length) throw new UsageTrouble('--check takes the files to go through');
  return {
    ...more,
    list,
    files,
    line,
    output: kinds[0] || 'result',
    out: values.out === '-' ? undefined : values.out,
    runs: values.runs === undefined ? undefined : runLimit(values.runs),
    kinds: values.kinds === undefined ? undefined : readKindTable(values.kinds),
    accepted: acceptedClasses(values.accept),
    acceptsAll: values.accept === '',
    level: hostLevel(values.host),
    keepShown: Boolean(values['keep-shown']),
    unshown: Boolean(values.unshown),
    samples: values.samples,
    guard: !values['no-guard'],
    trials: whole(values.trials ?? '60', 'trials', 1, MOST_TRIALS),
    seed: whole(values.seed ?? '1', 'seed', 0, 2 ** 31),
    port: values.port,
  };
}

module.exports = { readOptions };
