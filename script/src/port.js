// The one place that runs the pass, the resolver and the printer: the proved port as a program that reads a tree file and prints document 01's lines, and the Rust
// caller's tool over the same library, which writes a tree file with its contexts, and a script's text.
'use strict';

const { spawnSync } = require('child_process');
const fs = require('fs');
const path = require('path');
const { rootsOfLines, treeOfLines } = require('./tree_file');
const { PortTrouble, trouble } = require('./trouble');

const DEFAULT_PORT = path.join(__dirname, '..', '..', 'target', 'bin', 'negbosun');
// The program takes no run limit and no kind table; the Rust caller's tool over the same C functions does.
const LIMITED_PORT = path.join(__dirname, '..', '..', 'caller', 'target', 'release', 'negbosun-inline');
const MOST_RUNS = 16;
const LONGEST_ANSWER = 1 << 24;
const TOOL = 'build caller/ (cargo build --release), whose tool does';
// An ordinary script takes some thousandths of a second.
const SECONDS = 30;

const takesLimit = () => fs.existsSync(LIMITED_PORT);
const isPlain = ({ runs, kinds }) => runs === undefined && kinds === undefined;
const portPath = (options) => options.port || process.env.NEGBOSUN_PORT || (!isPlain(options) && takesLimit() ? LIMITED_PORT : DEFAULT_PORT);

// Some scripts take the pass very long: each function inside a function's value doubles the time.
const tooLong = (seconds) => trouble(null, `the pass did not end within ${seconds} ${seconds === 1 ? 'second' : 'seconds'}`,
  'take functions out of one another, above all `var v = function () { ... };` inside another one, or give it more time: --time-limit SECONDS');

const WORDS = { EACCES: 'this is no program that may be run', ENOEXEC: 'this is no program that can be run' };

// Without a limit or a table the program is called without arguments, as document 01 has it.
const argumentsFor = ({ runs, kinds }) => [...(runs === undefined ? [] : ['--runs', String(runs)]), ...(kinds === undefined ? [] : ['--kinds', kinds.file])];

function portOutput(bytes, options) {
  const { seconds = SECONDS } = options;
  const command = portPath(options);
  if (!fs.existsSync(command)) {
    const words = `the program that does the pass is not there: ${command}; build it by tools/build negbosun, or name it by --port or NEGBOSUN_PORT`;
    throw Object.assign(new PortTrouble(words), { isAbsent: true });
  }
  const { stdout, stderr, error } = spawnSync(path.resolve(command), argumentsFor(options), { input: bytes, encoding: 'utf8', maxBuffer: LONGEST_ANSWER, timeout: 1000 * seconds, killSignal: 'SIGKILL' });
  if (error && error.code === 'ETIMEDOUT') throw tooLong(seconds);
  if (error && error.code !== 'EPIPE') throw new PortTrouble(`${command}: ${WORDS[error.code] || error.message}`);
  if (!/^(refused \d+|ok runs \d+ changed [01] nodes \d+)$/m.test(stdout)) {
    const hint = isPlain(options) ? '' : `; if it takes no run limit and no kind table, ${TOOL}`;
    throw new PortTrouble(`${command} is not the program that does the pass: it gave no such answer${stderr ? `, but: ${stderr.trim().split('\n')[0]}` : ''}${hint}`);
  }
  return stdout;
}

// A port that passes over its arguments makes 16 runs; what ended by itself within the limit is the same either way.
function checkLimit(done, runs) {
  if (runs !== undefined && done > runs) throw new PortTrouble(`the program that does the pass takes no run limit: ${done} runs were made; ${TOOL}`);
}

// A port that passes over its arguments reads what the table forbids.
function checkKinds(root, kinds) {
  if (kinds !== undefined && kinds.firstForbidden(root)) throw new PortTrouble(`the program that does the pass takes no kind table; ${TOOL}`);
}

// The answer to a tree file, whose numbers have that meaning: a refusal's number, or lines, runs, mark, the result's tree and the variables of the script's top.
function runPort(bytes, meaning, options) {
  const lines = portOutput(bytes, options);
  const refusal = /^refused (\d+)$/m.exec(lines);
  if (refusal) return { refused: Number(refusal[1]), lines };
  const [head, ...rest] = lines.trimEnd().split('\n');
  const [, done, changed, count] = /^ok runs (\d+) changed ([01]) nodes (\d+)$/.exec(head).map(Number);
  checkLimit(done, options.runs);
  return { refused: 0, lines, runs: done, changed, tree: treeOfLines(rest.slice(0, count), meaning), roots: rootsOfLines(rest.slice(count), meaning) };
}

const resolverPath = () => process.env.NEGBOSUN_RESOLVER || LIMITED_PORT;

// What the tool writes for a tree file under one of its words, or a refusal's number and words. A tool that does not know the word takes it for a file.
function toolOutput(word, bytes, isAnswer) {
  const command = resolverPath();
  if (!fs.existsSync(command)) {
    const words = `the program that works out which variable each name means is not there: ${command}; build it by tools/build pass and, in caller/, `
      + 'cargo build --release, or name it by NEGBOSUN_RESOLVER';
    throw Object.assign(new PortTrouble(words), { isAbsent: true, isResolver: true });
  }
  const { status, stdout, stderr, error } = spawnSync(path.resolve(command), [word], { input: bytes, maxBuffer: LONGEST_ANSWER, timeout: 1000 * SECONDS, killSignal: 'SIGKILL' });
  if (error && error.code !== 'EPIPE') throw new PortTrouble(`${command}: ${WORDS[error.code] || error.message}`);
  if (status === 0 && isAnswer(stdout)) return { refused: 0, answer: stdout };
  const [, refused, words] = /refusal (\d+): (.*)/.exec(stderr.toString()) || [];
  if (status !== 1 || !refused) throw new PortTrouble(`${command} is not negbosun-inline ${word}: it gave no such answer${stderr.length ? `, but: ${stderr.toString().trim()}` : ''}`);
  return { refused: Number(refused), words };
}

function resolverOutput(bytes) {
  const { answer: file, ...rest } = toolOutput('resolve', bytes, (stdout) => stdout.length === bytes.length);
  return file ? { ...rest, file } : rest;
}

function printerOutput(bytes) {
  const { answer: text, ...rest } = toolOutput('print', bytes, () => true);
  return text ? { ...rest, text: text.toString('latin1') } : rest;
}

// A result is often the script again, its text is read more than once, and a value may stand in many places: so many answers are kept.
function keeping(most, ask) {
  const kept = new Map();
  return (bytes) => {
    const key = bytes.toString('latin1');
    const answer = kept.get(key) || ask(bytes);
    kept.delete(key);
    kept.set(key, answer);
    if (kept.size > most) kept.delete(kept.keys().next().value);
    return answer;
  };
}

// A tree file with its contexts, or a refusal's number and words.
const resolve = keeping(8, resolverOutput);

// The text of a tree file's script, or a refusal's number and words.
const printTree = keeping(64, printerOutput);

const isResolverThere = () => fs.existsSync(resolverPath());

module.exports = { checkKinds, isResolverThere, printTree, resolve, runPort, takesLimit, MOST_RUNS, SECONDS };
