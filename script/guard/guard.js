// The guard: runs script and result beside each other and collects where an observer can tell them apart.
'use strict';

const vm = require('vm');
const { K, ASSIGN, DECLARATION, UNARY, boundNames, identityOf, isFunction, preorder } = require('../src/kinds');
const { changesOf, numberPlaces, putBack } = require('../src/changes');
const { textOfTree } = require('../src/result_text');
const { classify } = require('./classify');
const { Coverage } = require('./coverage');
const { instrument } = require('./instrument');
const { shapesOf } = require('./shapes');
const { runTrial, STANDARD, STEPS } = require('./trial');

const HOST_CONTEXT = 0n;
const TOP_CONTEXT = 1n;
const MOST_ROUNDS = 4;
const MOST_MORE = 40;
const MOST_TIME = 20000;
const MOST_USUAL = 40000;

// The names of the host that a script uses; one that is assigned or asked for by typeof may be absent.
function hostNames(root, shapes) {
  const names = new Map();
  const note = (node, mayBeAbsent) => {
    if (node.bits !== HOST_CONTEXT || STANDARD.has(node.text) || node.text === 'arguments') return;
    const known = names.get(node.text) || { name: node.text, index: shapes.byIdentity[identityOf(node)], mayBeAbsent: false };
    names.set(node.text, { ...known, mayBeAbsent: mayBeAbsent || known.mayBeAbsent });
  };
  for (const node of preorder(root)) {
    if (node.kind === K.identifier) note(node, false);
    if (node.kind === K.assign) boundNames(node.children[0]).forEach((name) => note(name, ASSIGN[node.form] === '='));
    if (node.kind === K.unary && UNARY[node.form] === 'typeof' && node.children[0].kind === K.identifier) note(node.children[0], true);
    if (node.kind === K.forIn || node.kind === K.forOf) boundNames(node.children[0]).forEach((name) => note(name, true));
  }
  return [...names.values()];
}

const declaredBy = (declarator) => boundNames(declarator.children[0]).map(({ text }) => ({ name: text, node: declarator }));

// The declared names of the script's top; a `var` and, in sloppy mode, a function of its blocks are names of the top, too, unless `blocks` says no.
function topNames(root, blocks) {
  const names = [];
  const visit = (node, isTop) => {
    if (node.kind === K.function && (isTop || blocks)) names.push({ name: node.children[0].text, node });
    if (node.kind === K.declaration && (isTop || DECLARATION[node.form] === 'var')) names.push(...node.children.flatMap(declaredBy).map((one) => ({ ...one, isVar: DECLARATION[node.form] === 'var' })));
    if (!isFunction(node)) node.children.forEach((child) => visit(child, false));
  };
  root.children.forEach((node) => visit(node, true));
  return names;
}

function planOf(root, changes, { seed, trials, samples = {}, blocks = true }) {
  const shapes = shapesOf(root);
  const emptied = new Set(changes.filter(({ how }) => how === 'emptied').map(({ node }) => node));
  const tops = topNames(root, blocks);
  const names = [...new Set(tops.map(({ name }) => name))];
  return {
    shapes,
    seed,
    samples,
    usual: trials,
    globals: hostNames(root, shapes),
    vars: [...new Set(tops.filter(({ isVar }) => isVar).map(({ name }) => name))].map((name) => ({ name, index: shapes.byIdentity[`${name}:${TOP_CONTEXT}`] })),
    entries: tops.filter(({ node }) => !emptied.has(node)).map(({ name }) => name),
    emptied: new Set(tops.filter(({ node }) => emptied.has(node)).map(({ name }) => name)),
    reach: new vm.Script(`$negbosun.reach([${names.map((name) => `[${JSON.stringify(name)}, () => ${name}]`)}])`),
  };
}

// The last value of a variable of the script's top is no difference where its declaration was emptied: every such change would show.
function finalDifference(one, two, emptied) {
  const after = new Map(two.finals);
  const other = one.finals.find(([name, text]) => after.get(name) !== text && !emptied.has(name));
  if (!other) return null;
  const [name, text] = other;
  return { kind: 'final', script: `${name} ends as ${text}`, result: `${name} ends as ${after.get(name)}`, place: 0, index: one.trace.length, name };
}

const NOTHING = { kind: 'end', text: 'nothing more', place: 0 };

// The first difference between two outcomes, null where there is none or it cannot be judged.
function difference(one, two, emptied) {
  const length = Math.max(one.trace.length, two.trace.length);
  for (let index = 0; index < length; index++) {
    const [a, b] = [one.trace[index], two.trace[index]];
    if ((!a && one.stopped) || (!b && two.stopped)) return endless(one, two, index);
    if (a && b && a.text === b.text) continue;
    return { kind: (a || b).kind, script: (a || NOTHING).text, result: (b || NOTHING).text, place: (a || b).place, index };
  }
  if (one.stopped || two.stopped) return endless(one, two, length);
  return finalDifference(one, two, emptied);
}

// Where one ends long before the other's steps run out, that is a difference.
function endless(one, two, index) {
  if (one.stopped === two.stopped || Math.min(one.steps, two.steps) > STEPS / 4) return null;
  const ends = (outcome) => (outcome.stopped ? `does not end within ${STEPS} steps` : 'ends');
  return { kind: 'steps', script: ends(one), result: ends(two), place: (one.trace.at(-1) || NOTHING).place, index };
}

// The values that names had in a trial, up to a point of its trace, counted for each place.
function valuesUpTo(outcome, index) {
  const counts = new Map();
  return outcome.values.filter(({ at }) => at <= index).map(({ place, text }) => {
    const turn = (counts.get(place) || 0) + 1;
    counts.set(place, turn);
    return { key: `${place} ${turn}`, place, text };
  });
}

// The reads whose values are others in the result, in the order of the script's run.
function wrongReads(one, two, index) {
  if (!one || !two) return [];
  const after = new Map(valuesUpTo(two, two.trace.length).map(({ key, text }) => [key, text]));
  const wrong = valuesUpTo(one, index).filter(({ key, text }) => after.has(key) && after.get(key) !== text);
  return wrong.map(({ key, place, text }) => ({ place, script: text, result: after.get(key) }));
}

const readPlaces = (root) => new Set([...preorder(root)].filter((node) => node.kind === K.identifier).map((node) => node.place));

const enteredBefore = (trace, index) => trace.slice(0, index + 1).filter(({ kind }) => kind === 'enter').at(-1);

// A tree that is run in many trials, plainly or with its names' values told; each trial is run once.
class Runner {
  constructor(tree, plan, reads) {
    const code = (places) => new vm.Script(instrument(tree, plan.shapes, places));
    const [plain, telling] = [code(plan.marks), code(reads)];
    const [outcomes, told] = [new Map(), new Map()];
    const once = (known, number, run) => (known.has(number) ? known : known.set(number, run())).get(number);
    this.outcome = (number) => once(outcomes, number, () => runTrial(plain, plan, number));
    this.told = (number) => once(told, number, () => runTrial(telling, plan, number, true));
  }
}

// Script and result, what the pass changed, and what the host needs to know.
function subjectOf(root, tree, options) {
  const result = textOfTree(tree).root;
  numberPlaces(root, result);
  const changes = changesOf(root, result);
  const coverage = new Coverage(root, changes);
  const plan = { ...planOf(root, changes, options), marks: coverage.marks };
  const reads = readPlaces(root);
  return { root, result, changes, coverage, plan, reads, script: new Runner(root, plan, reads), trials: options.trials };
}

// Differences of one cause are told once, by the shortest trial that shows them.
function addFinding(findings, finding) {
  const known = findings.get(finding.key);
  if (!known || finding.shown.index < known.shown.index) findings.set(finding.key, finding);
}

function explained(subject, runner, number, shown) {
  const [one, two] = [subject.script.told(number), runner.told(number)];
  const cause = classify(subject, shown, wrongReads(one, two, shown.index));
  return { ...cause, shown, trial: number, entered: one ? enteredBefore(one.trace, shown.index) : null };
}

// One trial of the script beside one tree, added to what is known.
function oneTrial(subject, runner, number, outcome) {
  const [one, two] = [subject.script.outcome(number), runner.outcome(number)];
  const shown = one && two && difference(one, two, subject.plan.emptied);
  outcome.trials += 1;
  outcome.one = subject.coverage.add(outcome.one, one);
  outcome.two = subject.coverage.add(outcome.two, two);
  if (shown) {
    outcome.differing += 1;
    addFinding(outcome.findings, explained(subject, runner, number, shown));
  } else if (!one || !two || one.stopped || two.stopped) {
    outcome.unjudged += 1;
  }
}

// Processor time in milliseconds, so that other work on the machine does not change what is found.
function now() {
  const { user, system } = process.cpuUsage();
  return (user + system) / 1000;
}

const noTrials = () => ({ trials: 0, unjudged: 0, differing: 0, findings: new Map(), one: new Set(), two: new Set() });

// All usual trials of the script beside one tree.
function allTrials(subject, runner) {
  const outcome = noTrials();
  const end = now() + MOST_USUAL;
  for (let number = 0; number < subject.trials; number++) {
    if (now() < end) oneTrial(subject, runner, number, outcome);
  }
  // Those for which there was no time count as not judged.
  outcome.unjudged += subject.trials - outcome.trials;
  outcome.trials = subject.trials;
  return outcome;
}

// While a changed place has not run in both, and no difference is known, more trials with many calls, up to a bound.
function moreTrials(subject, runner, outcome) {
  const end = now() + MOST_TIME;
  for (let more = 0; more < MOST_MORE && now() < end && !outcome.differing; more++) {
    if (!subject.coverage.missing(outcome.one, outcome.two).length) return;
    oneTrial(subject, runner, subject.trials + more, outcome);
  }
}

// The variable that a finding is about, null where it is about a whole statement.
function variableOf({ node }) {
  if (node.kind === K.identifier) return identityOf(node);
  return node.kind === K.declarator ? identityOf(node.children[0]) : null;
}

// Whether the result itself has the wrong value that a result with other variables put back has shown.
function alsoWrong(subject, runner, { read, trial }) {
  const [one, two] = [subject.script.told(trial), runner.told(trial)];
  return read !== null && wrongReads(one, two, Infinity).some(({ place }) => place === read.place);
}

// A first difference hides what comes after it: its variable is put back as the script has it, and the trials are made again.
function hiddenFindings(subject, actual, found) {
  const findings = new Map(found);
  const undone = new Set();
  let latest = [...found.values()];
  for (let round = 0; round < MOST_ROUNDS; round++) {
    const variables = latest.map(variableOf).filter((variable) => variable && !undone.has(variable));
    if (!variables.length) break;
    variables.forEach((variable) => undone.add(variable));
    const runner = new Runner(putBack(subject.root, subject.result, undone), subject.plan, subject.reads);
    latest = [...allTrials(subject, runner).findings.values()].filter((finding) => alsoWrong(subject, actual, finding));
    latest.filter(({ key }) => !findings.has(key)).forEach((finding) => findings.set(finding.key, finding));
  }
  return [...findings.values()].sort((a, b) => a.node.place - b.node.place);
}

// What a number of made-up hosts show: findings by cause, how many trials could not be judged, and the lines of changes that never ran.
function runBeside(subject) {
  const actual = new Runner(subject.result, subject.plan, subject.reads);
  const outcome = allTrials(subject, actual);
  moreTrials(subject, actual, outcome);
  const { trials, unjudged, differing, findings, one, two } = outcome;
  const all = findings.size ? hiddenFindings(subject, actual, findings) : [];
  return { changes: subject.changes.length, trials, unjudged, differing, neverRan: subject.coverage.missing(one, two), findings: all };
}

// A result that is the script itself need not be run.
function guard(root, tree, options) {
  const subject = subjectOf(root, tree, options);
  return subject.changes.length ? runBeside(subject) : { changes: 0, trials: 0, unjudged: 0, differing: 0, neverRan: [], findings: [] };
}

module.exports = { guard, runBeside, subjectOf, variableOf };
