// Which class of docs/DIFFERENCES.md fits a difference: told from the name whose value is another, and from how the script sets it.
'use strict';

const { K, BINARY, DECLARATION, UNARY, boundNames, identityOf, isFunction, isPattern, isStatement, partsOfFunction, preorder } = require('../src/kinds');

const TITLES = {
  0: 'no class',
  1: 'a declaration keeps an earlier value',
  2: 'a `var` without a value empties, and the mark of being empty stays',
  3: 'a second declaration clears the mark that keeps a variable',
  4: 'a read above the declaration',
  5: 'a read above the assignment',
  6: 'an assignment that does not happen',
  7: 'a constant that names a variable',
  8: 'a finally block',
  9: 'an alias of a variable that is written later',
  10: 'a variable of the host across a call',
  11: 'an alias whose target\'s value has moved',
  12: 'a `let` or a parameter read in a function',
  13: 'a value read once is moved to its read',
  14: 'an initialiser is walked twice',
  15: '`this` of a callee in parentheses',
  16: '`arguments` in an arrow',
  17: 'a `let` of one case read in another',
  18: 'an error of the script is gone',
  19: 'a pattern on the left of `=`',
  20: 'a name that is read-only on the global object',
  21: 'an emptied `var` that repeats a parameter',
};

const TOP_CONTEXT = 1n;
const SIMPLE = new Set([K.null, K.boolean, K.number, K.string, K.identifier]);

// A script's nodes by place, with parents, the nodes in their places in the result, and how each variable is set.
class Facts {
  constructor({ root, result, changes }) {
    this.nodes = new Map();
    this.parents = new Map();
    this.after = new Map();
    this.sources = new Map();
    this.emptied = new Set(changes.filter(({ how }) => how === 'emptied').map(({ node }) => node));
    this.scriptTexts = countedTexts(root);
    this.resultTexts = countedTexts(result);
    for (const node of preorder(root)) {
      this.nodes.set(node.place, node);
      node.children.forEach((child) => this.parents.set(child, node));
    }
    for (const node of preorder(result)) if (node.place) this.after.set(node.place, node);
    for (const node of this.nodes.values()) this.note(node);
  }

  // The nodes around a node, the nearest first.
  * around(node) {
    for (let at = this.parents.get(node); at; at = this.parents.get(at)) yield at;
  }

  add(name, how, value) {
    const key = identityOf(name);
    if (!this.sources.has(key)) this.sources.set(key, []);
    this.sources.get(key).push({ name, how, value });
  }

  // What a pattern gives to each of its names is no value of the script's text.
  addAll(target, how, value) {
    boundNames(target).forEach((name) => this.add(name, how, target.kind === K.binding ? value : null));
  }

  note(node) {
    const [first, second] = node.children;
    if (node.kind === K.declarator) this.addAll(first, DECLARATION[this.parents.get(node).form], second || null);
    if (node.kind === K.function) this.add(first, 'function', null);
    if (node.kind === K.assign) this.addAll(first, isPattern(first) ? 'pattern' : 'assign', second);
    if (node.kind === K.update && first.kind === K.identifier) this.add(first, 'update', null);
    if (isFunction(node)) {
      partsOfFunction(node).params.forEach((param) => this.addAll(param, 'parameter', null));
    }
  }

  of(node) {
    return this.sources.get(identityOf(node)) || [];
  }

  // The last statement in the text that sets a variable of the script's top.
  lastSetting(text) {
    const settings = [...this.sources.values()].flat().filter(({ name }) => name.text === text && name.bits === TOP_CONTEXT);
    return settings.length ? [...this.around(settings.at(-1).name)].find(isStatement) : null;
  }

  functionOf(node) {
    for (const outer of this.around(node)) if (isFunction(outer)) return outer;
    return null;
  }

  caseOf(node) {
    for (const outer of this.around(node)) if (outer.kind === K.case) return outer;
    return null;
  }

  inFinally(node) {
    let inner = node;
    for (const outer of this.around(node)) {
      if (outer.kind === K.try && outer.form & 2 && outer.children.at(-1) === inner) return true;
      inner = outer;
    }
    return false;
  }

  // Under `??` or `? :` on a side that may not be reached, or in a default.
  mayNotHappen(node) {
    let inner = node;
    for (const outer of this.around(node)) {
      if (isStatement(outer)) return false;
      if (outer.kind === K.conditional && outer.children[0] !== inner) return true;
      if (outer.kind === K.default && outer.children[1] === inner) return true;
      if (outer.kind === K.binary && BINARY[outer.form] === '??' && outer.children[1] === inner) return true;
      inner = outer;
    }
    return false;
  }
}

// A subtree as text, so that two can be compared.
function signature(node) {
  return `${node.kind}.${node.form}.${node.was ?? node.text}.${node.bits}(${node.children.map(signature)})`;
}

// How often each subtree comes.
function countedTexts(root) {
  const counts = new Map();
  for (const node of preorder(root)) counts.set(signature(node), (counts.get(signature(node)) || 0) + 1);
  return counts;
}

const declares = ({ how }) => !['assign', 'update', 'pattern'].includes(how);
const isAlias = ({ value }) => value !== null && value.kind === K.identifier;
const isVoid = (node) => node.kind === K.unary && UNARY[node.form] === 'void';
const usesArguments = (node) => [...preorder(node)].some(({ kind, text }) => kind === K.identifier && text === 'arguments');

// The name still stands in the result, and has another value there.
function ofKept(node, sources, facts) {
  if (facts.inFinally(node)) return 8;
  const other = sources.find(({ how, name }) => how === 'let' && facts.caseOf(name) && facts.caseOf(name) !== facts.caseOf(node));
  if (other) return 17;
  const emptied = sources.some(({ name }) => facts.emptied.has(facts.parents.get(name)));
  if (emptied && sources.filter(declares).length > 1) return 3;
  return emptied ? 13 : 0;
}

// The value in the name's place is that of an alias: of the host's, of a parameter, of another variable.
function ofAlias(value, node, facts) {
  if (value.bits === 0n) return 10;
  const within = facts.functionOf(node);
  return within && usesArguments(within) ? 16 : 9;
}

// Whether a variable's value was taken out of its declaration, and is no name or literal.
function hasMoved(node, facts) {
  return facts.of(node).some(({ name, value }) => value && !SIMPLE.has(value.kind) && facts.emptied.has(facts.parents.get(name)));
}

// A value that was moved, once or to several places; one that names its own variable is put into itself.
function ofMoved(after, facts, own) {
  const text = signature(after);
  const again = [...preorder(after)].some((node) => node.kind === K.identifier && identityOf(node) === identityOf(own));
  return again || (facts.resultTexts.get(text) || 0) > (facts.scriptTexts.get(text) || 1) ? 14 : 13;
}

// Whether a declaration with a value of its own stands between the one that gives a value and the read.
const isOver = (giver, node) => ({ how, name, value }) => declares({ how }) && value && !SIMPLE.has(value.kind) && giver.name.place < name.place && name.place < node.place;

// Where the value in the name's place comes from decides, and where that stands.
function ofSource(node, after, sources, facts) {
  const giver = sources.find(({ value }) => value && signature(value) === signature(after));
  const outer = sources.find(({ how, name }) => ['let', 'parameter'].includes(how) && facts.functionOf(name) !== facts.functionOf(node));
  if (giver && facts.mayNotHappen(giver.name)) return 6;
  if (giver && sources.some(isOver(giver, node))) return 1;
  if (giver && giver.name.place > node.place) return giver.how === 'assign' ? 5 : 4;
  if (outer && sources.some(({ how }) => !declares({ how }))) return 12;
  if (after.kind === K.identifier) return hasMoved(after, facts) ? 11 : ofAlias(after, node, facts);
  if (!SIMPLE.has(after.kind)) return ofMoved(after, facts, node);
  if (node.bits === 0n) return 10;
  const alias = sources.find(isAlias);
  if (alias) return ofAlias(alias.value, node, facts);
  return sources.some(({ how, name }) => how === 'assign' && facts.mayNotHappen(name)) ? 6 : 5;
}

function ofReplaced(node, after, sources, facts) {
  if (facts.inFinally(node) || sources.some(({ name }) => facts.inFinally(name))) return 8;
  if (isVoid(after)) return sources.some((source) => isAlias(source) && hasMoved(source.value, facts)) ? 11 : 2;
  if (sources.some((source) => source.how === 'const' && isAlias(source))) return 7;
  if (sources.some(({ how }) => how === 'pattern')) return 19;
  const values = sources.filter(declares).length > 1 ? sources.filter((source) => declares(source) && source.how !== 'function') : [];
  if (values.length > 1 && SIMPLE.has(after.kind)) return 1;
  return ofSource(node, after, sources, facts);
}

const READ_ONLY = new Set(['NaN', 'Infinity', 'undefined']);

function ofName(node, facts) {
  if (READ_ONLY.has(node.text)) return 20;
  const after = facts.after.get(node.place);
  const sources = facts.of(node);
  const kept = !after || (after.kind === node.kind && identityOf({ ...after, text: after.was ?? after.text }) === identityOf(node));
  return kept ? ofKept(node, sources, facts) : ofReplaced(node, after, sources, facts);
}

// An error of the script that the result lacks: a name read too early, or a declaration with a name that is not there.
function ofError(statement, facts) {
  for (const node of preorder(statement)) {
    if (facts.emptied.has(node) && SIMPLE.has(node.children[1].kind)) return { number: 18, node };
    if (facts.emptied.has(node) && node.children[1].kind === K.assign) return { number: 18, node };
  }
  return null;
}

const emptiedWithEffect = (node, facts) => facts.emptied.has(node) && !SIMPLE.has(node.children[1].kind);

// An emptied declarator of a name that is a parameter of a function that names `arguments`, too: its value was an element of that.
function repeatsParameter(node, facts) {
  const within = facts.functionOf(node);
  return facts.emptied.has(node) && within !== null && usesArguments(within) && facts.of(node.children[0]).some(({ how }) => how === 'parameter');
}

// No name with another value tells the cause: the statement itself is looked at, then what was moved from anywhere.
function ofStatement(statement, shown, facts) {
  const repeated = [...facts.emptied].find((node) => repeatsParameter(node, facts));
  if (repeated) return { number: 21, node: repeated };
  if (/^throws ReferenceError/.test(shown.script)) {
    const found = ofError(statement, facts);
    if (found) return found;
  }
  for (const node of preorder(statement)) {
    if (emptiedWithEffect(node, facts)) return { number: ofMoved(node.children[1], facts, node.children[0]), node };
    const number = node.kind === K.identifier && changed(node, facts) ? ofName(node, facts) : 0;
    if (number) return { number, node };
  }
  const moved = [...facts.emptied].find((node) => emptiedWithEffect(node, facts));
  return moved ? { number: 13, node: moved } : { number: 0, node: statement };
}

function changed(node, facts) {
  const after = facts.after.get(node.place);
  return !after || signature(after) !== signature(node) || facts.of(node).some(({ name }) => facts.emptied.has(facts.parents.get(name)));
}

const WITH_THIS = / on [^)]*$/;

// Of the wrong reads most likely the cause: one that the pass has touched, first of all in the statement where the difference shows.
function likeliest(shown, reads, facts) {
  const touched = reads.filter(({ place }) => changed(facts.nodes.get(place), facts));
  const near = touched.find(({ place }) => statementOf(facts.nodes.get(place), facts).place === shown.place);
  return near || touched[0] || reads[0] || null;
}

function causeOf(shown, read, facts) {
  if (shown.script !== shown.result && shown.script.replace(WITH_THIS, '') === shown.result.replace(WITH_THIS, '')) {
    return { number: 15, node: facts.nodes.get(shown.place) };
  }
  const number = read ? ofName(facts.nodes.get(read.place), facts) : 0;
  if (number) return { number, node: facts.nodes.get(read.place) };
  const statement = shown.kind === 'final' ? facts.lastSetting(shown.name) : facts.nodes.get(shown.place);
  return ofStatement(statement || facts.nodes.get(1), shown, facts);
}

function statementOf(node, facts) {
  if (isStatement(node)) return node;
  return [...facts.around(node)].find(isStatement) || node;
}

// The class, the node to point at, its statement in script and result, and a key under which like differences are one.
function classify(subject, shown, reads) {
  subject.facts ||= new Facts(subject);
  const { facts } = subject;
  const read = likeliest(shown, reads, facts);
  const { number, node } = causeOf(shown, read, facts);
  const statement = statementOf(node, facts);
  const place = { statement, after: facts.after.get(statement.place) || null, inPlace: facts.after.get(node.place) || null };
  return { number, title: TITLES[number], read, node, ...place, key: `${number} ${node.place}` };
}

module.exports = { classify, TITLES };
