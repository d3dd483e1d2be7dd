// Rewrites of a script that may keep the pass from a change, the ones that change least first. Each is tried; whether it is right for the gate is for
// whoever writes the script to say, where its words say so.
'use strict';

const { K, DECLARATION, NAMED, boundNames, identityOf, isStatement, preorder } = require('./kinds');
const { treeOfText } = require('./to_tree');
const { ScriptTrouble } = require('./trouble');

const LISTS = new Set([K.script, K.block, K.case]);

// A text with edits in it, and the lines that they change.
function rewritten(text, edits, words, cost) {
  let made = text;
  for (const { start, end, now } of [...edits].sort((a, b) => b.start - a.start)) made = made.slice(0, start) + now + made.slice(end);
  const [before, after] = [text, made].map((one) => one.split('\n'));
  const lines = before.map((was, index) => ({ line: index + 1, was, now: after[index] ?? '' })).filter(({ was, now }) => was !== now);
  return { text: made, words, cost, lines };
}

const binds = (target, names) => boundNames(target).some((name) => names.has(identityOf(name)));

function declarationsOf(root, names) {
  return [...preorder(root)].filter((node) => node.kind === K.declaration && node.children.some(({ children: [target] }) => binds(target, names)));
}

const isWrite = ({ kind, children: [target] }, names) => (kind === K.assign && binds(target, names))
  || (kind === K.update && target.kind === K.identifier && names.has(identityOf(target)));
const isWritten = (root, names) => [...preorder(root)].some((node) => isWrite(node, names));

const namesIn = (root) => [...preorder(root)].filter(({ kind }) => NAMED.has(kind)).map(identityOf);

// Whether the names of two scripts of one form stand for the same variables.
function sameVariables(root, text) {
  const [one, other] = [namesIn(root), orNull(() => namesIn(treeOfText(text)))];
  if (!other || one.length !== other.length) return false;
  const [there, back] = [new Map(), new Map()];
  return one.every((name, index) => {
    if (!there.has(name)) there.set(name, other[index]);
    if (!back.has(other[index])) back.set(other[index], name);
    return there.get(name) === other[index] && back.get(other[index]) === name;
  });
}

// A text that is refused is none.
function orNull(act) {
  try {
    return act();
  } catch (error) {
    if (error instanceof ScriptTrouble) return null;
    throw error;
  }
}

const LOOPS = new Set([K.while, K.do, K.for, K.forIn, K.forOf]);

// In a loop a function that is made there would keep a variable of its own in each round.
const isInLoop = (root, node) => [...preorder(root)].some((loop) => LOOPS.has(loop.kind) && [...preorder(loop)].includes(node));

// Another word for the declaration: a constant's value is not taken away from it.
function otherWords(root, text, names) {
  return declarationsOf(root, names).filter((node) => !isInLoop(root, node)).flatMap((node) => {
    const was = DECLARATION[node.form];
    const start = node.at.start;
    const allSet = node.children.every(({ children }) => children.length > 1);
    const words = ['const', 'let', 'var'].filter((word) => word !== was && (word !== 'const' || (allSet && !isWritten(root, names))));
    const said = (word) => `\`${word}\` in the place of \`${was}\`${was === 'var' ? ', where nothing reads it before that line' : ''}`;
    const made = words.map((word) => rewritten(text, [{ start, end: start + was.length, now: word }], said(word), word === 'const' ? 1 : 3));
    return made.filter((one) => sameVariables(root, one.text));
  });
}

// A name that is declared twice by `var` keeps its value where it stands.
function declaredTwice(root, text, names) {
  return declarationsOf(root, names).filter(({ form }) => DECLARATION[form] === 'var').flatMap(({ children }) => children).flatMap(({ at, children: [target] }) => {
    if (target.kind !== K.binding || !names.has(identityOf(target))) return [];
    const said = `\`${target.text}\` is declared a second time, which changes nothing and keeps its value where it stands`;
    return [rewritten(text, [{ start: at.end, end: at.end, now: `, ${target.text}` }], said, 2)];
  });
}

// What other statements may need before them.
const STAYING = new Set([K.declaration, K.function]);

const uses = (node, names) => [...preorder(node)].some((one) => one.kind === K.identifier && names.has(identityOf(one)));

// A statement that reads the name moved up before the one above it, as long as that one does not use the name itself.
function readEarlier(root, text, names) {
  const found = [];
  for (const node of preorder(root)) {
    if (!LISTS.has(node.kind)) continue;
    const statements = node.children.filter(isStatement);
    statements.slice(1).forEach((below, index) => {
      const above = statements[index];
      if (!uses(below, names) || uses(above, names) || STAYING.has(above.kind) || below.kind === K.return) return;
      const [one, other] = [above, below].map(({ at }) => ({ start: at.start, end: at.end, text: text.slice(at.start, at.end) }));
      const said = `the value is read before line ${above.at.loc.start.line} (see whether that order is right for the gate)`;
      found.push(rewritten(text, [{ ...one, now: other.text }, { ...other, now: one.text }], said, 10 + other.text.length));
    });
  }
  return found;
}

// Those for the variables in the way, the smallest first.
function rewritesFor(root, text, names) {
  const all = [...otherWords(root, text, names), ...declaredTwice(root, text, names), ...readEarlier(root, text, names)];
  return all.filter(({ lines }) => lines.length).sort((one, other) => one.cost - other.cost);
}

module.exports = { rewritesFor };
