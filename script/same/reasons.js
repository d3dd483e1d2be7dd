// Why something is not shown, in words with lines.
'use strict';

const { K, NAMED, identityOf, preorder } = require('../src/kinds');
const { Variables } = require('./variables');

const lineOf = (node) => (node.at ? node.at.loc.start.line : 0);
const nameOf = (id) => id.slice(0, id.lastIndexOf(':'));

const WORDS = {
  call: () => 'a call',
  new: () => 'a `new`',
  get: ([, kind, , key]) => (kind === K.member ? `the read of .${key}` : 'the read of a property'),
  'get to set': () => 'the read of a property',
  method: ([, kind, , key]) => (kind === K.member ? `the read of .${key}` : 'the read of a method'),
  set: ([, kind, , key]) => (kind === K.member ? `the write of .${key}` : 'the write of a property'),
  delete: () => 'a `delete`',
  host: ([, name]) => `the read of the host's \`${name}\``,
  'write host': ([, name]) => `the write of the host's \`${name}\``,
  resolve: ([, name]) => `the write of the host's \`${name}\``,
  write: ([, id]) => `the write of \`${nameOf(id)}\``,
  'write constant': ([, id]) => `the write of the constant \`${nameOf(id)}\``,
  begun: ([, id]) => `the read of \`${nameOf(id)}\`, which may not have begun,`,
  begin: ([, id]) => `the beginning of \`${nameOf(id)}\``,
  read: ([, id]) => `the read of \`${nameOf(id)}\``,
  operator: ([, op]) => `\`${op}\` on what may be an object`,
  'typeof name': ([, name]) => `the read of the host's \`${name}\``,
  'delete name': ([, name]) => `the \`delete\` of \`${name}\``,
  key: () => 'a key that may be an object',
  'take apart': () => 'taking a value apart',
  iterate: () => 'taking a list apart',
  next: () => 'taking a list apart',
  close: () => 'the end of taking a list apart',
  numeric: () => 'an operator on what may be an object',
  either: () => 'a part that may not run',
  array: () => 'a new array',
  object: () => 'a new object',
  function: () => 'a new function',
};

const eventWords = (parts) => (WORDS[parts[0]] || (() => 'a step'))(parts);

// The first write, between two places of the text, of a name that a value uses.
function writtenBetween(check, value, from, to) {
  const names = new Set([...preorder(value)].filter((node) => NAMED.has(node.kind)).map(identityOf));
  for (const node of preorder(check.root)) {
    const number = check.numberOf(node);
    if (number <= from || number >= to || !NAMED.has(node.kind) || !names.has(identityOf(node))) continue;
    if (Variables.writeOf(node, check.variables.parents)) return node;
  }
  return null;
}

// A name of a value that another function writes, with the write.
function writtenElsewhere(check, value) {
  for (const node of preorder(value)) {
    const v = NAMED.has(node.kind) ? check.variables.of(node) : null;
    const write = v && v.foreign ? v.writes.find(({ fn }) => fn !== v.fn) : null;
    if (write) return { name: v.name, node: write.node };
  }
  return null;
}

// The variable's own declarators with a value, and its last read.
function spanOf(check, v) {
  const givers = v.writes.filter(({ how }) => how === 'value').map(({ node }) => node);
  const numbers = v.reads.map((node) => check.numberOf(node));
  return { giver: givers[0] || null, last: Math.max(0, ...numbers) };
}

// A write between a variable's value and a use of it, where that is why the two differ.
function betweenWords(check, v, use) {
  const { giver, last } = spanOf(check, v);
  if (!giver) return null;
  const value = giver.children[1];
  const between = writtenBetween(check, value, check.numberOf(giver), use ? check.numberOf(use) : last);
  if (between) return `\`${between.text}\` is written on line ${lineOf(between)} between this value and its use`;
  const elsewhere = writtenElsewhere(check, value);
  return elsewhere ? `\`${elsewhere.name}\` is written by another function (line ${lineOf(elsewhere.node)}), which may run between this value and its use` : null;
}

// The script has computed a value before something; the result has not.
function lateWords(check, entry, { event, where }) {
  const v = entry.owner ? check.variables.of(entry.owner.children[0]) : null;
  const before = event ? `${eventWords(event.parts)} on line ${lineOf(event.node)}` : where;
  const between = v && event ? betweenWords(check, v, null) : null;
  return between ?? `the script does this (${eventWords(entry.parts)}, line ${lineOf(entry.node)}) before ${before}, the result does not`;
}

// What stands in a name's place does something that the script does not do next.
function notNextWords(check, source, parts, next) {
  const v = source.kind === K.identifier ? check.variables.of(source) : null;
  const between = v ? betweenWords(check, v, source) : null;
  if (between) return between;
  const instead = next ? `the script does ${eventWords(next.parts)} (line ${lineOf(next.node)}) first` : 'the script does not do that here';
  return `what stands in its place does ${eventWords(parts)}; ${instead}`;
}

function otherValueWords(check, source) {
  if (source.kind !== K.identifier && source.kind !== K.binding) return 'the value is not shown to be the same';
  const v = check.variables.of(source);
  if (!check.isReplaced(source)) {
    return v && v.emptied ? 'it is still read here, and its declaration was emptied' : 'what the script does before this read is done after it, and may change it';
  }
  const between = v ? betweenWords(check, v, source) : null;
  return between ?? (v && aroundWords(check, v, source)) ?? 'the value in its place is not shown to be the same at this point';
}

// A variable of a function around: what may set it, or call this function before it has its value.
function aroundWords(check, v, source) {
  const inner = check.variables.functions.get(source);
  if (v.fn === inner) return null;
  if (v.open) return 'a host may set this variable of the script\'s top before this use';
  if (v.loose) return 'the script may reach this variable of its top by another way, as a property of the global object';
  const [write] = v.writes;
  if (v.writes.length > 1) return `it is written on lines ${v.writes.map(({ node }) => lineOf(node)).join(' and ')}, and this function may run after either`;
  return write && !check.order.hasValueIn(v, inner) ? `this function may be called before line ${lineOf(write.node)} gives it its value` : null;
}

module.exports = { lateWords, notNextWords, otherValueWords, lineOf };
