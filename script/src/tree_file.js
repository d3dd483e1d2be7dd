// The tree file of document 01: written from a tree, read back, and the program's lines read as a tree.
'use strict';

const { NAMED, TEXTED, identityOf, preorder } = require('./kinds');

const HEADER = 32;
const NODE = 16;
const MOST_CHILDREN = 65535;

// The numbers that the texts and contexts of a tree have in its file: in the order of first use, from 0. So a script has one file, however its scopes
// are numbered here.
function numbersOf(root) {
  const [texts, contexts] = [new Map(), new Map()];
  const enter = (numbers, key) => numbers.has(key) || numbers.set(key, numbers.size);
  for (const node of preorder(root)) {
    if (TEXTED.has(node.kind)) enter(texts, node.text);
    if (NAMED.has(node.kind)) enter(contexts, node.bits);
  }
  return { texts, contexts };
}

// What the numbers stand for: the tree's texts and contexts by their number.
function meaningOf(root) {
  const { texts, contexts } = numbersOf(root);
  return { texts: [...texts.keys()], contexts: [...contexts.keys()] };
}

function writeNode(bytes, offset, node, { texts, contexts }) {
  bytes.writeUInt8(node.kind, offset);
  bytes.writeUInt8(node.form, offset + 1);
  bytes.writeUInt16LE(node.children.length, offset + 2);
  bytes.writeUInt32LE(TEXTED.has(node.kind) ? texts.get(node.text) : 0, offset + 4);
  bytes.writeBigUInt64LE(NAMED.has(node.kind) ? BigInt(contexts.get(node.bits)) : node.bits, offset + 8);
}

// Whether a tree has a file at all; where it has none, it has far more nodes than the pass takes.
const hasFile = (root) => [...preorder(root)].every(({ children }) => children.length <= MOST_CHILDREN);

// A tree as the bytes of a tree file.
function writeTreeFile(root) {
  const nodes = [...preorder(root)];
  const numbers = numbersOf(root);
  const parts = [...numbers.texts.keys()].map((text) => Buffer.from(text, 'utf8'));
  const data = Buffer.concat(parts);
  const endsAt = HEADER + NODE * nodes.length;
  const dataAt = endsAt + 4 * parts.length;
  const bytes = Buffer.alloc(dataAt + data.length);
  const header = [1, bytes.length, nodes.length, HEADER, parts.length, endsAt, dataAt, data.length];
  header.forEach((word, index) => bytes.writeUInt32LE(word, 4 * index));
  nodes.forEach((node, index) => writeNode(bytes, HEADER + NODE * index, node, numbers));
  let end = 0;
  parts.forEach((part, index) => bytes.writeUInt32LE(end += part.length, endsAt + 4 * index));
  data.copy(bytes, dataAt);
  return bytes;
}

// Nodes in preorder with child counts as a tree.
function treeOfList(list) {
  let next = 0;
  const take = () => {
    const { count, ...node } = list[next++];
    node.children = Array.from({ length: count }, take);
    return node;
  };
  return take();
}

function listed(kind, form, count, text, bits, { texts, contexts }) {
  return { kind, form, count, text: TEXTED.has(kind) ? texts[text] : null, bits: contexts && NAMED.has(kind) ? contexts[Number(bits)] : bits };
}

// The program's node lines as a tree; what their numbers mean is that of the script's tree file.
function treeOfLines(lines, meaning) {
  return treeOfList(lines.map((line) => {
    const [kind, form, count, text, hex] = line.split(' ');
    return listed(Number(kind), Number(form), Number(count), Number(text), BigInt(`0x${hex}`), meaning);
  }));
}

// The program's root lines, each with the identity of its variable and its mark. How often the variable was replaced is the last column, which the original does not print: null.
function rootsOfLines(lines, { texts, contexts }) {
  return lines.filter((line) => line.startsWith('root ')).map((line) => {
    const [, text, hex, mark, counted] = line.split(' ');
    const name = { text: texts[Number(text)], bits: contexts[Number(BigInt(`0x${hex}`))] };
    return { identity: identityOf(name), name: name.text, prevented: mark === '1', counted: counted === undefined ? null : Number(counted) };
  });
}

// A readable tree file as a tree, with the file's own contexts; only the port says which files are readable.
function readTreeFile(bytes) {
  const word = (index) => bytes.readUInt32LE(4 * index);
  const [nodeCount, textCount, endsAt, dataAt] = [word(2), word(4), word(5), word(6)];
  const texts = [];
  let start = dataAt;
  for (let i = 0; i < textCount; i++) {
    const end = dataAt + bytes.readUInt32LE(endsAt + 4 * i);
    texts.push(bytes.toString('utf8', start, end));
    start = end;
  }
  const list = Array.from({ length: nodeCount }, (_, index) => {
    const at = HEADER + NODE * index;
    return listed(bytes[at], bytes[at + 1], bytes.readUInt16LE(at + 2), bytes.readUInt32LE(at + 4), bytes.readBigUInt64LE(at + 8), { texts });
  });
  return treeOfList(list);
}

// The last field of each node of a readable tree file, of a name its context.
function contextsOfFile(bytes) {
  return Array.from({ length: bytes.readUInt32LE(8) }, (_, index) => bytes.readBigUInt64LE(HEADER + NODE * index + 8));
}

module.exports = { hasFile, writeTreeFile, readTreeFile, contextsOfFile, treeOfLines, rootsOfLines, meaningOf };
