// The refusals in plain words, with the place in the text where one can be told.
'use strict';

const { K, NAMED, TEXTED, isStatement, preorder } = require('./kinds');
const { forbiddenWords } = require('./kind_table');
const { LIMITS, limitText, limitsOf } = require('./limits');
const { DOCS } = require('./name');
const { countsOf, metLimit } = require('./running');
const { ScriptTrouble, UsageTrouble, trouble } = require('./trouble');

const WORDS = {
  1: 'the run limit is not from 1 to 16, or the port has too little room to work in',
  2: 'the tree file is shorter than its head, or not of version 1',
  3: 'the script is too long: over 1,024 nodes, 256 different names and texts, or 4,096 bytes of them',
  4: 'a length or offset in the tree file is not the sum of its parts',
  5: 'the texts of the tree file are out of order, or two are the same',
  6: `the script is nested over 200 deep, or its tree file has a node where the format (${DOCS}/TREE.md) allows none of its kind`,
  7: 'the script has over 256 different variables',
  8: 'while running, the script or what was put in its place came to be over 200 deep (a constant may name itself), '
    + 'over 32 scopes were open in one another, or over 12 right sides of && and ||',
  9: 'while running, the script grew over 1,024 nodes, recorded values over 512 nodes, or recorded variables over 256',
  10: 'the result is longer than the room that the port was given for it',
  14: 'the kind table is not 2,304 bytes, each of them 0 or 1',
  15: 'the kind table allows something where no script may have it',
};

// The node at which a tree first passes one of row 3's limits.
function overLong(root) {
  const texts = new Set();
  let nodes = 0;
  let bytes = 0;
  for (const node of preorder(root)) {
    nodes += 1;
    if (TEXTED.has(node.kind) && !texts.has(node.text)) {
      texts.add(node.text);
      bytes += Buffer.byteLength(node.text);
    }
    if (nodes > LIMITS.nodes || texts.size > LIMITS.texts || bytes > LIMITS.textBytes) return node;
  }
  return null;
}

function tooDeep(node, depth = 1) {
  if (depth > LIMITS.depth) return node;
  for (const child of node.children) {
    const found = tooDeep(child, depth + 1);
    if (found) return found;
  }
  return null;
}

const LISTS = new Set([K.script, K.block, K.case]);

// The statements that stand in lists, in the tree file's order.
const listed = (root) => [...preorder(root)].flatMap((node) => (LISTS.has(node.kind) ? node.children.filter(isStatement) : []));

function keeping(node, kept) {
  const children = node.children.filter((child) => !LISTS.has(node.kind) || !isStatement(child) || kept.has(child));
  return { ...node, children: children.map((child) => keeping(child, kept)) };
}

// The first statement, in the text's order, with which the script so far is refused; found by halving.
function firstRefused(root, refusal, refusalOf) {
  const statements = listed(root).sort((a, b) => a.at.start - b.at.start);
  let [low, high] = [0, statements.length - 1];
  while (low < high) {
    const middle = (low + high) >> 1;
    const upTo = keeping(root, new Set(statements.slice(0, middle + 1)));
    if (refusalOf(upTo) === refusal) high = middle;
    else low = middle + 1;
  }
  return statements[low] || null;
}

// Of a statement with one name that name.
function firstOverNamed(root, refusal, refusalOf) {
  const found = firstRefused(root, refusal, refusalOf);
  const names = found ? [...preorder(found)].filter(({ kind }) => NAMED.has(kind)) : [];
  return names.length === 1 ? names[0] : found;
}

const PLACES = { 3: overLong, 6: (root) => tooDeep(root), 7: firstOverNamed, 8: firstRefused, 9: firstRefused };

// Which of the script's counts pass a limit, in words.
const passed = (root, names) => limitsOf(root).filter(({ name, count, most }) => names.includes(name) && count > most).map(limitText).join('; ');

const DETAILS = {
  3: (root) => passed(root, ['nodes', 'texts', 'textBytes']),
  6: (root) => passed(root, ['depth']),
  8: (root) => countsOf(8, root),
  9: (root) => countsOf(9, root),
};

const HINTS = {
  3: 'split the script in two, or take out what it does not use (each name, value, operator and statement is a node; comments do not count)',
  6: 'take the inner parts out into functions or variables of their own',
  7: 'use fewer variables, or split the script in two',
  8: 'take inner functions, blocks and conditions out of one another; let no variable\'s value name the variable itself',
  9: 'split the script in two, or shorten the values that are put in the place of names',
};

// Where counted steps do not say which limit was met, `refusalOf` runs the port on another tree and answers its refusal's number; it may take too
// long for that.
function placeOf(number, root, refusalOf) {
  try {
    return PLACES[number] ? PLACES[number](root, number, refusalOf) : null;
  } catch (error) {
    if (error instanceof ScriptTrouble) return null;
    throw error;
  }
}

const startOf = (at) => (at ? at.loc.start : null);

// What is known of a refusal without counting steps.
function placedTrouble(number, root, refusalOf) {
  const node = placeOf(number, root, refusalOf);
  const detail = (DETAILS[number] && DETAILS[number](root)) || WORDS[number];
  return trouble(node ? startOf(node.at) : null, `refusal ${number}: ${detail}`, HINTS[number] || null);
}

// `options` are those of the counted steps: the run limit, and how many steps are counted.
function refusalTrouble(number, root, refusalOf, options) {
  const met = metLimit(number, root, options);
  return met ? trouble(startOf(met.at), `refusal ${number}: ${met.words}`, met.hint) : placedTrouble(number, root, refusalOf);
}

const NOT_AT_THIS_MILL = 'the mill\'s kind table forbids it; write it in another way';

// What a lent kind table is to blame for: what it forbids in the script, with its place, or that it is no table; null where it is not.
function tableTrouble(number, root, kinds) {
  if (kinds === undefined) return null;
  if (number === 14 || number === 15) return new UsageTrouble(`--kinds ${kinds.file}: refusal ${number}: ${WORDS[number]}`);
  const found = number === 6 ? kinds.firstForbidden(root) : null;
  return found && trouble(found.node.at.loc.start, `refusal 6: ${forbiddenWords(kinds, found)}`, NOT_AT_THIS_MILL);
}

module.exports = { HINTS, placedTrouble, refusalTrouble, tableTrouble, WORDS };
