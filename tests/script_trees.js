// Scripts as tree files whose names have no contexts yet. `any SEED COUNT` makes random scripts (script/test/any_scripts.js) and prints each as hex digits;
// `values` reads a script on each line, and prints its tree file as hex digits and, behind a blank, what V8 gives for it, as JSON, or the name of its error; `read`
// reads a script's text in hex digits on each line, and prints its tree file, or `unread` where script/inline's parser has an early error against it.
'use strict';

const fs = require('fs');
const vm = require('vm');
const { anyScript } = require('../script/test/any_scripts');
const { bareTreeOfText } = require('../script/src/to_tree');
const { ScriptTrouble } = require('../script/src/trouble');
const { writeTreeFile } = require('../script/src/tree_file');

const hexOf = (text) => writeTreeFile(bareTreeOfText(text)).toString('hex');

// In a context of its own, so that one script declares nothing for the next.
function valueOf(text) {
  try {
    return JSON.stringify(vm.runInNewContext(text)) || 'undefined';
  } catch (error) {
    return error.name;
  }
}

function treeOf(text) {
  try {
    return hexOf(text);
  } catch (error) {
    if (error instanceof ScriptTrouble) return 'unread';
    throw error;
  }
}

const [what, seed, count] = process.argv.slice(2);
if (what === 'any') {
  for (let index = 0; index < Number(count); index++) console.log(hexOf(anyScript(Number(seed) + index, 5 + (index % 60))));
} else if (what === 'read') {
  for (const line of fs.readFileSync(0, 'latin1').split('\n').slice(0, -1)) console.log(treeOf(Buffer.from(line, 'hex').toString()));
} else {
  for (const text of fs.readFileSync(0, 'utf8').split('\n')) if (text !== '') console.log(`${hexOf(text)} ${valueOf(text)}`);
}
