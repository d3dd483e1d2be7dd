// The first file that node reads: before set-up there is one thing to say. Written so that any old node reads it.
'use strict';

var ready = require('./ready');

var fs = require('fs');
var path = require('path');

// In a checkout the set-up is a script; a package's is the package manager's.
function advice(found) {
  if (fs.existsSync(path.join(__dirname, '..', 'setup'))) return 'run script/setup';
  return (process.env.NEGBOSUN_COMMAND || 'negbosun-script') + ': ' + found + '; apt install --reinstall negbosun brings what is needed';
}

var found = ready.amiss(process.versions.node, require.resolve);
if (found) {
  fs.writeSync(2, advice(found) + '\n');
  process.exitCode = 2;
} else {
  require('./main');
}
