// Whether node and the libraries are as script/setup leaves them. Written so that any old node reads it.
'use strict';

var LEAST = [18, 3];
var LIBRARIES = ['acorn', 'escodegen', 'magic-string'];

function isOld(version) {
  var parts = version.split('.').map(Number);
  return parts[0] < LEAST[0] || (parts[0] === LEAST[0] && parts[1] < LEAST[1]);
}

function isAbsent(name, resolve) {
  try {
    resolve(name);
    return false;
  } catch (error) {
    return true;
  }
}

// What is amiss, in words; '' where nothing is.
function amiss(version, resolve) {
  if (isOld(version)) return 'node ' + version + ' is too old: node ' + LEAST.join('.') + ' or newer is needed, for its reading of options';
  var absent = LIBRARIES.filter(function (name) { return isAbsent(name, resolve); });
  return absent.length ? 'node does not find ' + absent.join(', ') : '';
}

module.exports = { amiss: amiss };

if (require.main === module) {
  var found = amiss(process.versions.node, require.resolve);
  if (found) console.log(found);
  process.exitCode = found ? 1 : 0;
}
