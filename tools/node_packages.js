// Debian's packages of the libraries that the JavaScript files under a folder ask for, node-NAME, a line each: node tools/node_packages.js FOLDER
'use strict';

const fs = require('fs');
const { builtinModules } = require('module');
const path = require('path');

function scripts(folder) {
  return fs.readdirSync(folder, { withFileTypes: true }).flatMap((entry) => {
    const name = path.join(folder, entry.name);
    if (entry.isDirectory()) return scripts(name);
    return name.endsWith('.js') ? [name] : [];
  });
}

// A library's name is what stands before a second slash; `@scope/name` is packed as node-scope-name.
const library = (asked) => asked.split('/').slice(0, asked.startsWith('@') ? 2 : 1).join('-').replace('@', '');

function libraries(file) {
  const asked = [...fs.readFileSync(file, 'utf8').matchAll(/\brequire\('([^.'][^']*)'\)/g)].map((match) => match[1]);
  return asked.filter((name) => !name.startsWith('node:') && !builtinModules.includes(name)).map(library);
}

const names = new Set(scripts(process.argv[2]).flatMap(libraries));
for (const name of [...names].sort()) console.log(`node-${name}`);
