// A named file's bytes, or standard input's, within a limit: devices and pipes by name, which may never end, are not read.
'use strict';

const fs = require('fs');
const { MOST_COUNTED, readAll } = require('./descriptor');
const { figure } = require('./limits');
const { NAME } = require('./name');
const { FileTrouble } = require('./trouble');

const WORDS = {
  ENOENT: ['no such file', 'look at the name and at the folder that the command is run in'],
  EISDIR: ['this is a folder', 'name a script in it, or take it whole with --check, --out-dir, --page or --json'],
  EACCES: ['this file may not be read', 'let its owner allow it: chmod +r'],
  ENOTDIR: ['no such file', 'a part of the name before it is a file and no folder'],
  ELOOP: ['no such file', 'this link leads to itself'],
  FOLDER: ['this folder may not be read', 'let its owner allow it: chmod +rx'],
  ODD: ['this name is not UTF-8', 'give the file another name'],
  UNREAD: ['no such file', `a name that is not UTF-8 cannot be given; name the file otherwise, or give it on standard input: ${NAME} - < FILE`],
  PLAIN: ['this is no plain file', `what a program writes is taken from standard input: PROGRAM | ${NAME} -`],
};

function fileTrouble(code, message) {
  const [words, hint] = WORDS[code] || [message, null];
  return new FileTrouble([{ at: null, message: words, hint }]);
}

const oddName = () => fileTrouble('ODD');

// Errors of the system in plain words. In an argument that is not UTF-8 the sign U+FFFD stands for what was strange.
function inWords(file, act) {
  try {
    return act();
  } catch (error) {
    if (!error.syscall) throw error;
    if (error.code === 'ENOENT' && file && file.includes('\ufffd')) throw fileTrouble('UNREAD');
    throw fileTrouble(error.code === 'EACCES' && error.syscall === 'scandir' ? 'FOLDER' : error.code, error.message);
  }
}

// A folder is one of two things: named for a script, or not to be read.
function checkKind(file) {
  const stats = fs.statSync(file);
  if (stats.isDirectory()) {
    fs.readdirSync(file);
    throw fileTrouble('EISDIR');
  }
  if (!stats.isFile()) throw fileTrouble('PLAIN');
}

function opened(file, act) {
  const descriptor = fs.openSync(file, 'r');
  try {
    return act(descriptor);
  } finally {
    fs.closeSync(descriptor);
  }
}

// Standard input where no file is named.
function bytesOf(file, most) {
  return inWords(file, () => {
    if (file === null) return readAll(0, most);
    checkKind(file);
    return opened(file, (descriptor) => readAll(descriptor, most));
  });
}

const sizeText = (size) => (size > MOST_COUNTED ? `over ${figure(MOST_COUNTED)} bytes` : `${figure(size)} bytes`);

module.exports = { bytesOf, oddName, sizeText };
