// Output that appears whole or not at all, and what is said beside it.
'use strict';

const fs = require('fs');
const path = require('path');
const { writeAll } = require('./descriptor');
const { OutputTrouble, UsageTrouble } = require('./trouble');

// A file that nobody may write is not replaced either, whatever its folder allows and whoever asks.
function checkWritable(place, name) {
  const isOpen = (fs.statSync(place).mode & 0o222) !== 0;
  try {
    if (isOpen) fs.accessSync(place, fs.constants.W_OK);
  } catch {
    throw new UsageTrouble(`${name}: this file may not be written by whoever calls the command`);
  }
  if (!isOpen) throw new UsageTrouble(`${name}: this file is read-only; name another one, or allow it: chmod u+w`);
}

// What is put in a file's place may be read, written and run by those who might before, and is its owner's, where the system lets it be given away.
function likeBefore(made, place) {
  const { mode, uid, gid } = fs.statSync(place);
  try {
    fs.chownSync(made, uid, gid);
  } catch (error) {
    if (error.code !== 'EPERM') throw error;
  }
  fs.chmodSync(made, mode & 0o7777);
}

// Where a name leads in the end; a device or folder is never replaced, nor a script by its result.
function placeOf(file, scripts, option) {
  if (!fs.existsSync(file)) return file;
  const real = fs.realpathSync(file);
  if (!fs.statSync(real).isFile()) throw new UsageTrouble(`${option} ${file}: not a plain file`);
  checkWritable(real, `${option} ${file}`);
  if (scripts.some((script) => fs.existsSync(script) && fs.realpathSync(script) === real)) throw new UsageTrouble(`${option} ${file}: that is the script`);
  return real;
}

// Some of a system's words on a file apply to standard output, too.
const WORDS = {
  EPIPE: () => 'what it was sent to has ended before it had read all',
  ENOENT: (file) => `the folder ${path.dirname(file)} is not there; make it first`,
  ENOTDIR: () => 'a part of this name is a file and no folder',
  EACCES: () => 'this may not be written here',
  EROFS: () => 'nothing can be written here',
  EFBIG: () => 'files may not be so large here',
  EDQUOT: () => 'there is no room left for this user',
  ENOSPC: () => 'there is no room left on the disk',
};

// What the system says about a file that cannot be written, in plain words.
function plainly(error, name, file) {
  return WORDS[error.code] ? new UsageTrouble(`${name}: ${WORDS[error.code](file)}`) : error;
}

// What was begun and is not wanted; where it could not be begun there is nothing to remove.
function remove(place) {
  try {
    fs.rmSync(place, { recursive: true, force: true });
  } catch (error) {
    if (error.code !== 'ENOTDIR') throw error;
  }
}

// A file is written beside its name and then moved there.
function writeFile(file, bytes, scripts, option) {
  const place = placeOf(file, scripts, option);
  const beside = path.join(path.dirname(place), `.${path.basename(place)}.${process.pid}`);
  try {
    fs.writeFileSync(beside, bytes, { flag: 'wx' });
    if (fs.existsSync(place)) likeBefore(beside, place);
    fs.renameSync(beside, place);
  } catch (error) {
    remove(beside);
    throw plainly(error, `${option} ${file}`, file);
  }
}

// Where standard output is a script that is to be read, whoever called the command has lost it already, and should know.
function refuseOwnOutput(files) {
  const { dev, ino } = fs.fstatSync(1);
  const isOutput = (file) => fs.existsSync(file) && fs.statSync(file).dev === dev && fs.statSync(file).ino === ino && fs.statSync(file).isFile();
  const own = files.find(isOutput);
  if (own !== undefined) throw new UsageTrouble(`standard output is ${own} itself, of which \`>\` leaves nothing; name another file, by --out or behind \`>\``);
}

// node puts /dev/null in the place of a standard output that is closed; whoever calls it has looked before.
function writeOut(bytes) {
  if (process.env.NEGBOSUN_STDOUT === 'closed') throw new OutputTrouble('standard output is closed');
  try {
    writeAll(1, bytes);
  } catch (error) {
    if (!error.syscall) throw error;
    throw new OutputTrouble(plainly(error, 'standard output').message);
  }
}

// `scripts` are the files that were read, `option` is the one that names the file.
function write(content, file, scripts = [], option = '--out') {
  const bytes = Buffer.from(content);
  if (file) writeFile(file, bytes, scripts, option);
  else writeOut(bytes);
}

// Where nobody reads it any more, the exit status still tells the outcome.
function tell(text) {
  try {
    writeAll(2, Buffer.from(text));
  } catch (error) {
    if (!error.syscall) throw error;
  }
}

const say = (text) => tell(`${text}\n`);

module.exports = { checkWritable, likeBefore, plainly, refuseOwnOutput, remove, say, tell, write };
