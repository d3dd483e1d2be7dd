// A folder of files, written so that all of them are there or none is. It keeps a list of what was written, by which what is left of scripts that are
// gone is known from what others have put there.
'use strict';

const fs = require('fs');
const path = require('path');
const { checkWritable, likeBefore, plainly, remove } = require('./output');
const { UsageTrouble } = require('./trouble');

const there = (file) => fs.existsSync(file);

// By what a folder is made with: the list's name, and what the names in it end with.
const LISTS = { '--out-dir': { list: '.negbosun-results', ending: '.js' }, '--page': { list: '.negbosun-pages', ending: '.js.html' } };

// A script is never replaced by what is made of it, nor a folder or device by a file, nor a file that may not be written.
function checkPlaces(folder, files, scripts, option) {
  if (there(folder) && !fs.statSync(folder).isDirectory()) throw new UsageTrouble(`${option} ${folder}: that is no folder`);
  const sources = new Set(scripts.filter((script) => script !== '-' && there(script)).map((script) => fs.realpathSync(script)));
  const names = new Set();
  for (const { inside } of files) {
    const place = path.join(folder, inside);
    if (names.has(inside)) throw new UsageTrouble(`${option} ${folder}: two scripts would be written to ${inside}; give one of them another name`);
    names.add(inside);
    if (!there(place)) continue;
    if (!fs.statSync(place).isFile()) throw new UsageTrouble(`${option} ${folder}: ${inside} is there and no plain file`);
    if (sources.has(fs.realpathSync(place))) throw new UsageTrouble(`${option} ${folder}: ${inside} is one of the scripts`);
    checkWritable(place, `${option} ${folder}: ${inside}`);
  }
}

function put(folder, inside, content) {
  const place = path.join(folder, inside);
  fs.mkdirSync(path.dirname(place), { recursive: true });
  fs.writeFileSync(place, content, { flag: 'wx' });
}

// Moves the staged files into a folder that is there; what was there before comes back where one cannot be moved.
function moveIn(stage, folder, files) {
  const undo = [];
  try {
    for (const { inside } of files) {
      const place = path.join(folder, inside);
      const old = path.join(stage, 'old', inside);
      const made = path.join(stage, 'new', inside);
      fs.mkdirSync(path.dirname(place), { recursive: true });
      if (there(place)) {
        likeBefore(made, place);
        fs.mkdirSync(path.dirname(old), { recursive: true });
        fs.renameSync(place, old);
        undo.push(() => fs.renameSync(old, place));
      }
      fs.renameSync(made, place);
      undo.push(() => fs.rmSync(place));
    }
  } catch (error) {
    undo.reverse().forEach((step) => step());
    throw error;
  }
}

const isInside = (name, ending) => typeof name === 'string' && name.endsWith(ending) && !path.isAbsolute(name) && !name.split(path.sep).includes('..');

// What an earlier run has written and this one does not. A list that cannot be read names nothing.
function leftIn(folder, files, { list, ending }) {
  let earlier = [];
  try {
    earlier = JSON.parse(fs.readFileSync(path.join(folder, list), 'utf8'));
  } catch {
    return [];
  }
  const names = new Set(files.map(({ inside }) => inside));
  const isFile = (place) => there(place) && fs.lstatSync(place).isFile();
  return (Array.isArray(earlier) ? earlier : []).filter((name) => isInside(name, ending) && !names.has(name) && isFile(path.join(folder, name)));
}

// A folder that is left empty goes along.
function removeLeft(folder, names) {
  for (const name of names) {
    fs.rmSync(path.join(folder, name));
    const isEmpty = (inside) => inside !== '.' && !fs.readdirSync(path.join(folder, inside)).length;
    for (let above = path.dirname(name); isEmpty(above); above = path.dirname(above)) fs.rmdirSync(path.join(folder, above));
  }
}

// `files` are { inside, content }; `option` names the folder's option, in messages too. With `clean` what is left of scripts that are gone is removed;
// its names are told.
function writeFolder(folder, files, scripts, option, clean = false) {
  const kind = LISTS[option];
  const left = leftIn(folder, files, kind);
  const listed = [...files.map(({ inside }) => inside).filter((name) => isInside(name, kind.ending)), ...(clean ? [] : left)].sort();
  const all = [...files, { inside: kind.list, content: `${JSON.stringify(listed, null, 2)}\n` }];
  checkPlaces(folder, all, scripts, option);
  const isNew = !there(folder);
  const stage = isNew ? `${path.resolve(folder)}.${process.pid}.part` : path.join(folder, `.${process.pid}.part`);
  try {
    for (const { inside, content } of all) put(path.join(stage, 'new'), inside, content);
    if (isNew) fs.renameSync(path.join(stage, 'new'), folder);
    else moveIn(stage, folder, all);
    if (clean) removeLeft(folder, left);
  } catch (error) {
    throw plainly(error, `${option} ${folder}`, folder);
  } finally {
    remove(stage);
  }
  return left;
}

module.exports = { writeFolder };
