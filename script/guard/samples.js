// Real values of the host for the guard, from a file beside the script: {"config()": ["...", "..."], "tide.high": [610, 655]}.
'use strict';

const fs = require('fs');
const { bytesOf, sizeText } = require('../src/plain_file');
const { FileTrouble, UsageTrouble } = require('../src/trouble');

const MOST_BYTES = 16000000;

// gate.js has its samples in gate.samples.json.
const beside = (script) => script.replace(/\.[^./]*$/, '') + '.samples.json';

function isList(value) { return Array.isArray(value) && value.length > 0; }

function textOf(file) {
  const { bytes, size } = bytesOf(file, MOST_BYTES);
  if (size > MOST_BYTES) throw new UsageTrouble(`${sizeText(size)}, at most ${MOST_BYTES}`);
  return bytes.toString('utf8');
}

function jsonOf(file) {
  try {
    return JSON.parse(textOf(file));
  } catch (error) {
    const words = error instanceof SyntaxError ? `no JSON: ${error.message.split('\n')[0]}` : error.message;
    if (!(error instanceof SyntaxError || error instanceof FileTrouble || error instanceof UsageTrouble)) throw error;
    throw new UsageTrouble(`samples ${file}: ${words}`);
  }
}

function readSamples(named, script) {
  const file = named ?? beside(script);
  if (named === undefined && !fs.existsSync(file)) return {};
  const given = jsonOf(file);
  const isTable = given !== null && typeof given === 'object' && !Array.isArray(given);
  if (!isTable || !Object.values(given).every(isList)) {
    throw new UsageTrouble(`samples ${file}: an object of names with lists of values is needed: {"config()": ["...", "..."], "tide.high": [610, 655]}`);
  }
  return given;
}

module.exports = { readSamples };
