// Many scripts side by side, a thread for each of as many as may run at once. They are told in their order, each as soon as it and those before it are done.
'use strict';

const path = require('path');
const { Worker } = require('worker_threads');
const { entryOf, withoutResult } = require('./entry');
const { nameOf } = require('./input');
const { Progress } = require('./progress');
const { PortTrouble } = require('./trouble');

const SIDE = path.join(__dirname, 'side.js');

// What is done, and told as far as nothing before it is still open.
class Told {
  constructor(scripts, tell) {
    Object.assign(this, { scripts, tell, entries: new Array(scripts.length).fill(null), told: 0, done: 0, isOver: false });
    this.progress = new Progress(scripts.length);
  }

  // After an error that ends the round nothing more is told.
  add(number, entry) {
    if (this.isOver) return;
    this.entries[number] = entry;
    this.done += 1;
    this.progress.clear();
    for (; this.told < this.entries.length && this.entries[this.told]; this.told += 1) this.tell(this.entries[this.told]);
    this.waiting();
  }

  // The first script that is not done.
  waiting() {
    const next = this.scripts[this.told];
    this.progress.show(this.done, next && nameOf(next.file));
  }

  end() {
    this.isOver = true;
    this.progress.end();
  }
}

function inTurn(scripts, options, told) {
  scripts.forEach((script, number) => {
    told.waiting();
    told.add(number, entryOf(script, options));
  });
}

// One thread's work: it takes the next script until none is left. A thread that breaks down takes only its script along, and another one goes on.
function threadOf(scripts, options, told, next) {
  return new Promise((resolve, reject) => {
    let [worker, number] = [null, 0];
    // A thread that is left alone would keep the process from ending.
    const end = (act) => {
      worker.removeAllListeners('exit');
      worker.terminate().then(act, reject);
    };
    const give = () => {
      number = next();
      if (number < scripts.length) worker.postMessage({ number, script: scripts[number] });
      else end(resolve);
    };
    // One that runs out of memory says so, one that is ended does not.
    const brokenDown = (error) => {
      worker.removeAllListeners();
      told.add(number, withoutResult(scripts[number], error, null, options));
      begin();
    };
    const answered = ({ number: of, entry, trouble }) => {
      try {
        if (trouble !== undefined) throw new PortTrouble(trouble);
        told.add(of, entry);
        give();
      } catch (error) {
        end(() => reject(error));
      }
    };
    const begin = () => {
      worker = new Worker(SIDE, { workerData: options.list });
      worker.on('message', answered);
      worker.on('error', brokenDown);
      worker.on('exit', () => brokenDown(new Error('a thread has ended')));
      give();
    };
    begin();
  });
}

async function sideBySide(scripts, options, told) {
  let last = 0;
  // Once one has ended the round, the others take no more.
  let isOver = false;
  const next = () => (isOver ? scripts.length : last++);
  const threads = Array.from({ length: Math.min(options.jobs, scripts.length) }, () => threadOf(scripts, options, told, next));
  try {
    await Promise.all(threads);
  } finally {
    isOver = true;
  }
}

// `tell` is called for each script's entry, in the scripts' order. All entries, in that order.
async function round(scripts, options, tell) {
  const told = new Told(scripts, tell);
  try {
    if (options.jobs === 1 || scripts.length === 1) inTurn(scripts, options, told);
    else await sideBySide(scripts, options, told);
  } finally {
    told.end();
  }
  return told.entries;
}

module.exports = { round };
