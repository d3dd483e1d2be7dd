// How far many scripts are: on a terminal a line that is written over, elsewhere a line every two seconds while scripts wait for one before them.
'use strict';

const tty = require('tty');
const { tell } = require('./output');
const { visible } = require('./visible');

const EVERY = 2000;

class Progress {
  constructor(count) {
    this.count = count;
    this.isTerminal = tty.isatty(2);
    this.line = null;
    this.said = null;
    this.timer = this.isTerminal ? null : setInterval(() => this.say(), EVERY);
  }

  clear() {
    if (this.isTerminal && this.line) tell('\r\x1b[K');
  }

  // `name` is the first script that is not done.
  show(done, name) {
    this.line = done < this.count ? `${done} of ${this.count} scripts done, at ${visible(name)}` : null;
    if (this.isTerminal && this.line) tell(`\r\x1b[K${this.line}`);
  }

  // The same line is not said twice.
  say() {
    if (this.line && this.line !== this.said) tell(`${this.line}\n`);
    this.said = this.line;
  }

  end() {
    clearInterval(this.timer);
    this.clear();
  }
}

module.exports = { Progress };
