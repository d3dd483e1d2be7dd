// Numbers that a seed decides.
'use strict';

class Random {
  constructor(seed) {
    this.state = (seed * 2654435761 + 1) >>> 0;
  }

  next() {
    this.state = (this.state + 0x6d2b79f5) >>> 0;
    let t = this.state;
    t = Math.imul(t ^ (t >>> 15), t | 1);
    t ^= t + Math.imul(t ^ (t >>> 7), t | 61);
    return ((t ^ (t >>> 14)) >>> 0) / 4294967296;
  }

  below(limit) { return Math.floor(this.next() * limit); }

  pick(list) { return list[this.below(list.length)]; }

  chance(part) { return this.next() < part; }

  // One of [weight, value] by weight.
  weighed(list) {
    let left = this.next() * list.reduce((sum, [weight]) => sum + weight, 0);
    for (const [weight, value] of list) {
      left -= weight;
      if (left < 0) return value;
    }
    return list.at(-1)[1];
  }
}

module.exports = { Random };
