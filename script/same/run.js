// One function of script and result, run beside each other on symbols: which number each variable holds, the events of both, and what is not the same.
'use strict';

const { NAMED, identityOf, preorder } = require('../src/kinds');
const { isLexical } = require('./variables');

const SIDES = ['p', 'r'];
const cloneSide = ({ vals, maybe }) => ({ vals: new Map(vals), maybe: new Set(maybe) });

// What is known of script (`p`) and result (`r`): the numbers of variables, and which may not have begun; the script's events that the result has not come to, and the objects that it made later, or not.
const newState = (p, r) => ({ p: cloneSide(p), r: cloneSide(r), queue: [], aside: [] });
const EMPTY = { vals: [], maybe: [] };
const FIRST = new Set(['own name', 'param']);

class Run {
  constructor(check, fn, after) {
    const { values, variables, assumes, plain } = check;
    Object.assign(this, { check, fn, after, values, variables, assumes, plain, at: null, reading: null, reads: new Map(), st: newState(EMPTY, EMPTY) });
    this.own = [...variables.all()].filter((v) => v.fn === fn && v.scope === fn);
    const named = [fn, after].flatMap((node) => [...preorder(node)]).filter(({ kind }) => NAMED.has(kind)).map((node) => variables.of(node));
    for (const v of new Set(named)) if (v && v.fn !== fn && variables.isInside(fn, v.scope)) this.enterAround(v);
  }

  // All through the call a variable of a function around has one value: whoever writes it is this function, or waits for the call to end; a stable one has what it was given.
  enterAround(v) {
    const isSure = this.check.order.hasValueIn(v, this.fn);
    const value = isSure && v.stable && v.value ? v.value : this.unknown(v, 'around');
    this.st.p.vals.set(v.id, value);
    this.st.r.vals.set(v.id, v.emptied ? this.values.make(false, 'emptied', v.id) : value);
    if (!isSure && (isLexical(v) || v.kind === 'param' || v.kind === 'catch')) SIDES.forEach((side) => this.st[side].maybe.add(v.id));
  }

  unknown(v, ...parts) { return this.values.make(this.plain.known.has(v), ...parts, v.id); }

  // The function's own name and its parameters; where there are patterns or defaults these begin one after the other (10.2.11).
  begin(isSimple) {
    for (const v of this.own.filter(({ kind }) => FIRST.has(kind))) {
      if (v.kind === 'param' && !isSimple) this.notBegun(v);
      else this.both(v, this.unknown(v, v.kind));
    }
  }

  // The body's own variables, of which the parameters' defaults know nothing. A `var` of the top may have a value already (16.1.7).
  beginBody() {
    for (const v of this.own.filter(({ kind }) => !FIRST.has(kind))) {
      if (isLexical(v)) this.notBegun(v);
      else SIDES.forEach((side) => this.set(side, v, v.top ? this.unknown(v, 'at start') : this.values.undefined));
    }
  }

  // What a variable is given first is noted for the functions inside.
  both(v, value) {
    SIDES.forEach((side) => this.set(side, v, value));
    v.value ??= value;
  }

  set(side, v, value) {
    this.st[side].vals.set(v.id, value);
    this.st[side].maybe.delete(v.id);
  }

  notBegun(v) {
    for (const side of SIDES) {
      this.set(side, v, this.values.make(false, 'not begun', v.id));
      this.st[side].maybe.add(v.id);
    }
  }

  // A scope's `let` and `const` begin anew (14.2.2).
  openScope(node) {
    for (const v of this.variables.all()) if (v.scope === node && isLexical(v)) this.notBegun(v);
  }

  closeScope(node) {
    if (!this.st) return;
    for (const v of this.variables.all()) if (this.variables.isInside(v.scope, node)) SIDES.forEach((side) => this.st[side].vals.delete(v.id) && this.st[side].maybe.delete(v.id));
  }

  get env() { return this.st[this.at.side]; }
  // `owner` is the emptied declarator whose value is evaluated.
  on(side, act, owner = null) {
    const before = this.at;
    this.at = { side, part: null, owner };
    const value = act();
    this.at = before;
    return value;
  }

  onBoth(act) { SIDES.forEach((side) => this.on(side, act)); }

  // Evaluates what may not be evaluated, beside the state before it.
  partly(index, act) {
    const { at, env } = this;
    const prefix = at.part ? `${at.part.prefix}.${at.part.events.length}` : 'b';
    const part = { events: [], prefix: `${prefix}/${index}` };
    this.at = { ...at, part };
    this.st[at.side] = cloneSide(env);
    const outcome = { value: act(), events: part.events, env: this.env };
    this.at = at;
    this.st[at.side] = env;
    return outcome;
  }

  // An event: what can run other code, fail, or be seen. Its answer is a number of its own; after it, what other functions write may be another.
  emit(node, parts, { isObject = false, runsCode = !isObject, isPlain = false } = {}) {
    const id = this.eventId(node, parts, isObject);
    const { env, at } = this;
    for (const v of runsCode ? this.variables.all() : []) {
      if (!v.foreign || !env.vals.has(v.id)) continue;
      env.vals.set(v.id, at.side === 'r' && v.emptied ? this.values.make(false, 'after', id, 'result', v.id) : this.unknown(v, 'after', id));
    }
    // Events of a part that may not run are numbered within it.
    return this.values.make(isPlain, 'event', id, isPlain);
  }

  eventId(node, parts, isObject) {
    const { part, side, owner } = this.at;
    // Short, since one event may hold others.
    const key = this.values.make(false, 'key', ...parts);
    if (part) return `${part.prefix}.${part.events.push(key)}`;
    if (side === 'r') return this.match(node, key, parts, isObject);
    const id = this.check.serial('e');
    this.st.queue.push({ key, id, node, isObject, owner, parts });
    return id;
  }

  // The result's event has to be the script's next one; only making an object may come later, or not at all.
  match(node, key, parts, isObject) {
    const { queue, aside } = this.st;
    while (queue.length && queue[0].isObject && queue[0].key !== key) aside.push(queue.shift());
    if (queue.length && queue[0].key === key) return queue.shift().id;
    const late = isObject ? aside.findIndex((entry) => entry.key === key) : -1;
    return late >= 0 ? aside.splice(late, 1)[0].id : this.check.notNext(this, node, parts);
  }

  // Where control parts or meets, the result must have come to all that the script has done.
  settle(where) {
    if (!this.st) return;
    this.st.queue.filter(({ isObject }) => !isObject).forEach((entry) => this.check.late(entry, { where }));
    this.st.queue = [];
    this.st.aside = [];
  }

  // One that the script may reach otherwise is read like a name of the host's; one that may not have begun fails (9.1.1.1.6).
  read(node) {
    const id = identityOf(node);
    const { vals, maybe } = this.env;
    if (!vals.has(id)) return this.nowhere(node);
    if (this.variables.of(node).loose) return this.emit(node, ['read', id]);
    if (maybe.delete(id)) this.emit(node, ['begun', id], { runsCode: false });
    return vals.get(id);
  }

  // A name outside of its variable's scope would mean another variable, or none.
  nowhere(node) {
    this.check.find(this.reading || this.check.sourceOf(node) || this.fn, { reason: `\`${node.text}\` means no variable of the script here` });
    return this.values.make(false, 'nowhere', identityOf(node));
  }

  write(target, value) {
    const v = this.variables.of(target);
    const { vals, maybe } = this.env;
    if (!v) this.emit(target, ['write host', target.text, value]);
    else if (!vals.has(v.id)) this.nowhere(target);
    else if (v.kind === 'own name' || v.kind === 'const') this.emit(target, ['write constant', v.id], { runsCode: false });
    else {
      if (maybe.has(v.id)) this.emit(target, ['begun for write', v.id], { runsCode: false });
      this.give(v, value, target);
    }
  }

  // What is moved is done in the same order, even where nobody else sees it.
  give(v, value, node) {
    const isMoved = this.at.owner || !this.check.sourceOf(node);
    if (v.visible || v.fn !== this.fn || isMoved) this.emit(node, ['write', v.id, value], { runsCode: v.loose });
    this.set(this.at.side, v, value);
    if (this.at.side === 'p') v.value ??= value;
  }

  // A state beside which pieces of code may have run, not to their end perhaps: what they may write is unknown, the same for both where they agreed and nothing of it is emptied there.
  without(state, pieces) {
    const id = this.check.serial('f');
    const isThere = (node) => pieces.some((piece) => this.variables.isInside(node, piece));
    const { p, r } = state;
    const known = newState(p, r);
    for (const v of this.variables.all()) {
      if (!p.vals.has(v.id) || !(v.foreign || v.writes.some(({ node }) => isThere(node)))) continue;
      const isLost = p.vals.get(v.id) !== r.vals.get(v.id) || (v.emptied && (v.foreign || v.defs.some(({ node }) => isThere(node))));
      known.p.vals.set(v.id, this.unknown(v, 'any', id));
      known.r.vals.set(v.id, isLost ? this.values.make(false, 'any', id, 'result', v.id) : known.p.vals.get(v.id));
    }
    return known;
  }
}

module.exports = { Run, SIDES, newState };
