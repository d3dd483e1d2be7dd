// What a script's text says of its variables: where each is declared (8.5, 9.1), by which functions it is written and read, and what can reach it.
'use strict';

const { K, ASSIGN, DECLARATION, NAMED, boundNames, identityOf, isFunction, isPattern, partsOfFunction } = require('../src/kinds');
const { Keys } = require('./keys');

const LOOPS_OVER = new Set([K.forIn, K.forOf]);
const OWN_SCOPE = new Set([K.block, K.for, K.forIn, K.forOf, K.switch, K.catch, K.function, K.functionExpression, K.arrow]);
const IN_PATTERN = new Set([K.objectPattern, K.arrayPattern, K.patternProperty, K.default]);
const isLexical = (v) => v.kind === 'let' || v.kind === 'const';

class Variables {
  // `emptied` has the declarators that the pass emptied, `assumes` what the level takes for granted.
  constructor(root, emptied, assumes) {
    Object.assign(this, { root, emptied, assumes, byId: new Map(), parents: new Map(), functions: new Map(), spans: new Map(), withTry: new Set(), withArguments: new Set(), hostWritten: new Set() });
    this.enter(root, null, root, root);
    for (const node of this.parents.keys()) this.note(node);
    this.keys = new Keys(this);
    for (const v of this.all()) this.finish(v);
  }

  of(node) { return this.byId.get(identityOf(node)) || null; }
  all() { return this.byId.values(); }

  // Notes parent, function and first and last number of each node, and declares what it declares; `fn` and `scope` are those around.
  enter(node, parent, fn, scope) {
    const span = [this.spans.size, 0];
    this.spans.set(node, span);
    this.parents.set(node, parent);
    this.functions.set(node, fn);
    this.declare(node, fn, scope);
    // The block of a function or catch has no scope of its own; a declared function's name is of the scope around.
    const isBody = node.kind === K.block && (isFunction(parent) || parent.kind === K.catch);
    const own = OWN_SCOPE.has(node.kind) && !isBody ? node : scope;
    node.children.forEach((child, index) => this.enter(child, node, isFunction(node) && !(node.kind === K.function && index === 0) ? node : fn, own));
    span[1] = this.spans.size - 1;
  }

  declare(node, fn, scope) {
    const kind = DECLARATION[node.form];
    if (node.kind === K.declaration) for (const child of node.children) this.add(child.children[0], kind, kind === 'var' ? fn : scope, fn, child);
    if (node.kind === K.catch && node.children.length === 2) this.add(node.children[0], 'catch', node, fn, node);
    if (!isFunction(node)) return;
    const { name, params } = partsOfFunction(node);
    if (name && node.kind === K.function) this.add(name, 'function', scope, fn, node);
    else if (name) this.add(name, 'own name', node, node, node);
    params.forEach((param) => this.add(param, 'param', node, node, node));
  }

  // All names of a name or pattern.
  add(target, kind, scope, fn, node) {
    for (const binding of boundNames(target)) {
      const id = identityOf(binding);
      if (!this.byId.has(id)) this.byId.set(id, { id, name: binding.text, kind, scope, fn, top: scope === this.root, defs: [], writes: [], reads: [], emptied: false, captured: false });
      const v = this.byId.get(id);
      v.defs.push({ kind, node });
      if (kind === 'param') v.kind = kind;
    }
  }

  // The nearest function around that has `this` and `arguments` of its own; the script where there is none.
  ownerOf(fn) { return fn.kind === K.arrow ? this.ownerOf(this.functions.get(fn)) : fn; }

  note(node) {
    if (node.kind === K.try) this.withTry.add(this.functions.get(node));
    if (NAMED.has(node.kind)) this.noteName(node);
    if (node.kind === K.declarator) this.noteDeclarator(node);
    if (node.kind === K.function) this.noteWrite(node.children[0], node, 'function');
  }

  noteWrite(name, node, how) { this.of(name).writes.push({ node, how, fn: this.functions.get(node) }); }

  noteDeclarator(node) {
    const [name] = node.children;
    const declaration = this.parents.get(node);
    const loop = this.parents.get(declaration);
    const isHead = LOOPS_OVER.has(loop.kind) && loop.children[0] === declaration;
    const how = isHead ? 'head' : isPattern(name) ? 'part' : 'value';
    if (node.children.length > 1 || isHead) boundNames(name).forEach((binding) => this.noteWrite(binding, node, how));
    if (this.emptied.has(node)) this.of(name).emptied = true;
  }

  // How a name is written where it stands: by assignment, update or a loop's head; null where it is only read or declared.
  static writeOf(node, parents) {
    let [at, parent] = [node, parents.get(node)];
    if (node.kind === K.identifier) return parent.kind === K.update ? 'update' : null;
    while (IN_PATTERN.has(parent.kind)) [at, parent] = [parent, parents.get(parent)];
    if (parent.kind === K.assign && parent.children[0] === at) return ASSIGN[parent.form] === '=' ? 'assign' : 'update';
    return LOOPS_OVER.has(parent.kind) ? 'head' : null;
  }

  noteName(node) {
    if (node.text === 'arguments') this.withArguments.add(this.ownerOf(this.functions.get(node)));
    const how = Variables.writeOf(node, this.parents);
    const v = this.of(node);
    if (!v && how) this.hostWritten.add(node.text);
    if (!v) return;
    if (node.kind === K.identifier || how === 'update') v.reads.push(node);
    if (this.functions.get(node) !== v.fn) v.captured = true;
    if (how) this.noteWrite(node, node, how);
  }

  // loose: the script may reach it by another way than its name; open: the host may write it; seen: it may be read elsewhere (whoever calls a function of the top reads its variable);
  // foreign: it may be written while this function's code waits; visible: its writes keep their place.
  finish(v) {
    const { assumes, keys } = this;
    v.loose = v.top && (isLexical(v) ? keys.hasCode : keys.mayRead(v.name));
    v.open = v.top && !assumes.calm && v.kind !== 'const';
    v.seen = v.top && (!assumes.unread || v.loose || v.defs.some(({ kind }) => kind === 'function'));
    const isElement = v.kind === 'param' && this.withArguments.has(v.fn);
    v.foreign = v.kind !== 'own name' && (v.open || v.loose || isElement || v.writes.some(({ fn }) => fn !== v.fn));
    v.visible = v.seen || v.captured || v.foreign || this.withTry.has(v.fn);
  }

  isInside(node, outer) {
    const [[first], [start, end]] = [this.spans.get(node), this.spans.get(outer)];
    return start <= first && first <= end;
  }
}

module.exports = { Variables, isLexical };
