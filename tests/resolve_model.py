"""The resolver in Python, written from ECMA-262 and the words of request 7 alone: environments as an engine makes them, names declared into them where
they stand, and each name looked up from its own environment outwards. Nothing here follows the definitions of crates/def_resolve.

`resolve(file)` gives the refusal's number, or 0 and the context of each name in the order of the nodes.
"""
import sys

from port import nodes_of, texts_of
from treefile_reader import refusal

sys.setrecursionlimit(10000)
MOST_IDENTIFIERS = 256
NAMES = (20, 21)
PATTERNS = (45, 46, 47)
# blocks, loops and switches: one environment for what stands in them
BLOCK, LOOPS, SWITCH, CATCH, DEFAULT = 2, (12, 13, 14), 18, 17, 48
SCRIPT, DECLARATION, FUNCTION, EXPRESSION, ARROW = 1, 5, 7, 39, 40


class Node:
    """A node with its index and its children."""

    def __init__(self, index, fields, children):
        self.index, (self.kind, self.form, _, self.text, _), self.children = index, fields, children


def tree_of(nodes):
    rest = enumerate(nodes)

    def take():
        index, fields = next(rest)
        return Node(index, fields, [take() for _ in range(fields[2])])

    return take()


def bound(node):
    """BoundNames."""
    if node.kind == 20:
        return [node]
    if node.kind == DEFAULT:
        return bound(node.children[0])
    return [name for child in node.children for name in bound(child)] if node.kind in PATTERNS else []


def holds_default(nodes):
    return any(node.kind == DEFAULT or (node.kind in PATTERNS and holds_default(node.children)) for node in nodes)


class Environment:
    """What a scope binds; a function's that is no arrow has an `arguments` of its own."""

    def __init__(self, number, outer, has_arguments=False):
        self.number, self.outer, self.has_arguments, self.names = number, outer, has_arguments, set()

    def look_up(self, name):
        if name in self.names:
            return self.number
        if self.outer is None or (name == b"arguments" and self.has_arguments):
            return 0
        return self.outer.look_up(name)


class Rules:
    """What the early errors of one piece of syntax compare: its lexically declared names, the var-declared names of what stands in it, the parameters."""

    def __init__(self):
        self.lexical, self.others = [], set()

    def broken(self):
        return len(set(self.lexical)) < len(self.lexical) or bool(self.others.intersection(self.lexical))


class At:
    """Where a walk is: the innermost environment, that of `var`, the rules of each piece of syntax around up to the function's or the script's; and whether
    it is at the top of those."""

    def __init__(self, environment, variables, rules, top=False):
        self.environment, self.variables, self.rules, self.top = environment, variables, rules, top

    def inside(self, environment):
        """A piece of syntax with an environment and rules of its own."""
        return At(environment, self.variables, [Rules(), *self.rules])


class Resolver:
    def __init__(self, file):
        self.texts, self.numbers, self.names, self.all_rules = texts_of(file), 0, {}, []
        self.walk(tree_of(nodes_of(file)), None)

    def environment(self, outer, has_arguments=False):
        self.numbers += 1
        return Environment(self.numbers, outer, has_arguments)

    def ruled(self, at):
        self.all_rules.append(at.rules[0])
        return at

    def lexical(self, name, at):
        at.environment.names.add(self.texts[name.text])
        at.rules[0].lexical.append(self.texts[name.text])

    def var(self, name, at):
        at.variables.names.add(self.texts[name.text])
        for rules in at.rules:
            rules.others.add(self.texts[name.text])

    def all(self, nodes, at):
        for node in nodes:
            self.walk(node, at)

    def body(self, block, at):
        """Statements at the top of a script or of a function's body; there functions are var-declared."""
        self.all(block.children, At(at.environment, at.environment, at.rules, top=True))

    def function(self, parts, outer, has_arguments):
        """Parameters and body: two environments where a parameter has an initializer, and the body may not say again lexically what a parameter says."""
        *parameters, last = parts
        inner = self.environment(outer, has_arguments)
        at = self.ruled(At(inner, inner, [Rules()]))
        for name in [name for parameter in parameters for name in bound(parameter)]:
            inner.names.add(self.texts[name.text])
            at.rules[0].others.add(self.texts[name.text])
        self.all(parameters, at)
        if last.kind != BLOCK:
            self.walk(last, at)
        elif holds_default(parameters):
            self.body(last, At(self.environment(inner), None, at.rules))
        else:
            self.body(last, at)

    def catch(self, parts, at):
        *binding, block = parts
        inner = self.ruled(at.inside(self.environment(at.environment)))
        for name in [name for node in binding for name in bound(node)]:
            self.lexical(name, inner)
        self.all(binding, inner)
        if holds_default(binding):
            inner = At(self.environment(inner.environment), inner.variables, inner.rules)
        self.all(block.children, inner)

    def declaration(self, node, at):
        for name in [name for declarator in node.children for name in bound(declarator.children[0])]:
            if node.form == 0:
                self.var(name, at)
            else:
                self.lexical(name, at)
        self.all(node.children, at)

    def walk(self, node, at):
        kind, children = node.kind, node.children
        if kind == SCRIPT:
            whole = self.environment(None)
            self.body(node, self.ruled(At(whole, whole, [Rules()])))
        elif kind in NAMES:
            self.names[node.index] = (self.texts[node.text], at.environment)
        elif kind == DECLARATION:
            self.declaration(node, at)
        elif kind == FUNCTION:
            (self.var if at.top else self.lexical)(children[0], At(at.environment, at.variables, at.rules[:1]))
            self.walk(children[0], at)
            self.function(children[1:], at.environment, True)
        elif kind == EXPRESSION:
            outer = at.environment
            if node.form:
                outer = self.environment(outer)
                outer.names.add(self.texts[children[0].text])
                self.walk(children[0], At(outer, None, []))
            self.function(children[node.form:], outer, True)
        elif kind == ARROW:
            self.function(children, at.environment, False)
        elif kind == CATCH:
            self.catch(children, at)
        elif kind == SWITCH:
            inner = self.ruled(at.inside(self.environment(at.environment)))
            self.walk(children[0], at)
            self.all(children[1:], inner)
        elif kind == BLOCK or kind in LOOPS:
            self.all(children, self.ruled(at.inside(self.environment(at.environment))))
        else:
            self.all(children, At(at.environment, at.variables, at.rules))

    def contexts(self):
        return [environment.look_up(name) for _, (name, environment) in sorted(self.names.items(), key=lambda it: it[0])]


def resolve(file, room=None, words=16384):
    """The refusal's number, or 0; and the contexts where it is 0."""
    row = 1 if words < 16384 else refusal(file)
    if row not in (0, 7):
        return row, []
    resolver = Resolver(file)
    if any(rules.broken() for rules in resolver.all_rules):
        return 13, []
    contexts = resolver.contexts()
    names = [x[3] for x in nodes_of(file) if x[0] in NAMES]
    if len(set(zip(names, contexts))) > MOST_IDENTIFIERS:
        return 7, []
    return (10, []) if room is not None and room < len(file) else (0, contexts)
