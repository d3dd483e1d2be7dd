#!/usr/bin/env python3
"""Makes a tree file (docs/TREE.md) of a readable one.

  tools/tree.py samples/tide.txt samples/tide.tree

A line is a node: the name of its kind; its form, where it has several, by a word of FORMS or by a number; its text, where it has
one; and its context or value. Children stand two spaces further right. `#` begins a line that is passed over. A text with spaces
stands in JSON's quotes.
"""
import json
import re
import struct
import sys

KINDS = """script block empty expression declaration declarator function return if while do for for-in for-of throw try catch switch
case binding identifier null boolean number string this array object property unary update binary assign conditional call new member
computed function-expression arrow parenthesis sequence break continue object-pattern array-pattern pattern-property default""".split()

FORMS = {
    "declaration": "var let const".split(),
    "boolean": "false true".split(),
    "unary": "void typeof ! - + ~ delete".split(),
    "update": "++x --x x++ x--".split(),
    "binary": "&& || == != === !== < <= > >= << >> >>> + - * / % | ^ & in instanceof ** ??".split(),
    "assign": "= += -= *= /= %= <<= >>= >>>= |= ^= &= **= &&= ||= ??=".split(),
    # by a number: which children are there
    "for": [], "try": [], "case": [], "new": [], "function-expression": [], "arrow": [],
}
TEXTS = {"binding", "identifier", "string", "property", "member", "pattern-property"}
CONTEXTS = {"binding", "identifier"}


class Texts:
    """Texts by their number, in the order of their first use."""

    def __init__(self):
        self.all = []

    def number(self, text):
        if text not in self.all:
            self.all.append(text)
        return self.all.index(text)


def node(line, texts):
    """A node's fields: kind, form, text number and the 8 bytes."""
    words = re.findall(r'"(?:[^"\\]|\\.)*"|\S+', line)
    name = words.pop(0)
    form, text, bits = 0, 0, 0
    if name in FORMS:
        word = words.pop(0)
        form = FORMS[name].index(word) if word in FORMS[name] else int(word)
    if name in TEXTS:
        word = words.pop(0)
        text = texts.number((json.loads(word) if word.startswith('"') else word).encode())
    if name in CONTEXTS and words:
        bits = int(words.pop(0))
    if name == "number":
        bits = struct.unpack("<Q", struct.pack("<d", float(words.pop(0))))[0]
    if words:
        raise ValueError("left over: " + line)
    return KINDS.index(name) + 1, form, text, bits


def read(lines, texts):
    """The nodes of a readable file in its order, with their child counts."""
    nodes, depths = [], []
    for line in lines:
        if not line.strip() or line.lstrip().startswith("#"):
            continue
        depth = (len(line) - len(line.lstrip())) // 2
        nodes.append(node(line.strip(), texts))
        depths.append(depth)
    counts = [0] * len(nodes)
    for i, depth in enumerate(depths):
        parents = [j for j in range(i) if depths[j] == depth - 1]
        if parents:
            counts[parents[-1]] += 1
        elif i:
            raise ValueError("no parent: node %d" % (i + 1))
    return [(k, f, c, t, b) for (k, f, t, b), c in zip(nodes, counts)]


def file(nodes, texts):
    """The bytes of a tree file."""
    n, t = len(nodes), len(texts)
    data = b"".join(texts)
    ends = [len(b"".join(texts[:i + 1])) for i in range(t)]
    head = (1, 32 + 16 * n + 4 * t + len(data), n, 32, t, 32 + 16 * n, 32 + 16 * n + 4 * t, len(data))
    return struct.pack("<8I", *head) + b"".join(struct.pack("<BBHIQ", *x) for x in nodes) + struct.pack("<%dI" % t, *ends) + data


def main(source, target):
    texts = Texts()
    with open(source, encoding="utf-8") as f:
        nodes = read(f.read().splitlines(), texts)
    with open(target, "wb") as f:
        f.write(file(nodes, texts.all))


if __name__ == "__main__":
    if len(sys.argv) != 3:
        sys.exit(__doc__)
    main(sys.argv[1], sys.argv[2])
