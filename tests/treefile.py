#!/usr/bin/env python3
"""Tree files through the C entry of crates/file_copy_c and through the program show, against a reader written from document 01 and request 4 alone.

  tests/treefile.py DRIVER SHOW

The driver is tests/treefile.c, linked with the library. The last line is `N passed, M failed`.
"""
import collections
import glob
import os
import random
import struct
import subprocess
import sys

from kinds import printed
from treefile_reader import BITS, EXPRESSIONS, FORMS, NAMES, STATEMENTS, TEXT, WORDS, refusal

WORDS_LEAST = 16384
SEED = 20261116
DAMAGED = 6000


def header(n, t, b):
    return [1, 32 + 16 * n + 4 * t + b, n, 32, t, 32 + 16 * n, 32 + 16 * n + 4 * t, b]


def pack(nodes, texts, head=None, ends=None):
    """A file; header and ends as they should be, where none are given."""
    data = b"".join(texts)
    if ends is None:
        ends = [len(b"".join(texts[:i + 1])) for i in range(len(texts))]
    head = head or header(len(nodes), len(texts), len(data))
    return struct.pack("<8I", *head) + b"".join(struct.pack("<BBHIQ", *x) for x in nodes) + struct.pack("<%dI" % len(ends), *ends) + data


def tree(kind, *children, form=0, text=0, bits=0):
    """A node and all below it, in preorder."""
    return [(kind, form, len(children), text, bits)] + [x for c in children for x in c]


def statement(*expressions):
    return tree(1, *[tree(4, e) for e in expressions])


class Cases:
    """Files with what is expected of them; `want` is a row's number where the case itself says it."""

    def __init__(self):
        self.all = []

    def add(self, name, file, want=None, room=None, words=WORDS_LEAST):
        self.all.append((name, file, len(file) + 3 if room is None else room, words, want))


def examples(cases):
    """Document 01's examples of rows 1 to 7 and 10, and a gate script case."""
    empty = pack(tree(1), [])
    cases.add("no bytes", b"", 2)
    cases.add("node count 0", pack([], []), 3)
    cases.add("total one too large", pack(tree(1), [], head=[1, 49, 1, 32, 0, 48, 48, 0]), 4)
    cases.add("a twice", pack(tree(1), [b"a", b"a"]), 5)
    cases.add("one block", pack(tree(2), []), 6)
    cases.add("257 contexts", pack(statement(tree(27, *[tree(21, bits=i) for i in range(257)])), [b"x"]), 7)
    cases.add("47 bytes, empty script", empty, 10, room=47)
    cases.add("48 bytes, empty script", empty, 0, room=48)
    cases.add("few words", empty, 1, words=WORDS_LEAST - 1)
    cases.add("few words before all else", b"", 1, words=0)
    seven = struct.unpack("<Q", struct.pack("<d", 7.0))[0]
    declaration = tree(5, tree(6, tree(20), tree(24, bits=seven)), form=2)
    cases.add("const a = 7; a;", pack(tree(1, declaration, tree(4, tree(21))), [b"a"]), 0)


def limits(cases):
    """Each limit one below, at and one above."""
    for d in (-1, 0, 1):
        cases.add("nodes %+d" % d, pack(tree(1, *[tree(3)] * (1023 + d)), []), 3 if d > 0 else 0)
        cases.add("texts %+d" % d, pack(tree(1), [b"%03d" % i for i in range(256 + d)]), 3 if d > 0 else 0)
        cases.add("text bytes %+d" % d, pack(tree(1), [b"x" * (4096 + d)]), 3 if d > 0 else 0)
        cases.add("depth %+d" % d, pack(nested(200 + d), [b"x"]), 6 if d > 0 else 0)
        for kind in (45, 46, 48):
            cases.add("depth %+d of %d" % (d, kind), pack(nested_pattern(kind, 200 + d), [b"x"]), 6 if d > 0 else 0)
        cases.add("identifiers %+d" % d, pack(statement(tree(27, *[tree(21, bits=i) for i in range(256 + d)])), [b"x"]), 7 if d > 0 else 0)
        cases.add("names %+d" % d, pack(statement(tree(27, *[tree(21, text=i % 2, bits=i // 2) for i in range(256 + d)])), [b"x", b"y"]), 7 if d > 0 else 0)
        cases.add("words %+d" % d, pack(tree(1), []), 1 if d < 0 else 0, words=WORDS_LEAST + d)
        cases.add("room %+d" % d, pack(tree(1), [b"x"]), 10 if d < 0 else 0, room=53 + d)
        cases.add("text number %+d" % d, pack(statement(tree(25, text=2 + d)), [b"a", b"b", b"c"]), 6 if d > 0 else 0)
    cases.add("31 bytes", pack(tree(1), [])[:31], 2)
    cases.add("32 bytes", pack(tree(1), [])[:32], 4)
    cases.add("no room at all", pack(tree(1), []), 10, room=0)
    whole = pack(tree(1, *[tree(3)] * 1023), [b"%03d" % i for i in range(255)] + [b"x" * (4096 - 765)])
    cases.add("largest", whole, 0)
    cases.add("largest and one byte", whole + b"x", 4)
    cases.add("more words", whole, 0, words=20000)


def nested(depth):
    """Parentheses around an identifier, the deepest node at the given depth."""
    inner = tree(21)
    for _ in range(depth - 3):
        inner = tree(41, inner)
    return statement(inner)


def nested_pattern(kind, depth):
    """Object patterns, array patterns or defaults around a binding, below a declarator, the deepest node at the given depth."""
    inner, left = tree(20), depth - 4
    while left:
        if kind == 45 and left > 1:
            inner, left = tree(45, tree(47, inner)), left - 2
        elif kind == 48 and left > 1:
            inner, left = tree(46, tree(48, inner, tree(26))), left - 2
        else:
            inner, left = tree(46, inner), left - 1
    return tree(1, tree(5, tree(6, inner)))


def texts(cases):
    """Row 5: ends that fall or miss, equal texts, empty texts, no texts."""
    root = tree(1)
    for ends, want in (([1, 2, 3], 0), ([2, 1, 3], 5), ([1, 1, 3], 0), ([0, 1, 3], 0), ([1, 3, 2], 5), ([1, 2, 2], 5), ([1, 2, 4], 5),
                       ([3, 3, 3], 5), ([0, 0, 3], 5), ([1, 2, 2 ** 32 - 1], 5), ([2 ** 32 - 1, 2, 3], 5), ([4, 4, 3], 5)):
        cases.add("ends %s" % ends, pack(root, [b"a", b"b", b"c"], ends=ends), want)
    for i in range(4):
        for j in range(i):
            several = [b"one", b"two", b"six", b"ten"]
            several[i] = several[j]
            cases.add("texts %d and %d equal" % (i, j), pack(root, several), 5)
    cases.add("texts that begin alike", pack(root, [b"a", b"ab", b"abc", b"b"]), 0)
    cases.add("an empty text", pack(root, [b""]), 0)
    cases.add("two empty texts", pack(root, [b"", b""]), 5)
    cases.add("an empty text between", pack(root, [b"a", b"", b"b"]), 0)
    cases.add("no texts, one byte", pack(root, [], head=header(1, 0, 1)) + b"x", 5)
    cases.add("no texts", pack(root, []), 0)
    cases.add("a text with no bytes of its own", pack(root, [b""], ends=[1]), 5)


def headers(cases):
    """Every field of the header, off by one and far off; rows in checking order."""
    good = header(1, 1, 1)
    for i in range(8):
        for value in {good[i] - 1, good[i] + 1, 0, 2, 2 ** 31, 2 ** 32 - 1} - {-1}:
            head = good[:i] + [value] + good[i + 1:]
            cases.add("header field %d is %d" % (i, value), pack(tree(1), [b"x"], head=head))
    cases.add("2 before 3", pack([], [], head=[2, 32, 0, 32, 0, 32, 32, 0]), 2)
    cases.add("3 before 4", pack(tree(1), [], head=[1, 9, 0, 9, 0, 9, 9, 0]), 3)
    cases.add("4 before 5", pack(tree(2), [b"a", b"a"], head=[1, 9, 1, 32, 2, 48, 56, 2]), 4)
    cases.add("5 before 6", pack(tree(2), [b"a", b"a"]), 5)
    many = [tree(21, bits=i) for i in range(300)]
    cases.add("6 before 7", pack(statement(tree(27, *many, tree(20))), [b"x"]), 6)
    cases.add("7 before 10", pack(statement(tree(27, *many)), [b"x"]), 7, room=0)


def least(kind, form=None):
    """A smallest readable node of a kind, and all below it."""
    form = min(FORMS[kind]) if form is None else form
    return tree(kind, *[least(k) for k in least_children(kind, form)], form=form)


def least_children(kind, form):
    """The kinds of the fewest children."""
    first = {"s": 3, "e": 26, "b": 20, "h": 20, "f": 26, "u": 21, "a": 20, "n": 20, "t": 20, "d": 20}
    return [first.get(w) or int(w) for w in FORMS[kind][form].split() if w[-1] not in "*?"]


def around(kind, node):
    """A script with the node of that kind in a place for it, or as the root."""
    if kind == 1:
        return node
    if kind in STATEMENTS:
        return tree(1, node)
    if kind in EXPRESSIONS:
        return statement(node)
    return {
        6: lambda: tree(1, tree(5, node)),
        17: lambda: tree(1, tree(16, least(2), node, form=1)),
        19: lambda: tree(1, tree(18, least(26), node)),
        20: lambda: declared(node),
        29: lambda: statement(tree(28, node)),
        45: lambda: declared(node),
        46: lambda: declared(node),
        47: lambda: declared(tree(45, node)),
        48: lambda: tree(1, tree(7, least(20), node, least(2))),
    }[kind]()


def declared(name):
    """A script that declares by `var`."""
    return tree(1, tree(5, tree(6, name)))


def with_first(nodes, at, **fields):
    """The nodes with fields of one changed."""
    names = ("kind", "form", "arity", "text", "bits")
    old = dict(zip(names, nodes[at]))
    old.update(fields)
    return nodes[:at] + [tuple(old[n] for n in names)] + nodes[at + 1:]


def fields(cases):
    """Of each kind: every form, every unused field, every child count off by one."""
    for kind in FORMS:
        for form in FORMS[kind]:
            node = least(kind, form)
            script = around(kind, node)
            at = script.index(node[0])
            name = "kind %d form %d" % (kind, form)
            cases.add(name, pack(script, [b"x"]), 0)
            cases.add(name + " text 1", pack(with_first(script, at, text=1), [b"x"]), 6)
            cases.add(name + " text 2^31", pack(with_first(script, at, text=2 ** 31), [b"x"]), 6)
            cases.add(name + " second text", pack(with_first(script, at, text=1), [b"x", b"y"]), 0 if kind in TEXT else 6)
            for byte in range(8):
                cases.add(name + " byte %d" % byte, pack(with_first(script, at, bits=1 << 8 * byte), [b"x"]), 0 if kind in BITS else 6)
            counts(cases, name, kind, form, script, at)
        for form in range(256):
            node = least(kind)
            script = around(kind, node)
            want = None if form in FORMS[kind] else 6
            cases.add("kind %d, form put to %d" % (kind, form), pack(with_first(script, script.index(node[0]), form=form), [b"x"]), want)
    for kind in [0, *range(49, 256)]:
        cases.add("no kind %d" % kind, pack([(1, 0, 1, 0, 0), (kind, 0, 0, 0, 0)], [b"x"]), 6)


def counts(cases, name, kind, form, script, at):
    """The count field off by one, and a child more or less with its count."""
    arity = script[at][2]
    for count in {arity - 1, arity + 1, arity + 256, 65535} - {-1}:
        cases.add(name + " count %d" % count, pack(with_first(script, at, arity=count), [b"x"]), 6)
    kinds = least_children(kind, form)
    for changed in [kinds[:-1], *[kinds[:i] + [k] + kinds[i:] for i in range(len(kinds) + 1) for k in (3, 20, 26, 45, 46, 47, 48)]]:
        node = tree(kind, *[least(k) for k in changed], form=form)
        cases.add(name + " children %s" % changed, pack(around(kind, node), [b"x"]))


def places(cases):
    """Each kind at each place of each kind and form, among the fewest children and as one more between them."""
    for kind in FORMS:
        for form in FORMS[kind] if kind not in (30, 32) else (0, max(FORMS[kind])):
            kinds = least_children(kind, form)
            for i in range(len(kinds) + 1):
                for other in FORMS:
                    for way, rest in (("is", kinds[i + 1:]), ("before it", kinds[i:])):
                        changed = [least(k) for k in kinds[:i]] + [least(other)] + [least(k) for k in rest]
                        cases.add("kind %d form %d, child %d %s %d" % (kind, form, i, way, other), pack(around(kind, tree(kind, *changed, form=form)), [b"x"]))
    for other in FORMS:
        cases.add("root %d" % other, pack(least(other), [b"x"]), 0 if other == 1 else 6)
    two = tree(5, least(6), least(6))
    for kind in (13, 14):
        cases.add("two declarators in a head", pack(tree(1, tree(kind, two, least(26), least(3))), [b"x"]), 6)
        cases.add("a declarator in a head", pack(tree(1, tree(kind, tree(5, least(6)), least(26), least(3))), [b"x"]), 0)
    cases.add("two scripts", pack(tree(1) + tree(1), []), 6)
    cases.add("a node left over", pack(tree(1) + tree(3), []), 6)
    cases.add("a node missing", pack([(1, 0, 1, 0, 0)], []), 6)


def pairs(cases):
    """Each pair of kinds, a parent and its child: where the program of crates/kind_table prints a 1, a file that is read and one with the child at a place
    that does not take it; where it prints a 0, a file that is refused, whatever the place."""
    table = printed()
    for parent in FORMS:
        for child in FORMS:
            read, other = None, None
            for form in FORMS[parent]:
                kinds = least_children(parent, form)
                ways = [kinds[:i] + [child] + kinds[i + 1:] for i in range(len(kinds))] + [kinds[:i] + [child] + kinds[i:] for i in range(len(kinds) + 1)]
                for way in ways:
                    file = pack(around(parent, tree(parent, *[least(k) for k in way], form=form)), [b"x"])
                    if refusal(file):
                        other = other or file
                    else:
                        read = read or file
            allowed = table[parent - 1][child - 1] == "1"
            name = "pair of %d and %d" % (parent, child)
            if allowed or read:
                cases.add(name + ", read", read or other, 0 if allowed else 6)
            if other:
                cases.add(name + ", refused", other, 6)


def patterns(cases):
    """Request 4 by its words: where 45 to 48 stand, what stands below them, and the text of 47."""
    a, e, block, texts = tree(20), tree(21), tree(2), [b"a", b"b", b""]
    key = tree(47, a)
    default = tree(48, a, e)
    both = [tree(45, key), tree(46, a)]

    def script(name, nodes, want):
        cases.add("patterns: " + name, pack(tree(1, *nodes), texts), want)

    # a place as a statement that has a target in it, and which of 20, 45 and 46, 47, 48 may stand there
    places = [
        ("declarator name", lambda x: tree(5, tree(6, x)), "nn--"),
        ("declarator name with initialiser", lambda x: tree(5, tree(6, x, e), form=2), "nn--"),
        ("parameter of a function", lambda x: tree(7, a, x, block), "nn-d"),
        ("second parameter", lambda x: tree(7, a, a, x, block), "nn-d"),
        ("parameter of a function expression", lambda x: tree(4, tree(39, x, block)), "nn-d"),
        ("parameter of a named one", lambda x: tree(4, tree(39, a, x, block, form=1)), "nn-d"),
        ("parameter of an arrow", lambda x: tree(4, tree(40, x, block)), "nn-d"),
        ("parameter of an arrow to an expression", lambda x: tree(4, tree(40, a, x, e, form=1)), "nn-d"),
        ("catch binding", lambda x: tree(16, block, tree(17, x, block), form=1), "nn--"),
        ("head of for-in", lambda x: tree(13, x, e, tree(3)), "nn--"),
        ("head of for-of", lambda x: tree(14, x, e, tree(3)), "nn--"),
        ("declared in the head of for-in", lambda x: tree(13, tree(5, tree(6, x)), e, tree(3)), "nn--"),
        ("declared in the head of for-of", lambda x: tree(14, tree(5, tree(6, x), form=1), e, tree(3)), "nn--"),
        ("declared in the start of a for", lambda x: tree(12, tree(5, tree(6, x)), tree(3), form=1), "nn--"),
        ("left of =", lambda x: tree(4, tree(33, x, e)), "nn--"),
        ("in an object pattern", lambda x: tree(5, tree(6, tree(45, x))), "--p-"),
        ("in an array pattern", lambda x: tree(5, tree(6, tree(46, x))), "nn-d"),
        ("last in an array pattern", lambda x: tree(5, tree(6, tree(46, a, a, x))), "nn-d"),
        ("in a pattern property", lambda x: tree(5, tree(6, tree(45, tree(47, x)))), "nn-d"),
        ("left of a default", lambda x: tree(5, tree(6, tree(46, tree(48, x, e)))), "nn--"),
        ("right of a default", lambda x: tree(5, tree(6, tree(46, tree(48, a, x)))), "----"),
        ("name of a function", lambda x: tree(7, x, block), "n---"),
        ("name of a function expression", lambda x: tree(4, tree(39, x, block, form=1)), "n---"),
        ("body of a function", lambda x: tree(7, a, x), "----"),
        ("statement", lambda x: x, "----"),
        ("expression", lambda x: tree(4, x), "----"),
        ("initialiser", lambda x: tree(5, tree(6, a, x)), "----"),
        ("argument", lambda x: tree(4, tree(35, e, x)), "----"),
        ("element", lambda x: tree(4, tree(27, x)), "----"),
        ("property", lambda x: tree(4, tree(28, x)), "----"),
        ("value of a property", lambda x: tree(4, tree(28, tree(29, x))), "----"),
        ("under an update", lambda x: tree(4, tree(31, x)), "----"),
        ("in a parenthesis", lambda x: tree(4, tree(41, x)), "----"),
        ("start of a for", lambda x: tree(12, x, tree(3), form=1), "----"),
        ("right of =", lambda x: tree(4, tree(33, a, x)), "----"),
    ]
    places += [("left of assignment %d" % f, lambda x, f=f: tree(4, tree(33, x, e, form=f)), "n---") for f in range(1, 16)]
    for name, place, may in places:
        for kind, there, trees in ((20, may[0] == "n", [a]), (45, may[1] == "n", both), (47, may[2] == "p", [key]), (48, may[3] == "d", [default])):
            for x in trees:
                script("%d as %s" % (x[0][0], name), [place(x)], 0 if there else 6)
    for name, nodes, want in (
            ("function f({today: today, before: before}) {}", [tree(7, a, tree(45, key, tree(47, tree(20, text=1), text=1)), block)], 0),
            ("var {a: a};", [tree(5, tree(6, tree(45, key)))], 0),
            ("var {};", [tree(5, tree(6, tree(45)))], 0),
            ("[] = a;", [tree(4, tree(33, tree(46), e))], 0),
            ("({a: [a = a], b: {a: a}} = a);", [tree(4, tree(33, tree(45, tree(47, tree(46, default)), tree(47, tree(45, key), text=1)), e))], 0),
            ("([a] = a) => a;", [tree(4, tree(40, tree(48, tree(46, a), e), e, form=1))], 0),
            ("({a: a} = a) => a;", [tree(4, tree(40, tree(48, tree(45, key), e), e, form=1))], 0),
            ("var {a: a = a} = a;", [tree(5, tree(6, tree(45, tree(47, default)), e))], 0),
            ("two properties of one key", [tree(5, tree(6, tree(45, key, key)))], 0),
            ("twenty targets", [tree(5, tree(6, tree(46, *[a] * 20)))], 0),
            ("for (var [a], a of a) ;", [tree(14, tree(5, tree(6, tree(46, a)), tree(6, a)), e, tree(3))], 6),
            ("[a.b] = a;", [tree(4, tree(33, tree(46, tree(37, e, text=1)), e))], 6),
            ("({a: a[a]} = a);", [tree(4, tree(33, tree(45, tree(47, tree(38, e, e))), e))], 6),
            ("[a] = a with 21 in the pattern", [tree(4, tree(33, tree(46, e), e))], 6),
            ("a hole", [tree(5, tree(6, tree(46, a, tree(3), a)))], 6),
            ("an array for an array pattern", [tree(4, tree(33, tree(27, e), e))], 6),
            ("an object for an object pattern", [tree(4, tree(33, tree(28, tree(29, e)), e))], 6),
            ("a pattern below an array", [tree(4, tree(27, tree(46, a)))], 6),
            ("a property in a pattern", [tree(5, tree(6, tree(45, tree(29, e))))], 6),
            ("a default of a default", [tree(7, a, tree(48, default, e), block)], 6),
            ("47 without a target", [tree(5, tree(6, tree(45, tree(47))))], 6),
            ("47 with two targets", [tree(5, tree(6, tree(45, tree(47, a, a))))], 6),
            ("48 without a value", [tree(7, a, tree(48, a), block)], 6),
            ("48 with two values", [tree(7, a, tree(48, a, e, e), block)], 6),
            ("48 with nothing", [tree(7, a, tree(48), block)], 6),
            ("a pattern alone under a function expression", [tree(4, tree(39, tree(46, a)))], 6),
            ("a pattern alone under an arrow", [tree(4, tree(40, tree(46, a)))], 6)):
        script(name, nodes, want)
    for text, want in ((0, 0), (1, 0), (2, 0), (3, 6), (2 ** 31, 6)):
        script("text %d of 47" % text, [tree(5, tree(6, tree(45, tree(47, a, text=text))))], want)
    for kind, node in ((45, tree(45)), (46, tree(46)), (48, default)):
        changed = with_first(tree(7, a, node, block), 2, text=1)
        script("text 1 of %d" % kind, [changed], 6)
    for kind, node in ((45, tree(45)), (46, tree(46)), (47, tree(45, key)), (48, default)):
        for field in ("form", "bits"):
            changed = with_first(tree(7, a, node, block), 3 if kind == 47 else 2, **{field: 1})
            script("%s 1 of %d" % (field, kind), [changed], 6)
    # of 47 only the name below it is an identifier: row 7 counts no key
    keys = tree(45, *[tree(47, tree(20, bits=i), text=i % 3) for i in range(256)])
    cases.add("patterns: 256 identifiers", pack(declared(keys), texts), 0)
    keys = tree(45, *[tree(47, tree(20, bits=i), text=i % 3) for i in range(257)])
    cases.add("patterns: 257 identifiers", pack(declared(keys), texts), 7)


def grown(rng, kind, depth, names):
    """A random readable node of a kind."""
    form = rng.choice(sorted(FORMS[kind]))
    children = []
    for word in FORMS[kind][form].split():
        name, mark = (word[:-1], word[-1]) if word[-1] in "*?" else (word, "")
        if name == "h":
            name = lambda: grown(rng, rng.choice(NAMES if depth > 0 else [20]), depth - 1, names)
            children.append(rng.choice([name, lambda: tree(5, grown(rng, 6, depth - 1, names))])())
            continue
        for _ in range({"": 1, "?": rng.randrange(2), "*": rng.randrange(4)}[mark]):
            kinds = WORDS[name] if name in WORDS else [int(name)]
            flat = [k for k in kinds if not FORMS[k][min(FORMS[k])]]
            children.append(grown(rng, rng.choice(kinds if depth > 0 or not flat else flat), depth - 1, names))
    text = rng.randrange(names) if kind in TEXT else 0
    bits = (rng.randrange(3) if kind != 24 else rng.getrandbits(64)) if kind in BITS else 0
    return tree(kind, *children, form=form, text=text, bits=bits)


def good_files(rng):
    """Random readable files."""
    files = []
    while len(files) < 300:
        names = [b"arguments", b"", b"f", b"g", b"high", "ufer\u00e4".encode()][:rng.randrange(1, 7)]
        nodes = tree(1, *[grown(rng, rng.choice(STATEMENTS), rng.randrange(1, 6), len(names)) for _ in range(rng.randrange(8))])
        if len(nodes) <= 1024:
            files.append(pack(nodes, names))
    # 256 identifiers, some of them again: one changed context is row 7's
    full = statement(tree(27, *[tree(21, bits=i % 256) for i in range(500)]))
    return files + [pack(full, [b"x"])] * 20


def vectors():
    """The files of the stored vectors, with the original's refusal 2 to 7, or 0."""
    here = os.path.dirname(os.path.abspath(__file__))
    for path in sorted(glob.glob(os.path.join(here, "vectors", "*.txt"))):
        with open(path, encoding="utf-8") as f:
            blocks = f.read().split("\n\n")
        for file, _, answer in (b.split("\n")[:3] for b in blocks if b.strip()):
            row = int(answer.split()[1]) if answer.startswith("refused ") else 0
            yield bytes.fromhex(file[4:]), row if row < 8 else 0


def damage(rng, file):
    """One to three changes of a file."""
    data = bytearray(file)
    for _ in range(rng.choice((1, 1, 1, 2, 3))):
        at = rng.randrange(len(data)) if data else 0
        way = rng.randrange(8)
        if way == 0 and data:
            data[at] ^= 1 << rng.randrange(8)
        elif way == 1 and data:
            data[at] = rng.choice((0, 1, 2, 5, 20, 21, 44, 45, 46, 47, 48, 49, 255))
        elif way == 2 and len(data) >= 32:
            struct.pack_into("<I", data, 4 * rng.randrange(8), rng.choice((0, 1, 31, 32, 33, 256, 257, 1024, 1025, 4096, 4097, 2 ** 32 - 1)))
        elif way == 3:
            del data[at:at + rng.choice((1, 4, 16))]
        elif way == 4:
            data[at:at] = bytes(rng.choice((1, 4, 16)))
        elif way == 5 and len(data) >= 64:
            a, b = (32 + 16 * rng.randrange((len(data) - 32) // 16) for _ in range(2))
            data[a:a + 16], data[b:b + 16] = data[b:b + 16], data[a:a + 16]
        elif way == 6 and len(data) >= 48:
            at = 32 + 16 * rng.randrange((len(data) - 32) // 16)
            data[at + rng.choice((0, 1, 2, 4))] = rng.randrange(50)
        elif way == 7 and len(data) > 40:
            data[-1 - rng.randrange(12)] = rng.choice((0, 1, 2, 97))
    return bytes(data)


def damaged(cases):
    """Readable files and those of the vectors, with and without room, and damaged copies of both."""
    rng = random.Random(SEED)
    files = [(f, 0) for f in good_files(rng)] + list(vectors())
    for i, (file, want) in enumerate(files):
        cases.add("file %d" % i, file, want)
        cases.add("file %d, no room" % i, file, want or 10, room=max(0, len(file) - 1))
    for i in range(DAMAGED):
        file = damage(rng, rng.choice(files)[0])
        cases.add("damaged file %d" % i, file, room=max(0, len(file) + rng.choice((-1, 0, 0, 1, 5))), words=rng.choice((WORDS_LEAST, WORDS_LEAST, WORDS_LEAST + 7)))


def expected(file, room, words):
    """What the entry has to answer: the number, the length, the result, whether the rest is kept, and the words."""
    row = 1 if words < WORDS_LEAST else refusal(file) or (10 if room < len(file) else 0)
    state = "same" if row == 1 else "clear"
    if row:
        return row, "%d 0 - 1 %s" % (row, state)
    return 0, "0 %d %s 1 %s" % (len(file), file.hex(), state)


def through_driver(driver):
    """How many files were answered as expected, and how many were not; each row must be met."""
    cases = Cases()
    for add in (examples, limits, texts, headers, fields, places, pairs, patterns, damaged):
        add(cases)
    lines = "".join("%s %d %d\n" % (f.hex() or "-", room, words) for _, f, room, words, _ in cases.all)
    out = subprocess.run([driver], input=lines, capture_output=True, text=True, check=True).stdout.splitlines()
    failed, rows = abs(len(out) - len(cases.all)), collections.Counter()
    for (name, file, room, words, want), got in zip(cases.all, out):
        row, line = expected(file, room, words)
        rows[row] += 1
        if got != line or want not in (None, row):
            failed += 1
            print("%s: got %.60s, reader %.60s, case %s" % (name, got, line, want))
    for row in (0, 1, 2, 3, 4, 5, 6, 7, 10):
        print("%s: %d" % ("read and written" if row == 0 else "refused %d" % row, rows[row]))
        failed += rows[row] == 0
    return len(cases.all) - failed, failed


def longer(cases):
    """Inputs longer than any readable file: cut or whole, the same row refuses them."""
    for extra in (1, 2, 50000):
        for head, want in ((header(1024, 256, 4096 + extra), 3), (header(1024, 256, 4096), 4), ([2] + header(1, 0, 0)[1:], 2)):
            cases.add("%d bytes too long, row %d" % (extra, want), struct.pack("<8I", *head) + bytes(21504 + extra), want)


def shown(file):
    row = refusal(file)
    if row:
        return "refused %d\n" % row
    _, _, n, _, t, _, _, _ = struct.unpack_from("<8I", file)
    nodes = (struct.unpack_from("<BBHIQ", file, 32 + 16 * i) for i in range(n))
    return "nodes %d texts %d\n" % (n, t) + "".join("%d %d %d %d %016x\n" % x for x in nodes)


def through_program(show):
    """The same for the program, which takes one file."""
    cases, failed = Cases(), 0
    for add in (examples, limits, texts, longer):
        add(cases)
    for name, file, _, _, want in cases.all:
        got = subprocess.run([show], input=file, capture_output=True, check=True).stdout.decode()
        if got != shown(file) or (want in range(2, 8) and got != "refused %d\n" % want):
            failed += 1
            print("show, %s: %.60r, not %.60r" % (name, got, shown(file)))
    print("shown: %d" % len(cases.all))
    return len(cases.all) - failed, failed


def main(driver, show):
    passed, failed = map(sum, zip(through_driver(driver), through_program(show)))
    print("%d passed, %d failed" % (passed, failed))
    return failed == 0


if __name__ == "__main__":
    if len(sys.argv) != 3:
        sys.exit(__doc__)
    sys.exit(0 if main(sys.argv[1], sys.argv[2]) else 1)
