#!/usr/bin/env python3
"""The writer of canonical files through its C function, against one that is written here from the words of document 02's request 11 alone, and beside
the pass, also under lent kind tables (request 10).

  tests/canon.py DRIVER

The driver is tests/port.c, linked with the library. The last line is `N passed, M failed`.
"""
import random
import sys

from lent import ALLOWED, CONSTANT, FORBIDDEN, only, pairs_of, with_entries, without
from port import MOST_BYTES, MOST_ROOTS, ROOT, STACK, WORDS, Count, Port, nodes_of, texts_of, vectors
from treefile import damage, declared, good_files, pack, statement, tree
from treefile_reader import TEXT, refusal

SEED = 20261127
DAMAGED = 6000
NAMES = {20, 21}
GREATEST = 2 ** 64 - 1


def canonical(file):
    """Texts in the order of their first use by nodes, unused ones dropped, contexts renumbered from 0 in the order of first use."""
    old, nodes, texts, contexts = texts_of(file), [], [], []
    for kind, form, arity, text, bits in nodes_of(file):
        if kind in TEXT:
            if old[text] not in texts:
                texts.append(old[text])
            text = texts.index(old[text])
        if kind in NAMES:
            if bits not in contexts:
                contexts.append(bits)
            bits = contexts.index(bits)
        nodes.append((kind, form, arity, text, bits))
    return pack(nodes, texts)


def one_script(one, two):
    """Two readable files differ only in text numbering, in unused texts, and by a one-to-one change of contexts."""
    (a, b), (ts, us) = [nodes_of(x) for x in (one, two)], [texts_of(x) for x in (one, two)]
    there, back = {}, {}
    for x, y in zip(a, b):
        if x[:3] != y[:3] or (x[0] in TEXT and ts[x[3]] != us[y[3]]):
            return False
        if x[0] not in NAMES:
            if x[4] != y[4]:
                return False
        elif there.setdefault(x[4], y[4]) != y[4] or back.setdefault(y[4], x[4]) != x[4]:
            return False
    return len(a) == len(b)


def texts_shuffled(rng, file):
    old = texts_of(file)
    order = rng.sample(range(len(old)), len(old))
    number = {t: i for i, t in enumerate(order)}
    return pack([(k, f, n, number[t] if k in TEXT else t, b) for k, f, n, t, b in nodes_of(file)], [old[t] for t in order])


def texts_added(rng, file):
    """Texts that no node uses, as many as fit or fewer, between the others."""
    texts, fresh, moved = texts_of(file), [b"", b"\0", b"x", b"\xff\xfe", b"arguments", *[b"unused %d" % i for i in range(300)]], nodes_of(file)
    for text in rng.sample(fresh, rng.randrange(1, len(fresh))):
        if text in texts or len(texts) == 256 or len(b"".join(texts)) + len(text) > 4096:
            continue
        at = rng.randrange(len(texts) + 1)
        texts.insert(at, text)
        moved = [(k, f, n, t + (k in TEXT and t >= at), b) for k, f, n, t, b in moved]
    return pack(moved, texts)


def contexts_changed(rng, file):
    """Other contexts, one to one."""
    old = sorted({x[4] for x in nodes_of(file) if x[0] in NAMES})
    new = set(rng.sample((0, 1, 2, 255, 2 ** 32 - 1, 2 ** 32, GREATEST, GREATEST - 1), min(len(old), rng.randrange(9))))
    while len(new) < len(old):
        new.add(rng.getrandbits(rng.choice((3, 9, 32, 64))))
    number = dict(zip(old, rng.sample(sorted(new), len(old))))
    return pack([(*x[:4], number[x[4]]) if x[0] in NAMES else x for x in nodes_of(file)], texts_of(file))


SAME = (texts_shuffled, texts_added, contexts_changed)


def with_node(file, at, **fields):
    nodes = nodes_of(file)
    old = dict(zip(("kind", "form", "arity", "text", "bits"), nodes[at]))
    nodes[at] = tuple({**old, **fields}.values())
    return pack(nodes, texts_of(file))


def places(file, kinds):
    return [i for i, x in enumerate(nodes_of(file)) if x[0] in kinds]


def contexts_merged(rng, file):
    names = {x[4] for x in nodes_of(file) if x[0] in NAMES}
    if len(names) < 2:
        return None
    a, b = rng.sample(sorted(names), 2)
    return pack([(*x[:4], a) if x[0] in NAMES and x[4] == b else x for x in nodes_of(file)], texts_of(file))


def context_split(rng, file):
    """Some names of a context, and not all, get one that no name has."""
    named = [x[4] for x in nodes_of(file) if x[0] in NAMES]
    many = [b for b in set(named) if named.count(b) > 1]
    if not many:
        return None
    split = rng.choice(sorted(many))
    at = rng.choice([i for i in places(file, NAMES) if nodes_of(file)[i][4] == split])
    return with_node(file, at, bits=next(b for b in (GREATEST, 0, 1, *range(2, 300)) if b not in named))


def text_changed(rng, file):
    """The bytes of a text that a node uses."""
    at = places(file, TEXT)
    if not at:
        return None
    texts, used = texts_of(file), nodes_of(file)[rng.choice(at)][3]
    texts[used] = next(t for t in (b"", b"other", b"another") if t not in texts)
    return pack(nodes_of(file), texts)


def text_of_one_node(rng, file):
    at, count = places(file, TEXT), len(texts_of(file))
    if not at or count < 2:
        return None
    i = rng.choice(at)
    return with_node(file, i, text=rng.choice([t for t in range(count) if t != nodes_of(file)[i][3]]))


def number_changed(rng, file):
    at = places(file, {24})
    return with_node(file, rng.choice(at), bits=rng.getrandbits(64)) if at else None


def boolean_changed(rng, file):
    at = places(file, {23})
    if not at:
        return None
    i = rng.choice(at)
    return with_node(file, i, form=1 - nodes_of(file)[i][1])


OTHER = (contexts_merged, context_split, text_changed, text_of_one_node, number_changed, boolean_changed)


def limits():
    """Scripts at the limits of a file."""
    yield "no texts", pack(tree(1), [])
    yield "unused texts alone", pack(tree(1), [b"a", b"", b"b"])
    yield "the empty text", pack(statement(tree(25, text=1)), [b"x", b""])
    yield "the empty text alone", pack(statement(tree(25)), [b""])
    yield "256 texts, the last first", pack(statement(tree(27, *[tree(25, text=255 - i) for i in range(256)])), [bytes([i]) for i in range(256)])
    yield "256 texts without use", pack(tree(1), [bytes([i]) for i in range(256)])
    yield "256 names in 256 contexts", pack(statement(tree(27, *[tree(21, text=i, bits=255 - i) for i in range(256)])), [b"%03d" % i for i in range(256)])
    yield "one name in 256 contexts, some again", pack(statement(tree(27, *[tree(21, bits=GREATEST - i % 256) for i in range(1000)])), [b"x"])
    yield "256 names in one context", pack(statement(tree(27, *[tree(21, text=255 - i, bits=GREATEST) for i in range(256)])), [b"%03d" % i for i in range(256)])
    yield "the greatest context and the least", pack(statement(tree(27, tree(21, bits=GREATEST), tree(21, bits=0), tree(21, bits=GREATEST))), [b"x"])
    yield "contexts that differ in one half", pack(statement(tree(27, *[tree(21, bits=b) for b in (1, 2 ** 32, 2 ** 32 + 1, 2 ** 33, 2)])), [b"x"])
    yield "a number with the bits of a context", pack(statement(tree(24, bits=9), tree(21, bits=9), tree(24, bits=0)), [b"x"])
    yield "a member's text first", pack(statement(tree(37, tree(21, text=0), text=1)), [b"o", b"p"])
    yield "a property's text first", pack(statement(tree(28, tree(29, tree(25, text=0), text=1))), [b"s", b"p"])
    yield "a pattern property's text first", pack(declared(tree(45, tree(47, tree(20, text=0), text=1))), [b"x", b"p"])
    yield "the longest", pack(tree(1, *[tree(3)] * 1023), [b"%03d" % i for i in range(255)] + [b"x" * (4096 - 765)])
    yield "4,096 bytes in one text", pack(statement(tree(25)), [b"x" * 4096])
    yield "1,024 nodes that use texts", pack(statement(*[tree(25, text=i * 7 % 256) for i in range(511)]), [b"%d" % i for i in range(256)])


class Writer:
    """The C function, with all that each call has to leave."""

    def __init__(self, port, count):
        self.port, self.count = port, count

    def __call__(self, file, room=MOST_BYTES, words=WORDS):
        """The refusal's number and what was written."""
        refused, length, _, _, out, kept, state = self.port.call("canon", file, room, words)
        holds = kept and length == len(out) and state == ("same" if refused == 1 else "clear")
        self.count.check(holds, "buffers: refused %d, kept %s, words %s", refused, kept, state)
        return refused, out

    def is_answer(self, name, file, room=MOST_BYTES, words=WORDS):
        """What the function has to answer, by the reader and the writer of these tests."""
        row = 1 if words < WORDS else refusal(file)
        want = b"" if row else canonical(file)
        row = row or (16 if room < len(want) else 0)
        got = self(file, room, words)
        self.count.check(got == (row, b"" if row else want), "%s: refused %d, not %d, or other bytes", name, got[0], row)
        return row


def forms(writer, count, files):
    """The canonical file, which is written again as it is; what differs only as it may is written to the same bytes, all else to others."""
    rng, told = random.Random(SEED), {way.__name__: 0 for way in SAME + OTHER}
    for number, file in enumerate(files):
        name = "file %d" % number
        writer.is_answer(name, file)
        want = canonical(file)
        count.check(writer(want) == (0, want), "%s: written again as it is", name)
        another = file
        for way in rng.sample(SAME, 3):
            another = way(rng, another)
            told[way.__name__] += another != file
            count.check(refusal(another) == 0 and one_script(file, another) and writer(another) == (0, want), "%s: %s", name, way.__name__)
        for way in OTHER:
            other = way(rng, rng.choice((file, another)))
            if other is None or refusal(other):
                continue
            same = one_script(file, other)
            told[way.__name__] += not same
            count.check((writer(other) == (0, want)) == same, "%s: %s, one script: %s", name, way.__name__, same)
    for way, times in told.items():
        count.check(times > 100, "only %d times: %s", times, way)
        print("%s: %d" % (way, times))


def buffers(writer, files):
    """The buffer one byte below what is written, at it and one above; words too; rows in checking order."""
    rng = random.Random(SEED)
    for number, file in enumerate(files):
        need = 0 if refusal(file) else len(canonical(file))
        for room in {0, need - 1, need, need + 1, len(file)} - {-1}:
            writer.is_answer("file %d, room %d" % (number, room), file, room, rng.choice((WORDS, WORDS + 1, WORDS + 999)))
        writer.is_answer("file %d, few words" % number, file, rng.choice((0, need, MOST_BYTES)), rng.choice((0, WORDS - 1)))


def damaged(writer, files):
    """Damaged files are refused as the reader refuses them."""
    rng, rows = random.Random(SEED), {}
    for number in range(DAMAGED):
        file = damage(rng, rng.choice(files))
        row = writer.is_answer("damaged file %d" % number, file, max(0, len(file) + rng.choice((-9, -1, 0, 0, 5))))
        rows[row] = rows.get(row, 0) + 1
    many = pack(statement(tree(27, *[tree(21, bits=i) for i in range(257)])), [b"x"])
    rows[writer.is_answer("257 identifiers without room", many, 0)] = 1
    print("damaged: " + ", ".join("%d refused by %d" % (rows[row], row) if row else "%d written" % rows[row] for row in sorted(rows)))
    for row in (0, 2, 3, 4, 5, 6, 7, 16):
        writer.count.check(row in rows, "no file is refused by %d", row)


def named_roots(port, file, runs, table=None):
    """Name, mark and count of each root binding, in order; their contexts are numbered otherwise."""
    _, many, _, _, roots, _, _ = port.call("roots", file, MOST_ROOTS, runs=runs, table=table)
    texts = texts_of(file)
    return [(texts[t], mark, counted) for t, _, _, mark, counted in (ROOT.unpack_from(roots, ROOT.size * i) for i in range(many))]


def ends_alike(writer, count, port, name, calls, runs, table=None):
    """Two calls of the pass, each a file with a room: the same refusal, or the same runs and mark and results that are written to the same bytes; one may be 10
    where the other is not. What both are, 10 where one of them is."""
    (file, _), (one, _) = calls
    a, b = [port.call("inline", x, room, runs=runs, table=table) for x, room in calls]
    if 10 in (a[0], b[0]):
        count.check({a[0], b[0]} <= {0, 10}, "%s: refused %d and %d", name, a[0], b[0])
        return 10
    count.check(a[:1] + a[2:4] == b[:1] + b[2:4], "%s: %s and %s", name, a[:4], b[:4])
    if a[0] == b[0] == 0:
        x, y = writer(a[4]), writer(b[4])
        count.check(x == y and x[0] == 0 and x[1] == canonical(a[4]), "%s: results of one script", name)
        count.check(named_roots(port, file, runs, table) == named_roots(port, one, runs, table), "%s: root bindings", name)
    return a[0]


def beside_pass(writer, count, port, stored):
    """The pass on the written file."""
    rng, ends = random.Random(SEED), []
    for number, (file, runs) in enumerate(stored):
        one = writer(file)[1]
        rooms = rng.choice(((MOST_BYTES, MOST_BYTES), (MOST_BYTES, MOST_BYTES), (len(one), len(one)), (len(file), len(one)), (len(one), MOST_BYTES)))
        ends.append(ends_alike(writer, count, port, "file %d" % number, list(zip((file, one), rooms)), runs))
    results, full = ends.count(0), ends.count(10)
    count.check(results > 500 and full > 20, "only %d results, %d without room", results, full)
    print("beside the pass: %d, %d with results, %d without room for one" % (len(stored), results, full))


def tables(rng, number, file):
    """A lent table that has no pair but the script's, or lacks others; one that lacks a pair of the script; sometimes one that allows too much, and one that is none."""
    pairs = sorted(pairs_of(file))
    yield only(pairs) if number % 2 else without(*rng.sample([pair for pair in ALLOWED if pair not in pairs], 5)), None
    if pairs:
        yield without(rng.choice(pairs)), 6
    if number % 16 == 0:
        yield with_entries(CONSTANT, [rng.choice(FORBIDDEN)], 1), 15
        yield CONSTANT[:-1], 14


def under_tables(writer, count, port, stored):
    """The same under a lent table: a script and its canonical form have the same pairs of kinds, so that the same is read, and it ends alike."""
    rng, told = random.Random(SEED), {}
    for number, (file, runs) in enumerate(stored):
        one = writer(file)[1]
        count.check(pairs_of(one) == pairs_of(file), "file %d: pairs of the canonical form", number)
        for table, want in tables(rng, number, file):
            end = ends_alike(writer, count, port, "file %d under a table" % number, [(file, MOST_BYTES), (one, MOST_BYTES)], runs, table)
            count.check(end == want if want else end not in (6, 14, 15), "file %d under a table: refused %d", number, end)
            told[end] = told.get(end, 0) + 1
    print("under lent tables: " + ", ".join("%d refused by %d" % (told[row], row) if row else "%d results" % told[row] for row in sorted(told)))
    for row in (0, 6, 8, 9, 14, 15):
        count.check(told.get(row, 0) > 5, "only %d end so under a table: %d", told.get(row, 0), row)


def main(driver):
    count, port = Count(), Port(driver)
    writer, rng = Writer(port, count), random.Random(SEED)
    stored = list(vectors())
    readable = [(file, runs) for file, runs, _ in stored if not refusal(file)]
    grown = good_files(rng)
    for name, file in limits():
        count.check(refusal(file) == 0, "%s: refused %d", name, refusal(file))
        writer.is_answer(name, file)
    files = [file for _, file in limits()] + grown + [file for file, _ in readable]
    forms(writer, count, files)
    buffers(writer, files[::3] + [file for file, _, _ in stored if refusal(file)][::3])
    damaged(writer, files)
    given = readable + [(file, rng.choice((1, 2, 3, 16))) for file in grown]
    beside_pass(writer, count, port, given)
    under_tables(writer, count, port, given)
    count.check(0 < port.stack < STACK, "%d bytes of stack", port.stack)
    print("stack: at most %d bytes" % port.stack)
    print("calls: %d" % port.calls)
    print("%d passed, %d failed" % (count.passed, count.failed))
    return count.failed == 0


if __name__ == "__main__":
    if len(sys.argv) != 2:
        sys.exit(__doc__)
    sys.exit(0 if main(sys.argv[1]) else 1)
