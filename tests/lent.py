#!/usr/bin/env python3
"""The C functions under lent kind tables, against a reference that shares nothing with the port.

  tests/lent.py DRIVER

The driver is tests/port.c, linked with the library. The reference is tests/treefile_reader.py, written from document 01 and request 4 alone, with the
words of request 10 behind it; the constant table is the one by its rules (tests/kinds.py). The last line is `N passed, M failed`.
"""
import functools
import random
import struct
import sys

from kinds import by_rules
from port import MOST_BYTES, MOST_ROOTS, ROOT, SEED, WORDS, Count, Port, alike, nodes_of, paired, tagged, vectors
from treefile import around, least, least_children, pack, statement, tree
from treefile_reader import FORMS, refusal

SIDE = 48
BYTES = SIDE * SIDE
CONSTANT = bytes(int(digit) for line in by_rules() for digit in line)
ALLOWED = [(at // SIDE + 1, at % SIDE + 1) for at in range(BYTES) if CONSTANT[at]]
FORBIDDEN = [(at // SIDE + 1, at % SIDE + 1) for at in range(BYTES) if not CONSTANT[at]]
# the entries that the constant table has not, as one number
NOT_THERE = int.from_bytes(bytes(1 - entry for entry in CONSTANT), "big")
LITERALS = (22, 23, 24, 25)
REFUSED = (0, 0, 0, b"", True)


def place(parent, child):
    return (parent - 1) * SIDE + child - 1


def with_entries(table, pairs, value):
    out = bytearray(table)
    for pair in pairs:
        out[place(*pair)] = value
    return bytes(out)


def without(*pairs):
    return with_entries(CONSTANT, pairs, 0)


def only(pairs):
    return with_entries(bytes(BYTES), pairs, 1)


@functools.lru_cache(maxsize=None)
def pairs_of(file):
    """Each pair of parent and child in a file of one tree."""
    nodes, found = nodes_of(file), set()

    def below(at):
        kind, _, arity = nodes[at][:3]
        after = at + 1
        for _ in range(arity):
            found.add((kind, nodes[after][0]))
            after = below(after)
        return after

    below(0)
    return frozenset(found)


def expected(file, table, runs=16, words=WORDS):
    """The refusal's number, or 0: 1, 14 and 15, then 2 to 7 with each pair of the script against the table."""
    if not 1 <= runs <= 16 or words < WORDS:
        return 1
    if len(table) != BYTES or max(table) > 1:
        return 14
    if int.from_bytes(table, "big") & NOT_THERE:
        return 15
    row = refusal(file)
    if row in (0, 7) and any(not table[place(*pair)] for pair in pairs_of(file)):
        return 6
    return row


class Lent:
    """All three functions under a table, beside what the reference and the functions without a table say."""

    def __init__(self, port):
        self.port, self.count, self.seen = port, Count(), {}

    def today(self, what, file, room, runs):
        key = (what, file, room, runs)
        if key not in self.seen:
            self.seen[key] = self.port.call(what, file, room, runs=runs)
        return self.seen[key]

    def one(self, name, what, file, room, table, row, runs=16, words=WORDS):
        """One of them; `row` is the refusal's number, or 0."""
        if row:
            wanted = (row, *REFUSED, "same" if row == 1 else "clear")
        else:
            wanted = self.today(what, file, room, runs)
        got = self.port.call(what, file, room, words, runs, table)
        self.count.check(got == wanted, "%s, %s: %.300r, not %.300r", name, what, got, wanted)
        return got[0]

    def check(self, name, file, table, runs=16, words=WORDS, want=None):
        """What the functions answer; `want` is a refusal's number where the case itself says it."""
        row = expected(file, table, runs, words)
        if want is not None:
            self.count.check(row == want, "%s: the reference says %d, not %d", name, row, want)
        rooms = (("inline", MOST_BYTES), ("roots", MOST_ROOTS), ("root", 0))
        return {self.one(name, what, file, room, table, row, runs, words) for what, room in rooms}


EMPTY = pack(tree(1), [])
LIST = pack(statement(tree(27, tree(24))), [])


def with_pair(parent, child):
    """A small file in which a node of the child's kind stands under one of the parent's."""
    for form in FORMS[parent]:
        kinds = least_children(parent, form)
        ways = [kinds[:i] + [child] + kinds[i + 1:] for i in range(len(kinds))] + [kinds[:i] + [child] + kinds[i:] for i in range(len(kinds) + 1)]
        for way in ways:
            file = pack(around(parent, tree(parent, *[least(k) for k in way], form=form)), [b"x"])
            if refusal(file) == 0:
                return file
    sys.exit("no file for %d under %d" % (child, parent))


def alone(lent):
    """Each of the allowed pairs forbidden alone, against a file that has it and one that lacks it; and a file under its own pairs alone."""
    files = {pair: with_pair(*pair) for pair in ALLOWED}
    for pair, file in files.items():
        lent.check("%d under %d forbidden, there" % pair[::-1], file, without(pair), want=6)
        other = next(f for f in files.values() if pair not in pairs_of(f))
        lent.check("%d under %d forbidden, not there" % pair[::-1], other, without(pair), want=0)
        own = pairs_of(file)
        lent.check("a file's own pairs, %d under %d among them" % pair[::-1], file, only(own), want=0)
        lent.check("all but %d under %d of a file's own pairs" % pair[::-1], file, only(own - {pair}), want=6)
    print("pairs forbidden alone: %d" % len(files))


def tables(lent):
    """Rows 14 and 15: lengths, bytes, digits; their order, and that they come before all of the file's rows and behind row 1."""
    digits = b"".join(b"%d" % entry for entry in CONSTANT)
    lines = b"".join(digits[i:i + SIDE] + b"\n" for i in range(0, BYTES, SIDE))
    short, long = CONSTANT[:-1], CONSTANT + b"\0"
    for table in (b"", b"\0", short, long, CONSTANT + CONSTANT, digits, lines, bytes(BYTES - 1), bytes(BYTES + 1)):
        for file in (EMPTY, LIST, b""):
            lent.check("a table of %d bytes" % len(table), file, table, want=14)
    for at in (0, 1, 48, 1151, BYTES - 2, BYTES - 1):
        for byte in (2, 3, 128, 255):
            for table in (CONSTANT, bytes(BYTES)):
                lent.check("byte %d at %d" % (byte, at), EMPTY, table[:at] + bytes([byte]) + table[at + 1:], want=14)
    for pair in FORBIDDEN:
        lent.check("%d under %d allowed" % pair[::-1], b"", with_entries(CONSTANT, [pair], 1), want=15)
    all_ones = bytes([1]) * BYTES
    for file in (EMPTY, b"", struct.pack("<8I", 1, 48, 0, 32, 0, 48, 48, 0), pack(tree(2), [])):
        lent.check("all pairs allowed", file, all_ones, want=15)
        lent.check("14 before 15", file, all_ones[:-1] + b"\2", want=14)
        lent.check("14 before 15, the byte first", file, b"\2" + all_ones[1:], want=14)
        lent.check("14 before 15, by the length", file, all_ones + b"\1", want=14)
        for runs, words in ((0, WORDS), (17, WORDS), (1, WORDS - 1), (0, 0)):
            lent.check("1 before 14", file, b"", runs, words, want=1)
            lent.check("1 before 15", file, all_ones, runs, words, want=1)
        lent.check("more words are kept", file, b"", words=WORDS + 100, want=14)
        lent.check("more words are kept", file, all_ones, words=WORDS + 100, want=15)


def rows(lent):
    """A forbidden pair among the other rows: before 7, behind 5; an all-zero table reads the empty script."""
    nothing = bytes(BYTES)
    lent.check("the empty script under no pair", EMPTY, nothing, want=0)
    lent.check("a statement under no pair", LIST, nothing, want=6)
    many = pack(statement(tree(27, *[tree(21, bits=i) for i in range(257)])), [b"x"])
    lent.check("257 identifiers", many, CONSTANT, want=7)
    lent.check("257 identifiers, which may not stand in a list", many, without((27, 21)), want=6)
    lent.check("257 identifiers, a pair forbidden that is not there", many, without((27, 24)), want=7)
    lent.check("a text twice, under no pair", pack(statement(tree(26)), [b"a", b"a"]), nothing, want=5)
    lent.check("a byte too many, under no pair", LIST + b"\0", nothing, want=4)
    lent.check("no bytes, under no pair", b"", nothing, want=2)
    lent.check("a block, under no pair", pack(tree(2), []), nothing, want=6)
    # a walk that refuses by 8, a result that has no room
    circle = pack(tree(1, tree(5, tree(6, tree(20), tree(21)), form=2), tree(4, tree(21))), [b"a"])
    lent.check("const a = a; a;", circle, CONSTANT)
    lent.one("47 bytes of room", "inline", EMPTY, 47, nothing, 0)
    for kind in LITERALS:
        file = pack(statement(tree(27, tree(kind))), [b"x"])
        for other in LITERALS:
            lent.check("literal %d, %d forbidden" % (kind, other), file, without((27, other)), want=6 if kind == other else 0)
    # what a declarator has, what follows a list, and the other way round
    declared = pack(tree(1, tree(5, tree(6, tree(20), tree(27, tree(24)))), tree(4, tree(21))), [b"a"])
    for pair in sorted(pairs_of(declared)):
        lent.check("a declarator", declared, without(pair), want=6)
        lent.check("a declarator, the other way round", declared, without(pair[::-1]), want=0 if pair[::-1] not in pairs_of(declared) else 6)
    # only the script as read is held to the table: `var a = [1]; a;` ends in `[1];`
    row = lent.check("a result with a forbidden pair", declared, without((4, 27)), want=0)
    result = lent.port.call("inline", declared, MOST_BYTES, table=without((4, 27)))[4]
    lent.count.check(row == {0} and (4, 27) in pairs_of(result), "the result has no list as a statement")
    lent.check("that result", result, without((4, 27)), want=6)


def own(lent, stored):
    """Lent the constant table, the functions answer as without one."""
    for number, (file, runs, _) in enumerate(stored):
        for what, room in (("inline", MOST_BYTES), ("roots", MOST_ROOTS), ("root", number % 3)):
            got = lent.port.call(what, file, room, runs=runs, table=CONSTANT)
            lent.count.check(got == lent.today(what, file, room, runs), "vector %d, %s under the constant table", number, what)


def random_tables(lent, stored):
    """Random tables on the vectors' random scripts: pairs of the script forbidden or not, any others, now and then a byte or a pair too much."""
    rng, met = random.Random(SEED), {}
    for number, (file, runs, _) in enumerate(stored):
        has = sorted(pairs_of(file)) if refusal(file) in (0, 7) else []
        for _ in range(3):
            table = only(rng.sample(ALLOWED, rng.randrange(len(ALLOWED) + 1)))
            if rng.random() < 0.6:
                table = with_entries(table, has, 1)
            if has and rng.random() < 0.3:
                table = with_entries(table, [rng.choice(has)], 0)
            if rng.random() < 0.05:
                table = with_entries(table, [rng.choice(FORBIDDEN)], 1)
            if rng.random() < 0.05:
                table = with_entries(table, [(rng.randint(1, SIDE), rng.randint(1, SIDE))], rng.randint(2, 255))
            for row in lent.check("vector %d under a random table" % number, file, table, runs):
                met[row] = met.get(row, 0) + 1
    for row in (0, 2, 3, 4, 5, 6, 7, 14, 15):
        lent.count.check(row in met, "no random table met %d", row)
    print("random tables: %s" % ", ".join("%d times %d" % (met[row], row) for row in sorted(met)))


def pairs(lent, stored):
    """Paired copies under random tables: read both or neither where the table does not tell literals apart, and treated alike where both are read."""
    rng, read = random.Random(SEED + 1), 0
    for number, (file, _, _) in enumerate(stored):
        if refusal(file):
            continue
        copies, runs = (file, paired(rng, file), tagged(file)), rng.choice((1, 2, 16))
        has = set().union(*map(pairs_of, copies))
        table = with_entries(only(rng.sample(ALLOWED, rng.randrange(len(ALLOWED) + 1))), rng.sample(sorted(has), len(has) - rng.choice((0, 0, 0, 1))) if has else [], 1)
        apart = rng.random() < 0.3
        if not apart:
            for parent in range(1, SIDE + 1):
                if CONSTANT[place(parent, 22)]:
                    table = with_entries(table, [(parent, kind) for kind in LITERALS], table[place(parent, 24)])
        answers = [[lent.port.call(what, x, MOST_BYTES, runs=runs, table=table) for what in ("inline", "roots")] for x in copies]
        refused = [{x[0] for x in both} for both in answers]
        wanted = [expected(x, table) for x in copies]
        lent.count.check(all(r == {w} if w else len(r) == 1 for r, w in zip(refused, wanted)), "pair %d: %s, not %s", number, refused, wanted)
        lent.count.check(apart or len(set(wanted)) == 1, "pair %d: one is read and not the other, %s", number, wanted)
        if wanted == [0, 0, 0]:
            lent.count.check(len(set().union(*refused)) == 1, "pair %d: refused %s", number, refused)
            if refused[0] == {0}:
                read += 1
                lent.count.check(alike(file, copies[1], answers), "pair %d is treated alike: %s %s", number, file.hex(), copies[1].hex())
    print("pairs under random tables: %d with results" % read)


def main(driver):
    sys.setrecursionlimit(10000)
    lent, stored = Lent(Port(driver)), list(vectors())
    alone(lent)
    tables(lent)
    rows(lent)
    own(lent, stored)
    random_tables(lent, stored)
    pairs(lent, stored)
    print("calls: %d" % lent.port.calls)
    print("%d passed, %d failed" % (lent.count.passed, lent.count.failed))
    return lent.count.failed == 0


if __name__ == "__main__":
    if len(sys.argv) != 2:
        sys.exit(__doc__)
    sys.exit(0 if main(sys.argv[1]) else 1)
