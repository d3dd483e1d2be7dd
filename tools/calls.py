#!/usr/bin/env python3
"""Sequences of calls of scope.rs, for the program crates/scope_calls, and tables in which the checker computes the definition on them.

  tools/calls.py script crates/scope_calls/stdin
  tools/calls.py tables crates/scope_calls/stdin crates/scope_calls/stdout crates/laws_vectors/specs

The first writes the program's input: seeded random sequences, and some at the limits. The second takes what the program printed, and
writes Calls0.antt, Calls1.antt, .. with a theorem for each table that the definition says the same; older ones there are removed.
"""
import os
import random
import sys

sys.dont_write_bytecode = True
from vectors import index, numbers

OPEN, DECLARE, WRITE, RECORD, FIRST, CONST, CLOSE, READ, PREVENT, SENSITIVE, BARRIER, PARAMS, DEFINE = range(1, 14)
WEIGHTS = {OPEN: 16, DECLARE: 26, WRITE: 9, RECORD: 7, FIRST: 4, CONST: 7, CLOSE: 12, READ: 12, PREVENT: 3, SENSITIVE: 4, BARRIER: 6, PARAMS: 2, DEFINE: 2}
# values 1 to 7, none is 0: two identifiers, a literal, a member, an array, a call, a tree of 11 nodes; 8 begins behind its last node
BEHIND, WHOLE, ARRAY, LITERAL = 8, 7, 5, 3
# in the mark of a declaration: the binding is flagged (request 3)
FLAGGED = 16
# how often each is taken: identifiers make aliases
VALUES = [3, 5, 5, 1, 2, 1, 1, 1]
SEQUENCES = 400
# calls in a table, tables in a file
TABLE, PART = 700, 4

HEAD = """-- Sequences {first} to {last} of {count}: calls and what they leave, in numbers of 16 bytes. Written by tools/calls.py.
use Rattle.std.specs.Prelude.{{◌≡◌, refl, List, [], ◌∷◌}}
use Rattle.laws_vectors.specs.Play.{{Played, p, wrong}}
"""


def mark(rng, call):
    """The mark of a call: a scope's kind; a type, undefined, only seen; `arguments`, forced."""
    if call == OPEN:
        return rng.choice([0, 1, 2, 2, 2, 3, 4])
    if call == DECLARE:
        return rng.choice([0, 1, 1, 1, 2, 3]) + 4 * (rng.random() < 0.3) + 8 * (rng.random() < 0.3)
    return (rng.random() < 0.15) + 2 * (rng.random() < 0.3)


def sequence(rng):
    """Calls on four identifiers, nearly never past the end of the root."""
    depth, out = 1, []
    for _ in range(rng.randint(5, 25)):
        call = rng.choices(list(WEIGHTS), list(WEIGHTS.values()))[0]
        if call == CLOSE and depth == 1 and rng.random() < 0.97:
            call = OPEN
        depth += (call == OPEN) - (call == CLOSE)
        out.append((call, rng.randrange(4), rng.choices(range(8), VALUES)[0], mark(rng, call)))
    return out


def limits():
    """At the limits and past them: 32 scopes, 512 nodes, 256 bindings and constants."""
    deep = [(OPEN, 0, 0, 2)] * 31
    full = [(DECLARE, x, WHOLE, 2) for x in range(46)] + [(DECLARE, 46, ARRAY, 1), (CONST, 1, ARRAY, 0)]
    many = [(CONST, x, 0, 0) for x in range(250)] + [(WRITE, 250 + x, 0, 0) for x in range(6)]
    last = (RECORD, 3, WHOLE, 0), (FIRST, 45, WHOLE, 0), (CONST, 1, ARRAY, 0)
    yield deep
    yield deep + [(OPEN, 0, 0, 0)]
    yield full
    yield full + list(last)
    for more in (DECLARE, 47, LITERAL, 1), (CONST, 2, LITERAL, 0), (RECORD, 46, WHOLE, 0), (FIRST, 46, 4, 0), (DECLARE, 46, WHOLE, 1):
        yield full + [more] * (2 if more[2] == 4 else 1)
    yield many
    for more in (CONST, 250, 0, 0), (WRITE, 3, 0, 0), (WRITE, 251, 0, 2), (WRITE, 0, 0, 0), (DECLARE, 0, 0, 1), (DECLARE, 250, 0, 1):
        yield many + [more]


def recorded():
    """512 recorded nodes and one more: in the current scope, in the root, spread over 32 scopes, in constants alone."""
    values = [WHOLE] * 46 + [ARRAY, ARRAY]
    let = [(DECLARE, x, v, 2) for x, v in enumerate(values)]
    deep = [(OPEN, 0, 0, 2)] * 31
    spread = [c for i, d in enumerate(let) for c in deep[:i < 31] + [d]]
    for full, more in (deep[:1] + let, DECLARE), (let + deep[:3], DECLARE), (spread, DECLARE), ([(CONST, x, v, 0) for x, v in enumerate(values)], CONST):
        yield full
        yield full + [(more, len(values), LITERAL, 2)]


def named():
    """One name in many scopes, and many names: 256 in the root, one in each of 32 scopes, hoisted over a shadowed one, bound in the root alone and read from 31 scopes deep."""
    let, var = (DECLARE, 0, LITERAL, 2), (DECLARE, 0, LITERAL, 1)
    block, end = (OPEN, 0, 0, 2), (CLOSE, 0, 0, 0)
    yield [(DECLARE, x, 0, 1) for x in range(256)]
    yield [let] + [block, let] * 31
    yield [let] + [block, let] * 31 + [end] * 30
    yield [let, block, block, var, end]
    yield [let, block, block, var, end, end]
    yield [let, block, let, block, var, end, (READ, 0, 0, 0), end]
    yield [var] + [block] * 31 + [(READ, 0, 0, 0), (WRITE, 0, 0, 0)]


def behind():
    """Random sequences whose larger values begin behind the last node: they are none."""
    rng = random.Random(5)
    for _ in range(24):
        yield [(call, x, BEHIND if v > LITERAL else v, m) for call, x, v, m in sequence(rng)]


def flagged():
    """Declarations of flagged bindings: without a value, of an identifier, of a literal, of an array and of one only seen, each new, after an unflagged one, and before one; a parameter, in a loop, hoisted."""
    plain = (DECLARE, 2, LITERAL, 1)
    for v, seen in (0, 0), (1, 0), (LITERAL, 0), (ARRAY, 0), (ARRAY, 8):
        again = (DECLARE, 2, v, 1 + seen + FLAGGED)
        yield [again]
        yield [plain, again]
        yield [again, plain]
    yield [(DECLARE, 0, LITERAL, 1), (DECLARE, 2, 1, 1 + FLAGGED), (READ, 2, 0, 0), (DECLARE, 0, ARRAY, 1 + FLAGGED)]
    yield [(OPEN, 0, 0, 3), (DECLARE, 2, 0, FLAGGED), (DECLARE, 2, ARRAY, 1 + FLAGGED)]
    yield [(OPEN, 0, 0, 1), (DECLARE, 2, LITERAL, 1 + FLAGGED)]
    yield [(OPEN, 0, 0, 2), (DECLARE, 2, LITERAL, 1 + FLAGGED), (CLOSE, 0, 0, 0), plain]
    yield [(DECLARE, 2, 0, 1 + 4 + FLAGGED), (FIRST, 2, LITERAL, 0)]


def sequences():
    rng = random.Random(4)
    return [sequence(rng) for _ in range(SEQUENCES)] + list(limits()) + list(behind()) + list(recorded()) + list(named()) + list(flagged())


def script(path):
    with open(path, "wb") as f:
        for s in sequences():
            f.write(b"".join(bytes(c) for c in s) + b"\0")


def read_script(path):
    """The sequences of a script, each as bytes."""
    data, out, i = open(path, "rb").read(), [], 0
    while i < len(data):
        e = i
        while data[e]:
            e += 4
        out.append(data[i:e])
        i = e + 1
    return out


def answer(line):
    """The numbers of a line, of two bytes each: a refusal's, or 0 and those of the scopes."""
    head, *rest = line.split()
    values = [int(t) for t in rest if t.isdigit()]
    assert head in ("refused", "scopes"), line
    return b"".join(n.to_bytes(2, "little") for n in (values if head == "refused" else [0] + values))


def grouped(terms):
    """Terms in groups of limited weight."""
    group, weight = [], 0
    for term, w in terms:
        if group and weight + w > TABLE:
            yield group
            group, weight = [], 0
        group.append(term)
        weight += w
    yield group


def write_part(path, part, first, number, count):
    size = sum(len(g) for g in part)
    with open(path, "w", encoding="utf-8") as f:
        f.write(HEAD.format(first=first, last=first + size - 1, count=count))
        for j, group in enumerate(part, number):
            f.write("\nabbrev table%d : List Played\ntable%d =\n    " % (j, j))
            f.write("\n    ∷ ".join(group + ["[]"]) + "\n")
            f.write("\npub right%d : wrong %d table%d ≡ []\nunfolding wrong\nright%d = refl\n" % (j, first, j, j))
            first += len(group)
    return first


def tables(stdin, stdout, folder):
    calls, lines = read_script(stdin), open(stdout, encoding="utf-8").read().splitlines()
    assert len(calls) == len(lines), (len(calls), len(lines))
    terms = []
    for c, line in zip(calls, lines):
        a = answer(line)
        terms.append(("p %d %s %d %s" % (len(c), numbers(c), len(a), numbers(a)), len(c) // 4 + len(a) // 40))
    groups = list(grouped(terms))
    for name in os.listdir(folder):
        if name.startswith("Calls") and name.endswith(".antt"):
            os.remove(os.path.join(folder, name))
    first = 0
    for i in range(0, len(groups), PART):
        first = write_part(os.path.join(folder, "Calls%d.antt" % (i // PART)), groups[i:i + PART], first, i, len(terms))
    index(folder)
    print("%d sequences in %d tables" % (len(terms), len(groups)))


if __name__ == "__main__":
    if len(sys.argv) == 3 and sys.argv[1] == "script":
        script(sys.argv[2])
    elif len(sys.argv) == 5 and sys.argv[1] == "tables":
        tables(*sys.argv[2:])
    else:
        sys.exit(__doc__)
