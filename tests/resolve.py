#!/usr/bin/env python3
"""The resolver through its C function: beside a model of its own (tests/resolve_model.py), beside eslint-scope, beside V8, and before the pass.

  tests/resolve.py alone DRIVER
  tests/resolve.py inputs DRIVER DECISIONS
  tests/resolve.py judges DRIVER

`alone` needs nothing else; `judges` needs node and Debian's node-eslint-scope. The driver is tests/port.c, linked with the library. DECISIONS has the resolver's
inputs of docs/DECISIONS.md, as `decisions resolver` prints them. SEED (1) and COUNT (10000, the scripts that are held beside eslint-scope) may be set. The last
line is `N passed, M failed`.
"""
import os
import random
import struct
import subprocess
import sys

from port import LITERALS, MOST_BYTES, MOST_ROOTS, ROOT, STACK, WORDS, Count, Port, alike, nodes_of, tagged, texts_of, vectors
from resolve_model import NAMES, resolve
from resolve_scripts import deepest, limits, random_script
from treefile import damage, good_files, pack
from treefile_reader import TEXT, refusal

SEED = int(os.environ.get("SEED", "1"))
COUNT = int(os.environ.get("COUNT", "10000"))
DAMAGED, BATCH = 6000, 2500
LIBRARIES = "/usr/share/nodejs"


class Resolver:
    """The C function, with all that each call has to leave."""

    def __init__(self, port, count):
        self.port, self.count = port, count

    def __call__(self, file, room=None, words=WORDS):
        """The refusal's number and what was written."""
        refused, length, _, _, out, kept, state = self.port.call("resolve", file, len(file) if room is None else room, words)
        holds = kept and length == len(out) and state == ("same" if refused == 1 else "clear")
        self.count.check(holds, "buffers: refused %d, kept %s, words %s", refused, kept, state)
        return refused, out

    def is_answer(self, name, file, room=None, words=WORDS):
        """What the model says; all but the contexts is as it was."""
        row, contexts = resolve(file, room, words)
        got = self(file, room, words)
        want = b"" if row else with_contexts(file, contexts)
        self.count.check(got == (row, want), "%s: refused %d, not %d, or other contexts: %s", name, got[0], row, file.hex())
        return row


def with_contexts(file, contexts):
    """The file with these contexts of its names."""
    given, made = iter(contexts), bytearray(file)
    for at, node in enumerate(nodes_of(file)):
        if node[0] in NAMES:
            struct.pack_into("<Q", made, 32 + 16 * at + 8, next(given))
    return bytes(made)


def contexts_of(file):
    return [x[4] for x in nodes_of(file) if x[0] in NAMES]


def identifiers_of(file):
    return [x[3:] for x in nodes_of(file) if x[0] in NAMES]


def one_to_one(one, two):
    """Two lists whose members stand together in pairs."""
    return len(one) == len(two) and len(set(zip(one, two))) == len(set(one)) == len(set(two))


def at_limits(resolver):
    """The model's answer is the row that each script is made for; then with too little room, with more, and with too few words."""
    for name, file, row in limits():
        resolver.count.check(resolve(file)[0] == row, "%s: the model says %d, not %d", name, resolve(file)[0], row)
        resolver.is_answer(name, file)
        for room in (0, len(file) - 1, len(file) + 1, MOST_BYTES):
            resolver.is_answer("%s, room %d" % (name, room), file, room)
        for words in (0, WORDS - 1, WORDS + 1, WORDS + 999):
            resolver.is_answer("%s, %d words" % (name, words), file, None, words)


def beside_model(resolver, files):
    """Random scripts; contexts as given are passed over; what is resolved is resolved again to the same bytes."""
    rng, rows = random.Random(SEED), {}
    for number, file in enumerate(files):
        name = "script %d" % number
        row = resolver.is_answer(name, file)
        rows[row] = rows.get(row, 0) + 1
        if row:
            continue
        made = resolver(file)[1]
        other = with_contexts(file, [rng.choice((0, 1, 2 ** 32, rng.getrandbits(64))) for _ in contexts_of(file)])
        resolver.count.check(refusal(made) == 0, "%s: what is written is readable", name)
        resolver.count.check(resolver(made) == (0, made), "%s: resolved again it is another", name)
        resolver.count.check(resolver(other) == (0, made), "%s: other contexts were looked at", name)
    print("beside the model: " + ", ".join("%d refused by %d" % (rows[row], row) if row else "%d resolved" % rows[row] for row in sorted(rows)))
    resolver.count.check(rows.get(0, 0) > 200 and rows.get(13, 0) > 100, "too few of a sort: %s", rows)


def damaged(resolver, files):
    """Damaged files: each row on its own condition."""
    rng, rows = random.Random(SEED), {}
    for number in range(DAMAGED):
        file = damage(rng, rng.choice(files))
        row = resolver.is_answer("damaged file %d" % number, file, max(0, len(file) + rng.choice((-9, -1, 0, 0, 5))), rng.choice((WORDS, WORDS, WORDS, WORDS - 1)))
        rows[row] = rows.get(row, 0) + 1
    print("damaged: " + ", ".join("%d refused by %d" % (rows[row], row) if row else "%d resolved" % rows[row] for row in sorted(rows)))
    for row in (0, 1, 2, 3, 4, 5, 6, 10, 13):
        resolver.count.check(row in rows, "no file is refused by %d", row)


def renamed(rng, file):
    """A copy whose names pair one to one, `arguments` with itself alone, with contexts, literals and property texts at random."""
    old, texts, names = texts_of(file), [b"arguments"], {}

    def number(text):
        if text not in texts:
            texts.append(text)
        return texts.index(text)

    def name(text):
        while text not in names:
            fresh = b"arguments" if old[text] == b"arguments" else b"m%d" % rng.randrange(400)
            if fresh not in names.values():
                names[text] = fresh
        return number(names[text])

    def copy(x):
        kind, form, arity, text, bits = x
        if kind in NAMES:
            return (kind, form, arity, name(text), rng.getrandbits(64))
        if kind in LITERALS:
            return (24, 0, 0, 0, rng.getrandbits(60)) if rng.random() < 0.5 else (22, 0, 0, 0, 0)
        return (kind, form, arity, number(rng.choice((b"arguments", b"", b"m1"))) if kind in TEXT else text, bits)

    nodes = [copy(x) for x in nodes_of(file)]
    return pack(nodes, texts)


def pairs(resolver, files):
    """Two scripts whose names pair one to one are refused alike, or resolved to the same contexts, and treated alike by the pass."""
    rng, port, count, results = random.Random(SEED), resolver.port, resolver.count, 0
    for number, file in enumerate(files):
        other = renamed(rng, file)
        if refusal(other) == 3:
            continue
        (one, made), (two, again) = resolver(file), resolver(other)
        count.check(one == two and (one or contexts_of(made) == contexts_of(again)), "pair %d: refused %d and %d, or other contexts", number, one, two)
        if one:
            continue
        runs = rng.choice((1, 2, 3, 16, 16))
        answers = [[port.call(what, x, MOST_BYTES, runs=runs) for what in ("inline", "roots")] for x in (made, again, tagged(made))]
        refused = {x[0] for both in answers for x in both}
        count.check(len(refused) == 1, "pair %d: the pass refuses by %s", number, refused)
        if refused == {0}:
            results += 1
            count.check(alike(made, again, answers), "pair %d is treated alike: %s %s", number, made.hex(), again.hex())
    print("pairs: %d, %d with results" % (len(files), results))
    count.check(results > len(files) // 4, "only %d results", results)


def same_but_contexts(one, two):
    """Two results, nodes in order, that differ for each name by a one-to-one change of contexts alone."""
    a, b = nodes_of(one), nodes_of(two)
    plain = lambda x: x[:4] if x[0] in NAMES else x
    return list(map(plain, a)) == list(map(plain, b)) and one_to_one(identifiers_of(one), identifiers_of(two)) and texts_of(one) == texts_of(two)


def roots_alike(one, two):
    """Root lines in order: names, marks and counts; contexts in pairs."""
    rows = [[(text, (high, low), mark, counted) for text, low, high, mark, counted in ROOT.iter_unpack(x)] for x in (one, two)]
    plain = [[(text, mark, counted) for text, _, mark, counted in row] for row in rows]
    return plain[0] == plain[1] and one_to_one(*[[(text, context) for text, context, _, _ in row] for row in rows])


def elsewhere(port, count, name, one, two, runs):
    """The pass on two scripts that were resolved to the same variables."""
    a, b = [port.call("inline", x, MOST_BYTES, runs=runs) for x in (one, two)]
    count.check(a[0] == b[0] and a[2:4] == b[2:4], "%s: the pass gives %s and %s", name, a[:4], b[:4])
    if a[0] == b[0] == 0:
        roots = [port.call("roots", x, MOST_ROOTS, runs=runs)[4] for x in (one, two)]
        count.check(same_but_contexts(a[4], b[4]) and roots_alike(*roots), "%s: results differ: %s %s", name, one.hex(), two.hex())
    return a[0] == 0


def node(script, lines, *words):
    here = os.path.dirname(os.path.abspath(__file__))
    run = subprocess.run(["node", os.path.join(here, script), *words], input="".join(line + "\n" for line in lines), capture_output=True, text=True, check=False,
                         env={**os.environ, "NODE_PATH": LIBRARIES})
    if run.returncode:
        sys.exit("%s: status %d: %s" % (script, run.returncode, run.stderr[:2000]))
    return run.stdout.splitlines()


def generated(rng, count):
    """Scripts without end: half of them trees (tests/resolve_scripts.py), half of them texts (script/test/any_scripts.js)."""
    seed = SEED * 1000003
    while True:
        yield [random_script(rng) for _ in range(BATCH // 2)] + [bytes.fromhex(line) for line in node("script_trees.js", [], "any", str(seed), str(BATCH // 2))]
        seed += BATCH


def beside_eslint(resolver):
    """COUNT scripts that are not refused: the same names are one variable, and the same ones undeclared; on every fourth the pass does the same on either's
    contexts."""
    rng, port, count = random.Random(SEED), resolver.port, resolver.count
    told = {"compared": 0, "leaves A": 0, "leaves B": 0, "leaves C": 0, "refused 13": 0, "refused otherwise": 0, "results": 0, "with a default": 0}
    for batch in generated(rng, COUNT):
        answers = [resolver(file) for file in batch]
        for file, (row, made), line in zip(batch, answers, node("eslint_scope.js", [file.hex() for file in batch])):
            if row:
                told["refused 13" if row == 13 else "refused otherwise"] += 1
            elif line.startswith("leaves"):
                told[line] += 1
            else:
                told["compared"] += 1
                told["with a default"] += any(x[0] == 48 for x in nodes_of(file))
                numbers = [int(number) for number in line.split()]
                ours = [(text, context) for text, context in identifiers_of(made)]
                theirs = [(text, number) for (text, _), number in zip(ours, numbers)]
                good = one_to_one(ours, theirs) and all((a[1] == 0) == (b[1] == 0) for a, b in zip(ours, theirs))
                count.check(good, "eslint-scope has other variables: %.4000s %.400s %.400s", file.hex(), contexts_of(made), numbers)
                if told["compared"] % 4 == 0:
                    told["results"] += elsewhere(port, count, "script", made, with_contexts(file, numbers), rng.choice((1, 2, 16, 16)))
            if told["compared"] == COUNT:
                break
        if told["compared"] == COUNT:
            break
    print("beside eslint-scope: " + ", ".join("%d %s" % (number, what) for what, number in told.items()))
    for what in ("leaves A", "leaves B", "leaves C", "refused 13", "with a default", "results"):
        count.check(told[what] > COUNT // 400, "only %d: %s", told[what], what)
    count.check(told["leaves A"] + told["leaves B"] + told["leaves C"] < COUNT // 5, "too many leave the comparison: %s", told)


def beside_v8(resolver):
    """Scripts whose value tells which variable a name means."""
    count, here = resolver.count, os.path.dirname(os.path.abspath(__file__))
    with open(os.path.join(here, "resolve_v8.txt"), encoding="utf-8") as f:
        rows = [line.rstrip("\n").split(" | ", 2) for line in f if not line.startswith("#")]
    for (contexts, value, text), line in zip(rows, node("script_trees.js", [row[2] for row in rows], "values")):
        file, told = line.split(" ", 1)
        row, made = resolver(bytes.fromhex(file))
        resolver.is_answer(text, bytes.fromhex(file))
        count.check(told == value, "%s: V8 gives %s, not %s", text, told, value)
        got = " ".join(map(str, contexts_of(made))) if row == 0 else "refused %d" % row
        count.check(got == contexts, "%s: %s, not %s", text, got, contexts)
    count.check(len(rows) >= 25, "only %d scripts for V8", len(rows))
    print("beside V8: %d" % len(rows))


def inputs(resolver, path):
    """Every input of docs/DECISIONS.md comes out as it says there."""
    with open(path, encoding="ascii") as f:
        rows = [line.rstrip("\n").split(" ", 1) for line in f]
    for file, want in rows:
        file = bytes.fromhex(file)
        resolver.is_answer(want, file)
        row, made = resolver(file)
        got = " ".join(map(str, contexts_of(made))) if row == 0 else "refused %d" % row
        resolver.count.check(got == want, "docs/DECISIONS.md: %s, not %s: %s", got, want, file.hex())
    print("inputs of docs/DECISIONS.md: %d" % len(rows))


def stack(resolver):
    """The deepest scripts on the 256 KiB that the driver gives a call; an overflow would end it."""
    for name, file in deepest():
        resolver.count.check(resolver.is_answer(name, file) == 0, "%s is resolved", name)
    resolver.count.check(0 < resolver.port.stack < STACK, "%d bytes of stack", resolver.port.stack)
    print("stack: at most %d bytes" % resolver.port.stack)


def alone(resolver):
    """What needs nothing but the driver."""
    rng = random.Random(SEED)
    at_limits(resolver)
    stack(resolver)
    stored = [file for file, _, _ in vectors()]
    grown = [random_script(rng) for _ in range(1500)]
    beside_model(resolver, good_files(rng) + stored[::3] + grown)
    damaged(resolver, grown + [file for _, file, _ in limits()] + stored[::5])
    pairs(resolver, grown[::2] + [file for file in stored[1::5] if refusal(file) in (0, 7)])


def judges(resolver):
    """Beside V8 and eslint-scope."""
    beside_v8(resolver)
    beside_eslint(resolver)


def main(what, driver, *given):
    count, port = Count(), Port(driver)
    what(Resolver(port, count), *given)
    print("calls: %d" % port.calls)
    print("%d passed, %d failed" % (count.passed, count.failed))
    return count.failed == 0


if __name__ == "__main__":
    if sys.argv[1:2] + [len(sys.argv)] not in (["alone", 3], ["inputs", 4], ["judges", 3]):
        sys.exit(__doc__)
    sys.exit(0 if main(globals()[sys.argv[1]], *sys.argv[2:]) else 1)
