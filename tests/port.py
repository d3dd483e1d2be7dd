#!/usr/bin/env python3
"""The port against the stored vectors, at rows 1 and 10, and on paired copies, through its C functions and as the program.

  tests/port.py DRIVER PROGRAM

The driver is tests/port.c, linked with the library. Neither Rust nor the original's sources are needed. The last line is
`N passed, M failed`.
"""
import itertools
import os
import random
import struct
import subprocess
import sys

from treefile import header, pack, statement, tree
from treefile_reader import refusal

WORDS = 16384
MOST_BYTES = 32 + 16 * 1024 + 4 * 256 + 4096
ROOT = struct.Struct("<5I")
MOST_ROOTS = 256 * ROOT.size // 4
STACK = 256 * 1024
SEED = 20261117
LITERALS = range(22, 26)


class Port:
    """The driver as a running process; the deepest stack that was seen."""

    def __init__(self, driver):
        self.process = subprocess.Popen([driver], stdin=subprocess.PIPE, stdout=subprocess.PIPE, text=True)
        self.calls, self.stack = 0, 0

    def call(self, what, file, room, words=WORDS, runs=16, table=None):
        """The four numbers of an answer, what was written, whether the rest is kept, and the words' state; under a kind table, if one is lent."""
        lent = "" if table is None else " " + (table.hex() or "-")
        self.process.stdin.write("%s %s %d %d %d%s\n" % (what, file.hex() or "-", room, words, runs, lent))
        self.process.stdin.flush()
        line = self.process.stdout.readline().split()
        if len(line) != 8:
            sys.exit("the driver ended: status %s on %s" % (self.process.wait(), file.hex()))
        self.calls += 1
        self.stack = max(self.stack, int(line[7]))
        return (*map(int, line[:4]), bytes.fromhex(line[4].strip("-")), line[5] == "1", line[6])

    def answer(self, file, runs=16):
        """What the program prints; or what is wrong with the buffers."""
        refused, _, done, changed, result, kept, state = self.call("inline", file, MOST_BYTES, runs=runs)
        again, count, _, _, roots, kept2, state2 = self.call("roots", file, MOST_ROOTS, runs=runs)
        if again != refused or not kept or not kept2 or state != state2 or state != ("same" if refused == 1 else "clear"):
            return "refusals %d and %d, kept %s and %s, words %s and %s\n" % (refused, again, kept, kept2, state, state2)
        if refused:
            return "refused %d\n" % refused
        nodes = nodes_of(result)
        lines = ["ok runs %d changed %d nodes %d" % (done, changed, len(nodes))]
        lines += ["%d %d %d %d %016x" % x for x in nodes]
        return "\n".join(lines + root_lines(roots, count)) + "\n"


def nodes_of(file):
    """Kind, form, child count, text and bits of each node."""
    n = struct.unpack_from("<I", file, 8)[0]
    return [struct.unpack_from("<BBHIQ", file, 32 + 16 * i) for i in range(n)]


def texts_of(file):
    _, _, _, _, t, ends_at, bytes_at, _ = struct.unpack_from("<8I", file)
    ends = [0, *struct.unpack_from("<%dI" % t, file, ends_at)]
    return [file[bytes_at + a:bytes_at + b] for a, b in zip(ends, ends[1:])]


def root_lines(roots, count):
    """The lines of the root bindings, five words each, in their order."""
    all_words = (ROOT.unpack_from(roots, ROOT.size * i) for i in range(count))
    return ["root %d %08x%08x %d %d" % (text, high, low, mark, counted) for text, low, high, mark, counted in all_words]


def without_counts(answer):
    """An answer as the original gives it: without the last column of its root lines."""
    lines = answer.splitlines(keepends=True)
    return "".join(line.rsplit(" ", 1)[0] + "\n" if line.startswith("root ") else line for line in lines)


def agrees(got, stored):
    """Is it the stored answer; one of the original has no counts."""
    roots = [line for line in stored.splitlines() if line.startswith("root ")]
    counted = all(len(line.split()) == 5 for line in roots)
    return got == stored if counted else without_counts(got) == stored


def vectors():
    """File, run limit and answer of each stored vector."""
    here = os.path.dirname(os.path.abspath(__file__))
    for name, count in (("sample", 631), ("small", 447), ("patterns", 562), ("amended", 428)):
        with open(os.path.join(here, "vectors", name + ".txt"), encoding="utf-8") as f:
            blocks = [b for b in f.read().split("\n\n") if b.strip()]
        if len(blocks) != count:
            sys.exit("%s.txt has %d vectors, not %d" % (name, len(blocks), count))
        for file, runs, answer in (b.split("\n", 2) for b in blocks):
            yield bytes.fromhex(file[4:]), int(runs[5:]), answer.rstrip("\n") + "\n"


class Count:
    """What holds and what does not."""

    def __init__(self):
        self.passed, self.failed = 0, 0

    def check(self, holds, what, *more):
        self.passed += bool(holds)
        self.failed += not holds
        if not holds and self.failed <= 20:
            print("not so: " + what % more)


def replay(count, port, stored):
    """Every stored vector through both C functions."""
    for number, (file, runs, answer) in enumerate(stored):
        got = port.answer(file, runs)
        count.check(agrees(got, answer), "vector %d: %.200r, not %.200r", number, got, answer)
    print("vectors: %d" % len(stored))


def by_number(count, port, stored):
    """Every root binding of the stored vectors by its number, none behind the last, and none at the greatest number."""
    asked = 0
    for number, (file, runs, answer) in enumerate(stored):
        refused, many, _, _, roots, _, state = port.call("roots", file, MOST_ROOTS, runs=runs)
        for n in [*range(many), many, 2 ** 32 - 1]:
            want = (refused, int(n < many), 0, 0, roots[ROOT.size * n:ROOT.size * (n + 1)] if n < many else b"", True, state)
            got = port.call("root", file, n, runs=runs)
            count.check(got == want, "vector %d, root binding %d: %r, not %r", number, n, got, want)
            asked += 1
    print("root bindings by number: %d" % asked)


def program(count, path, stored):
    """The program, which has 16 runs, on the vectors with that limit; and inputs longer than any readable file."""
    files = [(f, answer) for f, runs, answer in stored if runs == 16]
    whole = pack(tree(1, *[tree(3)] * 1023), [b"%03d" % i for i in range(255)] + [b"x" * (4096 - 765)])
    files += [(whole + bytes(n), "refused 4\n") for n in (1, 2, 70000)]
    files += [(struct.pack("<8I", *header(1025, 0, 0)) + bytes(70000), "refused 3\n"), (bytes(70000), "refused 2\n")]
    for number, (file, answer) in enumerate(files):
        got = subprocess.run([path], input=file, capture_output=True, check=False)
        count.check(got.returncode == 0 and agrees(got.stdout.decode(), answer), "program, file %d: %.200r", number, got.stdout)
    print("program: %d" % len(files))
    for words, status in ((["-h"], 0), (["--help"], 0), (["--help", "x"], 0), (["gate.tree"], 2), ([""], 2), (["-"], 2), (["--helpx"], 2), (["x", "--help"], 2), (["x" * 200], 2)):
        got = subprocess.run([path] + words, input=files[0][0], capture_output=True, check=False)
        said, silent = (got.stderr, got.stdout) if status else (got.stdout, got.stderr)
        good = got.returncode == status and silent == b"" and said.startswith(b"usage: negbosun < FILE.tree\n")
        count.check(good, "program, given %r: status %d, %.200r, %.200r", words, got.returncode, got.stdout, got.stderr)


def piped(path, file):
    """What the program prints, and how many bytes of the file could be written to it."""
    with subprocess.Popen([path], stdin=subprocess.PIPE, stdout=subprocess.PIPE, bufsize=0) as process:
        try:
            written = process.stdin.write(file)
        except BrokenPipeError:
            written = 0
        process.stdin.close()
        return process.stdout.read().decode(), written


def long_inputs(count, path):
    """Inputs of 4 megabytes through a pipe: refused as the whole of them is, and whoever writes them is not cut off."""
    rest = bytes(4 << 20)
    files = [(pack(tree(1), []) + rest, "refused 4\n"), (struct.pack("<8I", *header(1025, 0, 0)) + rest, "refused 3\n"), (rest, "refused 2\n")]
    for number, (file, answer) in enumerate(files):
        got, written = piped(path, file)
        count.check(got == answer and written == len(file), "long input %d: %.200r, %d bytes of %d written", number, got, written, len(file))
    print("long inputs: %d" % len(files))


def row1(count, port, stored):
    """Runs and words one below, at and above their limits, with the buffers; row 1 comes before all others."""
    few = [x for x in stored if x[2].startswith("ok ")][:40] + [x for x in stored if x[2].startswith("refused ")][:40]
    for file, _, answer in few:
        for runs, words in ((0, WORDS), (17, WORDS), (2 ** 32 - 1, WORDS), (16, WORDS - 1), (1, 0), (0, WORDS + 1)):
            for what in ("inline", "roots"):
                got = port.call(what, file, MOST_BYTES, words, runs)
                count.check(got == (1, 0, 0, 0, b"", True, "same"), "row 1: %s, runs %d, words %d: %s", what, runs, words, got)
        for runs, words in ((1, WORDS), (16, WORDS), (16, WORDS + 1), (15, WORDS + 999)):
            refused, _, done, _, _, kept, state = port.call("inline", file, MOST_BYTES, words, runs)
            good = refused != 1 and (refused > 0 or 1 <= done <= runs) and kept and state == "clear"
            count.check(good, "at row 1's limits: runs %d, words %d, %.40s", runs, words, answer)


def row10(count, port, stored):
    """The buffer for the answer one below what is written, at it and one above; other refusals come before row 10."""
    for number, (file, runs, answer) in enumerate(stored):
        for what, unit in (("inline", 1), ("roots", ROOT.size // 4)):
            full = port.call(what, file, MOST_BYTES, runs=runs)
            if full[0]:
                got = port.call(what, file, 0, runs=runs)
                count.check(got == full, "vector %d, %s without room: %s, not %s", number, what, got[0], answer)
                continue
            need = full[1] * unit
            for room in {0, need - 1, need, need + 1} - {-1}:
                got = port.call(what, file, room, runs=runs)
                want = full if room >= need else (10, 0, 0, 0, b"", True, "clear")
                count.check(got == want, "vector %d, %s, room %d of %d: %s", number, what, room, need, got)


def paired(rng, file):
    """A copy with other names, contexts, literals and property texts; `arguments` stays."""
    old, texts, names = texts_of(file), [b"arguments"], {}

    def number(text):
        if text not in texts:
            texts.append(text)
        return texts.index(text)

    def name(text, context):
        while (text, context) not in names:
            new = 0 if old[text] == b"arguments" else number(b"m%d" % rng.randrange(40))
            fresh = (new, rng.choice((0, 1, 2 ** 32, 2 ** 64 - 1, rng.getrandbits(64))))
            if fresh not in names.values():
                names[text, context] = fresh
        return names[text, context]

    def copy(x):
        kind, form, arity, text, bits = x
        if kind in (20, 21):
            return (kind, form, arity, *name(text, bits))
        if kind in (29, 37, 47):
            return (kind, form, arity, number(rng.choice((b"arguments", b"", b"m1", b"key"))), bits)
        if kind not in LITERALS:
            return x
        kind = rng.choice(LITERALS)
        return {22: (22, 0, 0, 0, 0), 23: (23, rng.randrange(2), 0, 0, 0), 24: (24, 0, 0, 0, rng.getrandbits(64)), 25: (25, 0, 0, number(b"m2"), 0)}[kind]

    return pack([copy(x) for x in nodes_of(file)], texts)


def tagged(file):
    """A copy whose literals are numbers that tell their node's number."""
    nodes = nodes_of(file)
    return pack([(24, 0, 0, 0, i + 1) if x[0] in LITERALS else x for i, x in enumerate(nodes)], texts_of(file))


def is_from(node, nodes, origin):
    return node == nodes[origin - 1] if origin else node == (24, 0, 0, 0, 0)


def alike(one, two, answers):
    """Document 01, "Paired scripts": of two results and of the first one's with tags for origins."""
    (a, b, tags), (in_a, in_b) = [nodes_of(x[0][4]) for x in answers], [nodes_of(x) for x in (one, two)]
    together = {(x[3:], y[3:]) for x, y in zip(in_a, in_b) if x[0] in (20, 21)}
    if not len(a) == len(b) == len(tags) or len({x[0][2:4] for x in answers}) != 1:
        return False
    for x, y, t in zip(a, b, tags):
        if x[0] in LITERALS:
            if not (t[0] == 24 and is_from(x, in_a, t[4]) and is_from(y, in_b, t[4])):
                return False
        elif x[:3] != y[:3] or (x[0] in (20, 21) and (x[3:], y[3:]) not in together):
            return False
    roots = [{(text, high << 32 | low): (mark, counted) for text, low, high, mark, counted in ROOT.iter_unpack(x[1][4])} for x in answers[:2]]
    pairs = dict(together)
    return len(roots[0]) == len(roots[1]) and {pairs.get(k): v for k, v in roots[0].items()} == roots[1]


def pairs(count, port, stored):
    """The vectors' readable scripts beside paired copies, with several run limits."""
    rng, results = random.Random(SEED), 0
    for number, (file, _, _) in enumerate(stored):
        if refusal(file):
            continue
        copies, runs = (file, paired(rng, file), tagged(file)), rng.choice((1, 2, 3, 16, 16, 16))
        answers = [[port.call(what, x, MOST_BYTES, runs=runs) for what in ("inline", "roots")] for x in copies]
        refused = {x[0] for both in answers for x in both}
        count.check(refusal(copies[1]) == refusal(copies[2]) == 0 and len(refused) == 1, "pair %d: refused %s", number, refused)
        if refused == {0}:
            results += 1
            count.check(alike(file, copies[1], answers), "pair %d is treated alike: %s %s", number, file.hex(), copies[1].hex())
    print("pairs: %d with results" % results)


def chains():
    """Scripts as deep as may be: each kind that nests inside itself, under scopes of each sort and under right sides."""
    name, target = tree(21), tree(20)
    layers = {
        "array": lambda x: tree(27, x), "object": lambda x: tree(28, tree(29, x)), "unary": lambda x: tree(30, x, form=2),
        "update": lambda x: tree(31, tree(37, x)), "left": lambda x: tree(32, x, name, form=13), "right": lambda x: tree(32, name, x, form=13),
        "and": lambda x: tree(32, x, name), "assign": lambda x: tree(33, target, x), "assign add": lambda x: tree(33, target, x, form=1),
        "assign member": lambda x: tree(33, tree(37, x), name), "test": lambda x: tree(34, x, name, name), "arm": lambda x: tree(34, name, name, x),
        "callee": lambda x: tree(35, x), "argument": lambda x: tree(35, name, x), "new": lambda x: tree(36, name, x, form=1),
        "member": lambda x: tree(37, x), "computed": lambda x: tree(38, name, x), "parenthesis": lambda x: tree(41, x), "sequence": lambda x: tree(42, name, x),
        "default": lambda x: tree(33, tree(46, tree(48, target, x)), name), "property's default": lambda x: tree(33, tree(45, tree(47, tree(48, target, x))), name),
    }
    scopes = {
        "none": (0, lambda x: x), "block": (30, lambda x: tree(2, x)), "if": (30, lambda x: tree(9, name, x)), "else": (30, lambda x: tree(9, name, tree(3), x)),
        "while": (30, lambda x: tree(10, name, x)), "do": (30, lambda x: tree(11, name, x)), "for": (15, lambda x: tree(12, name, name, name, x, form=7)),
        "for in": (15, lambda x: tree(13, tree(5, tree(6, target)), name, x)), "for of": (15, lambda x: tree(14, target, name, x)),
        "catch": (15, lambda x: tree(16, tree(2), tree(17, target, tree(2, x)), form=1)), "case": (30, lambda x: tree(18, name, tree(19, x))),
        "function": (30, lambda x: tree(7, target, target, tree(2, x))), "expression": (30, lambda x: tree(4, tree(39, target, tree(2, x), form=0))),
        "arrow": (15, lambda x: tree(4, tree(40, target, tree(2, x)))), "right side": (7, lambda x: tree(4, tree(32, name, tree(39, tree(2, x))))),
        "declared": (30, lambda x: tree(5, tree(6, target, tree(39, tree(2, x))))),
    }
    for outer, (count, around) in scopes.items():
        for inner, layer in layers.items():
            for most in {count, count // 2, min(count, 10)}:
                yield outer + ", " + inner, deepest(most, around, layer)


def height(nodes):
    """The depth of the deepest node, the root's being 1."""
    open_, most = [], 0
    for x in nodes:
        open_.append(x[2])
        most = max(most, len(open_))
        while open_ and open_[-1] == 0:
            open_.pop()
            if open_:
                open_[-1] -= 1
    return most


def deepest(count, around, layer):
    """The script at depth 200, or as near below as layers and 1,024 nodes allow."""
    expression = tree(21)

    def script():
        whole = tree(4, expression)
        for _ in range(count):
            whole = around(whole)
        return tree(1, whole)

    depth, nodes = height(script()), len(script())
    more = len(layer(expression)) - 1
    for _ in range(min((200 - depth) // (height(layer(expression)) - 1), (1024 - nodes) // more)):
        expression = layer(expression)
    return pack(script(), [b"x"])


def pattern_chains():
    """Patterns inside themselves, as deep as may be, in each place that takes one."""
    name, target = tree(21), tree(20)
    layers = {"array": lambda x: tree(46, x), "object": lambda x: tree(45, tree(47, x)), "default": lambda x: tree(46, tree(48, x, name))}
    places = {
        "declared": lambda x: tree(5, tree(6, x, name)), "parameter": lambda x: tree(7, target, x, tree(2)), "of an expression": lambda x: tree(4, tree(39, x, tree(2))),
        "of an arrow": lambda x: tree(4, tree(40, x, name, form=1)), "caught": lambda x: tree(16, tree(2), tree(17, x, tree(2)), form=1),
        "head": lambda x: tree(14, x, name, tree(3)), "declaring head": lambda x: tree(13, tree(5, tree(6, x)), name, tree(3)), "assigned": lambda x: tree(4, tree(33, x, name)),
    }
    for outer, place in places.items():
        for inner, layer in layers.items():
            pattern = target
            while height(tree(1, place(layer(pattern)))) <= 200:
                pattern = layer(pattern)
            yield "%s pattern, %s" % (outer, inner), pack(tree(1, place(pattern)), [b"x"])


def stack(count, port):
    """The deepest scripts on the 256 KiB that the driver gives a call; an overflow would end it."""
    passed = 0
    for name, file in itertools.chain(chains(), pattern_chains()):
        count.check(refusal(file) == 0, "%s is readable: %d", name, refusal(file))
        refused, _, _, _, _, kept, state = port.call("inline", file, MOST_BYTES)
        count.check(refused in (0, 8, 9) and kept and state == "clear", "%s: %d, %s, %s", name, refused, kept, state)
        passed += refused == 0
    count.check(passed > 100, "only %d deep scripts pass", passed)
    count.check(0 < port.stack < STACK, "%d bytes of stack", port.stack)
    print("stack: at most %d bytes" % port.stack)


def main(driver, path):
    count, port, stored = Count(), Port(driver), list(vectors())
    replay(count, port, stored)
    by_number(count, port, stored)
    row1(count, port, stored)
    row10(count, port, stored)
    pairs(count, port, stored)
    stack(count, port)
    print("calls: %d" % port.calls)
    program(count, path, stored)
    long_inputs(count, path)
    print("%d passed, %d failed" % (count.passed, count.failed))
    return count.failed == 0


if __name__ == "__main__":
    if len(sys.argv) != 3:
        sys.exit(__doc__)
    sys.exit(0 if main(sys.argv[1], sys.argv[2]) else 1)
