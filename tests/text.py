#!/usr/bin/env python3
"""The printer through its C function: beside a model of its own (tests/text_model.py), on named scripts and numbers, and before acorn and V8.

  tests/text.py alone DRIVER
  tests/text.py inputs DRIVER DECISIONS
  tests/text.py judges DRIVER

`alone` needs nothing else; `judges` needs node and Debian's node-acorn. The driver is tests/port.c, linked with the library. DECISIONS has the printer's inputs of
docs/DECISIONS.md, as `decisions printer` prints them. SEED (1) and COUNT (10000, the scripts that are read back) may be set. The last line is
`N passed, M failed`.
"""
import itertools
import os
import random
import struct
import subprocess
import sys
from decimal import Decimal
from fractions import Fraction

from port import MOST_BYTES, STACK, WORDS, Count, Port, chains, nodes_of, pattern_chains, texts_of, vectors
from resolve_scripts import random_script
from text_model import NoText, decimal, joined, lines_of, without_each_pair
from text_scripts import LONGEST, longest, named, numbers, number_script, random_text
from treefile import damage, good_files, pack, tree
from treefile_reader import refusal

SEED = int(os.environ.get("SEED", "1"))
COUNT = int(os.environ.get("COUNT", "10000"))
RANDOM, DAMAGED, BATCH = 6000, 6000, 2500
LIBRARIES = "/usr/share/nodejs"
NAMES = (20, 21)
PARENTHESIS = 41


def answer_of(file, words=WORDS):
    """The model's: a refusal's number, or 0, and the text."""
    row = 1 if words < WORDS else refusal(file)
    if row:
        return row, b""
    try:
        return 0, joined(lines_of(nodes_of(file), texts_of(file)))
    except NoText:
        return 12, b""


class Printer:
    """The C function, with all that each call has to leave."""

    def __init__(self, port, count):
        self.port, self.count = port, count

    def __call__(self, file, room, words=WORDS):
        """The refusal's number and what was written."""
        refused, length, _, _, out, kept, state = self.port.call("text", file, room, words)
        holds = kept and length == len(out) and state == ("same" if refused == 1 else "clear")
        self.count.check(holds, "buffers: refused %d, kept %s, words %s", refused, kept, state)
        return refused, out

    def is_answer(self, name, file, more=0, words=WORDS):
        """What the model says, in a buffer that is by so much longer than the text; a shorter one is refused by 11."""
        row, text = answer_of(file, words)
        room = max(0, len(text) + more)
        want = (11, b"") if row == 0 and room < len(text) else (row, text)
        got = self(file, room, words)
        self.count.check(got == want, "%s: %s %.300r, not %s %.300r: %s", name, *got, *want, file.hex())
        return want[0]


def named_cases(printer):
    """Scripts with their texts, or that they have none, written by hand; each with buffers of no byte, one short, exact, longer, and words of all sorts."""
    for name, file, text in named():
        want = (12, b"") if text is None else (0, text)
        printer.count.check(refusal(file) == 0 and answer_of(file) == want, "%s: the model says %r, not %r", name, answer_of(file), want)
        length = 0 if text is None else len(text)
        for room in sorted({0, max(0, length - 1), length, length + 1, length + 999, MOST_BYTES}):
            short = text is not None and room < length
            got = printer(file, room)
            printer.count.check(got == ((11, b"") if short else want), "%s, room %d: %r, not %r", name, room, got, want)
        for words in (0, WORDS - 1, WORDS + 1, WORDS + 999):
            printer.is_answer("%s, %d words" % (name, words), file, 0, words)
    print("named: %d" % len(named()))


def is_shortest(text, value):
    """Read as the number; with a place less nothing is; of as many places none is nearer."""
    whole, _, part = text.partition(".")
    places, digits = len(part), int(whole + part)
    exact, step = Fraction(value), Fraction(1, 10 ** places)
    near = Fraction(digits) * step
    fewer = places > 0 and any((d + (exact * 10 ** (places - 1)).__floor__()) / 10 ** (places - 1) == value for d in (0, 1))
    nearer = any(abs(near + d * step - exact) < abs(near - exact) for d in (-1, 1))
    return float(text) == value and not fewer and not nearer and len(whole + part) <= 25 and (whole == "0" or whole[0] != "0")


def all_numbers(printer):
    """Each number in a script of its own kind: as the model writes it, which is held to what a shortest decimal is, and to Python's own digits."""
    count, written = printer.count, 0
    bits = list(numbers(random.Random(SEED)))
    for at in range(0, len(bits), 200):
        batch = bits[at:at + 200]
        good = []
        for one in batch:
            try:
                text = decimal(one)
            except NoText:
                printer.is_answer("number %016x" % one, number_script([one]))
                value = struct.unpack("<d", struct.pack("<Q", one))[0]
                long = one >> 63 or value != value or value == float("inf") or len(format(Decimal(repr(value)), "f").replace(".", "")) > 25
                count.check(long, "number %016x could be written", one)
                continue
            value = struct.unpack("<d", struct.pack("<Q", one))[0]
            count.check(is_shortest(text, value), "number %016x: %s is not shortest", one, text)
            good.append(one)
        printer.is_answer("numbers from %d on" % at, number_script(good))
        written += len(good)
    print("numbers: %d, %d written" % (len(bits), written))
    count.check(written > 1000 and len(bits) - written > 300, "too few of a sort: %d of %d", written, len(bits))


def beside_model(printer, files):
    """Random scripts, and buffers one short, exact and longer."""
    rng, rows = random.Random(SEED), {}
    for number, file in enumerate(files):
        row = printer.is_answer("script %d" % number, file, rng.choice((0, 0, 0, 1, 99, -1, -1, -9)))
        rows[row] = rows.get(row, 0) + 1
    print("beside the model: " + told(rows))
    for row in (0, 11, 12):
        printer.count.check(rows.get(row, 0) > 300, "too few of a sort: %s", rows)


def told(rows):
    return ", ".join("%d refused by %d" % (rows[row], row) if row else "%d printed" % rows[row] for row in sorted(rows))


def damaged(printer, files):
    """Damaged files: each row on its own condition."""
    rng, rows = random.Random(SEED), {}
    for number in range(DAMAGED):
        file = damage(rng, rng.choice(files))
        row = printer.is_answer("damaged file %d" % number, file, rng.choice((0, 0, 5, -1)), rng.choice((WORDS, WORDS, WORDS, WORDS - 1)))
        rows[row] = rows.get(row, 0) + 1
    print("damaged: " + told(rows))
    for row in (0, 1, 2, 3, 4, 5, 6, 11, 12):
        printer.count.check(row in rows, "no file is refused by %d", row)


def at_the_limit(printer):
    """The longest text of all."""
    file = longest()
    printer.count.check(len(answer_of(file)[1]) == LONGEST, "the longest text has %d bytes", len(answer_of(file)[1]))
    for more in (-1, 0, 1):
        printer.is_answer("the longest text, %+d" % more, file, more)
    seven = pack(tree(1, tree(4, tree(27, *[tree(21, bits=context) for context in range(257)]))), [b"class"])
    printer.count.check(printer(seven, 0)[0] == 7, "7 before 12")


def node(script, lines, *words):
    here = os.path.dirname(os.path.abspath(__file__))
    run = subprocess.run(["node", "--stack-size=4000", os.path.join(here, script), *words], input="".join(line + "\n" for line in lines), capture_output=True, text=True,
                         check=False, env={**os.environ, "NODE_PATH": LIBRARIES})
    if run.returncode:
        sys.exit("%s: status %d: %s" % (script, run.returncode, run.stderr[:2000]))
    return run.stdout.splitlines()


def judged(pairs):
    """What acorn and V8 make of each tree's text."""
    return [tuple(line.split()) for line in node("text_judge.js", ["%s %s" % (file.hex(), text.hex()) for file, text in pairs])]


def generated(rng, count):
    """Scripts that have a text, without early errors: three of four trees (tests/text_scripts.py), the others texts (script/test/any_scripts.js)."""
    made, seed = [], SEED * 1000003
    while len(made) < count:
        made += [random_text(rng, 0, 400, False) for _ in range(BATCH * 3 // 4)]
        made += [bytes.fromhex(line) for line in node("script_trees.js", [], "any", str(seed), str(BATCH // 4))]
        made = [file for file in made if answer_of(file)[0] == 0]
        seed += BATCH
    return made[:count]


def read_back(printer):
    """COUNT texts of the C function, read by acorn as the tree and by V8 at all; and each with one added pair left out, which acorn reads otherwise or not at
    all, or V8 does not: acorn takes `( ) => { } ? a : b` and `( ) => { } ** a`, which ECMA-262's grammar does not have."""
    rng, count, added, lenient, astray, done = random.Random(SEED), printer.count, 0, 0, 0, 0
    while done < COUNT:
        files = generated(rng, min(BATCH, COUNT - done))
        texts = []
        for file in files:
            refused, text = printer(file, len(answer_of(file)[1]))
            count.check(refused == 0, "refused %d: %s", refused, file.hex())
            texts.append(text)
        for file, text, (acorn, v8) in zip(files, texts, judged(zip(files, texts))):
            astray += v8 == "astray"
            count.check(acorn == "same" and v8 != "unread", "acorn reads %s, V8 %s: %r %s", acorn, v8, text, file.hex())
        without = [(file, text) for file in files for text in without_each_pair(lines_of(nodes_of(file), texts_of(file)))]
        for (file, text), (acorn, v8) in zip(without, judged(without)):
            added += 1
            lenient += acorn == "same"
            count.check(acorn != "same" or v8 == "unread", "without a pair it reads as before, V8 %s: %r %s", v8, text, file.hex())
        done += len(files)
    print("read back: %d texts, %d added pairs, %d of them by V8 alone" % (done, added, lenient))
    count.check(astray <= 2 + COUNT // 500, "V8 refuses %d texts", astray)
    count.check(added > COUNT and lenient < added // 20, "too few pairs, or too many for V8 alone: %d, %d", added, lenient)


def plain(nodes, texts):
    """Nodes with their texts in the place of numbers, without parentheses; and their identifiers."""
    rest = [node for node in nodes if node[0] != PARENTHESIS]
    shown = [(kind, form, arity, texts[text] if kind in (20, 21, 25, 29, 37, 47) else None, bits if kind == 24 else None) for kind, form, arity, text, bits in rest]
    return shown, [(texts[node[3]], node[4]) for node in rest if node[0] in NAMES]


def one_to_one(one, two):
    return len(one) == len(two) and len(set(zip(one, two))) == len(set(one)) == len(set(two))


# Scripts whose result has a name where a nearer scope declares one that prints alike.
CAUGHT = (
    "let a = b; { let b = c; [a, b]; }", "const a = b; { let b; [a]; }", "function f(p) { var a = p; { let p = [1]; [a, p]; } }",
    "let x = y; (() => { let y; [x]; })();",
)


def means_the_same(printer):
    """A resolved script and its result are printed, read again and resolved. The script means the same again; the result does exactly if resolving it, too, tells
    that its names mean what its contexts say."""
    rng, count, port = random.Random(SEED), printer.count, printer.port
    given = [random_script(rng) for _ in range(1500)] + [random_text(rng, 0, 300, False) for _ in range(500)]
    given += [bytes.fromhex(line) for line in node("script_trees.js", [text.encode().hex() for text in CAUGHT], "read")]
    files = [answer[4] for answer in (port.call("resolve", file, len(file)) for file in given) if answer[0] == 0]
    results = [answer[4] for answer in (port.call("inline", file, MOST_BYTES) for file in files) if answer[0] == 0]
    scripts = [file for file in files + results if answer_of(file)[0] == 0]
    again = node("script_trees.js", [printer(file, len(answer_of(file)[1]))[1].hex() for file in scripts], "read")
    kept = lost = 0
    for file, line in zip(scripts, again):
        if line == "unread":
            continue
        read = bytes.fromhex(line)
        one, two = plain(nodes_of(file), texts_of(file)), plain(nodes_of(read), texts_of(read))
        count.check(one[0] == two[0], "read as another tree: %s", file.hex())
        resolved, reread = (port.call("resolve", x, len(x)) for x in (file, read))
        if resolved[0] or reread[0]:
            count.check(resolved[0] == reread[0], "resolving gives %d and %d: %s", resolved[0], reread[0], file.hex())
            continue
        tells = one_to_one(plain(nodes_of(resolved[4]), texts_of(resolved[4]))[1], one[1])
        means = one_to_one(plain(nodes_of(reread[4]), texts_of(reread[4]))[1], one[1])
        count.check(tells == means, "resolving tells %s, the text means the same: %s: %s", tells, means, file.hex())
        kept, lost = kept + means, lost + (not means)
    print("read again and resolved: %d mean the same, %d results do not" % (kept, lost))
    count.check(kept > 500 and lost >= len(CAUGHT), "too few of a sort: %d, %d", kept, lost)


def inputs(printer, path):
    """The printer's inputs of docs/DECISIONS.md, each with its refusal or its text."""
    with open(path, encoding="ascii") as f:
        rows = [line.rstrip("\n").split(" ", 1) for line in f]
    for file, want in rows:
        file = bytes.fromhex(file)
        row, text = answer_of(file)
        said = "refused %d" % row if row else text.decode().replace("\n", " ").strip()
        printer.count.check(said == want, "docs/DECISIONS.md: %s, not %s: %s", said, want, file.hex())
        printer.is_answer(want, file)
    print("inputs of docs/DECISIONS.md: %d" % len(rows))
    printer.count.check(len(rows) > 35, "only %d inputs", len(rows))


def stack(printer):
    """The deepest scripts on the 256 KiB that the driver gives a call; an overflow would end it."""
    rows = {}
    for name, file in itertools.chain(chains(), pattern_chains()):
        row = printer.is_answer(name, file)
        rows[row] = rows.get(row, 0) + 1
    print("deep scripts: " + told(rows))
    printer.count.check(rows.get(0, 0) > 100, "only %d deep scripts are printed", rows.get(0, 0))


def alone(printer):
    rng = random.Random(SEED)
    named_cases(printer)
    all_numbers(printer)
    at_the_limit(printer)
    stack(printer)
    files = [random_text(rng, rng.choice((0, 0, 0.01, 0.05))) for _ in range(RANDOM)]
    files += [random_script(rng) for _ in range(500)] + good_files(rng)[:300] + [file for file, _, _ in list(vectors())[::3]]
    beside_model(printer, files)
    damaged(printer, files)


def judges(printer):
    read_back(printer)
    means_the_same(printer)


def main(what, driver, *paths):
    count, port = Count(), Port(driver)
    what(Printer(port, count), *paths)
    count.check(0 < port.stack < STACK, "%d bytes of stack", port.stack)
    print("calls: %d, at most %d bytes of stack" % (port.calls, port.stack))
    print("%d passed, %d failed" % (count.passed, count.failed))
    return count.failed == 0


if __name__ == "__main__":
    if sys.argv[1:2] + [len(sys.argv)] not in (["alone", 3], ["inputs", 4], ["judges", 3]):
        sys.exit(__doc__)
    sys.setrecursionlimit(10000)
    sys.exit(0 if main(globals()[sys.argv[1]], *sys.argv[2:]) else 1)
