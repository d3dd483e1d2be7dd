#!/usr/bin/env python3
"""Writes the vectors of text files as tables that the checker computes the definition on.

  tools/vectors.py crates/laws_vectors/specs tests/vectors/small.txt tests/vectors/amended.txt:1200 tests/vectors/patterns.txt:300

Behind a colon: the most bytes that a file of it may have to be taken. A vector in a text file is a line `file HEX`, a line `runs N`, then what the program prints (document 01), up to an empty line:
`refused N`, or a head line, a line for each node and a line for each root binding, with its count or, as the original prints it, without. The tables go to Part0.antt, Part1.antt, ..
in the folder, and their list to Lib.antt; older parts there are removed.
"""
import os
import sys

# a declaration has a limit of steps: so many bytes of files in one table, a file of many nodes in a table of its own
TABLE = 4000
# tables in one file
PART = 12

HEAD = """-- Vectors {first} to {last} of {count}: files and answers, in numbers of 16 bytes. Written by tools/vectors.py.
use Rattle.std.specs.Prelude.{{◌≡◌, refl, List, [], ◌∷◌}}
use Rattle.laws_vectors.specs.Vector.{{Vector, {kinds}, wrong}}
"""


def blocks(path):
    """The vectors of a text file, as lists of lines."""
    block = []
    for line in open(path, encoding="utf-8"):
        line = line.strip()
        if line:
            block.append(line)
        elif block:
            yield block
            block = []
    if block:
        yield block


def answer(lines):
    """The bytes of an answer, as `answer_bytes` of crates/def_pass/specs/Vector.antt makes them, and whether its root lines have counts."""
    if lines[0].startswith("refused "):
        assert len(lines) == 1, lines
        return bytes([int(lines[0].split()[1])]), False
    ok, runs, k, changed, mark, nodes, n = lines[0].split()
    assert (ok, runs, changed, nodes) == ("ok", "runs", "changed", "nodes"), lines[0]
    out = bytes([0, int(k), int(mark)]) + int(n).to_bytes(2, "little")
    for line in lines[1:1 + int(n)]:
        kind, form, arity, text, bits = line.split()
        out += bytes([int(kind), int(form)]) + int(arity).to_bytes(2, "little")
        out += int(text).to_bytes(4, "little") + int(bits, 16).to_bytes(8, "little")
    widths = set()
    for line in lines[1 + int(n):]:
        root, text, context, mark, *count = line.split()
        assert root == "root" and len(count) < 2, line
        out += int(text).to_bytes(4, "little") + int(context, 16).to_bytes(8, "little") + bytes([int(mark)])
        out += b"".join(int(x).to_bytes(4, "little") for x in count)
        widths.add(len(count))
    assert len(widths) < 2, lines
    return out, widths == {1}


def numbers(data):
    """Bytes in numbers of 16 bytes, the last one of what is left."""
    parts = [data[i:i + 16] for i in range(0, len(data), 16)]
    return "(" + "".join("0x%x ∷ " % int.from_bytes(p, "little") for p in parts) + "[])" if parts else "[]"


def vector(block):
    """A vector as a term, and what it weighs."""
    assert block[0].startswith("file") and block[1].startswith("runs "), block[:2]
    file = bytes.fromhex(block[0][4:].strip())
    runs = int(block[1].split()[1])
    out, counted = answer(block[2:])
    return "%s %d %d %s %d %s" % ("c" if counted else "v", runs, len(file), numbers(file), len(out), numbers(out)), len(file)


def tables(vectors):
    """Vectors in groups of limited weight."""
    group, weight = [], 0
    for term, w in vectors:
        if group and weight + w > TABLE:
            yield group
            group, weight = [], 0
        group.append(term)
        weight += w
    if group:
        yield group


def index(folder):
    """Lib.antt of a folder: its other files, those of one name by their numbers."""
    names = [n[:-5] for n in os.listdir(folder) if n.endswith(".antt") and n != "Lib.antt"]
    names.sort(key=lambda n: (n.rstrip("0123456789"), len(n), n))
    with open(os.path.join(folder, "Lib.antt"), "w", encoding="utf-8") as f:
        f.write("".join("pub mod %s\n" % n for n in names))


def main(folder, texts):
    vectors = []
    for text in texts:
        path, _, most = text.partition(":")
        vectors += [v for v in map(vector, blocks(path)) if not most or v[1] <= int(most)]
    groups = list(tables(vectors))
    for name in os.listdir(folder):
        if name.startswith("Part") and name.endswith(".antt"):
            os.remove(os.path.join(folder, name))
    names = []
    first = 0
    for i in range(0, len(groups), PART):
        part = groups[i:i + PART]
        size = sum(len(g) for g in part)
        names.append("Part%d" % (i // PART))
        with open(os.path.join(folder, names[-1] + ".antt"), "w", encoding="utf-8") as f:
            kinds = ", ".join(k for k in "vc" if any(term[0] == k for group in part for term in group))
            f.write(HEAD.format(first=first, last=first + size - 1, count=len(vectors), kinds=kinds))
            for j, group in enumerate(part):
                f.write("\nabbrev table%d : List Vector\ntable%d =\n    " % (i + j, i + j))
                f.write("\n    ∷ ".join(group + ["[]"]) + "\n")
                f.write("\npub right%d : wrong %d table%d ≡ []\nunfolding wrong\nright%d = refl\n" % (i + j, first, i + j, i + j))
                first += len(group)
    index(folder)
    print("%d vectors in %d tables in %d files" % (len(vectors), len(groups), len(names)))


if __name__ == "__main__":
    if len(sys.argv) < 3:
        sys.exit(__doc__)
    main(sys.argv[1], sys.argv[2:])
