#!/usr/bin/env python3
"""The kind rules as a table, three times: what the program crates/kind_table prints (rt ci holds its file stdout to that), the digits of the constant in
crates/file_kinds, and the table by the rules of tests/treefile_reader.py, which is written from document 01 and request 4 alone.

The last line is `N passed, M failed`.
"""
import os
import re
import sys

from treefile_reader import FORMS, NAMES, WORDS

HERE = os.path.dirname(os.path.abspath(__file__))
KINDS = range(1, 49)


def text_of(*path):
    with open(os.path.join(HERE, "..", "crates", *path), encoding="utf-8", newline="") as f:
        return f.read()


def printed():
    """The lines that the program prints."""
    return text_of("kind_table", "stdout").split("\n")


def constant():
    """The lines of the constant, its entries without what stands between them."""
    inside = re.search(r"pub static KINDS: \[u8; 2304\] = \[\n(.*?)\n\];", text_of("file_kinds", "src", "lib.rt"), re.S)
    return [re.sub(r"[ ,]", "", line) for line in inside[1].split("\n")] if inside else []


def by_rules():
    """The lines by the patterns of children: a kind stands somewhere exactly if a word of some form takes it, since each word can have a child."""
    lines = []
    for parent in KINDS:
        taken = set()
        for children in FORMS[parent].values():
            for word in children.split():
                name = word.rstrip("*?")
                taken.update([*NAMES, 5] if name == "h" else WORDS[name] if name in WORDS else [int(name)])
        lines.append("".join("1" if child in taken else "0" for child in KINDS))
    return lines


def main():
    passed, failed = 0, 0

    def check(what, good):
        nonlocal passed, failed
        passed, failed = passed + good, failed + (not good)
        if not good:
            print(what)

    out, source, rules = printed(), constant(), by_rules()
    check("the program does not print 48 lines, each with its end", len(out) == 49 and out[48] == "")
    check("the constant has not 48 lines", len(source) == 48)
    for name, lines in (("printed", out[:48]), ("in the constant", source)):
        for parent, line in enumerate(lines, 1):
            check("line %d %s is not 48 digits, each 0 or 1" % (parent, name), re.fullmatch("[01]{48}", line) is not None)
    # each line that is printed stands in the constant, and each line of the constant is printed
    for name, lines, others in (("printed, not in the constant", out[:48], source), ("in the constant, not printed", source, out[:48]), ("by the rules, not printed", rules, out[:48])):
        for parent, line in enumerate(lines, 1):
            check("line %d, %s: %s" % (parent, name, line), parent <= len(others) and others[parent - 1] == line)
    print("%d of 2304 entries are 1" % "".join(source).count("1"))
    print("%d passed, %d failed" % (passed, failed))
    return failed == 0


if __name__ == "__main__":
    sys.exit(0 if main() else 1)
