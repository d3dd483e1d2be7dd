#!/usr/bin/env python3
"""Puts files and answers together as vectors.

  tools/amended.py FILES ANSWERS >tests/vectors/amended.txt

FILES has lines `HEX RUNS`, ANSWERS for each what `negbosun-inline --batch` answers, up to a blank line.
"""
import sys


def main(files, answers):
    with open(files, encoding="utf-8") as f:
        asked = [line.split() for line in f]
    with open(answers, encoding="utf-8") as f:
        told = [block for block in f.read().split("\n\n") if block.strip()]
    if len(asked) != len(told):
        sys.exit("%d files, %d answers" % (len(asked), len(told)))
    for (file, runs), answer in zip(asked, told):
        print("file %s\nruns %s\n%s\n" % (file, runs, answer.strip("\n")))


if __name__ == "__main__":
    if len(sys.argv) != 3:
        sys.exit(__doc__)
    main(sys.argv[1], sys.argv[2])
