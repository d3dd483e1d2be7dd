#!/usr/bin/env bash
# The sample's tree file is what tools/tree.py makes of the readable one, and the programs show and negbosun are held to it. Each program has a file stdout, without
# which rt ci runs it and holds it to nothing.
set -u
cd "$(dirname "$0")/.." || exit 1
. tests/counts.bash

python3 tools/tree.py samples/tide.txt "$out/tree"
for file in samples/tide.tree crates/show/stdin crates/negbosun/stdin; do
    one "$file" cmp "$out/tree" "$file"
done
for program in crates/*/src/main.rt; do
    expected=${program%/src/main.rt}/stdout
    one "$expected" [ -s "$expected" ]
done
finish
