#!/usr/bin/env bash
# The tables of crates/laws_vectors are what tools/vectors.py writes from the vectors.
set -u
cd "$(dirname "$0")/.." || exit 1
out=$(mktemp -d)
trap 'rm -rf "$out"' EXIT
cp crates/laws_vectors/specs/{Vector,Play}.antt crates/laws_vectors/specs/Calls*.antt "$out"
if python3 tools/vectors.py "$out" tests/vectors/small.txt tests/vectors/amended.txt:1200 tests/vectors/patterns.txt:300 && diff -r "$out" crates/laws_vectors/specs; then
    echo "1 passed, 0 failed"
else
    echo "0 passed, 1 failed"
    exit 1
fi
