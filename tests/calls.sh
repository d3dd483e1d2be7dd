#!/usr/bin/env bash
# The input of crates/scope_calls, and the tables of its sequences in crates/laws_vectors, are what tools/calls.py writes.
set -u
cd "$(dirname "$0")/.." || exit 1
. tests/counts.bash

python3 tools/calls.py script "$out/stdin"
one "input" cmp "$out/stdin" crates/scope_calls/stdin
mkdir "$out/specs"
cp crates/laws_vectors/specs/*.antt "$out/specs"
rm -f "$out"/specs/Calls*.antt "$out/specs/Lib.antt"
python3 tools/calls.py tables crates/scope_calls/stdin crates/scope_calls/stdout "$out/specs"
one "tables" diff -r "$out/specs" crates/laws_vectors/specs
finish
