#!/usr/bin/env bash
# The constant table of kinds is what the program crates/kind_table prints, and what the rules of tests/treefile_reader.py say: tests/kinds.py.
set -u
cd "$(dirname "$0")/.." || exit 1
. tests/counts.bash

PYTHONDONTWRITEBYTECODE=1 count "kinds" python3 tests/kinds.py
finish
