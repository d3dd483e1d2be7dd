#!/usr/bin/env bash
# Builds the oracle from the original's two source files, replays the stored vectors against it,
# and checks generator, reader and original against one another. Where the sources or cargo are
# not there it says so and passes over itself (tests/steps.txt). The last line counts.
set -u
cd "$(dirname "$0")/.." || exit 1
. tests/counts.bash

whole
NEGBOSUN_ORIGINAL=$(cd "${NEGBOSUN_ORIGINAL:-../shared/docs/src}" && pwd) && export NEGBOSUN_ORIGINAL

# The stored vectors are what the command of docs/TESTING.md writes.
rewritten() {
  "$bin/vectors" "$1" 1 2>/dev/null | cmp - "tests/vectors/$1.txt"
}

build() {
  (cd oracle && cargo build --release --offline --quiet -j "${JOBS:-1}")
}

one "build" build || finish
bin=oracle/target/release

count "tests of its own" cargo_tests oracle --release -p tree_file -p programs

count "stored vectors" "$bin/replay" tests/vectors/sample.txt tests/vectors/small.txt tests/vectors/patterns.txt
one "sample rewritten" rewritten sample
one "small rewritten" rewritten small
one "patterns rewritten" rewritten patterns
count "limits" "$bin/limits"
count "consistency" "$bin/consistency" "${SEED:-1}" 2000
if part differences; then
  count "differences" bash -c "cd oracle && target/release/differences check differences/classes.txt"
fi

finish
