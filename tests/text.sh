#!/usr/bin/env bash
# The printer: its C function through tests/text.py, beside a model, acorn and V8; the caller's tool; and what script/inline reads of its own files printed.
# SEED and COUNT make other and more scripts. What is passed over, and where, tests/steps.txt says. The last line counts.
set -u
cd "$(dirname "$0")/.." || exit 1
. tests/counts.bash
. tests/library.bash

need_library || finish
one "driver" gcc -O1 -Wall -Wextra -Werror -o "$out/driver" tests/port.c "$library" -pthread || finish
count "printer" python3 -B tests/text.py alone "$out/driver"
# Inputs of docs/DECISIONS.md, where cargo is there to read them.
inputs() {
    (cd oracle && cargo build --release --offline --quiet -j "${JOBS:-1}" -p tree_file) && oracle/target/release/decisions printer docs/DECISIONS.md >"$out/inputs"
}
if part inputs; then
    one "inputs" inputs && count "inputs printed" python3 -B tests/text.py inputs "$out/driver" "$out/inputs"
fi
if part judges; then
    count "read by acorn and V8" python3 -B tests/text.py judges "$out/driver"
fi

tool=caller/target/release/negbosun-inline
build_tool() {
    (cd caller && cargo build --release --offline --quiet -j "${JOBS:-1}" --bins)
}
# `x;` as a tree file, and the same with a name that is none.
script_of() {
    printf '\1\0\0\0\125\0\0\0\3\0\0\0\40\0\0\0\1\0\0\0\120\0\0\0\124\0\0\0\1\0\0\0\1\0\1\0\0\0\0\0\0\0\0\0\0\0\0\0\4\0\1\0\0\0\0\0\0\0\0\0\0\0\0\0\25\0\0\0\0\0\0\0\0\0\0\0\0\0\0\0\1\0\0\0%s' "$1"
}
printed() {
    [ "$(script_of x | "$tool" print)" = "x ;" ] && "$tool" print samples/tide.tree >"$out/tide.js" && "$tool" print - <samples/tide.tree | cmp - "$out/tide.js"
}
# Refusal 12 is told with its place and reason.
reason() {
    script_of 7 | "$tool" print 2>"$out/said"
    [ "${PIPESTATUS[1]}" -eq 1 ] && cat "$out/said" && grep -q 'refusal 12: .*; it has node 3 (kind 21) with "7", which is no name' "$out/said"
}
if part tool; then
    one "tool" build_tool || finish
    one "printed" printed
    one "why there is no text" reason
fi

# A script's file has each pair of its text, so that none is added: what is printed is read as the same file, but for how contexts are numbered.
script_printed() {
    script/inline --tree "$1" >"$out/script.tree" && "$tool" print "$out/script.tree" >"$out/script.js" && script/inline --tree "$out/script.js" >"$out/again.tree" &&
        "$tool" same "$out/script.tree" "$out/again.tree"
}
if part script; then
    for script in samples/scripts/*.js; do
        one "${script##*/}" script_printed "$script"
    done
fi
finish
