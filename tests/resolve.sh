#!/usr/bin/env bash
# The resolver: its C function through tests/resolve.py, beside a model, eslint-scope and V8; the caller's tool; and the files that script/inline
# writes. SEED and COUNT make other and more scripts. What is passed over, and where, tests/steps.txt says. The last line counts.
set -u
cd "$(dirname "$0")/.." || exit 1
. tests/counts.bash
. tests/library.bash

need_library || finish
one "driver" gcc -O1 -Wall -Wextra -Werror -o "$out/driver" tests/port.c "$library" -pthread || finish
count "resolver" python3 -B tests/resolve.py alone "$out/driver"
# Inputs of docs/DECISIONS.md, where cargo is there to read them.
inputs() {
    (cd oracle && cargo build --release --offline --quiet -j "${JOBS:-1}" -p tree_file) && oracle/target/release/decisions resolver docs/DECISIONS.md >"$out/inputs"
}
if part inputs; then
    one "inputs" inputs && count "inputs resolved" python3 -B tests/resolve.py inputs "$out/driver" "$out/inputs"
fi
if part judges; then
    count "beside eslint-scope and V8" python3 -B tests/resolve.py judges "$out/driver"
fi

tool=caller/target/release/negbosun-inline
build_tool() {
    (cd caller && cargo build --release --offline --quiet -j "${JOBS:-1}" --bins)
}
# Resolved again a file is the same bytes.
sample_resolved() {
    "$tool" resolve samples/tide.tree >"$out/tide.tree" && "$tool" resolve <"$out/tide.tree" | cmp - "$out/tide.tree"
}
if part tool; then
    one "tool" build_tool || finish
    one "sample" sample_resolved
fi

# What script/inline writes is resolved as its names mean: resolved again it is one script with it.
script_resolved() {
    script/inline --tree "$1" >"$out/script.tree" && "$tool" resolve "$out/script.tree" >"$out/resolved.tree" && "$tool" same "$out/script.tree" "$out/resolved.tree"
}
# The sample's file, made by hand with contexts of its own, and what script/inline makes of its text are resolved to one script.
sample_of_text() {
    script/inline --tree samples/scripts/tide.js >"$out/script.tree" && "$tool" resolve "$out/script.tree" >"$out/resolved.tree" &&
        "$tool" same "$out/resolved.tree" "$out/tide.tree"
}
# A script that the parser takes, and that declares a name twice by ECMA-262: both places are told, in the text.
twice() {
    printf 'var a;\ntry { g(); } catch (e) {\n  var e = 1;\n}\n' >"$out/twice.js"
    script/inline "$out/twice.js" 2>"$out/said"
    [ $? -eq 1 ] && cat "$out/said" && grep -q ':3:7: refusal 13: e is declared by a catch on line 2 and again by a var here' "$out/said"
}
if part script; then
    for script in samples/scripts/*.js; do
        one "${script##*/}" script_resolved "$script"
    done
    one "the sample's text" sample_of_text
    one "declared twice" twice
fi
finish
