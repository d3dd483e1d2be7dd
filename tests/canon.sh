#!/usr/bin/env bash
# The writer of canonical files: its C function through tests/canon.py; the caller's tool, and, where script/inline can run, the files that it writes.
# What is passed over, and where, tests/steps.txt says. The last line counts.
set -u
cd "$(dirname "$0")/.." || exit 1
. tests/counts.bash
. tests/library.bash

need_library || finish
one "driver" gcc -O1 -Wall -Wextra -Werror -o "$out/driver" tests/port.c "$library" -pthread || finish
count "canon" python3 -B tests/canon.py "$out/driver"

tool=caller/target/release/negbosun-inline
build_tool() {
    (cd caller && cargo build --release --offline --quiet -j "${JOBS:-1}" --bins)
}
# The tool writes the sample's canonical file, which is of one script with the sample.
sample_written() {
    "$tool" canon samples/tide.tree >"$out/tide.tree" && "$tool" canon "$out/tide.tree" | cmp - "$out/tide.tree" &&
        "$tool" same samples/tide.tree "$out/tide.tree" | grep -qx "samples/tide.tree and $out/tide.tree: one script"
}
if part tool; then
    one "tool" build_tool || finish
    one "sample" sample_written
fi

# What script/inline writes is its script's canonical file, whatever the text's layout is; two samples are two scripts.
script_written() {
    script/inline --tree "$1" >"$out/script.tree" && "$tool" canon "$out/script.tree" | cmp - "$out/script.tree"
}
other_layout() {
    sed 's|$| // a comment|' samples/scripts/tide.js >"$out/tide.js" && script/inline --tree "$out/tide.js" >"$out/other.tree" &&
        script/inline --tree samples/scripts/tide.js | cmp - "$out/other.tree"
}
two_scripts() {
    script/inline --tree samples/scripts/spring_tide.js >"$out/script.tree" && "$tool" same "$out/script.tree" samples/tide.tree
    [ $? -eq 1 ]
}
if part script; then
    for script in samples/scripts/*.js; do
        one "${script##*/}" script_written "$script"
    done
    one "another layout" other_layout
    one "two samples" two_scripts
fi
finish
