#!/usr/bin/env bash
# The port beside the original: the stored vectors, rows 1 and 10 with their buffers, paired copies, stack and program through
# tests/port.py, lent kind tables through tests/lent.py; the Rust caller's own tests, clippy and documentation; and, where the original's sources are there, a quick round of both in one process.
# What is passed over, and where, tests/steps.txt says. The last line counts.
set -u
cd "$(dirname "$0")/.." || exit 1
. tests/counts.bash
. tests/library.bash

need_library || finish
need_program || finish
one "driver" gcc -O1 -Wall -Wextra -Werror -o "$out/driver" tests/port.c "$library" -pthread || finish
count "port" python3 -B tests/port.py "$out/driver" target/bin/negbosun
count "lent kind tables" python3 -B tests/lent.py "$out/driver"

caller_cargo() {
    (cd caller && cargo "$@" --offline --quiet -j "${JOBS:-1}")
}
caller_lint() {
    (cd caller && cargo clippy --offline --quiet -j "${JOBS:-1}" --all-targets -- -D warnings)
}
# Every input of docs/DECISIONS.md comes out as it says there.
decisions() {
    (cd oracle && cargo build --release --offline --quiet -j "${JOBS:-1}" -p tree_file) &&
        oracle/target/release/decisions list docs/DECISIONS.md >"$out/inputs" && caller/target/release/negbosun-inline --batch <"$out/inputs" >"$out/outcomes" &&
        oracle/target/release/decisions check docs/DECISIONS.md <"$out/outcomes"
}
# The vectors that a request amends: the port's answers on the oracle's files.
amended() {
    oracle/target/release/vectors amended 1 >"$out/amended" 2>/dev/null &&
        caller/target/release/negbosun-inline --batch <"$out/amended" >"$out/answers" &&
        python3 -B tools/amended.py "$out/amended" "$out/answers" | cmp - tests/vectors/amended.txt
}

if part caller; then
    count "caller" cargo_tests caller
    RUSTDOCFLAGS="-D warnings" one "caller, documentation" caller_cargo doc --no-deps
    one "caller's tool" caller_cargo build --release --bins --examples || finish
    one "caller's example" caller/target/release/examples/sample
    count "decisions" decisions
fi
if part clippy; then
    one "caller, clippy" caller_lint
fi
if part original; then
    NEGBOSUN_ORIGINAL=$(cd "${NEGBOSUN_ORIGINAL:-../shared/docs/src}" && pwd) && export NEGBOSUN_ORIGINAL
    one "oracle" bash -c "cd oracle && cargo build --release --offline --quiet -j '${JOBS:-1}'" || finish
    one "both in one process" bash -c "cd oracle && cargo build --release --offline --quiet -j '${JOBS:-1}' -p beside" || finish
    one "amended rewritten" amended
    count "quick round" oracle/target/release/beside "${SEED:-1}" 20000 10000
    count "tool beside the original" oracle/target/release/compare "${SEED:-1}" 3000 caller/target/release/negbosun-inline --batch
fi
finish
