#!/usr/bin/env bash
# script/inline: text to tree file and back, what is refused, samples, guard and command. The port is target/bin/negbosun, or what NEGBOSUN_PORT
# names; nothing is taken in its place. What is passed over, and where, tests/steps.txt says. The last line counts.
set -u
cd "$(dirname "$0")/.." || exit 1
. tests/counts.bash
. tests/library.bash

whole
if [ -z "${NEGBOSUN_PORT:-}" ]; then
    need_program || finish
    export NEGBOSUN_PORT=$PWD/target/bin/negbosun
fi
# The caller's tool takes a limit of runs and a kind table, which script/inline hands on to it where it is there.
if [ -z "$(why_not cargo)" ]; then
    need_library || finish
    one "tool" bash -c "cd caller && cargo build --release --offline --quiet -j '${JOBS:-1}' --bins" || finish
fi

NODE_PATH=/usr/share/nodejs${NODE_PATH:+:$NODE_PATH} node script/test/run.js 2>&1 | tee "$out/shown"
status=${PIPESTATUS[0]}

# taken PART HEADS..: the counts of the groups whose lines begin so are a part's; or the line by which they were passed over is.
taken() {
    local name=$1 heads counts
    shift
    heads=$(printf '\\|%s' "$@")
    counts=$(sed -n "s/^\(${heads#??}\)[^:]*: \([0-9]*\) passed, \([0-9]*\) failed\$/\2 \3/p" "$out/shown" | awk '{p += $1; f += $2} END {print p + 0, f + 0}')
    if [ "$counts" = "0 0" ]; then
        pass_over "$name" "$(sed -n "s/^\(${heads#??}\)[^:]*: skipped, //p" "$out/shown")"
        return
    fi
    part "$name" && add $counts
    end_part
    rest_passed=$((rest_passed - ${counts% *}))
    rest_failed=$((rest_failed - ${counts#* }))
}

if [[ $(tail -n 1 "$out/shown") =~ ^([0-9]+)\ passed,\ ([0-9]+)\ failed$ ]] && [ $((status != 0)) -eq $((BASH_REMATCH[2] != 0)) ]; then
    rest_passed=${BASH_REMATCH[1]}
    rest_failed=${BASH_REMATCH[2]}
    taken kind-tables "the command under a kind table"
    taken browser "pages in a browser" "a page printed"
    taken printed-text "the text of a printed page"
    add "$rest_passed" "$rest_failed"
else
    echo "script: no count, status $status"
    add 0 1
fi
finish
