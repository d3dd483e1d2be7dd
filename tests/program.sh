#!/usr/bin/env bash
# The program target/bin/negbosun: its usage, and what it says and ends with where something cannot be read or written. The last line counts.
set -u
cd "$(dirname "$0")/.." || exit 1
. tests/counts.bash
. tests/library.bash

sample=samples/tide.tree

# told STATUS WORDS COMMAND: a line of the shell, in which $negbosun is the program; its status, and all that it says on standard error.
told() {
    local status said
    said=$(negbosun=$PWD/target/bin/negbosun bash -c "$3" 2>&1 >/dev/null)
    status=$?
    [ "$status" -eq "$1" ] && [ "$said" = "$2" ] || { echo "status $status: $said"; return 1; }
}

output="negbosun: standard output:"
ended="$output what it was sent to has ended before it had read all"
pipe() {
    told 0 "$ended
6" "{ (sleep 0.3; \$negbosun $1; echo \$? >&2) | true; } 2>&1 >/dev/null | cat >&2"
}

asks_usage() {
    "$PWD/target/bin/negbosun" "$1" >"$out/usage" 2>"$out/said" && grep -q '^usage: negbosun < FILE.tree$' "$out/usage" && [ ! -s "$out/said" ]
}

need_program || finish
one "usage that is asked for" asks_usage --help
one "usage that is asked for in short" asks_usage -h
one "an argument that it does not take" told 2 "$(target/bin/negbosun --help)" "\$negbosun $sample"
one "standard output that is closed" told 6 "$output it is closed" "\$negbosun <$sample >&-"
one "usage with standard output closed" told 6 "$output it is closed" "\$negbosun --help >&-"
one "no room left" told 6 "$output there is no room left on the disk" "\$negbosun <$sample >/dev/full"
one "a reader that is gone" pipe "<$sample"
one "standard input that is a folder" told 1 "negbosun: standard input: this is a folder" "\$negbosun <tests"
one "standard input that is closed" told 1 "negbosun: standard input: it is closed" "\$negbosun <&-"
one "nothing to say it to" told 6 "" "\$negbosun <$sample >&- 2>&-"
finish
