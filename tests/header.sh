#!/usr/bin/env bash
# include/negbosun.h: compiled as C and, where g++ is there, as C++ without a warning, linked to the library, and held to what it promises; its numbers
# are the Rust crate's. The last line counts.
set -u
cd "$(dirname "$0")/.." || exit 1
. tests/counts.bash
. tests/library.bash

warnings=(-Wall -Wextra -Werror -pedantic -Wconversion -Wshadow)

# compiled NAME COMPILER..: a program from tests/header.c, run on the sample.
compiled() {
    local name=$1
    shift
    one "$name" "$@" "${warnings[@]}" -O1 -Iinclude -o "$out/header" tests/header.c -x none "$library" || return
    count "$name, run" "$out/header" samples/tide.tree
}

# The header alone, so that it needs no other one before it.
alone() {
    echo '#include "negbosun.h"' | "$@" "${warnings[@]}" -Iinclude -fsyntax-only -
}

# A number of the header is that of the Rust crate.
same_number() {
    echo "$1 $2" >&2
    printf '#include "include/negbosun.h"\n_Static_assert(%s == (%s), "%s");\n' "$1" "$2" "$1" | gcc -x c -I. -fsyntax-only -
}

rust() {
    cat caller/src/lib.rs caller/src/kind_table.rs | sed -n "s/^pub const $1: [a-z0-9]* = \(.*\);\$/\1/p" | tr -d _
}

version() {
    sed -n 's/^version = "\(.*\)"$/\1/p' caller/Cargo.toml
}

# The library has no data of its own, asks for nothing but functions on bytes, and shows no other name than its own.
keeps_to_itself() {
    local strange
    nm -g "$library" >"$out/names" && nm "$library" >"$out/all" || return
    strange=$(grep -E ' [BbCDdGgSs] ' "$out/all"
        grep -E ' U ' "$out/names" | grep -vE ' U (mem(set|cpy|move|cmp)|bcmp)$'
        grep -E ' T ' "$out/names" | grep -v ' T negbosun_')
    echo "$strange"
    [ -z "$strange" ] && grep -q ' T negbosun_inline$' "$out/names"
}

need_library || finish
one "names in the library" keeps_to_itself
for standard in c99 c11 c17; do
    compiled "gcc $standard" gcc -std="$standard"
done
one "alone in C" alone gcc -std=c99 -x c
for name in MOST_RUNS WORDS MOST_BYTES MOST_TEXT_BYTES MOST_ROOTS ROOT_WORDS TABLE_BYTES; do
    one "$name" same_number "NEGBOSUN_$name" "$(rust "$name")"
done
one "version" grep -q "^#define NEGBOSUN_VERSION \"$(version)\"\$" include/negbosun.h
if part g++; then
    for standard in c++11 c++17 c++20; do
        compiled "g++ $standard" g++ -std="$standard" -x c++
    done
    one "alone in C++" alone g++ -std=c++11 -x c++
fi
finish
