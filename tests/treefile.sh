#!/usr/bin/env bash
# Tree files through the C entry of crates/file_copy_c and through the program show: tests/treefile.py makes them and says what to expect.
set -u
cd "$(dirname "$0")/.." || exit 1
. tests/counts.bash
. tests/library.bash

need file_copy target/staticlib/libfile_copy.a crates/file_copy/out/rlib/file_copy.rlib/format || finish
need show target/bin/show crates/show/out/show || finish
one "driver" gcc -O1 -Wall -Wextra -Werror -o "$out/driver" tests/treefile.c target/staticlib/libfile_copy.a || finish
PYTHONDONTWRITEBYTECODE=1 count "files" python3 tests/treefile.py "$out/driver" target/bin/show
finish
