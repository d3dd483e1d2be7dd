# The archives and programs for the test scripts here, sourced behind counts.bash; built where they are absent or older than what was proved.
library=target/staticlib/libpass.a

# need WHAT FILE PROVED..: what tools/build makes, and what it is made of.
need() {
    local what=$1 file=$2 it
    shift 2
    for it in "$@"; do
        if [ ! -e "$file" ] || [ "$it" -nt "$file" ]; then
            one "$what, built" tools/build "$what"
            return
        fi
    done
}

need_library() {
    need pass "$library" crates/pass/out/rlib/pass.rlib/format crates/file_canon/out/rlib/file_canon.rlib/format
}

need_program() {
    need negbosun target/bin/negbosun crates/negbosun/out/negbosun
}
