# The toolchain that README.md names.

# check_toolchain: a warning where `rt` is of another version. Proofs that pass with one version may fail with another for that alone.
check_toolchain() {
    local wanted found
    wanted=$(grep -om 1 'rattle-kit-[0-9a-z]* logic [0-9a-f]*' README.md)
    found=$(rt version 2>/dev/null | head -n 1)
    [ "$found" = "$wanted" ] || printf 'rt is of version "%s"; README.md names "%s", and with another one a proof may fail for that alone\n' "${found:-unknown}" "$wanted" >&2
}
