# Progress of proofs, crate by crate.

# needed NAME: how many crates stand under and with a crate, by crates.txt.
needed() {
    NAME=$1 awk '
        { sub(/#.*/, ""); i = index($0, ":"); if (!i) next
          n = substr($0, 1, i - 1); gsub(/[ \t]/, "", n); deps[n] = substr($0, i + 1) }
        function visit(n,    a, k, m) {
            if ((n in seen) || !(n in deps)) return
            seen[n] = 1
            m = split(deps[n], a, " ")
            for (k = 1; k <= m; k++) visit(a[k])
        }
        END { visit(ENVIRON["NAME"]); for (n in seen) count++; print count + 0 }' crates.txt
}

# counted TOTAL: the lines of rt as they come; a proved crate's line has its number before it. What an earlier run proved has no line.
counted() {
    local total=$1 done=0 line name=
    while IFS= read -r line; do
        case $line in
        "crate "*": modules loaded="*)
            name=${line#crate }
            name=${name%%:*}
            ;;
        "logic=proved"*)
            done=$((done + 1))
            printf '%3d of at most %d  %s proved\n' "$done" "$total" "$name"
            ;;
        "fn "*": proved" | "struct "*": proved" | "enum "*": proved" | "trait "*": proved" | "impl "*": proved" | "const "*": proved") ;;
        "logic /"* | statements* | checked* | axioms* | library* | linked*) ;; # the prover's own lines for each crate
        *) printf '%s\n' "$line" ;;
        esac
    done
}

# proved NAME: proves and builds a program and what it depends on (tools/build), and shows how far it is.
proved() {
    tools/build "$1" 2>&1 | counted "$(needed "$1")" >&2
    return "${PIPESTATUS[0]}"
}
