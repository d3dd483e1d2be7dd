# What the test scripts here count, sourced from the repository's root: a folder of their own, how much passed and failed so far, and which part of
# the script (tests/steps.txt) they are in.
. tests/steps.bash
out=$(mktemp -d)
trap 'rm -rf "$out"' EXIT
step=tests/${0##*/}
passed=0
failed=0
skipped=0
whole_skipped=0
part=
part_passed=0
part_failed=0

# add PASSED FAILED
add() {
    passed=$((passed + $1))
    failed=$((failed + $2))
    if [ -n "$part" ]; then
        part_passed=$((part_passed + $1))
        part_failed=$((part_failed + $2))
    fi
}

# end_part: the line from which tests/run takes what a part has counted.
end_part() {
    [ -z "$part" ] || echo "part $step $part: $part_passed passed, $part_failed failed"
    part=
    part_passed=0
    part_failed=0
}

# pass_over PART WHY: a part that this machine has not all for, in the one form that tests/run takes.
pass_over() {
    local name="$step $1"
    echo "skipped: ${name% -}: $2"
    skipped=$((skipped + 1))
}

# part NAME: begins a part, if what its line in tests/steps.txt needs is there; else says why not and fails.
part() {
    local needs why
    end_part
    read -ra needs <<<"$(needs_of "$step" "$1")"
    why=$(why_not "${needs[@]}")
    if [ -n "$why" ]; then
        pass_over "$1" "$why"
        return 1
    fi
    part=$1
}

# whole: the same of the script as a whole, which then ends.
whole() {
    if ! part -; then
        whole_skipped=1
        finish
    fi
    part=
}

# Nothing tried is a failure, but where the script as a whole is passed over: parts that are do not excuse the rest.
finish() {
    end_part
    if [ $((passed + failed + whole_skipped)) -eq 0 ]; then
        echo "$step: nothing was tried"
        failed=1
    fi
    echo "$passed passed, $failed failed"
    [ "$failed" -eq 0 ]
    exit
}

# count NAME COMMAND..: adds the counts of a command's last line; one that ends otherwise, or counts nothing, has failed.
count() {
    local name=$1 status last
    shift
    "$@" >"$out/log" 2>&1
    status=$?
    last=$(tail -n 1 "$out/log")
    if [[ $last =~ ^([0-9]+)\ passed,\ ([0-9]+)\ failed$ ]] && [ $((status != 0)) -eq $((BASH_REMATCH[2] != 0)) ] && [ $((BASH_REMATCH[1] + BASH_REMATCH[2])) -gt 0 ]; then
        add "${BASH_REMATCH[1]}" "${BASH_REMATCH[2]}"
        sed "s/^/$name: /" "$out/log"
    else
        add 0 1
        tail -n 40 "$out/log"
        echo "$name: no count, status $status"
    fi
}

# one NAME COMMAND..: a command that passes or fails as a whole.
one() {
    local name=$1
    shift
    if "$@" >"$out/log" 2>&1; then
        add 1 0
        echo "$name: passed"
    else
        add 0 1
        tail -n 40 "$out/log"
        echo "$name: failed"
        return 1
    fi
}

# cargo_tests FOLDER WORD..: cargo's tests there. Those of each sort end in a line of their own; the last line here is their sum, and what cargo says is shown where one fails.
cargo_tests() {
    local status
    (cd "$1" && shift && cargo test --offline --quiet -j "${JOBS:-1}" "$@") >"$out/tests" 2>&1
    status=$?
    [ "$status" -eq 0 ] || cat "$out/tests"
    sed -n 's/^test result: .* \([0-9]*\) passed; \([0-9]*\) failed;.*/\1 \2/p' "$out/tests" |
        awk -v status="$status" '{p += $1; f += $2} END {if (status && !f) f = 1; print p + 0 " passed, " f + 0 " failed"}'
    return "$status"
}
