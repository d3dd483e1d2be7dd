# What tests/steps.txt says, sourced from the repository's root: the steps of tests/run, the least that each must count, and what each needs.

# What a step or a part of one may need, and why it is absent: lacks_NEED prints it, or nothing.
lacks_cargo() {
    command -v cargo >/dev/null 2>&1 || echo "no cargo"
}

lacks_clippy() {
    cargo clippy --version >/dev/null 2>&1 || echo "no clippy (rustup component add clippy)"
}

lacks_original() {
    local sources=${NEGBOSUN_ORIGINAL:-../shared/docs/src}
    [ -f "$sources/simplify/inlining/mod.rs" ] || echo "no sources of the original in $sources"
}

lacks_node() {
    command -v node >/dev/null 2>&1 || echo "no node (script/setup installs it)"
}

lacks_javascript() {
    local why
    why=$(lacks_node)
    if [ -z "$why" ]; then
        why=$(NODE_PATH=/usr/share/nodejs${NODE_PATH:+:$NODE_PATH} node script/src/ready.js 2>&1) && return
        why="${why%%$'\n'*} (script/setup installs what is absent)"
    fi
    echo "$why"
}

lacks_eslint-scope() {
    local why
    why=$(lacks_javascript)
    [ -n "$why" ] || NODE_PATH=/usr/share/nodejs${NODE_PATH:+:$NODE_PATH} node -e 'require.resolve("eslint-scope")' >/dev/null 2>&1 || why="no node-eslint-scope (script/setup --tests installs it)"
    echo "$why"
}

# browser: the one that is there, as script/test/browser.js looks for it.
browser() {
    local name
    for name in chromium chromium-browser google-chrome; do
        ! "$name" --version >/dev/null 2>&1 || { echo "$name"; return; }
    done
}

lacks_chromium() {
    [ -n "$(browser)" ] || echo "no chromium (apt-get install chromium)"
}

lacks_pdftotext() {
    command -v pdftotext >/dev/null 2>&1 || echo "no pdftotext (apt-get install poppler-utils)"
}

lacks_g++() {
    command -v g++ >/dev/null 2>&1 || echo "no g++ (apt-get install g++)"
}

lacks_dpkg() {
    command -v dpkg-deb >/dev/null 2>&1 || echo "no dpkg-deb"
}

lacks_root() {
    [ "$(id -u)" -eq 0 ] || echo "only root can install a package"
}

lacks_apt-lists() {
    [ -n "$(apt-cache madison node-magic-string 2>/dev/null)" ] || echo "no apt, or its lists of packages are absent (apt-get update)"
}

lacks_pkg-config() {
    command -v pkg-config >/dev/null 2>&1 || echo "no pkg-config"
}

lacks_lintian() {
    command -v lintian >/dev/null 2>&1 || echo "no lintian (apt-get install lintian)"
}

lacks_man() {
    command -v man >/dev/null 2>&1 || echo "no man (apt-get install man-db)"
}

# why_not NEED..: why what these name is not all there; nothing, if it is.
why_not() {
    local need why
    for need in "$@"; do
        if ! declare -F "lacks_$need" >/dev/null; then
            echo "tests/steps.bash does not know '$need'"
            return
        fi
        why=$("lacks_$need")
        if [ -n "$why" ]; then
            echo "$why"
            return
        fi
    done
}

# needs_of STEP PART: what the line of a part needs, in words; of a part that is not listed a word that is not known.
needs_of() {
    awk -v step="$1" -v part="$2" '{ sub(/#.*/, "") } $1 == step && $2 == part { $1 = $2 = $3 = ""; print; found = 1 } END { if (!found) print "a-line-of-tests/steps.txt" }' tests/steps.txt
}

# What tests/run takes from the list and what the steps come to. A row is a step and a part, 'STEP -' for what is in no part.
steps=()
rows=()
declare -A least=() needs=() row_passed=() row_failed=() row_skipped=() seconds=()

# read_steps: the list; each line that is none is told.
read_steps() {
    local step part floor words rest
    while IFS= read -r rest || [ -n "$rest" ]; do
        rest=${rest%%#*}
        read -r step part floor words <<<"$rest"
        [ -n "$step" ] || continue
        if [[ ! $floor =~ ^[1-9][0-9]*$ ]] || [ -n "${least[$step $part]:-}" ]; then
            fault tests/steps.txt - "'$rest' is no line STEP PART LEAST NEEDS.., or stands there twice"
            continue
        fi
        if [ -z "${least[$step -]:-}" ]; then
            [ "$part" = - ] || fault tests/steps.txt - "the line '$step $part' has no line '$step -' before it"
            steps+=("$step")
        fi
        rows+=("$step $part")
        least[$step $part]=$floor
        needs[$step $part]=$words
    done < <(cat tests/steps.txt)
}

# row_add STEP PART PASSED FAILED
row_add() {
    row_passed[$1 $2]=$((${row_passed[$1 $2]:-0} + $3))
    row_failed[$1 $2]=$((${row_failed[$1 $2]:-0} + $4))
}

# fault STEP PART WHY: what fails the gate beside the checks of a step.
fault() {
    local name="$1 $2"
    echo "${name% -}: $3"
    row_add "$1" "$2" 0 1
}

# lacking STEP PART: why this machine has not what a row needs.
lacking() {
    local words
    read -ra words <<<"${needs[$1 $2]}"
    why_not "${words[@]}"
}

# parts_of STEP: its parts, and '-' first.
parts_of() {
    local row
    for row in "${rows[@]}"; do
        [ "${row% *}" != "$1" ] || echo "${row##* }"
    done
}

# passed_over STEP PART: a line has said that it was. Where the list lets it not, that is a failure.
passed_over() {
    if [ -z "${least[$1 $2]:-}" ]; then
        fault "$1" - "passes over '$2', which has no line in tests/steps.txt"
    elif [ -z "$(lacking "$1" "$2")" ]; then
        fault "$1" "$2" "is passed over, and this machine has all that it needs"
    else
        row_skipped[$1 $2]=1
    fi
}

# judge STEP STATUS LOG: takes what a step has counted from its output, and holds each of its rows to the list.
# A command that ends otherwise than it counted, or counts nothing, is one failure.
judge() {
    local step=$1 status=$2 log=$3 last line part p=0 f=0 seen=" - "
    last=$(tail -n 1 "$log")
    if [[ $last =~ ^([0-9]+)\ passed,\ ([0-9]+)\ failed$ ]]; then
        p=${BASH_REMATCH[1]}
        f=${BASH_REMATCH[2]}
        [ $((status != 0)) -eq $((f != 0)) ] || fault "$step" - "status $status after '$last'"
    else
        fault "$step" - "no count on its last line, status $status"
    fi
    while IFS= read -r line; do
        if [[ $line =~ ^part\ "$step"\ ([^\ :]+):\ ([0-9]+)\ passed,\ ([0-9]+)\ failed$ ]]; then
            part=${BASH_REMATCH[1]}
            p=$((p - BASH_REMATCH[2]))
            f=$((f - BASH_REMATCH[3]))
            row_add "$step" "$part" "${BASH_REMATCH[2]}" "${BASH_REMATCH[3]}"
            seen+="$part "
            [ -n "${least[$step $part]:-}" ] || fault "$step" - "its part '$part' has no line in tests/steps.txt"
        elif [[ $line =~ ^skipped:\ "$step"(\ ([^:]*))?:\  ]]; then
            passed_over "$step" "${BASH_REMATCH[2]:--}"
        elif [[ $line =~ ^skipped: ]]; then
            fault "$step" - "says '$line', which names no part of it"
        fi
    done < <(grep -a '^part \|^skipped:' "$log")
    row_add "$step" - "$p" "$f"
    for part in $(parts_of "$step"); do
        if [ -n "${row_skipped[$step -]:-}${row_skipped[$step $part]:-}" ]; then
            continue
        elif [[ $seen != *" $part "* ]]; then
            fault "$step" "$part" "has neither been counted nor passed over"
        elif [ "${row_passed[$step $part]:-0}" -lt "${least[$step $part]}" ]; then
            fault "$step" "$part" "${row_passed[$step $part]:-0} passed, and tests/steps.txt wants ${least[$step $part]} at least"
        fi
    done
}

# scripts_there: what stands in tests/ to be run: each *.sh, and what begins as a bash script does, but for what is called by hand.
scripts_there() {
    local file
    for file in tests/*; do
        case $file in
        tests/run | tests/run_sample) ;;
        *.sh) echo "$file" ;;
        *) [ ! -f "$file" ] || ! head -n 1 "$file" | grep -q '^#!.*bash' || echo "$file" ;;
        esac
    done
}

# unlisted FILE..: files that are there and have no line.
unlisted() {
    local file
    for file in "$@"; do
        if [ -z "${least[$file -]:-}" ]; then
            fault "$file" - "has no line in tests/steps.txt"
            [[ " ${steps[*]} " == *" $file "* ]] || steps+=("$file")
        fi
    done
}

# sum_of ARRAY STEP: what all rows of a step come to, those of parts that are not listed too.
sum_of() {
    local -n values=$1
    local key sum=0
    for key in "${!values[@]}"; do
        [ "${key% *}" != "$2" ] || sum=$((sum + values[$key]))
    done
    echo "$sum"
}

# show_steps: the table, and the last line. Parts of a step are counted in its row, too.
show_steps() {
    local step part passed=0 failed=0 skipped=0 p f s form='%-32s %9s %9s %9s %9s\n'
    [ -z "${row_failed[tests/steps.txt -]:-}" ] || steps=(tests/steps.txt "${steps[@]}")
    # shellcheck disable=SC2059
    printf "$form" step passed failed skipped seconds
    for step in "${steps[@]}"; do
        p=$(sum_of row_passed "$step")
        f=$(sum_of row_failed "$step")
        s=$(sum_of row_skipped "$step")
        printf "$form" "$step" "$p" "$f" "$s" "${seconds[$step]:--}"
        for part in $(parts_of "$step"); do
            [ "$part" = - ] || printf "${form% *}\\n" "    $part" "${row_passed[$step $part]:-0}" "${row_failed[$step $part]:-0}" "${row_skipped[$step $part]:-0}"
        done
        passed=$((passed + p))
        failed=$((failed + f))
        skipped=$((skipped + s))
    done
    printf "$form" all "$passed" "$failed" "$skipped" "$SECONDS"
    echo "$passed passed, $failed failed"
    [ "$failed" -eq 0 ]
}
