#!/usr/bin/env bash
# The Debian package of tools/make_deb: made, installed into a folder of its own with a database of its own, used from there, and removed again.
# Nothing of the machine is changed. Where it cannot be tried, the test says why and passes over itself (tests/steps.txt). The last line counts.
set -u
cd "$(dirname "$0")/.." || exit 1
. tests/counts.bash
. tests/library.bash

root=$out/root
tool=caller/target/release/negbosun-inline
multiarch=x86_64-linux-gnu
version=$(sed -n 's/^version = "\(.*\)"$/\1/p' caller/Cargo.toml)

build_tool() {
    (cd caller && cargo build --release --offline --quiet -j "${JOBS:-1}" --bins)
}

dpkg_there() {
    dpkg --root="$root" --force-depends --log="$out/dpkg.log" "$@"
}

new_database() {
    mkdir -p "$root/var/lib/dpkg/info" "$root/var/lib/dpkg/updates" "$root/var/lib/dpkg/triggers" && : >"$root/var/lib/dpkg/status"
}

# Without what the proofs left, the script says what to run and makes nothing.
says_what_to_run() {
    local bare=$out/bare said
    mkdir -p "$bare/tools" "$bare/caller" && cp tools/make_deb "$bare/tools" && cp caller/Cargo.toml "$bare/caller" || return
    if said=$("$bare/tools/make_deb" 2>&1); then
        echo "made a package of nothing"
        return 1
    fi
    grep "tools/build pass" <<<"$said" && grep "tools/build negbosun" <<<"$said" && [ ! -e "$bare/target" ]
}

older_library_is_told() {
    local bare=$out/bare
    mkdir -p "$bare/target/staticlib" "$bare/crates" && touch -d 2001-01-01 "$bare/target/staticlib/libpass.a" && touch "$bare/crates/new.rt" || return
    "$bare/tools/make_deb" 2>&1 | grep "libpass.a is older than crates/new.rt"
}

# The package has all that it should, owned by root, and each library that the script asks for is among what it depends on.
has_all() {
    local file
    dpkg-deb --contents "$deb" >"$out/contents" || return
    for file in usr/bin/negbosun usr/bin/negbosun-inline usr/bin/negbosun-script usr/include/negbosun.h "usr/lib/$multiarch/libnegbosun.a" \
        "usr/lib/$multiarch/pkgconfig/negbosun.pc" usr/share/doc/negbosun/{copyright,TREE.md,MILLERS.md,SAME_MEANING.md} \
        usr/share/doc/negbosun/{README,NOTICE,changelog.gz} usr/share/man/man1/{negbosun,negbosun-inline,negbosun-script}.1.gz \
        usr/share/bash-completion/completions/{negbosun,negbosun-inline,negbosun-script} usr/share/doc/negbosun/pages/{index,wheel_speed.js}.html \
        usr/lib/negbosun/script/{src/own_text.js,src/page.js,same/check.js,guard/child.js,steps/count.js}; do
        grep -q " \./$file\( ->.*\)\?\$" "$out/contents" || { echo "no $file"; return 1; }
    done
    ! grep -v " root/root " "$out/contents"
}

# What is for those who work on the sources stays with them.
has_no_more() {
    ! grep -E "/(ARCHITECTURE|DECISIONS|DESIGN|PORT|TESTING)|/script/(test|setup)|\.rt(\$|/)|/crates/|/\.negbosun" "$out/contents"
}

depends_on_libraries() {
    local depends package libraries
    depends=$(dpkg-deb --field "$deb" Depends) || return
    libraries=$(sed -n 's/^packages=(\(.*\))$/\1/p' script/setup)
    for package in nodejs libc6 ${libraries:?}; do
        grep -qE "(^|, )$package( |,|\$)" <<<"$depends" || { echo "$package is not in: $depends"; return 1; }
    done
    # what only tests ask stays away
    ! grep eslint <<<"$depends"
}

# What lintian calls an error or a warning is one.
lint() {
    ! lintian --no-cfg "$deb" 2>&1 | grep "^[EW]:"
}

manuals() {
    local name
    for name in negbosun negbosun-inline negbosun-script; do
        zcat "$root/usr/share/man/man1/$name.1.gz" >"$out/$name.1" && grep -q "^\.SH SYNOPSIS" "$out/$name.1" || return
    done
    grep -q "^\.B .*jobs N\$" "$out/negbosun-script.1" && grep -q "^\.B .*kinds FILE\$" "$out/negbosun-inline.1"
}

# A mistake in a manual page is told by the program that shows it.
shown_by_man() {
    local name
    for name in negbosun negbosun-inline negbosun-script; do
        [ -z "$(LC_ALL=C.UTF-8 MANWIDTH=100 man --warnings -l "$out/$name.1" 2>&1 >"$out/$name.text")" ] && [ -s "$out/$name.text" ] || return
    done
}

# completed COMMAND WORD..: what bash offers behind these words, the last of which is begun.
completed() {
    (cd "$out" && . "$root/usr/share/bash-completion/completions/$1" && COMP_WORDS=("$@") && COMP_CWORD=$(($# - 1)) && COMPREPLY=() && "_${1//-/_}" && echo "${COMPREPLY[@]}")
}

completion() {
    [ "$(completed negbosun-script --keep)" = --keep-shown ] && [ "$(completed negbosun-script --host pl)" = plain ] && [ "$(completed negbosun-inline can)" = canon ] && [[ " $(completed negbosun-inline res) " == *" resolve "* ]] && [[ " $(completed negbosun-inline pri) " == *" print "* ]] &&
        completed negbosun --h | grep -q -- --help
}

# Whatever the command, its manual page or a document names below the package's own folders is there.
names_exist() {
    local named
    { from_there negbosun-script --help && from_there negbosun-inline --help && from_there negbosun --help && cat "$root"/usr/share/doc/negbosun/{README,*.md}; } >"$out/named" 2>&1
    for named in $(grep -oE "/usr/(share/doc/negbosun|bin)/[A-Za-z_./-]*[A-Za-z]" "$out/named" | sort -u); do
        [ -e "$root$named" ] || { echo "named, but not there: $named"; return 1; }
    done
    ! grep -nE "(^|[^a-z/])(docs/|samples/|target/)|script/inline( |$)" <(from_there negbosun-script --help)
}

# The samples with their verdicts: all three of them, the one that differs first.
sample_pages() {
    local pages=$root/usr/share/doc/negbosun/pages first
    first=$(sed -n '/<tbody>/,$p' "$pages/index.html" | grep -o 'href="[^"]*"' | head -n 1)
    [ "$first" = 'href="wheel_speed.js.html"' ] || { echo "the first is $first"; return 1; }
    grep -q "different; " "$pages/index.html" && grep -q "not shown at " "$pages/index.html" && grep -q "shown at --host=anything" "$pages/index.html" &&
        [ "$(find "$pages" -name '*.html' | wc -l)" -eq $(($(find samples/scripts -name '*.js' | wc -l) + 1)) ] && ! grep -rl "$PWD" "$pages"
}

# A browser shows them: the links of the index lead to pages, each with its verdict.
pages_in_browser() {
    local browser=$1 page
    for page in index wheel_speed.js tide.js levels.js; do
        "$browser" --headless --no-sandbox --disable-gpu --no-first-run --user-data-dir="$out/profile" --dump-dom "file://$root/usr/share/doc/negbosun/pages/$page.html" 2>/dev/null >"$out/dom" || return
        grep -q "</table>" "$out/dom" && grep -qE "different; [0-9]+ of|shown at --host" "$out/dom" || { echo "$page: no verdict"; return 1; }
    done
}

# apt finds all that the package stands on among the packages that it knows, on a machine that has nothing yet. It only tells what it would do.
apt_would() {
    apt-get -s -o Dir::State::status=/dev/null --no-install-recommends install "$(realpath "$deb")" >"$out/apt" && grep "^Inst negbosun " "$out/apt"
}

# A command of the installed package, without anything of the checkout.
from_there() {
    (cd / && env -i PATH="$root/usr/bin:/usr/bin:/bin" "$@")
}

same_output() {
    local expected=$1
    shift
    from_there "$@" <crates/negbosun/stdin >"$out/printed" && cmp "$out/printed" "$expected"
}

# The folders of the system are told too: here they are below the folder of the installation.
pkg_config() {
    PKG_CONFIG_SYSROOT_DIR=$root PKG_CONFIG_LIBDIR=$root/usr/lib/$multiarch/pkgconfig PKG_CONFIG_ALLOW_SYSTEM_CFLAGS=1 PKG_CONFIG_ALLOW_SYSTEM_LIBS=1 \
        pkg-config "$@" negbosun
}

compile_there() {
    local flags
    read -ra flags <<<"$(pkg_config --cflags --libs)"
    gcc -std=c99 -Wall -Wextra -Werror -pedantic -o "$out/header" "$root/usr/share/doc/negbosun/examples/header.c" "${flags[@]}"
}

# A crate that depends on the installed one, and nothing else.
rust_there() {
    local crate=$out/crate
    mkdir -p "$crate/src" && cp caller/examples/sample.rs "$crate/src/main.rs" && sed -i 's|/../samples/tide.tree|/tide.tree|' "$crate/src/main.rs" &&
        cp samples/tide.tree "$crate" && cat >"$crate/Cargo.toml" <<END || return
[package]
name = "sample"
edition = "2021"

[dependencies]
negbosun = { path = "$root/usr/share/cargo/registry/negbosun-$version" }
END
    (cd "$crate" && env -u NEGBOSUN_LIB cargo run --offline --quiet -j "${JOBS:-1}" | tee "$out/said") && grep "nodes out" "$out/said"
}

script_there() {
    from_there negbosun-script --accept "$root/usr/share/doc/negbosun/examples/tide.js" >"$out/tide.js" && cmp "$out/tide.js" samples/results/tide.js
}

# The command calls itself by its name there, and its documents by their place.
help_there() {
    from_there negbosun-script --help >"$out/help" && grep -q "^Usage: negbosun-script " "$out/help" && grep -q " /usr/share/doc/negbosun/MILLERS.md " "$out/help"
}

# Before node's libraries are there, what to do is the package manager's.
not_there() {
    local said
    said=$(cd / && env -i PATH=/usr/bin:/bin NODE_PATH=/nowhere NEGBOSUN_COMMAND=negbosun-script node -e "
        const resolve = require('module')._resolveFilename;
        require('module')._resolveFilename = (name, ...rest) => { if (name === 'acorn') throw new Error(name); return resolve(name, ...rest); };
        require('$root/usr/lib/negbosun/script/src/start.js');" 2>&1)
    [ "$said" = "negbosun-script: node does not find acorn, escodegen, magic-string; apt install --reinstall negbosun brings what is needed" ] ||
        [ "$said" = "negbosun-script: node does not find acorn; apt install --reinstall negbosun brings what is needed" ] || { echo "$said"; return 1; }
}

# Under the sample kind table: the script has neither `for` nor `new`.
kinds_there() {
    local examples=$root/usr/share/doc/negbosun/examples
    from_there negbosun-script --accept --kinds "$examples/without_for_and_new.kinds" "$examples/tide.js" >"$out/tide.js" && cmp "$out/tide.js" samples/results/tide.js
}

limited_there() {
    from_there negbosun-script --accept --runs 1 "$root/usr/share/doc/negbosun/examples/tide.js" >"$out/tide.js" && [ -s "$out/tide.js" ]
}

# The sample's canonical file is of one script with the sample.
canon_there() {
    local sample=$root/usr/share/doc/negbosun/examples/tide.tree
    from_there negbosun-inline canon "$sample" >"$out/one.tree" && from_there negbosun-inline same "$out/one.tree" "$sample"
}

# The sample is resolved, and resolved again it is the same file.
resolved_there() {
    from_there negbosun-inline resolve "$root/usr/share/doc/negbosun/examples/tide.tree" >"$out/resolved.tree" && from_there negbosun-inline resolve "$out/resolved.tree" | cmp - "$out/resolved.tree"
}

# The sample is printed.
printed_there() {
    from_there negbosun-inline print "$root/usr/share/doc/negbosun/examples/tide.tree" >"$out/printed.js" && grep -q ' ;$' "$out/printed.js"
}

# Only the database of packages is left.
nothing_left() {
    [ -z "$(find "$root" -path "$root/var/lib/dpkg" -prune -o -type f -print -o -type l -print -o -path "$root/usr" -print | tee /dev/stderr)" ]
}

whole
need_library || finish
need_program || finish
one "tool" build_tool || finish

one "says what to run" says_what_to_run
one "says what is older" older_library_is_told
one "made" tools/make_deb "$out/first" || finish
one "made again" tools/make_deb "$out/second"
deb=$out/first/negbosun_${version}_amd64.deb
one "the same bytes" cmp "$deb" "$out/second/${deb##*/}"
one "contents" has_all
one "nothing for developers" has_no_more
one "depends" depends_on_libraries

if part apt; then
    one "apt would install it" apt_would
    end_part
fi

if part lintian; then
    one "lintian" lint
    end_part
fi

one "database" new_database || finish
one "installed" dpkg_there --install "$deb" || finish
one "verified" dpkg_there --verify negbosun
one "program" same_output crates/negbosun/stdout negbosun
one "tool's output" same_output crates/negbosun/stdout negbosun-inline
one "canonical file" canon_there
one "resolved file" resolved_there
one "printed script" printed_there
one "manual pages" manuals
if part man; then
    one "manual pages shown" shown_by_man
    end_part
fi
one "completion" completion
one "pages of the samples" sample_pages
if part browser; then
    one "pages in a browser" pages_in_browser "$(browser)"
    end_part
fi
one "version" grep -qx "negbosun-inline $version" <(from_there negbosun-inline --version)
one "Rust program" rust_there
if part c-program; then
    one "pkg-config's version" [ "$(pkg_config --modversion)" = "$version" ]
    one "compiled and linked" compile_there && count "C program" "$out/header" "$root/usr/share/doc/negbosun/examples/tide.tree"
fi
if part script; then
    one "script" script_there
    one "script with a run limit" limited_there
    one "script's help" help_there
    one "what is named is there" names_exist
    one "libraries that are not there" not_there
    one "script under a kind table" kinds_there
fi
end_part
one "removed" dpkg_there --purge negbosun
one "nothing left" nothing_left
finish
