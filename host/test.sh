#!/bin/sh
# Builds and runs all host tests: Rust and C over the archive, the program `listing` on the kept examples and on
# bundles made from a seed, and the program `reading` on the kept listings. The last line is 'host: N passed, M failed'.
set -u
here=$(cd "$(dirname "$0")" && pwd -P)
top=$(dirname "$here")
# shellcheck source-path=SCRIPTDIR source=platform.sh
. "$here/platform.sh"
out=$top/target/host
mkdir -p "$out/bundles"
who=host
# shellcheck source-path=SCRIPTDIR source=count.sh
. "$here/count.sh"

run_cargo() { (cd "$here" && CARGO_TARGET_DIR=$out "$cargo" "$@"); }

# Tests of one kind, from cargo's lines 'test result: ..'.
total() { # WORD
    sed -n "s/^test result: .* \([0-9]*\) $1;.*/\1/p" "$out/log" | awk '{ n += $1 } END { print n + 0 }'
}

rust_tests() {
    run_cargo test --offline --release >"$out/log" 2>&1
    status=$?
    cat "$out/log"
    add_counts "$(total passed)" "$(total failed)" "$status" 'the build of the Rust tests'
}

c_test() {
    $cc -std=c99 -O2 -Wall -Wextra -Werror -I"$here/include" "$here/c/calls.c" "$archive" -o "$out/calls" &&
        $emulator "$out/calls"
    count $? 'the C program'
}

lists() { # BUNDLE
    $emulator "$top/target/bin/listing" <"$1" | cmp - "${1%.bundle}.listing"
}

reads() { # BUNDLE
    grep '^[0-9]' "${1%.bundle}.listing" >"$out/lines" || return 0
    reading_input "$1" "$out/lines" | $emulator "$top/target/bin/reading" | cmp - "$out/lines"
}

program_tests() {
    for bundle in "$top"/examples/*.bundle; do
        lists "$bundle"
        count $? "listing of $(basename "$bundle")"
    done
    wrong=0
    for bundle in "$top"/examples/*.bundle; do reads "$bundle" || wrong=1; done
    count $wrong 'reading of the code lines of the kept listings'
    run_cargo run --offline --release --quiet --bin bundles -- generated "$out/bundles" 300
    count $? 'the writing of bundles'
    wrong=0
    for bundle in "$out"/bundles/*.bundle; do lists "$bundle" || wrong=1; done
    count $wrong 'listing of bundles made from a seed'
}

made() { made_archive && made_program listing && made_program reading; }

if made; then
    set_up_compilers
    rust_tests
    c_test
    program_tests
else
    count 1 'the making of the archive and the programs'
fi
echo "host: $passed passed, $failed failed"
[ "$failed" -eq 0 ]
