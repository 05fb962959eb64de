# shellcheck shell=sh disable=SC2034,SC2154
# Read by listing, reading, host/test.sh and host/bench, with `top` set to the root of the repository.
# The archive and the programs are for x86-64; on another processor they run under qemu-user.

emulator='' cargo=cargo cc=gcc
if [ "$(uname -m)" != x86_64 ]; then emulator=qemu-x86_64; fi
archive=$top/target/staticlib/libcram.a

has() { command -v "$1" >/dev/null 2>&1; }

# Debian packages, those for x86-64 with :amd64.
install_packages() {
    if [ "$(id -u)" -ne 0 ]; then
        echo "only root can install the Debian packages that are needed: $*" >&2
        exit 2
    fi
    case $* in *:amd64*) dpkg --add-architecture amd64 ;; esac
    export DEBIAN_FRONTEND=noninteractive
    { apt-get update -qq && apt-get install -y -qq --no-install-recommends "$@"; } >&2 || exit 2
}

set_up_emulator() {
    [ -n "$emulator" ] || return 0
    if ! has "$emulator" || [ ! -e /lib64/ld-linux-x86-64.so.2 ]; then install_packages qemu-user libc6:amd64; fi
}

# Afterwards $cargo builds for x86-64 and runs what it built, and $cc compiles for x86-64.
set_up_compilers() {
    set_up_emulator
    if [ -z "$emulator" ]; then
        has cargo || install_packages cargo
        has gcc || install_packages gcc libc6-dev
        return
    fi
    cc=x86_64-linux-gnu-gcc cargo=/usr/bin/cargo
    if ! has $cc || [ ! -x $cargo ] || [ ! -d /usr/lib/rustlib/x86_64-unknown-linux-gnu ]; then
        install_packages cargo rustc libstd-rust-dev:amd64 libc6-dev:amd64 libc6-dev-amd64-cross gcc-x86-64-linux-gnu
    fi
    export RUSTC=/usr/bin/rustc
    export CARGO_BUILD_TARGET=x86_64-unknown-linux-gnu
    export CARGO_TARGET_X86_64_UNKNOWN_LINUX_GNU_LINKER=$cc
    export CARGO_TARGET_X86_64_UNKNOWN_LINUX_GNU_RUNNER=$emulator
}

# Whether FILE is there and no source is newer.
is_made() { # FILE
    [ -e "$1" ] && [ -z "$(find "$top/crates.txt" "$top/crates" -name out -prune -o -newer "$1" -type f -print | head -n 1)" ]
}

# Copies to FILE what a command of the kit leaves as NAME in out/ of CRATE, unless FILE is there and no source is newer. The command runs
# in the crate's folder, and not where an earlier one, as rt ci, left the same.
made_by() { # FILE CRATE NAME COMMAND..
    made=$1 folder=$top/crates/$2 left=$top/crates/$2/out/$3
    shift 3
    is_made "$made" && return
    if ! is_made "$left"; then
        if ! has rt; then
            echo "the Rattle kit's command rt is not on the PATH" >&2
            exit 2
        fi
        (cd "$folder" && "$@") && touch "$left" || return 1
    fi
    mkdir -p "$(dirname "$made")" && cp "$left" "$made"
}

proves_library() { rt lib >&2; }

# Runs the program on no input: what it prints is not wanted.
proves_program() { rt run </dev/null >/dev/null; }

# The proved archive, under the name that C callers link.
made_archive() { made_by "$archive" cram_c libcram_c.a proves_library; }

made_program() { made_by "$top/target/bin/$1" "$1" "$1" proves_program; } # NAME

# What the program `reading` reads: the bundle's length in eight bytes, the bundle, and the code lines.
reading_input() { # BUNDLE LINES
    size=$(wc -c <"$1")
    for place in 56 48 40 32 24 16 8 0; do
        # shellcheck disable=SC2059
        printf "\\$(printf '%03o' $((size >> place & 255)))"
    done
    cat "$1" "$2"
}
