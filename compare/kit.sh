# shellcheck shell=bash disable=SC2034
# Sourced from the repository's root: what compare's scripts need of the machine.

say() { printf '%s: %s\n' "${0##*/}" "$*"; }

die() {
    say "$@" >&2
    exit 2
}

# What is missing to build compare, or nothing.
missing() {
    local source=${JETDB_SRC:-../shared/docs/src/crates/jetdb/src}
    command -v cargo >/dev/null || { echo "no cargo here"; return; }
    [ -f "$source/form.rs" ] || echo "no jetdb in $source (set JETDB_SRC)"
}

# Builds compare in a profile (release, speed); `built` is the folder that it is in.
build_compare() {
    local lacks
    lacks=$(missing)
    [ -z "$lacks" ] || die "$lacks"
    (cd compare && cargo build --profile "$1" --offline --quiet) || die "compare could not be built"
    built=${CARGO_TARGET_DIR:-compare/target}/$1
}

# `launch` has the words that start a program: with the kit's loader and C library.
find_launch() {
    local tools
    command -v rt >/dev/null || die "the Rattle kit's command rt is not in PATH"
    tools=$(dirname "$(rt doc)")/toolchain
    [ -e "$tools/lib/ld-linux-x86-64.so.2" ] || die "the kit has no loader in $tools/lib"
    launch=("$tools/lib/ld-linux-x86-64.so.2" --library-path "$tools/lib")
}

# Proves and builds `replay` where it is missing or older than a source.
ready_replay() {
    local program=crates/replay/out/replay
    if [ ! -x $program ] || [ -n "$(find crates crates.txt \( -path 'crates/*/out' ! -path 'crates/*/*/out' \) -prune -o -newer $program -type f -print | head -n 1)" ]; then
        (cd crates/replay && rt run <stdin >/dev/null) || die "replay could not be built"
        touch $program
    fi
}

# Links c/NAME.c, an archive of the library and compare, built in a profile, into a program: `linked` is that program.
#   link_by CC FOLDER ARCHIVE NAME PROFILE [WORDS..]     FOLDER is where cargo builds; the words go to the C compiler
link_by() {
    local include=${OSKURAMOS_INCLUDE:-include}
    [ -f "$3" ] || die "no $3"
    [ -f "$include/oskuramos.h" ] || die "no $include/oskuramos.h"
    command -v "$1" >/dev/null || die "no $1 here"
    build_compare "$5"
    linked=$2/$5/$4
    "$1" -O2 -Wall -Wextra -Icompare/c -I"$include" "compare/c/$4.c" "$3" "${@:6}" "$2/$5/libcompare.a" -lpthread -ldl -lm -o "$linked" ||
        die "compare/c/$4.c could not be linked"
}

# Links NAME PROFILE [WORDS..].
link_c() {
    [ -n "${OSKURAMOS_ARCHIVE-}" ] || tools/archive >&2 || die "the library could not be built"
    link_by "${CC:-cc}" "${CARGO_TARGET_DIR:-compare/target}" "${OSKURAMOS_ARCHIVE:-out/liboskuramos.a}" "$@"
}

# Copies ARCHIVE to COPY with each function at a multiple of 64 bytes: where one happens to stand moves its time by up to a fifth. The words go to objcopy.
#   aligned ARCHIVE COPY [WORDS..]
aligned() {
    command -v objcopy >/dev/null || die "no objcopy here"
    objcopy --set-section-alignment '.text.*=64' "${@:3}" "$1" "$2"
}

# Links NAME PROFILE [WORDS..]. All functions stand at multiples of 64 bytes, those of jetdb and of the library.
link_aligned() {
    export RUSTFLAGS="-C llvm-args=-align-all-functions=6"
    [ -n "${OSKURAMOS_ARCHIVE-}" ] || tools/archive >&2 || die "the library could not be built"
    mkdir -p out
    aligned "${OSKURAMOS_ARCHIVE:-out/liboskuramos.a}" out/aligned.a
    OSKURAMOS_ARCHIVE=out/aligned.a link_c "$@"
}
