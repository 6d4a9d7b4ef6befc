#!/bin/sh
# Builds the proved archive, unless TOJALINDA_ARCHIVE names a directory that has it, tests the Rust crate against it, and
# builds and runs the C programs. With TOJALINDA_VECTORS=<directory> the vectors there are run as well, and
# TOJALINDA_CASES says how many random cases.
set -eu

# A name as it is from where this was called.
absolute() {
    case $1 in
    /*) printf %s "$1" ;;
    *) printf %s "$PWD/$1" ;;
    esac
}

root=$(CDPATH='' cd -- "$(dirname -- "$0")/.." && pwd)
if [ -z "${TOJALINDA_ARCHIVE:-}" ]; then
    (cd "$root/crates/exports" && rt lib)
    TOJALINDA_ARCHIVE=$root/crates/exports/out
fi
TOJALINDA_ARCHIVE=$(absolute "$TOJALINDA_ARCHIVE")
CARGO_TARGET_DIR=$(absolute "${CARGO_TARGET_DIR:-$root/rust/target}")
export TOJALINDA_ARCHIVE CARGO_TARGET_DIR
all=
if [ -n "${TOJALINDA_VECTORS:-}" ]; then
    TOJALINDA_VECTORS=$(absolute "$TOJALINDA_VECTORS")
    export TOJALINDA_VECTORS
    all=--include-ignored
fi
cd "$root/rust"
cargo test --offline --features bench -- $all
# As others build it: with no feature, with no C compiler, and with no check of overflow.
CC=false cargo test --offline --release --test extremes

c_program() {
    "${CC:-cc}" -std=c11 -O2 -Wall -Wextra -Werror -Iinclude "$1" "$TOJALINDA_ARCHIVE/libexports.a" -o "$2"
}
c_program tests/calls.c "$CARGO_TARGET_DIR/calls"
"$CARGO_TARGET_DIR/calls"
c_program examples/pick.c "$CARGO_TARGET_DIR/pick"
"$CARGO_TARGET_DIR/pick" >"$CARGO_TARGET_DIR/pick.out"
diff "$CARGO_TARGET_DIR/pick.out" examples/pick.txt
echo "rust: all tests pass"
