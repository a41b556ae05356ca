#!/bin/sh
# Runs all tests of the workspace: the paper's cases and listing, random steps and
# runs compared, the reader and writer, the command, and the C example.
#
# A400_LIB_DIR   a folder that holds liba400.a; else `rt lib` in crates/a400 makes it
# A400_SEED      the seed of the random tests, else 1
# A400_STEPS     how many random steps, else 1,000,000
set -eu
. "$(dirname "$0")/library.sh"
[ "$emulated" = no ] || echo "the library runs under an emulator"
cd "$here"
cargo test --release --quiet --no-fail-fast -- --nocapture --test-threads 1

expected='answer steps P A B E O
2 2 000004 000052 000000 0 0'
given=$("$here/target/listing")
if [ "$given" != "$expected" ]; then
    echo "the C example printed:" >&2
    echo "$given" >&2
    exit 1
fi
echo "the C example prints the paper's listing"
echo "all tests passed"
