#!/bin/sh
# Times the library beside plain Rust, and prints its stack and code sizes.
# A400_LIB_DIR is as for test.sh.
set -eu
. "$(dirname "$0")/library.sh"
cd "$here"
echo "code of the library, in bytes:"
size -t "$library/liba400.a" | awk 'END { print "  text " $1 ", data " $2 ", bss " $3 }'
if [ "$emulated" = yes ]; then
    if ! A400_LIB_DIR=$("$top/tools/far/native.sh"); then
        echo "the library runs under an emulator here, so that times and stack say nothing"
        exit 0
    fi
    export A400_LIB_DIR
    echo "timed: the sources of this repository, compiled for this processor from the library's LLVM module"
fi
cargo bench --quiet --bench speed
