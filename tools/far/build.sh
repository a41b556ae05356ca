#!/bin/sh
# On a processor that is not x86-64: makes a liba400.a for it whose calls go to
# the library under an emulator. Prints the folder that holds it.
#
#   build.sh FOLDER     FOLDER holds the library's liba400.a
#
# a400.h is taken from FOLDER, or from include/ at the top of the repository.
# It needs clang and lld for x86-64, and qemu-x86_64: the first of each that is
# named by A400_CLANG and A400_EMULATOR, in the path, or in the kit of `rt`.
set -eu
here=$(cd "$(dirname "$0")" && pwd)
library=$(cd "$1" && pwd)/liba400.a
if [ -f "$(dirname "$library")/a400.h" ]; then include=$(dirname "$library"); else include=$here/../../include; fi
made=$here/../../rust/target/far
mkdir -p "$made"
made=$(cd "$made" && pwd)

kit=''
if command -v rt >/dev/null; then
    kit=$(dirname "$(readlink -f "$(command -v rt)")")/../toolchain/bin
fi
find_tool() { # NAME GIVEN
    if [ -n "$2" ]; then echo "$2"; return; fi
    if command -v "$1"; then return; fi
    if [ -n "$kit" ] && [ -x "$kit/$1" ]; then echo "$kit/$1"; return; fi
    echo "far: there is no $1, in the path or in the kit of rt" >&2
    return 1
}
clang=$(find_tool clang "${A400_CLANG:-}")
emulator=$(find_tool qemu-x86_64 "${A400_EMULATOR:-}")

"$clang" --target=x86_64-linux-gnu -O2 -ffreestanding -fno-builtin -fno-stack-protector -nostdlib -static \
    -fuse-ld=lld -I"$include" -o "$made/server" "$here/server.c" "$library"
cc -O2 -Wall -Wextra -I"$include" "-DEMULATOR=\"$emulator\"" "-DSERVER=\"$made/server\"" \
    -c "$here/near.c" -o "$made/near.o"
rm -f "$made/liba400.a"
ar rcs "$made/liba400.a" "$made/near.o"
echo "$made"
