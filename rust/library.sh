# Read by test.sh and bench.sh. Sets
#   library      the folder that holds the proved liba400.a
#   include      the folder that holds a400.h
#   A400_LIB_DIR the folder of the liba400.a to link here: the same, or on a
#                processor that is not x86-64 one that calls it by an emulator
here=$(cd "$(dirname "$0")" && pwd)
top=$(dirname "$here")
if [ -z "${A400_LIB_DIR:-}" ]; then
    command -v rt >/dev/null || {
        echo "there is no rt: install it, or set A400_LIB_DIR to a folder that holds liba400.a" >&2
        exit 1
    }
    (cd "$top/crates/a400" && rt lib) >"${TMPDIR:-/tmp}/a400-lib.$$" 2>&1 || {
        cat "${TMPDIR:-/tmp}/a400-lib.$$" >&2
        exit 1
    }
    rm -f "${TMPDIR:-/tmp}/a400-lib.$$"
    A400_LIB_DIR=$top/crates/a400/out
fi
library=$(cd "$A400_LIB_DIR" && pwd)
if [ -f "$library/a400.h" ]; then include=$library; else include=$top/include; fi
for needed in "$library/liba400.a" "$include/a400.h"; do
    [ -f "$needed" ] || {
        echo "there is no $needed" >&2
        exit 1
    }
done
mkdir -p "$here/target"
A400_LIB_DIR=$library
emulated=no
if ! cc -I"$include" -o "$here/target/listing" "$here/a400/examples/listing.c" -L"$library" -la400 2>/dev/null; then
    A400_LIB_DIR=$("$top/tools/far/build.sh" "$library")
    emulated=yes
    cc -I"$include" -o "$here/target/listing" "$here/a400/examples/listing.c" -L"$A400_LIB_DIR" -la400
fi
export A400_LIB_DIR
