#!/bin/sh
# On a processor that is not x86-64: compiles the library for this processor,
# to be timed, from the LLVM module that the proved library is compiled from.
# Prints the folder that holds that liba400.a.
#
# `rt lib` is run in crates/a400 with a clang that keeps the module and its flags.
# In the module's text the names of the processor are then exchanged, and the
# same clang compiles it with the same flags.
set -eu
here=$(cd "$(dirname "$0")" && pwd)
top=$(cd "$here/../.." && pwd)
command -v rt >/dev/null || {
    echo "native: there is no rt" >&2
    exit 1
}
kit=$(cd "$(dirname "$(readlink -f "$(command -v rt)")")/.." && pwd)
clang=$kit/toolchain/bin/clang
[ -x "$clang" ] || {
    echo "native: there is no $clang" >&2
    exit 1
}
made=$here/../../rust/target/native
rm -rf "$made"
mkdir -p "$made/kit/bin" "$made/kit/toolchain/bin"
made=$(cd "$made" && pwd)

# A kit of links to the kit, but for clang, and for rt and its module, which find
# the kit by where they lie.
for part in "$kit"/* "$kit"/bin/* "$kit"/toolchain/* "$kit"/toolchain/bin/*; do
    case ${part#"$kit"/} in
        bin | toolchain | toolchain/bin | toolchain/bin/clang) ;;
        bin/rt | bin/rtlib.py) cp "$part" "$made/kit/bin/" ;;
        *) ln -s "$part" "$made/kit/${part#"$kit"/}" ;;
    esac
done
cat >"$made/kit/toolchain/bin/clang" <<END
#!/bin/sh
cp module.bc "$made/module.bc"
printf '%s\n' "\$@" >"$made/flags"
exec "$clang" "\$@"
END
chmod +x "$made/kit/toolchain/bin/clang"
(cd "$top/crates/a400" && "$made/kit/bin/rt" lib) >"$made/log" 2>&1 || {
    cat "$made/log" >&2
    exit 1
}
[ -f "$made/module.bc" ] || {
    echo "native: no module was kept" >&2
    exit 1
}
rm -rf "$made/kit"

flags=$(grep -v -e '^--target=' -e '^-march=' -e '^--sysroot=' -e '^-o$' -e '^module\.' "$made/flags")
foreign=$(grep '^--target=' "$made/flags")
triple=$("$clang" --no-default-config "--target=$(cc -dumpmachine)" -print-target-triple)
"$clang" "$foreign" --no-default-config -O3 -Xclang -disable-llvm-passes -S -emit-llvm -x ir "$made/module.bc" \
    -o "$made/module.ll"
sed -e '/^target datalayout/d' -e "s/^target triple.*/target triple = \"$triple\"/" -e 's/ "target-cpu"="[^"]*"//' \
    "$made/module.ll" >"$made/native.ll"
# shellcheck disable=SC2086
"$clang" "--target=$triple" $flags "$made/native.ll" -o "$made/native.o"
ar rcs "$made/liba400.a" "$made/native.o"
echo "$made"
