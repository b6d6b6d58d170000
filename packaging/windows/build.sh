#!/bin/bash
# Makes langtag.exe and bcp47.dll, with what a compiler needs of it, in build/windows, of the modules that `make windows` keeps. It
# needs clang 14 and mingw-w64 of Debian 12.
set -euo pipefail
cd "$(dirname "$0")/../.."
kit=$(dirname "$(rt doc)")/toolchain/bin/clang
cc=x86_64-w64-mingw32-gcc
to=build/windows
mkdir -p $to
work=$(mktemp -d)
trap 'rm -rf "$work"' EXIT
for tool in $cc clang; do
    command -v "$tool" > /dev/null || { echo "there is no $tool here: apt-get install gcc-mingw-w64-x86-64 clang" >&2; exit 1; }
done

# object MODULE: its object for Windows, with the flags of the kit.
object() {
    "$kit" -S -emit-llvm -Xclang -disable-llvm-passes -x ir "$1" -o "$work/module.ll"
    tools/retarget.py "$work/module.ll" > "$work/windows.ll"
    "$kit" --target=x86_64-w64-windows-gnu --no-default-config -Wno-override-module -O3 -mllvm -trap-unreachable -mllvm -no-trap-after-noreturn \
        -x ir -c "$work/windows.ll" -o "$work/$(basename "$1" .bc).obj"
}
object build/langtag.bc
object build/bcp47_c.bc
# A growth is two words, which proved code wants in two registers, as Linux has it; a compiler for Windows would return it in memory.
clang --target=x86_64-unknown-linux-gnu -std=c11 -O2 -Wall -Wextra -Wconversion -Werror -c -emit-llvm bindings/c/heap.c -o "$work/heap.bc"
object "$work/heap.bc"

flags="-std=c11 -O2 -Wall -Wextra -Wconversion -Werror -s -static -Wl,--no-insert-timestamp"
# shellcheck disable=SC2086
$cc $flags -o $to/langtag.exe packaging/windows/program.c "$work/langtag.obj" "$work/heap.obj"
{ echo EXPORTS; grep -o 'bcp47_[a-z_]*;' bindings/c/bcp47.map | tr -d ';'; } > $to/bcp47.def
# shellcheck disable=SC2086
$cc $flags -shared -o $to/bcp47.dll -Ibindings/c bindings/c/bcp47.c bindings/c/names.c "$work/bcp47_c.obj" "$work/heap.obj" $to/bcp47.def \
    -lwinpthread -Wl,--out-implib,$to/libbcp47.dll.a
