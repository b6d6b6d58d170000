#!/bin/bash
# Makes libbcp47.a and libbcp47.so.1 of the library that `rt lib` left in crates/bcp47_c/out and of the C files here, and
# proved.o, the proved calls alone, as tests need them. Arguments: the folder that they go to (build, if there is none), and
# what the names of the tools begin with for another processor, as aarch64-linux-gnu-. CC and CFLAGS are as for make.
set -e
cd "$(dirname "$0")/../.."
kit=$(dirname "$(rt doc)")
to=${1:-build}
tools=${2:-}
parts=$(mktemp -d)
trap 'rm -rf "$parts"' EXIT
mkdir -p "$to"
cc=${CC:-${tools}gcc}

# compile FOLDER FLAG..: the C files and the proved calls, as one object of a folder.
compile() {
    local folder=$parts/$1
    shift
    mkdir "$folder"
    for source in bcp47 names; do
        # shellcheck disable=SC2086
        $cc -std=c11 -fPIC -Wall -Wextra -Wconversion -Werror ${CFLAGS:--O2} "$@" -Ibindings/c -c bindings/c/$source.c \
            -o "$folder/$source.o"
    done
    "${tools}ld" -r -o "$folder/whole.o" "$to/proved.o" "$folder/bcp47.o" "$folder/names.o"
}

# What the proved calls ask of a heap is the kit's, or, for a processor for which the kit has none, that of heap.c.
heap=$kit/c/liblibc_c.a
if [ -n "$tools" ]; then
    heap=$parts/heap.o
    $cc -std=c11 -fPIC -Wall -Wextra -Wconversion -Werror -O2 -c bindings/c/heap.c -o "$heap"
fi
"${tools}ld" -r -o "$to/proved.o" --whole-archive crates/bcp47_c/out/libbcp47_c.a --no-whole-archive "$heap"

# The static library shows its calls to what links it, and no further: two libraries in a process stay apart.
compile static -fvisibility=hidden
grep -o 'bcp47_[a-z_]*;' bindings/c/bcp47.map | tr -d ';' > "$parts/calls"
"${tools}objcopy" --keep-global-symbols="$parts/calls" "$parts/static/whole.o"
rm -f "$to/libbcp47.a"
"${tools}ar" rcs "$to/libbcp47.a" "$parts/static/whole.o"

compile shared
$cc -shared -o "$to/libbcp47.so.1" -Wl,-soname,libbcp47.so.1 -Wl,--version-script=bindings/c/bcp47.map -Wl,-Bsymbolic \
    -Wl,-z,now -Wl,--no-undefined "$parts/shared/whole.o" -lc
ln -sf libbcp47.so.1 "$to/libbcp47.so"
