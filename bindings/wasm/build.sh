#!/bin/bash
# Makes bcp47.wasm and what loads it, in build/wasm, of the module build/bcp47_c.bc, which `make lib-wasm` keeps. It needs clang and lld
# of LLVM 14, and binaryen 108.
set -euo pipefail
cd "$(dirname "$0")/../.."
kit=$(dirname "$(rt doc)")/toolchain/bin/clang
to=build/wasm
mkdir -p $to
work=$(mktemp -d)
trap 'rm -rf "$work"' EXIT

# needs COMMAND WORDS PACKAGE: says it where a tool is of another version. A later wasm-ld gives the table of calls 64 bits, which
# wasm-opt and Node.js 20 refuse.
needs() {
    "$1" --version 2> /dev/null | grep -q "$2" || { echo "$1 is not that of $2: apt-get install $3, of Debian 12" >&2; exit 1; }
}
stack=1048576
needs clang 'clang version 14' clang
needs wasm-ld 'LLD 14' lld
needs wasm-opt 'version 108' binaryen

# what each browser of 2021 and Node.js 16 have; the vector instructions are left out, since wasm-opt can't lower them to 32 bits
flags="--target=wasm64-unknown-unknown -mcpu=mvp -mbulk-memory -msign-ext -mmutable-globals -mnontrapping-fptoint -O3 -ffunction-sections -fdata-sections"
"$kit" -S -emit-llvm -Xclang -disable-llvm-passes -x ir build/bcp47_c.bc -o "$work/module.ll"
tools/retarget.py "$work/module.ll" wasm > "$work/proved.ll"
# shellcheck disable=SC2086
"$kit" $flags --no-default-config -Wno-override-module -mllvm -trap-unreachable -mllvm -no-trap-after-noreturn -x ir -c "$work/proved.ll" -o "$work/proved.o"
for header in sched stdlib string time; do echo '#include "libc.h"' > "$work/$header.h"; done
for source in c/bcp47 c/names c/heap wasm/heap wasm/bcp47_wasm; do
    # the functions of wasm/heap.c are those that a compiler would call in their place
    [ $source != wasm/heap ] || flags="$flags -fno-builtin"
    # shellcheck disable=SC2086
    clang $flags -ffreestanding -std=c11 -Wall -Wextra -Wconversion -Werror -DSTACK=$stack -I"$work" -Ibindings/wasm -Ibindings/c \
        -c bindings/$source.c -o "$work/${source/\//_}.o"
done
# The stack comes first: what runs over it is outside of the memory, and so ends the call. A warning would be of a call that is
# declared otherwise than it is.
wasm-ld -mwasm64 --fatal-warnings --no-entry --gc-sections --strip-all --stack-first -z stack-size=$stack --max-memory=2147483648 \
    "$work"/*.o -o "$work/64.wasm"
wasm-opt --enable-memory64 --enable-bulk-memory --enable-sign-ext --enable-mutable-globals --enable-nontrapping-float-to-int \
    --memory64-lowering "$work/64.wasm" -o $to/bcp47.wasm

# load.mjs: what is a module for Node.js is a part of one file here
part() {
    echo "/^ *\/\/ bindings\/node\/$1$/{"
    sed -e "/^'use strict';$/d; /^\/\/ SPDX/d; /^const .* = require(/d; /^module.exports = { callsOf };$/d; s/^module.exports = /return /" "bindings/node/$1" > "$work/$1"
    printf 'r %s\nd\n}\n' "$work/$1"
}
sed -f <(part calls.js; part index.js) bindings/wasm/load.mjs > $to/load.mjs
