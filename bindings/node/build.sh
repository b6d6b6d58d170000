#!/bin/bash
# Builds bcp47.node over the library that `make lib` built, and takes what `make lib-wasm` built, for where the addon does not load. NODE_HEADERS names the folder of Node's headers (/usr/include/node,
# if it names none); CC and CFLAGS are as for make.
set -e
cd "$(dirname "$0")"
${CC:-cc} -std=c11 ${CFLAGS:--O2} -fPIC -shared -fvisibility=hidden -Wall -Wextra -Werror -I../c -I"${NODE_HEADERS:-/usr/include/node}" \
    -o bcp47.node bcp47.c ../../build/libbcp47.a -Wl,--exclude-libs,ALL
if [ -e ../../build/wasm/bcp47.wasm ]; then
    cp ../../build/wasm/{bcp47.wasm,load.mjs} .
else
    echo "without WebAssembly, so for this system alone: run 'make lib-wasm' first" >&2
fi
