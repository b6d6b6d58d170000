#!/bin/bash
# Puts the library that `make lib` built, and that of `make lib-aarch64` where it is there, beside the sources as objects that
# `go build` links and takes for what they are: a new library is seen. Argument: the folder that they go to (here, if none).
set -e
cd "$(dirname "$0")"
to=${1:-.}
ld -r -o "$to/bcp47_linux_amd64.syso" --whole-archive ../../build/libbcp47.a
[ ! -e ../../build/aarch64/libbcp47.a ] ||
    aarch64-linux-gnu-ld -r -o "$to/bcp47_linux_arm64.syso" --whole-archive ../../build/aarch64/libbcp47.a
cp ../../examples/iana-2025-05-15.txt "$to/registry/registry.txt"
