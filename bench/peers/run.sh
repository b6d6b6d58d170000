#!/bin/sh
# Builds the peers whose sources Debian's packages have put on this machine, and prints their speeds beside that of
# `langtag canon`, in one run. Peers that are not installed are left out.
#
# Usage: bench/peers/run.sh [PROGRAM [REGISTRY [TAGS]]]
#
# Packages: gcc g++ rustc golang libicu-dev golang-golang-x-text-dev librust-oxilangtag-dev librust-language-tags-dev
# librust-unic-langid-dev
set -eu

peers=$(cd "$(dirname "$0")" && pwd)
program=$(realpath "${1:-$peers/../../build/langtag}")
registry=$(realpath "${2:-$peers/../../examples/iana-2025-05-15.txt}")
folder=$(mktemp -d)
trap 'rm -rf "$folder"' EXIT
if [ $# -gt 2 ]; then
    tags=$(realpath "$3")
else
    tags=$folder/mixed.txt
    python3 "$peers/../make_tags.py" "$registry" mixed > "$tags"
fi

# Where a package put a file.
file() { dpkg -L "$1" 2> /dev/null | grep "/$2\$" | head -n 1; }
# Builds a crate of a package, and one of the programs here.
crate() {
    rustc --cap-lints allow --edition 2018 -C opt-level=3 --crate-type rlib --out-dir "$folder" --crate-name "$@"
}
peer() { rustc --edition 2021 -C opt-level=3 -L "$folder" --extern "$2" -o "$folder/$1" "$peers/$1.rs"; }

cc -O2 -o "$folder/floor" "$peers/floor.c"
c++ -O2 -o "$folder/icu" "$peers/icu.cc" -licuuc || echo "without icu"

text=$(file golang-golang-x-text-dev x/text/language/language.go)
if [ -n "$text" ]; then
    text=${text%/language/language.go}
    sed "s|TEXT/|${text##*/src/}/|" "$peers/text.go" > "$folder/text.go"
    GOPATH=${text%%/src/*} GO111MODULE=off GOCACHE=$folder/cache go build -o "$folder/text" "$folder/text.go" || echo "without text"
fi

source=$(file librust-oxilangtag-dev src/lib.rs)
[ -z "$source" ] || { crate oxilangtag "$source" && peer oxilangtag oxilangtag; }
source=$(file librust-language-tags-dev src/lib.rs)
[ -z "$source" ] || { crate language_tags "$source" && peer language_tags language_tags; }
source=$(file librust-unic-langid-impl-dev src/lib.rs)
[ -z "$source" ] || {
    crate tinystr "$(file librust-tinystr-dev src/lib.rs)"
    crate unic_langid_impl "$source" --extern "tinystr=$folder/libtinystr.rlib" && peer unic_langid unic_langid_impl
}

python3 "$peers/compare.py" "$tags" "$program canon $registry" \
    $(cd "$folder" && for name in floor unic_langid oxilangtag language_tags text icu; do [ ! -x $name ] || echo "$folder/$name"; done)
