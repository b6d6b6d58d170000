#!/bin/bash
# Measures the library that `make lib` built, from C, Python, SQLite, PostgreSQL, Rust, Node.js, Java and Go, beside ICU, liblangtag,
# PyICU, Intl, java.util.Locale, oxilangtag and x/text, in one run, over 200,000 tags (bench/make_tags.py). tests/packages.sh installs
# what it needs, but for golang-golang-x-text-dev, liblangtag-dev and librust-oxilangtag-dev; without the last two, their libraries are
# left out.
# Argument: a registry (examples/iana-2025-05-15.txt, if there is none).
set -e
cd "$(dirname "$0")/.."
registry=$(realpath "${1:-examples/iana-2025-05-15.txt}")
folder=$(mktemp -d)
trap 'rm -rf "$folder"' EXIT
/usr/bin/python3 bench/make_tags.py "$registry" mixed > "$folder/tags"
peers=$(pkg-config --cflags --libs icu-uc)
! pkg-config --exists liblangtag || peers="$peers -DLIBLANGTAG $(pkg-config --cflags --libs liblangtag)"
# shellcheck disable=SC2086
gcc -std=c11 -D_GNU_SOURCE -O2 -Ibindings/c -o "$folder/c" bench/bindings/c.c build/libbcp47.a $peers
"$folder/c" "$registry" "$folder/tags"
/usr/bin/python3 -m pip install -q --no-index --root-user-action=ignore --target "$folder/python" bindings/python
export PYTHONPATH=$folder/python
/usr/bin/python3 -B bench/bindings/python.py "$registry" "$folder/tags"
gcc -O2 -fPIC -shared -fvisibility=hidden -Ibindings/c -o "$folder/bcp47_sqlite.so" bindings/sqlite/bcp47_sqlite.c build/libbcp47.a
bench/bindings/sqlite.sh "$folder" "$registry"
bench/bindings/postgresql.sh "$folder" "$registry"
mkdir "$folder/rust" "$folder/go"
printf '[package]\nname = "speed"\nversion = "1.0.0"\nedition = "2021"\n[dependencies]\nbcp47 = { path = "%s/bindings/rust/bcp47" }\n' "$PWD" > "$folder/rust/Cargo.toml"
export CARGO_HOME=$folder/home
mkdir "$CARGO_HOME"
printf '[source.crates-io]\nreplace-with = "debian"\n[source.debian]\ndirectory = "/usr/share/cargo/registry"\n' > "$CARGO_HOME/config.toml"
for peer in /usr/share/cargo/registry/oxilangtag-*; do
    [ ! -d "$peer" ] || printf 'oxilangtag = { path = "%s" }\n[features]\ndefault = ["peer"]\npeer = []\n' "$peer" >> "$folder/rust/Cargo.toml"
done
printf '[[bin]]\nname = "speed"\npath = "%s/bench/bindings/rust/main.rs"\n' "$PWD" >> "$folder/rust/Cargo.toml"
(cd "$folder/rust" && cargo build --release --offline -q)
"$folder/rust/target/release/speed" "$registry" "$folder/tags"
NODE_HEADERS=${NODE_HEADERS:-/usr/include/node} bindings/node/build.sh
node bench/bindings/node.mjs "$registry" "$folder/tags"
TARGET=$folder/java bindings/java/build.sh
java -cp "$folder/java/bcp47-$(cat VERSION).jar" bench/bindings/Speed.java "$registry" "$folder/tags"
bindings/go/build.sh
cp bench/bindings/go/main.go "$folder/go"
module=$(sed -n 's/^module //p' bindings/go/go.mod)
text=/usr/share/gocode/src/golang.org/x/text
printf 'module speed\n\ngo 1.19\n\nrequire (\n\t%s v0.0.0\n\tgolang.org/x/text v0.0.0\n)\n\nreplace %s => %s/bindings/go\n\nreplace golang.org/x/text => %s\n' \
    "$module" "$module" "$PWD" "$text" > "$folder/go/go.mod"
(cd "$folder/go" && GOFLAGS=-mod=mod GOPROXY=off go build -o speed . && ./speed "$registry" "$folder/tags")
