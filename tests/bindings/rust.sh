#!/bin/bash
# Tests the crates for Rust. Arguments: the folder of tests/bindings.sh, which has tags and what the program answers;
# the program.
shared=$1
folder=$1/rust
# shellcheck source=tests/bindings/counting.sh
. "$(dirname "$0")/counting.sh"

if command -v cargo > /dev/null; then
    export CARGO_TARGET_DIR=$folder/cargo
    # crates from Debian's packages, in place of a registry
    export CARGO_HOME=$folder/home
    mkdir -p "$CARGO_HOME"
    printf '[source.crates-io]\nreplace-with = "debian"\n[source.debian]\ndirectory = "/usr/share/cargo/registry"\n' > "$CARGO_HOME/config.toml"
    passes "Rust: format" cargo fmt --all --manifest-path bindings/rust/Cargo.toml -- --check
    passes "Rust: tests" cargo test --offline -q --all-features --manifest-path bindings/rust/Cargo.toml
    # what miri would see, as it sees no calls of C
    passes "Rust: tests under valgrind" env CARGO_TARGET_X86_64_UNKNOWN_LINUX_GNU_RUNNER="valgrind -q --error-exitcode=9 --leak-check=full --show-leak-kinds=definite --errors-for-leak-kinds=definite" \
        cargo test --offline -q --all-features --tests --manifest-path bindings/rust/Cargo.toml
    if cargo clippy --version > /dev/null 2>&1; then
        passes "Rust: clippy" cargo clippy --offline -q --all-targets --all-features --manifest-path bindings/rust/Cargo.toml -- -D warnings
    else
        echo "no clippy here: its lints are not run"
    fi
    passes "Rust: an example" cargo build --release --offline -q --manifest-path bindings/rust/Cargo.toml --example canon
    answers() {
        "$CARGO_TARGET_DIR/release/examples/canon" "$registry" "$2" < "$1"
    }
    writes "Rust answers as the program" "$shared/wanted" answers "$shared/tags" one
    writes "Rust explains as the program" "$shared/explained" answers "$shared/explained-tags" explain
    passes "Rust: a service answers browsers" sh -c 'cargo build --offline -q --manifest-path bindings/rust/Cargo.toml --example serve &&
        tests/bindings/browsers.sh "$CARGO_TARGET_DIR/debug/examples/serve"'
    mkdir -p "$folder/page/src"
    printf '[package]\nname = "page"\nversion = "1.0.0"\nedition = "2021"\n[dependencies]\nbcp47 = { path = "%s/bindings/rust/bcp47" }\n' "$root" > "$folder/page/Cargo.toml"
    sed -n '/^```rust$/,/^```$/{/^```/!p}' docs/RUST.md > "$folder/page/src/main.rs"
    printf '%s\n' yue true true 'Some("de")' 'BadByte 1' 'zh-Hant-TW Some("Hant")' 'Region 2 27 sgn-DE' 'Whole 1 44 gsg' '= gsg' > "$folder/page/wanted"
    cp "$sample" "$folder/page/registry.txt"
    passes "Rust: docs/RUST.md's program" env -C "$folder/page" BCP47_LIB_DIR="$root/build" cargo build --offline -q
    writes "Rust: what it prints" "$folder/page/wanted" env -C "$folder/page" "$CARGO_TARGET_DIR/debug/page"
    passes "Rust: no call for many tags, which a loop serves as well" sh -c '! grep -r "canonical_many" bindings/rust/bcp47/src'
    # Where there is no library, a build says so.
    mkdir "$folder/empty"
    passes "Rust: a folder without a library ends the build" sh -c '! BCP47_LIB_DIR="$1" cargo build --offline -q --manifest-path bindings/rust/Cargo.toml \
        2> "$1.said" && grep -q "which has no libbcp47.a" "$1.said"' - "$folder/empty"
    cp -rL bindings/rust "$folder/elsewhere"
    passes "Rust: no library anywhere is told" sh -c 'PKG_CONFIG_LIBDIR=/none cargo build --offline --manifest-path "$1/Cargo.toml" -p bcp47-sys 2>&1 |
        grep -q "^warning: .*name its folder by BCP47_LIB_DIR"' - "$folder/elsewhere"
    # known VERSION: a build by the library that pkg-config knows, of a version
    known() {
        sed "s#@LIBDIR@#$root/build#; s/^Version: .*/Version: $1/" bindings/c/bcp47.pc.in > "$folder/bcp47.pc"
        PKG_CONFIG_LIBDIR=$folder cargo build --offline --manifest-path "$folder/elsewhere/Cargo.toml" -p bcp47 --example canon 2>&1
    }
    older() { known 1.0.0 | grep -q "^warning: .*name its folder by BCP47_LIB_DIR"; }
    passes "Rust: the library that pkg-config knows" known "$(cat VERSION)"
    passes "Rust: none that is older" older
else
    echo "no cargo here: the crates for Rust are not tested"
fi
counted rust
