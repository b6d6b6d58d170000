#!/bin/bash
# Makes a folder with what a release has, of what `make`, `make lib`, `make lib-aarch64`, `make lib-wasm` and `make windows` built.
#
# Usage: packaging/dist.sh FOLDER
#
# The folder, which is made anew, has what docs/INSTALL.md lists, a list of the parts in CycloneDX's form, docs/INSTALL.md, and SHA256SUMS, which
# the key of gpg that SIGNING_KEY names signs. The same built files and the same SOURCE_DATE_EPOCH, which is the date of packaging/debian/changelog if it is
# not set, give the same bytes. What is left out, because it is not built, is said on standard error.
set -euo pipefail

root=$(cd "$(dirname "$0")/.." && pwd)
to=${1:?a folder is wanted}
version=$(cat "$root/VERSION")
SOURCE_DATE_EPOCH=${SOURCE_DATE_EPOCH:-$(dpkg-parsechangelog -l "$root/packaging/debian/changelog" -S Timestamp)}
export SOURCE_DATE_EPOCH
umask 022
work=$(mktemp -d)
trap 'rm -rf "$work"' EXIT
for built in langtag libbcp47.so.1; do
    if [ ! -e "$root/build/$built" ]; then
        echo "build/$built is not built: run \`make\` and \`make lib\` first" >&2
        exit 1
    fi
done
rm -rf "$to"
mkdir -p "$to"
to=$(cd "$to" && pwd)

# archive NAME: the folder of this name as an archive, in the order of names, all by nobody in particular at one time.
archive() {
    tar -C "$work" --sort=name --mtime="@$SOURCE_DATE_EPOCH" --owner=0 --group=0 --numeric-owner --format=ustar -cf - "$1" |
        gzip -n -9 > "$to/$1.tar.gz"
}

# zipped NAME: the folder of this name as a zip archive, as Windows opens it.
zipped() {
    find "$work/$1" -exec touch -d "@$SOURCE_DATE_EPOCH" {} +
    (cd "$work" && TZ=UTC /usr/bin/python3 -m zipfile -c "$to/$1.zip" "$1")
}

# outward FILE..: pages that are packed alone lead to others where the repository has them.
pages=$(sed -n 's/^repository = //p' "$root/packaging/PUBLISHER")/blob/HEAD/docs
outward() {
    sed -i -E "s#\]\(((\.\./)?[A-Za-z]+\.md)#](${pages}/\1#g" "$@"
}

# put NAME PART: a part, as it is installed below a folder of this name.
put() {
    DESTDIR=$work/$1.root PREFIX=/usr/local LIBDIR=/usr/local/lib "$root/packaging/install.sh" install "$2"
    mv "$work/$1.root/usr/local" "$work/$1"
}

name=langtag-$version-x86_64-linux
put "$name" program
# with the C library inside, so that it starts on any Linux; the second archive is for whoever wants it with another (LGPL 2.1, 6)
relinked=$name-objects
kit=$(dirname "$(rt doc)")
mkdir "$work/$relinked"
cp "$root/build/langtag.o" "$kit/c/libos_c.a" "$kit/c/liblibc_c.a" "$root"/LICENSE* "$work/$relinked"
(cd "$work/$relinked" && gcc -static -s -o "$work/$name/bin/langtag" langtag.o libos_c.a liblibc_c.a)
echo 'gcc -static -s -o langtag langtag.o libos_c.a liblibc_c.a' > "$work/$relinked/link.sh"
archive "$name"
archive "$relinked"

name=libbcp47-$version-x86_64-linux
put "$name" library
strip --strip-unneeded "$work/$name/lib/libbcp47.so.1"
cp "$root"/LICENSE* "$root/docs/C.md" "$work/$name"
outward "$work/$name/C.md"
archive "$name"

if [ -e "$root/build/aarch64/libbcp47.so.1" ]; then
    native=$name
    name=libbcp47-$version-aarch64-linux
    cp -r "$work/$native" "$work/$name"
    cp "$root/build/aarch64/libbcp47.a" "$root/build/aarch64/libbcp47.so.1" "$work/$name/lib"
    aarch64-linux-gnu-strip --strip-unneeded "$work/$name/lib/libbcp47.so.1"
    archive "$name"
else
    echo "no library for aarch64: run 'make lib-aarch64' first" >&2
fi

# The wheels and the sources, by the calls that pip makes (PEP 517). Python's headers serve each processor of 64 bits alike.
build_python() {
    PYTHONPATH=$root/bindings/python PYTHONDONTWRITEBYTECODE=1 CC=$3 BCP47_LIBRARY=$work/$2 /usr/bin/python3 -c \
        'import sys, wheel_of_package; getattr(wheel_of_package, sys.argv[1])(sys.argv[2])' "$1" "$to"
}
build_python build_wheel "libbcp47-$version-x86_64-linux/lib/libbcp47.a" gcc
if [ -d "$work/libbcp47-$version-aarch64-linux" ]; then
    # Debian's pyconfig.h reads that of the processor, of which only this machine's is here
    mkdir -p "$work/headers/aarch64-linux-gnu"
    ln -s /usr/include/x86_64-linux-gnu/python3* "$work/headers/aarch64-linux-gnu"
    build_python build_wheel "libbcp47-$version-aarch64-linux/lib/libbcp47.a" "aarch64-linux-gnu-gcc -I$work/headers"
fi
build_python build_sdist none gcc
build_python build_registry none gcc

# The packages for Java, Go, Node.js and Rust, with the library inside, and the registry as a package of its own.
if command -v javac > /dev/null; then
    TARGET=$work/java BCP47_LIBRARY=$root/build/libbcp47.a "$root/bindings/java/build.sh"
    cp "$work"/java/*.jar "$work"/java/*.pom "$to"
else
    echo "no jars: there is no JDK here" >&2
fi
name=bcp47-go-$version
mkdir -p "$work/$name/registry"
cp "$root"/LICENSE* "$root/bindings/go/go.mod" "$work/$name"
cp "$root/docs/GO.md" "$work/$name/README.md"
outward "$work/$name/README.md"
(cd "$root/bindings/go" && find . -name '*.go' ! -name '*_test.go' ! -path './cmd/*' -exec cp --parents {} "$work/$name" \;)
# beside the sources, since `go mod vendor` takes no more than the folders of packages
cp "$root/bindings/c/bcp47.h" "$work/$name"
"$root/bindings/go/build.sh" "$work/$name"
archive "$name"
# What npm and cargo pack has its files in its own folder, so they work in a copy.
mkdir -p "$work/copy/build"
cp -r "$root/bindings" "$root/docs" "$root/examples" "$root/VERSION" "$root"/LICENSE* "$work/copy"
outward "$work"/copy/docs/*.md
rm -rf "$work/copy/bindings/rust/target" "$work/copy/bindings/rust/Cargo.lock"
ln -s "$root"/build/* "$work/copy/build"
if command -v npm > /dev/null && [ -e "${NODE_HEADERS:-/usr/include/node}/node_api.h" ]; then
    for package in node node/registry; do
        (cd "$work/copy/bindings/$package" && npm pack --silent --offline --pack-destination "$to" > /dev/null)
    done
else
    echo "no packages for Node.js: there is no npm with Node's headers here" >&2
fi
if command -v cargo > /dev/null; then
    crates=$work/copy/bindings/rust
    mkdir -p "$crates/bcp47-sys/lib/x86_64-unknown-linux-gnu"
    cp "$root/build/libbcp47.a" "$crates/bcp47-sys/lib/x86_64-unknown-linux-gnu"
    if [ -e "$root/build/aarch64/libbcp47.a" ]; then
        mkdir "$crates/bcp47-sys/lib/aarch64-unknown-linux-gnu"
        cp "$root/build/aarch64/libbcp47.a" "$crates/bcp47-sys/lib/aarch64-unknown-linux-gnu"
    fi
    # A crate has what it reads in its own folder; in the repository that is in examples/.
    cp "$root/examples/iana-2025-05-15.txt" "$crates/bcp47-registry/registry.txt"
    cp "$root/examples/sample-registry.txt" "$crates/bcp47/tests"
    sed -i 's#"../../../../examples/iana-2025-05-15.txt"#"../registry.txt"#' "$crates/bcp47-registry/src/lib.rs"
    sed -i 's#/../../../examples/#/tests/#' "$crates"/bcp47/src/*.rs "$crates/bcp47/tests/answers.rs"
    for crate in bcp47-sys bcp47-registry bcp47; do cp "$root"/LICENSE* "$crates/$crate"; done
    (cd "$crates" && CARGO_HOME=$work/cargo CARGO_TARGET_DIR=$work/target cargo package --workspace --offline --exclude-lockfile --no-verify --allow-dirty -q)
    cp "$work"/target/package/*.crate "$to"
else
    echo "no crates: there is no cargo here" >&2
fi

# For Windows, browsers and every other host of WebAssembly.
if [ -e "$root/build/windows/langtag.exe" ]; then
    name=langtag-$version-x86_64-windows
    mkdir "$work/$name"
    cp "$root/build/windows/langtag.exe" "$root/README.md" "$root"/LICENSE* "$work/$name"
    cp "$root/examples/iana-2025-05-15.txt" "$work/$name/registry.txt"
    zipped "$name"
    name=libbcp47-$version-x86_64-windows
    mkdir "$work/$name"
    cp "$root"/build/windows/{bcp47.dll,bcp47.def,libbcp47.dll.a} "$root"/bindings/c/bcp47.{h,hpp} "$root/docs/C.md" "$root"/LICENSE* "$work/$name"
    zipped "$name"
else
    echo "nothing for Windows: run 'make windows' first" >&2
fi
if [ -e "$root/build/wasm/bcp47.wasm" ]; then
    name=bcp47-wasm-$version
    mkdir "$work/$name"
    cp "$root"/build/wasm/{bcp47.wasm,load.mjs} "$root"/bindings/node/{load.d.ts,index.d.ts,faults.d.ts} "$root/docs/WASM.md" "$root"/LICENSE* "$work/$name"
    zipped "$name"
    "$root/packaging/page/make.py" "$root/examples/iana-2025-05-15.txt" > "$to/langtag.html"
else
    echo "no WebAssembly, and no page: run 'make lib-wasm' first" >&2
fi

"$root/packaging/deb.sh" "$to" > /dev/null
cp "$root/docs/INSTALL.md" "$to"
/usr/bin/python3 "$root/packaging/parts.py" "$to" > "$work/parts.json"
mv "$work/parts.json" "$to/langtag-$version.cdx.json"
(cd "$to" && sha256sum -- * > "$work/SHA256SUMS")
mv "$work/SHA256SUMS" "$to/SHA256SUMS"
if [ -n "${SIGNING_KEY:-}" ]; then
    gpg --batch --local-user "$SIGNING_KEY" --armor --detach-sign "$to/SHA256SUMS"
else
    echo "SHA256SUMS is not signed: SIGNING_KEY names no key of gpg" >&2
fi
! grep -q '\.example' "$root/packaging/PUBLISHER" || echo "packaging/PUBLISHER is not filled in" >&2
ls "$to"
