#!/bin/bash
# Tests what is packaged of what `make` and `make lib` built: installing and taking away, the packages of Debian, the
# registry's update, and a release. The last line counts; the status is 1 if any test failed.
cd "$(dirname "$0")/.." || exit 1
root=$PWD
version=$(cat VERSION)
tests/packages.sh || exit 1
folder=$(mktemp -d)
chmod 755 "$folder"
trap 'rm -rf "$folder"' EXIT
passed=0
failed=0

# passes NAME COMMAND..: runs a command, and counts it.
passes() {
    local name=$1
    shift
    if "$@" > "$folder/out" 2> "$folder/err"; then
        passed=$((passed + 1))
    else
        failed=$((failed + 1))
        echo "failed: $name"
        head -n 20 "$folder/out" "$folder/err"
    fi
}

# is NAME WANTED GOT: two texts are the same.
is() {
    passes "$1" test "$2" = "$3" || return
    [ "$2" = "$3" ] || diff <(echo "$2") <(echo "$3")
}

# ---- Installing
# A folder with a file of another's, and a space in its name.
place="$folder/a place"
mkdir -p "$place/opt/share/langtag"
mkdir -m 2755 "$place/opt/bin"
echo mine > "$place/opt/share/langtag/mine"
DESTDIR=$place PREFIX=/opt LIBDIR=/opt/lib/multiarch passes "make install" make -s install
passes "the program runs" "$place/opt/bin/langtag" check "$place/opt/share/langtag/registry.txt"
is "the registry is installed" 'ok 9274' "$(cat "$folder/out")"
is "what is executable" "$(printf '%s\n' ./bin/langtag ./share/langtag/update-registry.sh)" \
    "$(cd "$place/opt" && find . -type f -perm -111 ! -name '*.so.*' | sort)"
passes "no file that others can't read, or can write" test -z "$(find "$place" ! -type l \( ! -perm -444 -o -perm /022 \))"
is "the mode of a folder that was there" 2755 "$(stat -c %a "$place/opt/bin")"
is "pkg-config" "-I/opt/include -L/opt/lib/multiarch -lbcp47" \
    "$(PKG_CONFIG_PATH=$place/opt/lib/multiarch/pkgconfig pkg-config --cflags --libs bcp47 | sed 's/ *$//')"
is "no page is left out" "$(cd docs && ls ./*.md)" "$(cd "$place/opt/share/doc/langtag/docs" && ls ./*.md)"
DESTDIR=$place PREFIX=/opt LIBDIR=/opt/lib/multiarch passes "make uninstall" make -s uninstall
is "nothing but the other's file is left" "./opt/share/langtag/mine" "$(cd "$place" && find . ! -type d)"
# A folder that pkg-config can move: the example of the page on C, compiled against it.
DESTDIR='' PREFIX=$folder/prefix passes "make install, in one folder" make -s install LIBDIR="$folder/prefix/lib"
sed -n '/^```c$/,/^```$/{/^```/!p}' docs/C.md > "$folder/example.c"
# what the page shows of it
answers=$(awk '/^    \$ \.\/example / { shown = 1; next } shown && /^    / { print substr($0, 5); next } { shown = 0 }' docs/C.md)
# shellcheck disable=SC2046
passes "docs/C.md's example, by pkg-config" gcc "$folder/example.c" \
    $(PKG_CONFIG_PATH=$folder/prefix/lib/pkgconfig pkg-config --cflags --libs bcp47) -o "$folder/example"
LD_LIBRARY_PATH=$folder/prefix/lib passes "the example runs" "$folder/example" "$folder/prefix/share/langtag/registry.txt" zh-yue I-KLINGON en_US
is "the example answers" "$answers" "$(cat "$folder/out")"
# A repository in which nothing is built: it says what to run, and writes nothing.
mkdir "$folder/bare"
cp -r packaging bindings docs completions examples Makefile README.md CHANGELOG.md LICENSE* VERSION "$folder/bare"
is "install where nothing is built" "build/langtag is not built: run \`make\` first" \
    "$(make -s -C "$folder/bare" install DESTDIR="$folder/none" 2>&1 | grep -v '^make')"
is "release where nothing is built" "build/langtag is not built: run \`make\` and \`make lib\` first" \
    "$("$folder/bare/packaging/dist.sh" "$folder/none" 2>&1)"
passes "it wrote nothing" test ! -e "$folder/none"

# ---- A release, twice
passes "make dist" packaging/dist.sh "$folder/dist"
left_out=$(cat "$folder/err")
[ -z "$left_out" ] || echo "$left_out"
# at another time, from a copy in another folder, and for a user with other habits
mkdir -p "$folder/copy/build"
git ls-files -z | tar --null -T - -cf - | tar -xf - -C "$folder/copy"
# what is built, but for the Debian of make fresh-debian
find build -mindepth 1 -maxdepth 1 ! -name debian -exec cp -r {} "$folder/copy/build" \;
umask 077
export GNUPGHOME=$folder/keys
mkdir "$GNUPGHOME"
passes "a key" gpg --batch --quiet --passphrase '' --quick-generate-key test@langtag.example
SIGNING_KEY=test@langtag.example TZ=Asia/Tokyo LC_ALL=C.UTF-8 passes "make dist, again" "$folder/copy/packaging/dist.sh" "$folder/again"
umask 022
passes "two runs give the same bytes" diff -r -x SHA256SUMS.asc "$folder/dist" "$folder/again"
passes "the signature" gpg --batch --verify "$folder/again/SHA256SUMS.asc" "$folder/again/SHA256SUMS"
gpgconf --kill gpg-agent
is "whether packaging/PUBLISHER is filled in is told" "$(grep -q '\.example' packaging/PUBLISHER; echo $?)" \
    "$(grep -q 'PUBLISHER is not filled in' <<< "$left_out"; echo $?)"
# what nothing below uses
for made in INSTALL.md "bcp47-$version"{.pom,-sources.jar,-javadoc.jar} bcp47-registry-2025.05.15.pom; do
    passes "a release has $made" test -s "$folder/dist/$made"
done
passes "SHA256SUMS" env -C "$folder/dist" sha256sum --check --strict SHA256SUMS
is "SHA256SUMS names every file" "$(find "$folder/dist" -type f ! -name SHA256SUMS -printf '%f\n' | LC_ALL=C sort)" \
    "$(sed 's/.* //' "$folder/dist/SHA256SUMS" | LC_ALL=C sort)"
mkdir "$folder/unpacked"
passes "the program's archive" tar -xzf "$folder/dist/langtag-$version-x86_64-linux.tar.gz" -C "$folder/unpacked" --strip-components=1
passes "the program of the archive runs" "$folder/unpacked/bin/langtag" check "$folder/unpacked/share/langtag/registry.txt"
is "manual, completions and registry of the archive" '_langtag langtag langtag.1 langtag.fish registry.txt' \
    "$(cd "$folder/unpacked/share" && find man bash-completion fish zsh langtag/registry.txt -type f -printf '%f\n' | LC_ALL=C sort | paste -s -d ' ')"
passes "the library's archive" tar -xzf "$folder/dist/libbcp47-$version-x86_64-linux.tar.gz" -C "$folder/unpacked" --strip-components=1
passes "the example with the archive's static library" gcc "$folder/example.c" -I"$folder/unpacked/include" \
    "$folder/unpacked/lib/libbcp47.a" -o "$folder/example-static"
passes "it runs" "$folder/example-static" "$folder/unpacked/share/langtag/registry.txt" zh-yue I-KLINGON en_US
is "it answers" "$answers" "$(cat "$folder/out")"
# shellcheck disable=SC2046
passes "the example with the archive's shared library, by pkg-config" gcc "$folder/example.c" \
    $(PKG_CONFIG_PATH=$folder/unpacked/lib/pkgconfig pkg-config --define-prefix --cflags --libs bcp47) -o "$folder/example-shared"
LD_LIBRARY_PATH=$folder/unpacked/lib passes "it runs too" "$folder/example-shared" "$folder/unpacked/share/langtag/registry.txt" zh-yue I-KLINGON en_US
is "it answers too" "$answers" "$(cat "$folder/out")"
# The wheel, and the sources over the library that is installed in a folder, by pip without a network.
for made in "bcp47-$version-cp39-abi3-manylinux2014_x86_64.whl" "bcp47-$version.tar.gz"; do
    PKG_CONFIG_PATH=$folder/prefix/lib/pkgconfig passes "pip install $made" /usr/bin/python3 -m pip install -q --no-index \
        --root-user-action=ignore --target "$folder/site" "$folder/dist/$made"
    PYTHONPATH=$folder/site LD_LIBRARY_PATH=$folder/prefix/lib passes "$made runs" /usr/bin/python3 -c \
        'import bcp47, sys; print(bcp47.Registry.from_file(sys.argv[1]).canonical("zh-yue"))' "$folder/unpacked/share/langtag/registry.txt"
    is "$made answers" yue "$(cat "$folder/out")"
    PYTHONPATH=$folder/site LD_LIBRARY_PATH=$folder/prefix/lib passes "$made has its commands" /usr/bin/python3 -m bcp47 report --help
    rm -rf "$folder/site"
done
passes "the list of parts" /usr/bin/python3 - "$folder/dist" << 'END'
import hashlib, json, pathlib, re, sys

folder = pathlib.Path(sys.argv[1])
(path,) = folder.glob("*.cdx.json")
parts = json.loads(path.read_text())
assert (parts["bomFormat"], parts["specVersion"]) == ("CycloneDX", "1.5")
files = {part["name"]: part["hashes"][0]["content"] for part in parts["components"] if part["type"] == "file"}
others = {path.name, "SHA256SUMS"}
assert files == {file.name: hashlib.sha256(file.read_bytes()).hexdigest() for file in folder.iterdir() if file.name not in others}
names = [part["bom-ref"] for part in parts["components"]]
assert len(names) == len(set(names))
for dependency in parts["dependencies"]:
    assert set(dependency["dependsOn"]) <= set(names)
inside = {of["ref"].removeprefix("file:"): set(of["dependsOn"]) for of in parts["dependencies"] if of["ref"].startswith("file:")}
of_library = {"kit:arrayvec", "kit:sha2", "kit:core", "kit:std_heap"}
for name, found in inside.items():
    if re.match("langtag[-_]", name):
        assert {"kit:clap", "kit:memchr", "kit:std_io"} <= found and "kit:sha2" not in found, name
        assert ("registry" in found) == ("objects" not in name), name
    elif "registry" in name and not name.endswith(".pom"):
        assert found == {"registry"}, name
    elif re.search(r"^bcp47-[0-9.]+(-sources\.jar|-javadoc\.jar|\.tar\.gz|\.crate)$|\.pom$|INSTALL", name):
        assert not found, name
    else:
        assert of_library <= found and "kit:clap" not in found, name
licences = {part["name"]: part["licenses"][0]["expression"] for part in parts["components"] if part["type"] == "file"}
for name, found in inside.items():
    said = [word in licences[name] for word in ("Unlicense", "LGPL", "ZPL")]
    assert said == [it in found for it in ("kit:memchr", "glibc", "mingw-w64")], name
END

passes "the list of parts has what LICENSE names, with an address for each" /usr/bin/python3 - "$folder/dist" << 'END'
import json, pathlib, re, sys

(path,) = pathlib.Path(sys.argv[1]).glob("*.cdx.json")
parts = {part["name"]: part for part in json.loads(path.read_text())["components"] if part["bom-ref"].startswith("kit:")}
text = pathlib.Path("LICENSE").read_text()
named = set(re.findall(r"^  (\w+) +(?:MIT|Apache)", text, re.M)) | set(re.findall(r"\b(core|std\w*|lib\w+_c)\b", text))
assert named == set(parts), named ^ set(parts)
assert all(part["purl"].startswith("pkg:generic/rattle-kit/") for part in parts.values())
END

# ---- Packages of Debian
# purges PACKAGE: taking it away leaves the registry that was fetched, and purging it doesn't; on a folder in the place of /var/lib.
purges() {
    mkdir -p "$folder/var/langtag"
    dpkg-deb -I "$1" postrm | sed "s#/var/lib/langtag#$folder/var/langtag#g" > "$folder/postrm"
    sh "$folder/postrm" remove && [ -d "$folder/var/langtag" ] && sh "$folder/postrm" purge && [ ! -e "$folder/var/langtag" ]
}

# a link to a page that would be in the same folder, or in the one above
beside='\]\((\.\./)?[A-Za-z]+\.md'
for package in "$folder"/dist/*.deb; do
    name=$(basename "$package" | sed 's/_.*//')
    dpkg-deb -c "$package" > "$folder/contents"
    is "$name: its root" 'drwxr-xr-x root/root' "$(awk '$NF == "./" {print $1, $2}' "$folder/contents")"
    is "$name: modes and owners" '' \
        "$(grep -vE '^(drwxr-xr-x|-rw-r--r--|-rwxr-xr-x|lrwxrwxrwx) root/root ' "$folder/contents")"
    passes "$name: copyright" grep -q " ./usr/share/doc/$name/copyright$" "$folder/contents"
    is "$name: pages are not compressed" '' "$(grep '\.md\.gz$' "$folder/contents")"
    [ "$name" != langtag ] || passes "$name: what its timer fetched goes with it" purges "$package"
    [ "$name" != langtag ] || passes "$name: its timer stops with it" grep -q 'stop langtag-registry.timer' <(dpkg-deb -I "$package" prerm)
    passes "$name: changes" grep -q " ./usr/share/doc/$name/changelog.Debian.gz$" "$folder/contents"
    is "$name: its version" "$version-1" "$(dpkg-deb -f "$package" Version)"
    # unpacked over a folder of all users, it stays one
    mkdir -m 755 "$folder/over"
    dpkg-deb -x "$package" "$folder/over"
    is "$name: unpacked over a folder" 755 "$(stat -c %a "$folder/over")"
    while IFS= read -r binary; do
        is "$name: stripped" '' "$(nm "$binary" 2> /dev/null)"
        # the newest version of the C library that it asks for is asked for by the package
        needs=$(objdump -T "$binary" | grep -o 'GLIBC_[0-9.]*' | sed 's/GLIBC_//' | sort -V | tail -n 1)
        asked=$(dpkg-deb -f "$package" Depends | sed -n 's/.*libc6 (>= \([0-9.]*\)).*/\1/p')
        passes "$name: libc6 (>= $asked) for $needs" dpkg --compare-versions "$asked" ge "$needs"
    done < <(find "$folder/over" -type f \( -name langtag -path '*/bin/*' -o -name '*.so*' \))
    [ "$name" != python3-bcp47 ] || is "$name: what Python knows of it" "$version" "$(PYTHONPATH=$folder/over/usr/lib/python3/dist-packages \
        /usr/bin/python3 -c 'from importlib.metadata import version; print(version("bcp47"))')"
    [ "$name" = langtag ] || is "$name: no page leads to one that is not there" '' \
        "$(find "$folder/over/usr/share/doc/$name" -name '*.md' -exec grep -ohE "$beside" {} +)"
    rm -rf "$folder/over"
done
is "all packages" 'langtag libbcp47-1 libbcp47-dev postgresql-15-bcp47 python3-bcp47 sqlite3-bcp47' "$(cd "$folder/dist" && echo ./*.deb | sed 's#\./##g; s/_[^ ]*//g')"
passes "lintian finds no error" lintian --fail-on error "$folder"/dist/*.deb
grep '^[EW]:' "$folder/out"

# ---- The library for aarch64, which answers 20,000 tags as the program does
if [ -e build/aarch64/libbcp47.so.1 ]; then
    arm=$folder/arm
    mkdir "$arm"
    passes "aarch64: its archive" tar -xzf "$folder/dist/libbcp47-$version-aarch64-linux.tar.gz" -C "$arm" --strip-components=1
    /usr/bin/python3 bench/make_tags.py examples/iana-2025-05-15.txt mixed 20000 > "$folder/tags"
    build/langtag canon examples/iana-2025-05-15.txt < "$folder/tags" > "$folder/wanted"
    passes "aarch64: 20,000 tags" test "$(wc -l < "$folder/wanted")" = 20000
    flags="-std=c11 -O2 -Wall -Wextra -Werror -pthread -I$arm/include"
    # shellcheck disable=SC2086
    passes "aarch64: compile, static" aarch64-linux-gnu-gcc $flags tests/bindings/answers.c "$arm/lib/libbcp47.a" -o "$arm/static"
    # shellcheck disable=SC2086
    passes "aarch64: compile, shared" aarch64-linux-gnu-gcc $flags tests/bindings/answers.c -L"$arm/lib" -lbcp47 -o "$arm/shared"
    for kind in static shared; do
        passes "aarch64: $kind" qemu-aarch64 -L /usr/aarch64-linux-gnu -E LD_LIBRARY_PATH="$arm/lib" "$arm/$kind" \
            examples/iana-2025-05-15.txt "$folder/tags" 4
        mv "$folder/out" "$folder/answered"
        passes "aarch64: $kind answers as the program" cmp "$folder/wanted" "$folder/answered"
    done
    passes "aarch64: the wheel is of it" /usr/bin/python3 - "$folder"/dist/*aarch64.whl << 'END'
import sys, zipfile

with zipfile.ZipFile(sys.argv[1]) as wheel:
    (name,) = [name for name in wheel.namelist() if ".so" in name]
    assert wheel.read(name)[18:20] == b"\xb7\x00", "another processor"
END
else
    echo "skipped: the library for aarch64, which make lib-aarch64 builds"
fi

# ---- Each package as docs/INSTALL.md uses it, in a folder with nothing but the release, and without a network; no setting tells the tools so
export GOCACHE=$folder/cache CARGO_HOME=$folder/cargo
mkdir -p "$CARGO_HOME"
ran=0
while IFS= read -r heading; do
    use=$folder/use/$heading
    mkdir -p "$use"
    awk -v heading="## $heading" '/^## / { is_it = $0 == heading } is_it && /^    / { print substr($0, 5) }' docs/INSTALL.md > "$use/commands"
    [ -s "$use/commands" ] || continue
    ran=$((ran + 1))
    cp "$folder"/dist/*.{crate,tgz,jar,whl,tar.gz} "$use"
    passes "$heading, as INSTALL.md has it" unshare --net --map-root-user env -C "$use" bash -e commands
    is "$heading answers" yue "$(tail -n 1 "$folder/out")"
done < <(sed -n 's/^## //p' docs/INSTALL.md)
is "each package is used" 7 "$ran"
is "INSTALL.md names files of this version" '' "$(grep -oE '[0-9]+\.[0-9]+\.[0-9]+' docs/INSTALL.md | grep -vxF "$version" | grep -vxE '2025\.0?5\.15|0\.0\.0|1\.0\.0' | sort -u)"
while IFS= read -r page; do
    passes "the page $page, to which INSTALL.md leads" test -e "$folder/unpacked/share/doc/langtag/docs/$page"
done < <(grep -o '](\.*[A-Za-z/][^):#]*[)#]' docs/INSTALL.md | sed 's/^](//; s/.$//' | sort -u)
# what the tools find without a network, where a package of another's is wanted
export npm_config_offline=true GOPROXY=off GOFLAGS=-mod=mod CARGO_NET_OFFLINE=true
printf '[source.crates-io]\nreplace-with = "debian"\n[source.debian]\ndirectory = "/usr/share/cargo/registry"\n' > "$CARGO_HOME/config.toml"
passes "the module for Go, copied into its user's" env -C "$folder/use/Go/page" go mod vendor
rm -r "$folder/use/Go"/bcp47-go-*
passes "the copy's program" env -C "$folder/use/Go/page" GOFLAGS=-mod=vendor go run .
is "the copy answers" yue "$(cat "$folder/out")"
passes "the crates' tests, of what is packed" env -C "$folder/use/Rust/bcp47-$version" cargo test -q --config "patch.crates-io.bcp47-sys.path='../bcp47-sys-$version'" \
    --config "patch.crates-io.bcp47-registry.path='../bcp47-registry-2025.5.15'" --all-features
for made in "$folder"/dist/*.{crate,tgz} "$folder/dist/bcp47-go-$version.tar.gz"; do
    is "$(basename "$made"): no link to a page that is not there" '' "$(tar -xzOf "$made" --wildcards '*.md' | grep -oE "$beside")"
    case $made in *.crate | *.tgz) passes "$(basename "$made") names its repository" sh -c \
        'tar -xzOf "$1" --wildcards "*/Cargo.toml" "*/package.json" 2> /dev/null | grep -qE "^ *\"?repository\"? ?[=:]"' - "$made" ;;
    esac
    is "$(basename "$made") has its licence and a page" 4 "$(tar -tzf "$made" | grep -cE '^[^/]*/(LICENSE(-MIT|-APACHE)?|README.md|RUST.md)$')"
done

# ---- Each file as a stranger has it: where the repository and the kit are not
kit=$(dirname "$(rt doc)")
# apart FOLDER COMMAND..: runs a command in a folder, without them.
apart() {
    unshare --mount --map-root-user sh -c 'for hidden in "$1" "$2"; do mount -t tmpfs none "$hidden"; done; cd "$3" && shift 3 && exec "$@"' - \
        "$root" "$kit" "$@"
}
/usr/bin/python3 bench/make_tags.py examples/iana-2025-05-15.txt mixed > "$folder/many"
build/langtag canon examples/iana-2025-05-15.txt < "$folder/many" > "$folder/answers"
cp examples/iana-2025-05-15.txt "$folder/registry.txt"
passes "200,000 tags" test "$(wc -l < "$folder/answers")" = 200000
# answered NAME COMMAND..: a command answers the tags as the program.
answered() {
    local name=$1
    shift
    "$@" < "$folder/many" > "$folder/answered" 2> "$folder/told"
    passes "$name: the program's answers" cmp "$folder/answers" "$folder/answered" || head -n 20 "$folder/told"
}

# the program where there is nothing else, and on a processor of 2008 with a kernel of 2012
mkdir "$folder/nothing"
cp "$folder/unpacked/bin/langtag" "$folder/registry.txt" "$folder/nothing"
answered "the program in an empty root" unshare --map-root-user --root="$folder/nothing" /langtag canon /registry.txt
passes "the program on Linux 3.2" qemu-x86_64 -cpu Nehalem -r 3.2.0 "$folder/nothing/langtag" check "$folder/registry.txt"
is "the program on Linux 3.2 answers" 'ok 9274' "$(cat "$folder/out")"
passes "its objects" tar -xzf "$folder/dist/langtag-$version-x86_64-linux-objects.tar.gz" -C "$folder/nothing" --strip-components=1
passes "they are linked" apart "$folder/nothing" sh link.sh
passes "that is the program" cmp "$folder/nothing/langtag" "$folder/unpacked/bin/langtag"

# the package for Node.js, with its addon and without
if [ -e "$folder/dist/bcp47-$version.tgz" ]; then
    mkdir "$folder/node"
    cp examples/sample-registry.txt "$folder/node/registry.txt"
    cp bindings/node/test/answers.mjs "$folder/node"
    sed -i "s#'../index.mjs'#'bcp47'#" "$folder/node/answers.mjs"
    sed -n '/^```js$/,/^```$/{/^```$/q;/^```/!p}' docs/NODE.md > "$folder/node/page.mjs"
    passes "npm install" apart "$folder/node" npm install --silent --offline --no-audit --no-fund "$folder/dist/bcp47-$version.tgz"
    for with in addon WebAssembly; do
        [ $with = addon ] || rm "$folder/node/node_modules/bcp47/bcp47.node"
        [ $with = addon ] || [ -e build/wasm/bcp47.wasm ] || break
        passes "docs/NODE.md's program, by $with" apart "$folder/node" node page.mjs
        is "docs/NODE.md's program answers, by $with" yue "$(head -n 1 "$folder/out")"
        answered "Node.js, by $with" apart "$folder/node" node answers.mjs "$folder/registry.txt" "$folder/many"
    done
fi

# WebAssembly and Windows: the scripts of each, and what is in the archives
unzipped() {
    passes "$1" /usr/bin/python3 -m zipfile -e "$folder/dist/$1.zip" "$folder"
}
if [ -e build/wasm/bcp47.wasm ]; then
    unzipped "bcp47-wasm-$version"
    cat > "$folder/bcp47-wasm-$version/answers.mjs" << 'END'
import { readFileSync } from 'node:fs';
import { load } from './load.mjs';

const { Registry } = await load(readFileSync('bcp47.wasm'));
const answers = new Registry(readFileSync(process.argv[2])).canonicalMany(readFileSync(0, 'utf8').split('\n').slice(0, -1));
process.stdout.write(`${answers.join('\n')}\n`);
END
    answered "load.mjs" apart "$folder/bcp47-wasm-$version" node answers.mjs "$folder/registry.txt"
    passes "WebAssembly" tests/wasm.sh
    tail -n 1 "$folder/out"
    mkdir -p "$folder"/page/{bench,examples}
    cp tests/packaging/{page,browsers}.py "$folder/dist/langtag.html" "$folder/unpacked/bin/langtag" "$folder/registry.txt" "$folder/page"
    cp bench/make_tags.py "$folder/page/bench"
    cp examples/sample-registry.txt "$folder/page/examples"
    passes "the page" apart "$folder/page" ./page.py langtag.html langtag registry.txt
    cat "$folder/out"
else
    echo "skipped: WebAssembly and the page langtag.html, which make lib-wasm builds"
fi
if [ -e build/windows/langtag.exe ] && command -v wine > /dev/null; then
    unzipped "langtag-$version-x86_64-windows"
    unzipped "libbcp47-$version-x86_64-windows"
    export WINEPREFIX=$folder/wine WINEDEBUG=-all
    answered "langtag.exe" apart "$folder/langtag-$version-x86_64-windows" wine langtag.exe canon registry.txt
    passes "docs/C.md's example for Windows" apart "$folder/libbcp47-$version-x86_64-windows" x86_64-w64-mingw32-gcc "$folder/example.c" -I. libbcp47.dll.a -o example.exe
    passes "it runs by wine" apart "$folder/libbcp47-$version-x86_64-windows" wine example.exe "$folder/registry.txt" zh-yue I-KLINGON en_US
    is "it answers by wine" "$answers" "$(tr -d '\r' < "$folder/out")"
    wineserver -k
    passes "Windows" tests/windows.sh
    tail -n 1 "$folder/out"
else
    echo "skipped: Windows, which make windows builds, and which wine runs"
fi

# ---- The registry's update
passes "the registry's update" tests/packaging/update_registry.py "$root/build/langtag"
if command -v systemd-analyze > /dev/null; then
    # with this machine's shell in place of the program, which is not installed here
    mkdir "$folder/units"
    for unit in service timer; do
        sed 's#@PREFIX@/share/langtag/update-registry.sh#/bin/sh#' packaging/langtag-registry.$unit > "$folder/units/langtag-registry.$unit"
    done
    passes "the units of systemd" systemd-analyze verify --man=no "$folder"/units/*
    is "systemd has nothing to say of them" '' "$(cat "$folder/err")"
else
    echo "no systemd here: its units are not verified"
fi

echo "packaging: $passed passed, $failed failed"
[ "$failed" = 0 ]
