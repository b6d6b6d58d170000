#!/bin/bash
# Tests bcp47.wasm, which `make lib-wasm` built, and what loads it, beside the program and the addon for Node.js, which is built here over the
# library of `make lib`. The last line counts; the status is 1 if any test failed. Argument: the program (build/langtag).
program=$(realpath "${1:-"$(dirname "$0")/../build/langtag"}")
folder=$(mktemp -d)
trap 'rm -rf "$folder"' EXIT
# shellcheck source=tests/bindings/counting.sh
. "$(dirname "$0")/bindings/counting.sh"
export NODE_HEADERS=${NODE_HEADERS:-/usr/include/node}

# The package with both, and with WebAssembly alone, with the tests of the package.
mkdir -p "$folder/whole" "$folder/bindings"
ln -s "$root/examples" "$folder/examples"
passes "the addon" bindings/node/build.sh
cp -r bindings/node/. "$folder/whole"
cp -r bindings/node "$folder/bindings/node"
rm "$folder/bindings/node/bcp47.node"
alone=$folder/bindings/node
passes "the package's tests, without the addon" node --test "$alone/test/bcp47.test.mjs"
rm "$alone/test"/*.test.mjs
$python bench/make_tags.py "$registry" mixed > "$folder/tags"
"$program" canon "$registry" < "$folder/tags" > "$folder/wanted"
passes "200,000 tags" test "$(wc -l < "$folder/tags")" = 200000
writes "it answers as the program" "$folder/wanted" node "$alone/test/answers.mjs" "$registry" "$folder/tags"
passes "each call as the addon" node tests/wasm/beside.mjs "$folder/whole" "$registry" "$folder/tags" "$sample" 3000
cat "$folder/out"
passes "growths that are refused" node tests/wasm/growths.mjs "$alone" "$sample" 1
cat "$folder/out"
passes "growths that are refused, with IANA's registry" node tests/wasm/growths.mjs "$alone" "$registry" 16
cat "$folder/out"
# registries of 20,000 records, each as dear as it can be
mkdir "$folder/hostile"
PYTHONPATH=bench $python - "$folder/hostile" << 'END'
import sys
from hostile_registries import REGISTRIES, text_of

for title in REGISTRIES:
    with open(f"{sys.argv[1]}/{title}", "w") as file:
        file.write(text_of(title, 20000))
END
for file in "$folder"/hostile/*; do "$program" check "$file"; done > "$folder/checked"
writes "hostile registries" "$folder/checked" node tests/wasm/check.mjs "$alone" "$folder"/hostile/*
passes "calls that are cut off" node tests/wasm/cut_off.mjs "$alone" "$sample"
cat "$folder/out"

# The heap and the exports on this machine, each line and each branch of them. The proved calls take what they allocate from the heap.
flags="-std=c11 -D_GNU_SOURCE -g -no-pie -fno-pie -Wall -Wextra -Werror -Ibindings/c -Ibindings/wasm"
for source in wasm/heap wasm/bcp47_wasm c/bcp47 c/heap c/names; do
    # shellcheck disable=SC2086
    passes "compile $source" gcc $flags -O0 --coverage -fno-builtin -include tests/wasm/memory.h -c bindings/$source.c -o "$folder/${source/\//_}.o"
done
objcopy --weaken-symbol=rattle_alloc --weaken-symbol=rattle_realloc --weaken-symbol=rattle_dealloc build/proved.o "$folder/proved.o"
# shellcheck disable=SC2086
passes "compile the test of the heap" gcc $flags -O1 --coverage -o "$folder/heap" tests/wasm/heap.c "$folder"/{proved,c_bcp47,c_heap,c_names,wasm_bcp47_wasm,wasm_heap}.o
passes "the heap" "$folder/heap"
passes "the exports" "$folder/heap" "$registry" "$folder/tags"
cat "$folder/out"
tail -n 1 "$folder/out" > "$folder/sum"
writes "each export of bcp47.wasm" "$folder/sum" node tests/wasm/exports.mjs build/wasm/bcp47.wasm "$registry" "$folder/tags"
(cd "$folder" && gcov -b -o . wasm_heap.o wasm_bcp47_wasm.o > report 2>&1)
passes "each line and branch of both is run" test "$(grep -A 3 -E "^File '.*wasm/" "$folder/report" | grep -c ':100.00%')" = 4
grep -A 3 -E "^File '.*wasm/" "$folder/report" | grep -v ':100.00%\|^--\|^File\|^No '

# Another version of a tool is told.
mkdir "$folder/bin"
printf '#!/bin/sh\necho LLD 19.1.7\n' > "$folder/bin/wasm-ld"
chmod 755 "$folder/bin/wasm-ld"
echo "wasm-ld is not that of LLD 14: apt-get install lld, of Debian 12" > "$folder/said"
PATH=$folder/bin:$PATH bindings/wasm/build.sh > "$folder/told" 2>&1
passes "another wasm-ld" cmp "$folder/said" "$folder/told"

# Bundlers and browsers.
mkdir -p "$folder/page/node_modules"
cp tests/wasm/*.mjs "$folder/page"
cp "$sample" "$folder/page/registry.txt"
cp -r "$alone" "$folder/page/node_modules/bcp47"
cp build/wasm/* "$folder/page"
passes "esbuild, for a page" env -C "$folder/page" esbuild --bundle --format=esm --outfile=app.js --log-level=error app.mjs
passes "esbuild, with the bytes" env -C "$folder/page" esbuild --bundle --format=esm --platform=node --loader:.wasm=binary --outfile=bytes.js \
    --log-level=error bytes.mjs
echo yue > "$folder/yue"
cp "$folder/page/bytes.js" "$folder/bytes.mjs"
writes "a bundle with the bytes" "$folder/yue" node "$folder/bytes.mjs" "$sample"
program_of WASM.md js 1 > "$folder/page/page.mjs"
program_of WASM.md js 2 > "$folder/page/exports.mjs"
echo 0 yue > "$folder/status-yue"
writes "docs/WASM.md's second program" "$folder/status-yue" env -C "$folder/page" node exports.mjs
echo '<!doctype html><title>page</title><body><script type="module" src="app.js"></script>' > "$folder/page/app.html"
echo '<!doctype html><title>page</title><body><script type="module">console.log = (it) => fetch("answer?" + it); await import("./page.mjs")</script>' > "$folder/page/page.html"
PYTHONUNBUFFERED=1 $python -m http.server --bind 127.0.0.1 --directory "$folder/page" 0 > "$folder/port" 2>> "$folder/asked" &
server=$!
until grep -qs ' port [0-9]' "$folder/port"; do sleep 0.1; done
address=$(sed -n 's/.*(\(http:.*\)\/).*/\1/p' "$folder/port")
# in_chromium PAGE: what a page asks its server for, within a minute
in_chromium() {
    : > "$folder/asked"
    chromium --headless --no-sandbox --disable-gpu --user-data-dir="$folder/profile" "$address/$1" > /dev/null 2>&1 &
    for ((i = 0; i < 600; i++)); do
        grep -q 'GET /answer' "$folder/asked" && break
        sleep 0.1
    done
    kill $!
    sed -n 's/.*GET \/answer?\([^ ]*\) .*/\1/p' "$folder/asked"
}
echo 'yue,BadByte%201,tlh,Hant' > "$folder/shown"
writes "a page and its worker, in Chromium" "$folder/shown" in_chromium app.html
writes "docs/WASM.md's program, in Chromium" "$folder/yue" in_chromium page.html
kill $server
counted wasm
