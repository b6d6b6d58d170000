#!/bin/bash
# Tests the package for Node.js. Arguments: the folder of tests/bindings.sh, which has tags and what the program
# answers; the program.
shared=$1
folder=$1/node
# shellcheck source=tests/bindings/counting.sh
. "$(dirname "$0")/counting.sh"

if command -v node > /dev/null && command -v npm > /dev/null && [ -e "${NODE_HEADERS:=/usr/include/node}/node_api.h" ]; then
    export NODE_HEADERS
    passes "Node.js: build" bindings/node/build.sh
    passes "Node.js: tests" node --test bindings/node/test/bcp47.test.mjs
    writes "Node.js answers as the program" "$shared/wanted" node bindings/node/test/answers.mjs "$registry" "$shared/tags"
    writes "Node.js explains as the program" "$shared/explained" node bindings/node/test/answers.mjs "$registry" "$shared/explained-tags" explain
    # under sanitizers, beside a copy: what V8 keeps to its end is no leak of it
    mkdir -p "$folder/checked/bindings"
    cp -r bindings/node bindings/c "$folder/checked/bindings"
    ln -s "$root/build" "$root/examples" "$folder/checked"
    CFLAGS="-O1 -g -fsanitize=address,undefined -fno-sanitize-recover=all" passes "Node.js: build for sanitizers" "$folder/checked/bindings/node/build.sh"
    passes "Node.js: tests under sanitizers" env ASAN_OPTIONS=detect_leaks=0 \
        LD_PRELOAD="$(gcc -print-file-name=libasan.so) $(gcc -print-file-name=libubsan.so)" node --test "$folder/checked/bindings/node/test/bcp47.test.mjs"
    mkdir "$folder/page"
    passes "Node.js: npm pack" env -C bindings/node npm pack --silent --pack-destination "$folder/page"
    passes "Node.js: npm install" env -C "$folder/page" npm install --silent --offline --no-audit --no-fund "$folder"/page/bcp47-*.tgz
    program_of NODE.md js 1 > "$folder/page/page.mjs"
    mkdir "$folder/page/service"
    cp "$registry" "$folder/page/service/registry.txt"
    program_of NODE.md js 2 > "$folder/page/service/service.mjs"
    cp "$sample" "$folder/page/registry.txt"
    printf "%s\n" yue true true "BadByte 1 BadByte 1" he null "A byte" "Tag 'zh-Hant-TW' Hant" zh-Hant-HK de "2 gsg" > "$folder/page/wanted"
    writes "Node.js: docs/NODE.md's program" "$folder/page/wanted" env -C "$folder/page" node page.mjs
    echo served > "$folder/served"
    writes "Node.js: headers of browsers, and Intl beside it" "$folder/served" env -C "$folder/page/service" \
        node "$root/bindings/node/test/serving.mjs" "$folder/page/service/service.mjs" "$registry"
    passes "Node.js: its licence" cmp LICENSE-MIT "$folder/page/node_modules/bcp47/LICENSE-MIT"
    passes "Node.js: its page" cmp docs/NODE.md "$folder/page/node_modules/bcp47/README.md"
    passes "Node.js: its words, and that each system may install it" env -C "$folder/page" node -e \
        'const { keywords, files, os, cpu, libc } = require("./node_modules/bcp47/package.json"); process.exit(keywords.includes("bcp47") && files.includes("bcp47.wasm") && !os && !cpu && !libc ? 0 : 1)'
    passes "Node.js: by require" env -C "$folder/page" node -e 'process.exit(`${new (require("bcp47").Tag)("EN")}` === "en" ? 0 : 1)'
    passes "Node.js: bundled, without its package" env -C "$folder/page" \
        node -e 'try { require("bcp47").Registry.bundled() } catch ({ code }) { process.exit(code === "MODULE_NOT_FOUND" ? 0 : 1) }; process.exit(1)'
    passes "Node.js: npm pack, the registry" env -C bindings/node/registry npm pack --silent --pack-destination "$folder/page"
    passes "Node.js: npm install, the registry" env -C "$folder/page" npm install --silent --offline --no-audit --no-fund "$folder"/page/bcp47-*.tgz
    passes "Node.js: bundled" env -C "$folder/page" node -e 'process.exit(require("bcp47").Registry.bundled().canonical("zh-yue") === "yue" ? 0 : 1)'
    cp -r "$folder/page/node_modules" "$folder/node_modules"
    rm "$folder/node_modules/bcp47/bcp47.node"
    passes "Node.js: without the addon, by WebAssembly, or else it is what lacks" env -C "$folder" node -e \
        'try { require("bcp47") } catch ({ cause }) { process.exit(`${cause}`.includes("bcp47.wasm") ? 0 : 1) }'
    if command -v tsc > /dev/null; then
        cp bindings/node/test/types.ts "$folder/page"
        passes "Node.js: types" env -C "$folder/page" tsc --noEmit --strict --module node16 --moduleResolution node16 --target es2020 --lib es2020,dom types.ts
    else
        missing "compiler of TypeScript"
    fi
else
    echo "no Node.js with headers here: its package is not tested"
fi
counted node
