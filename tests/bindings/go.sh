#!/bin/bash
# Tests the package for Go. Arguments: the folder of tests/bindings.sh, which has tags and what the program answers;
# the program.
shared=$1
folder=$1/go
# shellcheck source=tests/bindings/counting.sh
. "$(dirname "$0")/counting.sh"

if command -v go > /dev/null; then
    mkdir "$folder/page"
    module=$(sed -n 's/^module //p' bindings/go/go.mod)
    # the files of packages are examined once, by go vet
    export GOCACHE=$folder/cache GOFLAGS="-mod=mod -vet=off" GOPROXY=off GOPATH=$folder/path
    passes "Go: the library beside it" bindings/go/build.sh
    passes "Go: its path begins with a domain" grep -qE '^module [a-z0-9-]+(\.[a-z0-9-]+)+/' bindings/go/go.mod
    passes "Go: no call for many tags, which a loop serves as well" sh -c '! grep -r "CanonicalMany" bindings/go --include=*.go'
    passes "Go: format" test -z "$(gofmt -l bindings/go)"
    passes "Go: vet" env -C bindings/go go vet ./...
    passes "Go: tests and examples" env -C bindings/go go test ./...
    passes "Go: tests with the race detector" env -C bindings/go go test -race "-gcflags=std=-N -l" . ./registry
    # without its habit of keeping what was freed
    passes "Go: tests under the address sanitizer" env -C bindings/go ASAN_OPTIONS=quarantine_size_mb=1 go test -asan "-gcflags=std=-N -l" .
    passes "Go: a program" env -C bindings/go go build -o "$folder/canon" ./cmd/canon
    writes "Go answers as the program" "$shared/wanted" sh -c '"$1/canon" "$2" < "$3"' - "$folder" "$registry" "$shared/tags"
    writes "Go explains as the program" "$shared/explained" sh -c '"$1/canon" -explain "$2" < "$3"' - "$folder" "$registry" "$shared/explained-tags"
    passes "Go: a middleware" env -C bindings/go go build -o "$folder/serve" ./cmd/serve
    passes "Go: it answers browsers" tests/bindings/browsers.sh "$folder/serve"
    # it is that of the page, which has spaces for tabs
    awk '/^## / { is_it = $0 == "## In a web service" } /^[^ ]/ { is_code = 0 } /^    / { is_code = 1 } is_it && is_code { print substr($0, 5) }' \
        docs/GO.md > "$folder/block"
    expand -t 4 bindings/go/cmd/serve/main.go > "$folder/program"
    passes "Go: the middleware is that of docs/GO.md" $python -c 'import sys
block, program = (open(name).read() for name in sys.argv[1:])
sys.exit(len(block) < 200 or block.strip() not in program)' "$folder/block" "$folder/program"
    mkdir "$folder/best"
    cp bench/peers/best/main.go "$folder/best"
    text=/usr/share/gocode/src/golang.org/x/text
    printf 'module best\n\ngo 1.19\n\nrequire (\n\t%s v0.0.0\n\tgolang.org/x/text v0.0.0\n)\n\nreplace %s => %s/bindings/go\n\nreplace golang.org/x/text => %s\n' \
        "$module" "$module" "$root" "$text" > "$folder/best/go.mod"
    passes "x/text serves alike but for known causes" env -C "$folder/best" go run . "$registry" 20000 "$text"/language/testdata/*.txt
    # a new library is seen: here one that tells another version
    cp -r bindings/go bindings/c "$folder"
    tells() {
        env -C "$folder/go" go build -o "$folder/version" ./version && "$folder/version" | grep -qx "$1"
    }
    # what the compiler says where something that it needs is missing
    says() {
        ! "${@:2}" 2> "$folder/said" && grep -q "$1" "$folder/said"
    }
    passes "Go: that cgo is needed is told" says "bcp47 needs cgo.* set CGO_ENABLED=1" env -C "$folder/go" CGO_ENABLED=0 go build ./cmd/canon
    mkdir "$folder/none"
    cp -r bindings/go "$folder/none"
    cp bindings/c/bcp47.h "$folder/none/go"
    rm "$folder"/none/go/*.syso
    passes "Go: a missing library is told" says "bcp47 has no library here" env -C "$folder/none/go" go build .
    mkdir "$folder/go/version"
    printf 'package main\n\nimport (\n\t"fmt"\n\n\t"%s"\n)\n\nfunc main() { fmt.Println(bcp47.Version()) }\n' "$module" > "$folder/go/version/main.go"
    printf 'package main\n\nimport (\n\t"testing"\n\n\t"%s"\n)\n\nfunc TestVersion(t *testing.T) {\n\tif bcp47.Version() == "9.9.9" {\n\t\tt.Fail()\n\t}\n}\n' \
        "$module" > "$folder/go/version/main_test.go"
    passes "Go: its version" tells "$(cat VERSION)"
    passes "Go: a test of it" env -C "$folder/go" go test ./version
    sed -i "s/$(cat VERSION | sed 's/\./\\./g')/9.9.9/" "$folder/go/bcp47_linux_amd64.syso"
    passes "Go: go build sees a new library" tells 9.9.9
    passes "Go: go test sees a new library" sh -c 'cd "$1" && ! go test ./version' - "$folder/go"
    sed -n '/^```go$/,/^```$/{/^```/!p}' docs/GO.md > "$folder/page/main.go"
    cp "$sample" "$folder/page/registry.txt"
    printf 'module page\n\ngo 1.19\n\nrequire %s v0.0.0\n\nreplace %s => %s/bindings/go\n' "$module" "$module" "$root" > "$folder/page/go.mod"
    printf '%s\n' yue true true de 'BadByte 1 true' 'BadByte 1 en_US' 'zh-Hant-TW Hant TW' > "$folder/page/wanted"
    writes "Go: docs/GO.md's program" "$folder/page/wanted" env -C "$folder/page" go run .
    chmod -R u+w "$folder"
else
    missing Go
fi
counted go
