#!/bin/bash
# Compares what stands in several places of the repository: what tools/describe.py writes, the licence with LICENSE, the picture
# of the layers with crates.txt, the examples of docs/LIBRARY.md with the code. It also looks whether proofs have short lines and
# comments. It needs no toolchain. The last line counts; the status is 1 if anything is amiss.
cd "$(dirname "$0")/.." || exit 1
passed=0
failed=0

# passes NAME COMMAND..: runs a command, and counts it.
passes() {
    local name=$1
    shift
    if "$@"; then
        passed=$((passed + 1))
    else
        failed=$((failed + 1))
        echo "failed: $name"
    fi
}

# says FILE VERSION PATTERN: the only line of the file that fits the pattern has this version where the pattern has a group.
says() {
    passes "$1: $2" test "$(sed -nE "s@^$3\$@\\1@p" "$1")" = "$2"
}

version=$(cat VERSION)
passes "VERSION has three numbers" grep -qxE '[0-9]+\.[0-9]+\.[0-9]+' VERSION
passes "what tools/describe.py writes" tools/describe.py --check
says CHANGELOG.md "$version" "## ($version)"
says packaging/debian/changelog "$version" "langtag \\(($version)-[0-9]+\\) .*"

# The extension of PostgreSQL has a version of its own, which changes where its functions do: each script leads to one.
says bindings/postgresql/bcp47.control "${version%.*}" "default_version = '([0-9.]+)'"
passes "a script of PostgreSQL's version" ls bindings/postgresql/bcp47--*"${version%.*}.sql" > /dev/null

licence='MIT OR Apache-2.0'
passes "LICENSE names its licence" test "$(head -n 1 LICENSE)" = "SPDX-License-Identifier: $licence"
passes "LICENSE-MIT is of the holder" grep -qx 'Copyright (c) 2026 Tiugasem maintainers' LICENSE-MIT
passes "LICENSE-APACHE is whole" test "$(sha256sum < LICENSE-APACHE)" = \
    'cfc7749b96f63bd31c3c42b5c471bf756814053e847c10f3eb003417bc523d30  -'
for file in bindings/c/bcp47.h bindings/c/bcp47.pc.in bindings/python/pyproject.toml bindings/postgresql/bcp47.control packaging/debian/control; do
    passes "$file has the licence" grep -q "SPDX-License-Identifier: $licence" "$file"
done

# What is built has crates of the kit in it: LICENSE, the packages' copyright and a release's list name each with its licence.
passes "the licences of the kit's crates" python3 -B - << 'END'
import re, sys
from pathlib import Path

sys.path.insert(0, "packaging")
import parts

found = parts.uses()
inside = parts.kit_below("langtag", found) | parts.kit_below("bcp47_c", found)
inside -= {"std_collections"} | parts.STANDARD["program"]
named = re.findall(r"^  (\w+) +((?:MIT|Apache).*?)  ", Path("LICENSE").read_text(), re.M)
copyright = Path("packaging/debian/copyright").read_text()
packaged = {name for name in parts.LICENCES if re.search(rf"\b{name}\b", copyright)}
if not dict(named) == parts.LICENCES or not set(parts.LICENCES) == inside == packaged:
    sys.exit(f"crates.txt: {sorted(inside)}, LICENSE: {named}, copyright: {sorted(packaged)}")
END

passes "CONTRIBUTING.md has the picture of crates.txt" tools/layers_picture.py --check
wide=$(LC_ALL=C.UTF-8 git grep -nE '^.{141}' -- 'crates/*.antt')
passes "lines of at most 140 columns in definitions and proofs${wide:+: $wide}" test -z "$wide"
bare=$(git grep -L '^ *--' -- 'crates/*/Answers.antt')
passes "a comment in each file of answers${bare:+: $bare}" test -z "$bare"
passes "the codes of three letters" tools/language_codes.py
passes "the group of Maven is a domain's" grep -qE '^maven_group = [a-z0-9]+([.][a-z0-9-]+)+$' packaging/PUBLISHER
for page in PYTHON RUST NODE JAVA GO; do
    passes "docs/$page.md says where registry.txt is from" grep -q '^    curl -fsSo registry.txt https://www.iana.org/' "docs/$page.md"
done

# Each example of docs/LIBRARY.md stands so in the file that it names, item by item; the first is a whole program.
passes "docs/LIBRARY.md's examples are those of its crates" python3 -B - << 'END'
import re, sys
from pathlib import Path

blocks = re.findall(r"^```rust\n(.*?)^```$", Path("docs/LIBRARY.md").read_text(), re.M | re.S)
named = [re.match(r"// (crates/\S+)\n(.*)", block, re.S) for block in blocks[1:]]
if len(blocks) < 4 or None in named or blocks[0] != Path("crates/same_language/src/main.rt").read_text():
    sys.exit(f"{len(blocks)} examples, and one names no file")
for path, text in (match.groups() for match in named):
    for item in re.split(r"\n\n(?=\S)", text.strip()):
        if item + "\n" not in Path(path).read_text():
            sys.exit(f"{path} doesn't have: {item}")
END

echo "repository: $passed passed, $failed failed"
[ "$failed" = 0 ]
