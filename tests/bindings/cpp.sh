#!/bin/bash
# Tests the header for C++. Arguments: the folder of tests/bindings.sh, which has tags and what the program answers;
# the program.
shared=$1
folder=$1/cpp
# shellcheck source=tests/bindings/counting.sh
. "$(dirname "$0")/counting.sh"

date=$(sed -n '1s/File-Date: //p' "$sample")
sed -n '/^```cpp$/,/^```$/{/^```/!p}' docs/C.md > "$folder/example.cpp"
passes "compile docs/C.md's example in C++" g++ -std=c++17 -Wall -Wextra -Werror -Ibindings/c -o "$folder/example-cpp" \
    "$folder/example.cpp" build/libbcp47.a
sed -n '/tags.cpp \$(pkg-config/,/^$/{/^    \$/!s/^    //p}' docs/C.md > "$folder/example-answers"
writes "docs/C.md's example in C++" "$folder/example-answers" "$folder/example-cpp" "$sample" zh-yue en_US
# Calls whose answers nobody reads, one a line.
cat > "$folder/dropped.cpp" << 'END'
#include <bcp47.hpp>
void drop(const bcp47::registry &registry, const bcp47::available &available) {
    registry.canonical("en");
    registry.extlang("en");
    registry.validate("en");
    registry.is_valid("en");
    registry.equivalent("en", "de");
    registry.match("en", "de");
    registry.available({"en"});
    registry.explain("en");
    registry.show("en");
    registry.record(1);
    registry.verify("en", {}, "en");
    registry.upgrade_check(registry);
    available.best("en");
    available.filter("en");
    bcp47::registry::from_file("registry.txt");
    bcp47::registry::from_bytes("");
    bcp47::classify("en");
    bcp47::parent("en");
    bcp47::posix("C");
    bcp47::with("en", BCP47_PART_REGION, "US");
}
END
grep -c ';$' "$folder/dropped.cpp" > "$folder/calls"
passes "20 calls" test "$(cat "$folder/calls")" = 20
for cc in g++ clang++; do
    for standard in c++17 c++20 c++2b; do
        passes "compile objects by $cc, $standard" $cc -std=$standard -O0 -Wall -Wextra -Wconversion -Wshadow -Werror -pedantic-errors -pthread \
            -Ibindings/c -o "$folder/objects" tests/bindings/objects.cpp build/libbcp47.a
        passes "objects by $cc, $standard" "$folder/objects" "$sample" "$date"
        passes "compile objects without exceptions by $cc, $standard" $cc -std=$standard -O0 -fno-exceptions -fno-rtti -Wall -Wextra -Werror -pthread \
            -Ibindings/c -o "$folder/objects-without" tests/bindings/objects.cpp build/libbcp47.a
        passes "objects without exceptions by $cc, $standard" "$folder/objects-without" "$sample" "$date"
        $cc -std=$standard -Wall -Wno-error -Ibindings/c -fsyntax-only "$folder/dropped.cpp" > "$folder/said" 2>&1
        grep -c 'warning: ignoring return' "$folder/said" > "$folder/warnings"
        passes "each answer that is dropped is told by $cc, $standard" cmp "$folder/calls" "$folder/warnings"
    done
done
writes "C++ answers as the program" "$shared/wanted" "$folder/objects" "$registry" canonical "$shared/tags"
writes "C++ explains as the program" "$shared/explained" "$folder/objects" "$registry" explain "$shared/explained-tags"
passes "compile objects for sanitizers" g++ -std=c++17 -g -O1 -fsanitize=address,undefined -fno-sanitize-recover=all -pthread -Ibindings/c -o "$folder/objects" \
    tests/bindings/objects.cpp build/libbcp47.a
passes "objects under sanitizers" "$folder/objects" "$sample" "$date"
counted cpp
