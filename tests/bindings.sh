#!/bin/bash
# Builds what stands on the library for C, which `make lib` built, and runs its tests: C, and beside it Python, SQLite and PostgreSQL, C++,
# Rust, Node.js, Java, Go and Dask. Each has to answer 200,000 tags as the program does. The last line counts; the status
# is 1 if any test failed.
#
# Usage: tests/bindings.sh [PROGRAM [PART..]]     build/langtag, and all; the parts are python, sql, cpp, rust, node, java, go and dask
set -e
cd "$(dirname "$0")/.."
program=$(realpath "${1:-build/langtag}")
tests/packages.sh
[ -e build/libbcp47.a ] || make -s lib
folder=$(mktemp -d)
chmod 755 "$folder"
trap 'rm -rf "$folder"' EXIT
set +e
# shellcheck source=tests/bindings/counting.sh
. tests/bindings/counting.sh

$python bench/make_tags.py "$registry" mixed > "$folder/tags"
"$program" canon "$registry" < "$folder/tags" > "$folder/wanted"
head -n 3000 "$folder/tags" > "$folder/few"
passes "200,000 tags" test "$(wc -l < "$folder/tags")" = 200000
# Tags that are changed or refused, and some that are neither; none has a byte that a shell or a CSV reads as its own.
paste -d '\t' "$folder/tags" "$folder/wanted" | awk -F '\t' '$1 ~ /^[-A-Za-z0-9_]+$/ && (tolower($1) != tolower($2) || NR % 50 == 0) && !seen[$1]++ {print $1}' |
    head -n 400 > "$folder/explained-tags"
passes "400 tags to explain" test "$(wc -l < "$folder/explained-tags")" = 400
while read -r tag; do "$program" explain "$registry" "$tag"; done < "$folder/explained-tags" > "$folder/explained" 2> "$folder/err"

# Tags of each record, and some that are refused, with the rows that are shown of them.
{ tests/bindings/rows.py tags "$registry"; cat "$folder/explained-tags"; } > "$folder/shown-tags"
passes "tags of each record" test "$(wc -l < "$folder/shown-tags")" -gt 18000
tests/bindings/rows.py rows "$program" "$registry" "$folder/shown-tags" > "$folder/shown"

# A script for each, beside what is below.
if [ $# -gt 1 ]; then parts=${*:2}; else parts="python sql cpp rust node java go dask"; fi
for part in $parts; do
    mkdir "$folder/$part"
    tests/bindings/"$part".sh "$folder" "$program" > "$folder/$part.told" 2>&1 &
done

# Waits for them, and counts what they counted.
count_parts() {
    wait
    for part in $parts; do
        cat "$folder/$part.told"
        read -r name ours _ theirs _ < <(tail -n 1 "$folder/$part.told")
        if [ "$name" = "$part:" ]; then
            passed=$((passed + ours))
            failed=$((failed + theirs))
        else
            failed=$((failed + 1))
        fi
    done
    counted bindings
}
if [ $# -gt 1 ]; then
    count_parts
    exit
fi

# The program at the head of the page.
mkdir "$folder/examples"
cp "$sample" "$folder/examples/registry.txt"
sed -n '/^```c$/,/^```$/{/^```/!p}' docs/C.md > "$folder/examples/example.c"

# ---- C
export LD_LIBRARY_PATH=$root/build
within="-Wl,--wrap=malloc,--wrap=calloc"
of_sample="$(sha256sum < "$sample" | cut -d ' ' -f 1) $(grep -c '^%%' "$sample") $(sed -n '1s/File-Date: //p' "$sample")"

# The header, alone, by each standard.
for standard in c90 c99 c11 c17 c2x; do
    for cc in gcc clang; do
        passes "header by $cc, $standard" $cc -std=$standard -Wall -Wextra -Werror -pedantic-errors -Wstrict-prototypes \
            -fsyntax-only -x c bindings/c/bcp47.h
    done
done
for standard in c++98 c++11 c++14 c++17 c++20 c++2b; do
    for cc in g++ clang++; do
        passes "header by $cc, $standard" $cc -std=$standard -Wall -Wextra -Werror -pedantic-errors -fsyntax-only -x c++ \
            bindings/c/bcp47.h
    done
done

# What is no text, no buffer and no registry does not compile.
for words in "(int *)0, 0, 0, 0" "0, 0, (unsigned *)0, 0"; do
    printf '#include <bcp47.h>\nbcp47_outcome f(bcp47_registry *r) { return bcp47_canonical(r, %s); }\n' "$words" > "$folder/wrong.c"
    passes "a wrong pointer: $words" sh -c '! gcc -Werror -Ibindings/c -fsyntax-only "$1" 2> "$1.said" && grep -q "incompatible" "$1.said"' - "$folder/wrong.c"
done

# The library as it is shipped: static and shared, and under valgrind.
printf 'yue\ntlh\nrefused: BadByte, place 1\n' > "$folder/example-answers"
made example "$folder/examples/example.c" build/libbcp47.a
writes "docs/C.md's example" "$folder/example-answers" "$folder/example" "$sample" zh-yue I-KLINGON en_US
writes "docs/C.md's example, of a tag without a canonical form" <(echo 'refused: ReplacementRepeats, place 0') "$folder/example" "$registry" ja-heploc-alalc97
made calls tests/bindings/calls.c build/libbcp47.a
made calls-shared tests/bindings/calls.c -Lbuild -lbcp47
made answers-shared tests/bindings/answers.c -Lbuild -lbcp47
made answers tests/bindings/answers.c build/libbcp47.a
made growths tests/bindings/growths.c build/libbcp47.a $wrapped
made threads tests/bindings/threads.c build/libbcp47.a
made stacks tests/bindings/stacks.c build/libbcp47.a
# shellcheck disable=SC2086
{
    passes "calls" "$folder/calls" "$sample" $of_sample
    passes "calls, shared" "$folder/calls-shared" "$sample" $of_sample
    passes "calls under valgrind" valgrind -q --error-exitcode=9 --leak-check=full "$folder/calls" "$sample" $of_sample
}
passes "each growth refused" "$folder/growths" "$sample"
cat "$folder/out"
passes "growths refused under valgrind" valgrind -q --error-exitcode=9 --leak-check=full "$folder/growths" "$sample" 50
passes "small stacks" "$folder/stacks" "$registry" 16
tail -n 1 "$folder/out"
passes "threads of 64 kB" "$folder/threads" "$registry" "$folder/tags" 20000 8 65536
passes "70 threads" "$folder/threads" "$registry" "$folder/tags" 300 70
passes "a signal handler that asks" "$folder/threads" "$sample" "$folder/few" 500 2 signals
passes "forks in the midst of calls" "$folder/threads" "$sample" "$folder/few" 500 6 forks
writes "C answers as the program" "$folder/wanted" "$folder/answers-shared" "$registry" "$folder/tags" 1
writes "C explains as the program" "$folder/explained" "$folder/answers-shared" "$registry" "$folder/explained-tags" 4 explain
writes "C shows as the program" "$folder/shown" "$folder/answers-shared" "$registry" "$folder/shown-tags" 4 show

# Under sanitizers. The proved calls have none, so that helgrind and drd, which see each instruction, look at them too.
# shellcheck disable=SC2086
gcc $flags $memory -r -o "$folder/checked.o" $files
made calls-memory tests/bindings/calls.c "$folder/checked.o" $memory
made growths-memory tests/bindings/growths.c "$folder/checked.o" $memory $wrapped
made nested tests/bindings/nested.c $files $memory -DBCP47_SLOTS=64 -DBCP47_WAIT=9 $within
made nested-few tests/bindings/nested.c $files $memory -DBCP47_SLOTS=4 -DBCP47_WAIT=9 $within
made threads-memory tests/bindings/threads.c "$folder/checked.o" $memory
made answers-memory tests/bindings/answers.c "$folder/checked.o" $memory
made threads-forks tests/bindings/threads.c $files -O1 -DBCP47_SLOTS=2
made threads-races tests/bindings/threads.c $files -O1 -DBCP47_SLOTS=4 -fsanitize=thread
made threads-helgrind tests/bindings/threads.c $files -O1 -DBCP47_SLOTS=4 -include tests/bindings/order.h
made threads-drd tests/bindings/threads.c $files -O1 -DBCP47_SLOTS=4 -DDRD -include tests/bindings/order.h
# shellcheck disable=SC2086
passes "calls under sanitizers" "$folder/calls-memory" "$sample" $of_sample
passes "each growth refused under sanitizers" "$folder/growths-memory" "$sample"
passes "calls within calls" "$folder/nested" "$sample"
passes "calls within calls, of few slots, each growth refused" "$folder/nested-few" "$sample" refused
passes "forks in the midst of calls, of few slots" "$folder/threads-forks" "$sample" "$folder/few" 500 6 forks
passes "signals under sanitizers" "$folder/threads-memory" "$sample" "$folder/few" 500 2 signals
writes "8 readers under sanitizers" "$folder/wanted" "$folder/answers-memory" "$registry" "$folder/tags" 8
passes "8 threads under the thread sanitizer" "$folder/threads-races" "$registry" "$folder/tags" 3000 8
passes "70 threads under the thread sanitizer" "$folder/threads-races" "$sample" "$folder/few" 100 70
passes "8 threads under helgrind" valgrind -q --tool=helgrind --error-exitcode=9 "$folder/threads-helgrind" "$sample" "$folder/few" 100 8
passes "8 threads under drd" valgrind -q --tool=drd --error-exitcode=9 "$folder/threads-drd" "$sample" "$folder/few" 100 8

# Each line and each branch of the files in C.
mkdir "$folder/coverage"
for source in bcp47 names; do
    # shellcheck disable=SC2086
    passes "compile $source for gcov" gcc $flags -O0 --coverage -DBCP47_SLOTS=4 -DBCP47_WAIT=9 -c bindings/c/$source.c -o "$folder/coverage/$source.o"
done
# shellcheck disable=SC2086
{
    made coverage/calls tests/bindings/calls.c "$folder"/coverage/*.o build/proved.o --coverage
    made coverage/growths tests/bindings/growths.c "$folder"/coverage/*.o build/proved.o --coverage $wrapped
    made coverage/nested tests/bindings/nested.c "$folder"/coverage/*.o build/proved.o --coverage -DBCP47_SLOTS=4 $within
    passes "calls for gcov" "$folder/coverage/calls" "$sample" $of_sample
}
passes "growths for gcov" "$folder/coverage/growths" "$sample"
passes "nested for gcov" "$folder/coverage/nested" "$sample" refused
(cd "$folder/coverage" && gcov -b -o . bcp47.o names.o > report 2>&1)
grep -A 2 -E "^File '.*bindings/c/" "$folder/coverage/report" | grep -vE '^--$|^File|:100.00%' > "$folder/uncovered"
passes "each line and branch in C is run" test ! -s "$folder/uncovered" -a "$(grep -c ':100.00%' "$folder/coverage/report")" -ge 4

# On the oldest processor of x86-64.
passes "calls on the oldest processor" qemu-x86_64 -cpu qemu64 "$folder/calls" "$sample" $of_sample
writes "answers of the oldest processor" <(head -n 3000 "$folder/wanted") qemu-x86_64 -cpu qemu64 "$folder/answers" "$registry" "$folder/few" 1

# What is seen of it, and by whom.
grep -o 'bcp47_[a-z_]*;' bindings/c/bcp47.map | tr -d ';' | sort > "$folder/exported"
sed -nE 's/.*[ *](bcp47_[a-z_]+)\(.*[;,]$/\1/p' bindings/c/bcp47.h | sort -u > "$folder/declared"
passes "each call of the header is exported" cmp "$folder/exported" "$folder/declared"
nm -D --defined-only build/libbcp47.so.1 | sed -n 's/.* T \(.*\)@@BCP47_1.1$/\1/p' | sort > "$folder/seen"
passes "only the calls are seen" cmp "$folder/exported" "$folder/seen"
nm -g --defined-only build/libbcp47.a | sed -n 's/.* [A-Z] //p' | sort > "$folder/seen"
passes "only the calls are seen in the static library" cmp "$folder/exported" "$folder/seen"
made host tests/bindings/module.c -ldl -rdynamic
made module.so tests/bindings/module.c -DMODULE -shared -fPIC build/libbcp47.a
passes "two libraries in a process" "$folder/host" "$folder/module.so" "$sample"
# `nothing` is the kit's: where allocations of no bytes are.
passes "nothing is global but constants" test -z "$(nm build/libbcp47.a | grep -E ' [bBdDsSgG] ' | grep -vE ' (d (statuses|faults|kinds|part_kinds)|b nothing)$')"

# The names of locales that others have.
passes "names of locales" $python tests/bindings/locales.py build/libbcp47.so.1 "$registry"

# The names of numbers, and what each means: those of the proved calls and of the program.
made numbers tests/bindings/numbers.c $files
passes "names" "$folder/numbers"
sed -n 's/^    "\(.*\)",$/\1/p' crates/lt_terminal/src/meanings.rt > "$folder/messages"
grep -vE '^(None|Failed|BadFirst|ExtendedRange|BadWeight|BadHeader|Done|NotATag|Invalid|BufferTooSmall|Different|BadFile|BadRecord|Rejected|NoUpgrade|NoSuchStep|WrongEnd|NotOpen|BadCall|Busy|TooManySteps|NoEntries): ' \
    "$folder/out" > "$folder/helps"
passes "meanings" test "$(grep -cvxFf "$folder/messages" "$folder/helps")" = 0 -a "$(wc -l < "$folder/helps")" = 53

count_parts
