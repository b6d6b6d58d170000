# shellcheck shell=bash disable=SC2034
# Counts the tests of a script that reads this by `.` and has set `folder`; the repository's places are set here.
root=$(cd "$(dirname "${BASH_SOURCE[0]}")/../.." && pwd)
sample=$root/examples/sample-registry.txt
registry=$root/examples/iana-2025-05-15.txt
python=/usr/bin/python3
passed=0
failed=0
# How tests in C are compiled: over the library's files, with what refuses growths, and under sanitizers.
flags="-std=c11 -D_GNU_SOURCE -g -Wall -Wextra -Werror -pthread -Ibindings/c"
wrapped="-Wl,--wrap=malloc,--wrap=calloc,--wrap=realloc"
files="bindings/c/bcp47.c bindings/c/names.c build/proved.o"
memory="-O1 -fsanitize=address,undefined -fno-sanitize-recover=all"
cd "$root" || exit 1

# passes NAME COMMAND..: runs a command, and counts it.
passes() {
    local name=$1
    shift
    if "$@" > "$folder/out" 2> "$folder/err"; then
        passed=$((passed + 1))
    else
        failed=$((failed + 1))
        echo "failed: $name"
        head -n 20 "$folder/out" "$folder/err"
        return 1
    fi
}

# writes NAME FILE COMMAND..: a command has to write what the file has, and no signal may end it.
writes() {
    local name=$1 wanted=$2 status=0
    shift 2
    "$@" > "$folder/written" 2> "$folder/told" || status=$?
    [ "$status" -lt 126 ] || echo "$name ended with $status" >> "$folder/written"
    passes "$name" cmp "$wanted" "$folder/written" || head -n 20 "$folder/told"
}

# made NAME SOURCE FLAG..: compiles a test in C to $folder/NAME.
made() {
    local name=$1 source=$2
    shift 2
    # shellcheck disable=SC2086
    passes "compile $name" gcc $flags -o "$folder/$name" "$source" "$@"
}

# program_of PAGE LANGUAGE N: the program in a language that a page has, by its number.
program_of() {
    awk -v begin="\`\`\`$2" -v n="$3" '$0 == begin { is_it = ++i == n; next } /^```$/ { is_it = 0 } is_it' "docs/$1"
}

# missing WHAT: what tests/packages.sh installs is not there, and so not tested.
missing() {
    failed=$((failed + 1))
    echo "failed: no $1 here"
}

# counted NAME: how many passed; the status is 1 if any failed.
counted() {
    echo "$1: $passed passed, $failed failed, $SECONDS s"
    [ "$failed" = 0 ]
}
