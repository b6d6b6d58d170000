#!/bin/bash
# Tests langtag.exe and bcp47.dll, which `make windows` built, by wine: with the runs of program.sh, the tests in C, and 200,000 tags. The
# last line counts; the status is 1 if any test failed. Arguments: the program of Linux (build/langtag); the folder (build/windows).
program=$(realpath "${1:-"$(dirname "$0")/../build/langtag"}")
built=$(realpath "${2:-"$(dirname "$0")/../build/windows"}")
folder=$(mktemp -d)
trap 'wineserver -k 2> /dev/null; rm -rf "$folder"' EXIT
# shellcheck source=tests/bindings/counting.sh
. "$(dirname "$0")/bindings/counting.sh"
export WINEPREFIX=$folder/prefix WINEDEBUG=-all
wineboot -i > /dev/null 2>&1

# (wine opens /dev/fd/63 in another process, where it may be a pipe that gives nothing)
printf '#!/bin/sh\nexec timeout 60 wine %s/langtag.exe "$@"\n' "$built" > "$folder/langtag"
chmod 755 "$folder/langtag"
tests/program.sh "$folder/langtag" > "$folder/told" 2>&1
grep -ao 'failed: .*: status [0-9]*' "$folder/told" | sed 's/^failed: //; s/: status.*//' | sort > "$folder/others"
# What differs: @ needs LANGTAG_REGISTRY there; words are UTF-16, and a command line has at most 32,767 of its units; a folder is no file that
# opens; a reader that goes away is told from no other failure; there are no closed streams, /dev/zero and names of pipes; wine takes more memory
# than these runs allow, and adds codes of its own at a terminal of Linux.
sort > "$folder/known" << 'END'
@: an empty LANGTAG_REGISTRY is none
@: the installed one
a command that is not UTF-8
a long row at a terminal
a long run at a terminal
a long word
a reader that goes away
a word that is not UTF-8
canon --summary at a terminal
canon at a terminal
canon at a terminal: one line
check -: closed input
check at a terminal: a record
check at a terminal: a record that came through a pipe
check at a terminal: no file
check: a folder
classify at a terminal
codes: a folder
codes: a table that comes through a pipe
codes: a table without end, in 60 MB
csv at a terminal
csv at a terminal: names that look like faults
csv at a terminal: words that look like faults
csv: a quote that is never closed, in 60 MB
explain: 57,292 lines in 40 MB
tsv at a terminal
tsv: a row that is too long, in 60 MB
upgrade at a terminal: a record
END
passes "the runs of program.sh" cmp "$folder/known" "$folder/others"
diff "$folder/known" "$folder/others"
tail -n 1 "$folder/told"

$python bench/make_tags.py "$registry" mixed > "$folder/tags"
"$program" canon "$registry" < "$folder/tags" > "$folder/wanted"
cp "$registry" "$folder/registry.txt"
canon() { (cd "$folder" && wine "$built/langtag.exe" canon registry.txt < tags); }
writes "200,000 tags" "$folder/wanted" canon

flags="-std=c11 -D_GNU_SOURCE -D__USE_MINGW_ANSI_STDIO=1 -O2 -Wall -Wextra -Werror -Ibindings/c"
cp "$built/bcp47.dll" "$folder"
for test in calls answers; do
    # shellcheck disable=SC2086
    passes "compile $test.c" x86_64-w64-mingw32-gcc $flags -o "$folder/$test.exe" tests/bindings/$test.c "$built/libbcp47.dll.a" -static -lwinpthread
done
of_sample="$(sha256sum < "$sample" | cut -d ' ' -f 1) $(grep -c '^%%' "$sample") $(sed -n '1s/File-Date: //p' "$sample")"
# shellcheck disable=SC2086
passes "the calls" env -C "$folder" wine calls.exe "$sample" $of_sample
answers() { (cd "$folder" && wine answers.exe registry.txt tags 4 | tr -d '\r'); }
writes "the library's answers" "$folder/wanted" answers
counted windows
