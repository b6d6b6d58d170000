#!/bin/bash
# Compares the messages of the program with the table of faults in the manual, name by name and word by word, and both with
# the names that the crates print. The last line counts; the status is 1 if they differ.
cd "$(dirname "$0")/.." || exit 1
manual=$(mktemp)
program=$(mktemp)
trap 'rm -f "$manual" "$program"' EXIT
sed -n '/^\.SH NAMES OF FAULTS/,/^\.SH AT A TERMINAL/p' docs/langtag.1 |
    awk '/^\.TP/ { getline; name = substr($0, 4); getline; print name ": " $0 }' | sed 's/\\-/-/g; s/\\e/\\/g' > "$manual"
sed -n '/^const MESSAGES/,/^\];/p' crates/lt_terminal/src/meanings.rt | sed -n 's/^    "\(.*\)",$/\1/p' > "$program"
if ! diff "$manual" "$program"; then
    echo 'the manual and the program differ'
    exit 1
fi
missing=0
# BadStep is printed by `verify` alone
for name in BadStep $(sed -n 's/.*=> "\([A-Z][A-Za-z0-9]*\)",.*/\1/p' crates/lt_{tag,jar,registry,check,upgrade,canon,stream,lines,codes}/src/*.rt | sort -u); do
    case $name in
        # of a call of a library, which the program never prints
        Failed) ;;
        *) grep -q "^$name: " "$program" || { missing=1; echo "no message for $name"; } ;;
    esac
done
echo "$(wc -l < "$program") messages"
[ "$missing" = 0 ]
