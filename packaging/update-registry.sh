#!/bin/sh
# SPDX-License-Identifier: MIT OR Apache-2.0
# Fetches the newest registry that IANA publishes, and puts it in the place of FILE where it keeps what FILE promised.
#
# Usage: update-registry.sh FILE [OLD]
#
# The new file has to pass `langtag check`, to have a date that is not before that of FILE and no fewer entries, since none is
# ever removed (RFC 5646, 3.4), and to pass `langtag upgrade` from FILE; where FILE is not there yet, from OLD, which is
# registry.txt beside this script if it is not named. It takes the place of FILE at once, so that a reader sees the one or the
# other; in every other case FILE stays as it is.
#
# LANGTAG names the program, if it is not `langtag`, and LANGTAG_REGISTRY_URL another place to fetch from. It needs curl.
#
# Status: 0 FILE is the newest one; 1 nothing could be fetched; 2 the new file is refused; 3 wrong words; 4 a file, or the
# program, can't be used.
set -u

say() {
    echo "update-registry: $*" >&2
}

# date_of FILE: its File-Date, or nothing.
date_of() {
    sed -n '1s/^File-Date: *\([0-9-]*\).*/\1/p' "$1"
}

if [ $# -lt 1 ] || [ $# -gt 2 ] || [ -z "$1" ]; then
    echo 'usage: update-registry.sh FILE [OLD]' >&2
    exit 3
fi
url=${LANGTAG_REGISTRY_URL:-https://www.iana.org/assignments/language-subtag-registry/language-subtag-registry}
langtag=${LANGTAG:-langtag}
file=$(readlink -f -- "$1") || { say "no folder for $1"; exit 4; }
old=$file
[ -e "$old" ] || old=${2:-$(dirname "$0")/registry.txt}
if ! [ -r "$old" ] || ! [ -f "$old" ]; then
    say "$old can't be read"
    exit 4
fi

umask 022
new=$(mktemp "$file.XXXXXX") || { say "$(dirname "$file") can't be written"; exit 4; }
trap 'rm -f "$new"' EXIT
trap 'exit 129' HUP
trap 'exit 130' INT
trap 'exit 143' TERM

curl --fail --silent --show-error --location --proto '=https,http' --max-filesize 67108864 --max-time 600 \
    --output "$new" "$url" || { say "nothing fetched from $url: $file stays"; exit 1; }
if [ -e "$file" ] && cmp -s "$new" "$file"; then
    echo "$file is the newest: $(date_of "$file")"
    exit 0
fi

# judge WORD..: runs the program, and ends where it refuses.
judge() {
    said=$("$langtag" "$@" 2>&1)
    case $? in
        0) ;;
        1 | 2) say "refused: $said: $file stays"; exit 2 ;;
        *) say "$langtag $1: $said: $file stays"; exit 4 ;;
    esac
}

judge check "$old"
entries_before=${said#ok }
judge check "$new"
entries=${said#ok }
was=$(date_of "$old")
is=$(date_of "$new")
if [ -z "$is" ]; then
    say "refused: no File-Date: $file stays"
    exit 2
fi
if expr "x$is" '<' "x$was" > /dev/null; then
    say "refused: of $is, which is before $was: $file stays"
    exit 2
fi
if [ "$entries" -lt "$entries_before" ]; then
    say "refused: $entries entries, where $entries_before were before: $file stays"
    exit 2
fi
judge upgrade "$old" "$new"
if ! { chmod 644 "$new" && sync "$new" && mv -f "$new" "$file"; }; then
    say "$file can't be written"
    exit 4
fi
echo "$file: ${was:-no date} -> $is"
