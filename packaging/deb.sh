#!/bin/sh
# Makes the packages of Debian of what `make` and `make lib` built, in FOLDER, and prints their names.
#
# Usage: packaging/deb.sh FOLDER
#
# It needs debhelper. The same files and the same SOURCE_DATE_EPOCH, which is the date of packaging/debian/changelog if it
# is not set, give the same bytes.
set -eu

ROOT=$(cd "$(dirname "$0")/.." && pwd)
export ROOT
command -v dh > /dev/null || { echo 'there is no debhelper: install it first' >&2; exit 1; }
mkdir -p "${1:?a folder is wanted}"
to=$(cd "$1" && pwd)
work=$(mktemp -d)
trap 'rm -rf "$work"' EXIT

# dpkg-buildpackage writes the packages beside the folder in which it works.
mkdir "$work/langtag"
cp -r "$ROOT/packaging/debian" "$work/langtag/debian"
cd "$work/langtag"
if ! DEB_BUILD_OPTIONS=noautodbgsym dpkg-buildpackage -b -us -uc > "$work/log" 2>&1; then
    tail -n 20 "$work/log" >&2
    exit 1
fi
mv ../*.deb "$to"
cd ..
sed -n 's/^ [0-9a-f]\{64\} [0-9]* \(.*\.deb\)$/\1/p' ./*.changes | while read -r name; do echo "$to/$name"; done
