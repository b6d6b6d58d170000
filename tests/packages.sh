#!/bin/bash
# Installs what the tests of the bindings and tests/iso_codes.py need of Debian, where it is not there: as root, or by sudo.
wanted="gcc g++ clang binutils jq valgrind qemu-user libsqlite3-dev sqlite3 python3 python3-dev python3-pip python3-venv python3-pandas python3-werkzeug mypy python3-icu
    python3-coverage chromium iso-codes libicu-dev pkg-config postgresql postgresql-server-dev-15"
# for types of Node.js, and for Java, Go and Dask
wanted="$wanted node-typescript golang-go golang-golang-x-text-dev libmaven-compiler-plugin-java libmaven-jar-plugin-java libmaven-resources-plugin-java libsurefire-java
    librust-serde-dev maven openjdk-17-jdk-headless python3-dask python3-distributed"
# for packages and releases
wanted="$wanted binutils-aarch64-linux-gnu build-essential curl debhelper dh-python gcc-aarch64-linux-gnu gpg libc6-dev-arm64-cross lintian
    qemu-user"
missing=
for package in $wanted; do
    dpkg-query -W -f '${Status}' "$package" 2> /dev/null | grep -q 'ok installed' || missing="$missing $package"
done
[ -z "$missing" ] && exit 0
as_root=
if [ "$(id -u)" != 0 ]; then
    as_root=sudo
    if ! { command -v sudo && sudo -v; } > /dev/null; then
        echo "The tests need packages of Debian that only root can install: run apt-get install$missing as root, and this again." >&2
        exit 1
    fi
fi
echo "Installing packages of Debian:$missing"
# A cluster that Debian would start is not wanted: the tests make a server of their own.
# shellcheck disable=SC2086
if ! { $as_root apt-get update -q && $as_root env DEBIAN_FRONTEND=noninteractive apt-get install -q -y --no-install-recommends $missing; } > /dev/null; then
    echo "Packages of Debian could not be installed, as apt-get said above: see to its sources and the network, and run this again." >&2
    exit 1
fi
