#!/bin/bash
# Builds what Maven's repositories take, in the folder TARGET (target, if there is none), by the tools of a JDK from 17 on:
# bcp47-VERSION.jar with the library that `make lib` built inside, its sources, its documentation and its pom, and
# bcp47-registry-DATE.jar with a registry of IANA's.
#
# Usage: build.sh [native]     `native` makes the library alone, in src/main/resources, for Maven
#
# JAVA_HOME names the JDK; BCP47_LIBRARY another libbcp47.a; SOURCE_DATE_EPOCH the time of the files; CC and CFLAGS are as for make.
set -e
cd "$(dirname "$0")"
version=$(cat ../../VERSION)
registry=../../examples/iana-2025-05-15.txt
day=$(sed -n '1s/File-Date: //p' "$registry" | tr - .)
home=${JAVA_HOME:-$(dirname "$(dirname "$(readlink -f "$(command -v javac)")")")}
target=${TARGET:-target}
inside=$target/native/bcp47/linux-amd64
[ "${1:-}" != native ] || inside=src/main/resources/bcp47/linux-amd64
time=$(date -u -d "@${SOURCE_DATE_EPOCH:-$(date +%s)}" +%Y-%m-%dT%H:%M:%SZ)

# archive NAME FOLDER: the files of a folder and the licences as a jar, in the order of their names
archive() {
    mkdir -p "$target/$2/META-INF"
    cp ../../LICENSE* "$target/$2/META-INF"
    (cd "$target/$2" && find . -type f | LC_ALL=C sort | sed 's#^\./##') > "$target/files"
    rm -f "$target/$1.jar"
    (cd "$target/$2" && "$home/bin/jar" "${once[@]}" --create --date="$time" --manifest=../manifest --file="../$1.jar" @../files)
}

# what runs once is not made faster as it runs
once=(-J-XX:TieredStopAtLevel=1 -J-XX:+UseSerialGC)

mkdir -p "$inside"
${CC:-cc} -std=c11 ${CFLAGS:--O2} -fPIC -shared -fvisibility=hidden -Wall -Wextra -Wno-unused-parameter -Werror -I../c -I"$home/include" \
    -I"$home/include/linux" -o "$inside/libbcp47jni.so" src/main/c/bcp47_jni.c \
    "${BCP47_LIBRARY:-../../build/libbcp47.a}" -Wl,--exclude-libs,ALL -Wl,-z,now -s
[ "${1:-}" = native ] && exit
rm -rf "$target"/{classes,sources,documentation,registry}
echo "Automatic-Module-Name: bcp47" > "$target/manifest"
"$home/bin/javac" "${once[@]}" --release 17 -Xlint:all -Werror -d "$target/classes" src/main/java/bcp47/*.java
cp -r "$target/native/bcp47" "$target/classes"
archive "bcp47-$version" classes
mkdir "$target/sources"
cp -r src/main/java/bcp47 "$target/sources"
archive "bcp47-$version-sources" sources
"$home/bin/javadoc" "${once[@]}" -quiet -notimestamp -Xdoclint:all -Werror -d "$target/documentation" src/main/java/bcp47/*.java
archive "bcp47-$version-javadoc" documentation
cp pom.xml "$target/bcp47-$version.pom"
echo "Automatic-Module-Name: bcp47.registry" > "$target/manifest"
mkdir -p "$target/registry/META-INF/bcp47"
cp "$registry" "$target/registry/META-INF/bcp47/registry.txt"
archive "bcp47-registry-$day" registry
sed "/<build>/,/<\/build>/d; s#<artifactId>bcp47<#<artifactId>bcp47-registry<#; s#<name>bcp47<#<name>bcp47-registry<#
    s#<version>$version<#<version>$day<#; s#<description>.*<#<description>IANA's Language Subtag Registry of $day, for bcp47<#" \
    pom.xml > "$target/bcp47-registry-$day.pom"
