#!/bin/bash
# Tests the package for Java, and matching beside that of java.util.Locale. Arguments: the folder of tests/bindings.sh, which has
# tags and what the program answers; the program.
shared=$1
folder=$1/java
# shellcheck source=tests/bindings/counting.sh
. "$(dirname "$0")/counting.sh"

# says TEXT JAVA..: what Java tells of a library that it can't start.
says() {
    local text=$1
    shift
    "$@" -cp "$jar:$folder/tests" bcp47.Calls "$sample" 2>&1 | grep -q -e "UnsatisfiedLinkError.*$text"
}

if command -v javac > /dev/null; then
    mkdir "$folder/tests" "$folder/page"
    # what runs once, and is no test of the library, is not made faster as it runs
    once=(-XX:TieredStopAtLevel=1 -XX:+UseSerialGC)
    passes "Java: build" env TARGET="$folder/target" bindings/java/build.sh
    cat "$folder/err"
    jar=$folder/target/bcp47-$(cat VERSION).jar
    bundled=$(ls "$folder"/target/bcp47-registry-*.jar)
    passes "Java: compile the tests" javac "${once[@]/#/-J}" --release 17 -Xlint:all -Werror -cp "$jar" -d "$folder/tests" bindings/java/src/test/java/bcp47/*.java
    printf 'ok\n' > "$folder/ok"
    writes "Java: calls" "$folder/ok" java -Xcheck:jni -cp "$jar:$folder/tests" bcp47.Calls "$sample"
    writes "Java: calls beside the registry of its jar" "$folder/ok" java -cp "$jar:$bundled:$folder/tests" bcp47.Calls "$sample" bundled
    # the library of java.library.path, under the address sanitizer; the virtual machine has signals of its own
    passes "Java: compile for sanitizers" env CFLAGS="-O1 -fsanitize=address,undefined -fno-sanitize-recover=all" TARGET="$folder/checked" \
        bindings/java/build.sh native
    writes "Java: calls under sanitizers" "$folder/ok" env LD_PRELOAD="$(gcc -print-file-name=libasan.so) $(gcc -print-file-name=libubsan.so)" \
        ASAN_OPTIONS=handle_segv=0:detect_leaks=0:quarantine_size_mb=1 java \
        -Djava.library.path="$folder/checked/native/bcp47/linux-amd64" -cp "$jar:$folder/tests" bcp47.Calls "$sample"
    writes "Java answers as the program" "$shared/wanted" java -cp "$jar:$folder/tests" bcp47.Answers "$registry" "$shared/tags"
    writes "Java explains as the program" "$shared/explained" java -cp "$jar:$folder/tests" bcp47.Answers "$registry" "$shared/explained-tags" explain
    passes "Java: a filter answers browsers" tests/bindings/browsers.sh java -cp "$jar:$folder/tests" bcp47.Serve
    passes "java.util.Locale serves alike but for known causes" java "${once[@]}" -cp "$jar" bench/peers/Best.java "$registry" 20000
    sed -n '/^```java$/,/^```$/{/^```/!p}' docs/JAVA.md > "$folder/page/Page.java"
    cp "$sample" "$folder/page/registry.txt"
    printf '%s\n' yue true true de 'BadByte 1 BAD_BYTE 1' '[he, ! BadByte 1]' 'zh-Hant-TW Hant' > "$folder/page/wanted"
    writes "Java: docs/JAVA.md's program" "$folder/page/wanted" env -C "$folder/page" java -cp "$jar" Page.java
    mkdir "$folder/modules"
    sed 's/Registry.open(Path.of("registry.txt"))/Registry.bundled()/' "$folder/page/Page.java" > "$folder/modules/Page.java"
    writes "Java: modules, with the registry of its jar" "$folder/page/wanted" java -p "$jar:$bundled" --add-modules bcp47,bcp47.registry \
        "$folder/modules/Page.java"
    # the method of the page, which the filter above calls
    awk '/^## / { is_it = $0 == "## In a web service" } is_it && /^    /' docs/JAVA.md > "$folder/block"
    passes "Java: the filter is that of docs/JAVA.md" $python -c 'import sys
block, program = (open(name).read() for name in sys.argv[1:])
sys.exit(len(block) < 200 or block not in program)' "$folder/block" bindings/java/src/test/java/bcp47/Serve.java
    # Each other Java that is here, from 17 on.
    for other in /usr/lib/jvm/*/bin/java; do
        number=$("$other" -version 2>&1 | sed -nE '1s/.*"([0-9]+).*/\1/p')
        { [ -L "$(dirname "$(dirname "$other")")" ] || [ "$number" -le 17 ]; } && continue
        writes "Java $number: calls" "$folder/ok" "$other" --enable-native-access=ALL-UNNAMED -cp "$jar:$folder/tests" bcp47.Calls "$sample"
        writes "Java $number: as a module" "$folder/page/wanted" env -C "$folder/page" "$other" --enable-native-access=bcp47 -p "$jar" --add-modules bcp47 Page.java
        [ "$number" -lt 24 ] || passes "Java $number: what is to be allowed is told" says "--enable-native-access=ALL-UNNAMED" "$other" --illegal-native-access=deny
    done
    # what Maven Central asks of each pom
    for pom in "$folder"/target/*.pom; do
        passes "Java: $(basename "$pom") is whole" $python -c 'import sys, xml.etree.ElementTree as tree
pom = tree.parse(sys.argv[1])
for path in "groupId artifactId version name description url licenses/license/name developers/developer/name scm/url".split():
    found = pom.find("m:" + path.replace("/", "/m:"), {"m": "http://maven.apache.org/POM/4.0.0"})
    assert found is not None and found.text.strip(), path' "$pom"
    done
    passes "Java: no call for many tags, which a loop serves as well" sh -c '! grep -ri "canonicalMany" bindings/java/src/main'
    if java -Djava.security.manager -version > /dev/null 2>&1; then
        printf '%s\n' 'grant { permission java.io.FilePermission "<<ALL FILES>>", "read"; permission java.util.PropertyPermission "*", "read";' \
            'permission java.lang.RuntimePermission "accessDeclaredMembers"; };' > "$folder/policy"
        passes "Java: what is to be allowed is told, where a policy denies it" says "--enable-native-access=ALL-UNNAMED" java \
            -Djava.security.manager -Djava.security.policy=="$folder/policy"
    fi
    passes "Java: no temporary folder" says "-Djava.io.tmpdir.*-Djava.library.path" java -Djava.io.tmpdir=/no/such/folder
    mkdir "$folder/noexec"
    if mount -t tmpfs -o noexec none "$folder/noexec" 2> /dev/null; then
        passes "Java: a temporary folder where nothing runs" says "-Djava.io.tmpdir.*-Djava.library.path" java -Djava.io.tmpdir="$folder/noexec"
        umount "$folder/noexec"
    fi
    if command -v mvn > /dev/null && [ -d /usr/share/maven-repo/org/apache/maven/plugins/maven-jar-plugin/3.3.0 ]; then
        # Debian's repository, which Maven would write to
        cp -rs /usr/share/maven-repo "$folder/repository"
        maven=$folder/maven/bindings/java
        mkdir -p "$maven"
        cp LICENSE* "$folder/maven"
        cp -r bindings/java/pom.xml bindings/java/src "$maven"
        mkdir -p "$maven/src/main/resources"
        cp -r "$folder/target/native/bcp47" "$maven/src/main/resources"
        passes "Java: Maven, offline" env -C "$maven" MAVEN_OPTS="${once[*]}" mvn -o -q -B -Dmaven.repo.local="$folder/repository" package
        writes "Java: Maven's jar answers" "$folder/page/wanted" env -C "$folder/page" java -cp "$(ls "$maven"/target/bcp47-*.jar)" Page.java
    else
        echo "no Maven with Debian's plugins here: the package for Java is not built by it"
    fi
    for made in "$folder"/target/*.jar "$folder"/maven/bindings/java/target/*.jar; do
        [ -e "$made" ] || continue
        passes "Java: $(basename "$made") has the licences" test "$(jar -tf "$made" | grep -c '^META-INF/LICENSE')" = 3
        passes "Java: $(basename "$made") has a module's name" sh -c 'unzip -p "$1" META-INF/MANIFEST.MF | grep -q "^Automatic-Module-Name: bcp47"' - "$made"
    done
    passes "java.util.Locale: the package for Python" $python -m pip install -q --no-index --root-user-action=ignore \
        --target "$folder/package" bindings/python
    passes "java.util.Locale matches alike but for known causes" env PYTHONPATH="$folder/package" $python -B bench/peers/matching.py "$registry"
    cat "$folder/out"
else
    missing JDK
fi
counted java
