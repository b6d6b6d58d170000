#!/bin/bash
# Uses the packages as a new user does, in a Debian of their own: installs them by apt, runs the program, compiles and runs
# the example of docs/C.md, brings the registry up to date, asks Python, SQLite and PostgreSQL, removes all, and looks for
# what is left.
#
# Usage: tests/fresh_debian.sh [FOLDER]
#
# It has to be root, and needs debootstrap, debhelper and python3. The Debian, a bookworm with the packages that are
# named below, is made once, which takes some minutes and the network, and is kept in FOLDER (build/debian, if none is named);
# each run works on a copy, and neither build nor kit are in it. It takes what `make` and `make lib` built. The last line counts; the status is 1 if
# anything failed.
set -e
cd "$(dirname "$0")/.."
kept=${1:-build/debian}
[ "$(id -u)" = 0 ] || { echo 'fresh_debian.sh has to be root' >&2; exit 1; }
mkdir -p "$kept"
include=ca-certificates,curl,gcc,libc6-dev,pkg-config,postgresql-15,python3,sqlite3
base=$kept/bookworm,$include.tar
if [ ! -e "$base" ]; then
    echo "making a Debian in $kept"
    rm -rf "$kept"/system "$kept"/*.tar
    debootstrap --variant=minbase --include="$include" bookworm "$kept/system" > "$kept/log"
    rm -rf "$kept"/system/var/cache/apt/archives/*.deb
    tar -C "$kept/system" -cf "$kept/new" .
    rm -rf "$kept/system"
    mv "$kept/new" "$base"
fi
place=$(mktemp -d -p "$kept")
server=
# The servers that it began end with it.
finish() {
    [ -z "$server" ] || kill "$server"
    if [ -e "$place/system/new/server/data/postmaster.pid" ]; then
        kill -QUIT "$(head -n 1 "$place/system/new/server/data/postmaster.pid")"
        sleep 1
    fi
    rm -rf "$place"
}
trap finish EXIT
chmod 755 "$place"
mkdir "$place/system"
tar -C "$place/system" -xf "$base"
packaging/deb.sh "$place/debs" > /dev/null
mkdir "$place/system/new"
cp "$place"/debs/*.deb "$place/system/new"
sed -n '/^```c$/,/^```$/{/^```/!p}' docs/C.md > "$place/system/new/example.c"
# what the page shows of it
answers=$(awk '/^    \$ \.\/example / { shown = 1; next } shown && /^    / { print substr($0, 5); next } { shown = 0 }' docs/C.md)
passed=0
failed=0
set +e

# inside COMMAND: a command of the new user, in the folder of the packages.
inside() {
    chroot "$place/system" env -i PATH=/usr/sbin:/usr/bin:/sbin:/bin LC_ALL=C DEBIAN_FRONTEND=noninteractive sh -c "cd /new && $1"
}

# gives WANTED COMMAND: a command inside ends with 0 and prints this; shown as the user sees it.
gives() {
    local got
    echo "# $2"
    if got=$(inside "$2" 2> "$place/err") && [ "$got" = "$1" ]; then
        passed=$((passed + 1))
        echo "$got"
    else
        failed=$((failed + 1))
        echo "failed; wanted: $1"
        echo "$got" | tail -n 20
        cat "$place/err"
    fi
}

# runs COMMAND: a command inside ends with 0; the end of what it prints is shown.
runs() {
    echo "# $1"
    if inside "$1" > "$place/out" 2> "$place/err"; then
        passed=$((passed + 1))
        tail -n 3 "$place/out"
    else
        failed=$((failed + 1))
        echo failed
        tail -n 20 "$place/out" "$place/err"
    fi
}

# What is in the system, but for what apt and dpkg keep of each run, and the loader's cache.
state() {
    (cd "$place/system" && find . \( -path ./proc -o -path ./sys -o -path ./dev -o -path ./tmp -o -path ./new -o -path ./var/log -o -path ./var/cache \
        -o -path ./var/lib/apt -o -path ./var/lib/dpkg \) -prune -o ! -name ld.so.cache -printf '%M %u:%g %p %l\n') | LC_ALL=C sort
    inside 'dpkg -l' | awk '/^ii/ {print $2, $3}'
}

state > "$place/before"
runs 'apt-get install -y ./langtag_*.deb'
gives "langtag $(cat VERSION)" "langtag --version | cut -d ' ' -f 1,2"
gives 'ok 9274' 'langtag check /usr/share/langtag/registry.txt'
gives "$(printf '%s\n' yue tlh '! BadByte 1')" "printf '%s\\n' zh-yue I-KLINGON en_US | langtag canon /usr/share/langtag/registry.txt || [ \$? = 1 ]"

# a newer registry, from a server beside it
mkdir "$place/served"
{ sed '1s/2025-05-15/2025-08-25/' examples/iana-2025-05-15.txt; printf '%%%%\nType: language\nSubtag: qzz\n'; } > "$place/served/registry"
coproc python3 -u -m http.server -d "$place/served" --bind 127.0.0.1 0 2> /dev/null
server=$COPROC_PID
read -r -u "${COPROC[0]}" line
port=${line##* port }
port=${port%% *}
runs 'mkdir /var/lib/langtag'
gives '/var/lib/langtag/registry.txt: 2025-05-15 -> 2025-08-25' \
    "LANGTAG_REGISTRY_URL=http://127.0.0.1:$port/registry /usr/share/langtag/update-registry.sh /var/lib/langtag/registry.txt"
gives qzz 'echo QZZ | langtag canon /var/lib/langtag/registry.txt'
runs 'rm -r /var/lib/langtag'

runs 'apt-get install -y ./libbcp47-1_*.deb ./libbcp47-dev_*.deb'
runs 'cc example.c $(pkg-config --cflags --libs bcp47) -o example'
gives "$answers" './example /usr/share/langtag/registry.txt zh-yue I-KLINGON en_US'
gives 'libbcp47.so.1' "objdump -p example | sed -n 's/ *NEEDED *\\(libbcp47.*\\)/\\1/p'"
runs 'cc example.c -static $(pkg-config --cflags --libs --static bcp47) -o example'
gives "$answers" './example /usr/share/langtag/registry.txt zh-yue I-KLINGON en_US'

runs 'apt-get install -y ./python3-bcp47_*.deb'
gives yue "python3 -c \"import bcp47; print(bcp47.Registry.from_file('/usr/share/langtag/registry.txt').canonical('zh-yue'))\""

runs 'apt-get install -y ./sqlite3-bcp47_*.deb'
gives "$(printf '%s\n' 1 'yue|1|BadByte 1')" "sqlite3 -cmd '.load /usr/lib/$(uname -m)-linux-gnu/sqlite3/bcp47_sqlite' :memory: \\
    \"SELECT bcp47_load('/usr/share/langtag/registry.txt'); SELECT bcp47_canonical('zh-yue'), bcp47_equivalent('zh-yue', 'YUE'), bcp47_fault('en_US')\""

runs 'apt-get install -y ./postgresql-15-bcp47_*.deb'
server_tools=/usr/lib/postgresql/15/bin
runs "install -d -o postgres /new/server && setpriv --reuid postgres --regid postgres --clear-groups sh -c '$server_tools/initdb -N -D /new/server/data -A trust &&
    $server_tools/pg_ctl -D /new/server/data -l /new/server/log -w start \\
    -o \"-k /new/server -c listen_addresses= -c fsync=off -c dynamic_shared_memory_type=mmap -c shared_preload_libraries=bcp47 -c bcp47.registry=/usr/share/langtag/registry.txt\"'"
gives "$(printf '%s\n' 'CREATE EXTENSION' 'yue|t|BadByte 1' 1.1)" "psql -h /new/server -U postgres -At -c 'CREATE EXTENSION bcp47' \\
    -c \"SELECT bcp47_canonical('zh-yue'), bcp47_equivalent('zh-yue', 'YUE'), bcp47_fault('en_US')\" \\
    -c \"SELECT extversion FROM pg_extension WHERE extname = 'bcp47'\""
runs "setpriv --reuid postgres --regid postgres --clear-groups $server_tools/pg_ctl -D /new/server/data -m immediate stop"

runs 'dpkg --verify langtag libbcp47-1 libbcp47-dev python3-bcp47 sqlite3-bcp47 postgresql-15-bcp47'
runs 'apt-get purge -y langtag libbcp47-1 libbcp47-dev python3-bcp47 sqlite3-bcp47 postgresql-15-bcp47'
state > "$place/after"
if diff "$place/before" "$place/after"; then
    passed=$((passed + 1))
    echo 'nothing is left'
else
    failed=$((failed + 1))
    echo 'failed: something is left'
fi

echo "a fresh Debian: $passed passed, $failed failed"
[ "$failed" = 0 ]
