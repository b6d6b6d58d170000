# shellcheck shell=bash
# Builds the extension by PGXS, puts it among the server's, and starts a server in a folder of its own, until the script ends.
# Read by `.` from a script that has set `registry` and whose first argument is a folder: `folder` is then the server's, in
# which the script is, `ask` asks it, and `start FLAG..` starts it again. The folder `dates` there is the server's bcp47.folder.
here=$(dirname "$(realpath "${BASH_SOURCE[0]}")")
tools=$(pg_config --bindir)
libraries=$(pg_config --pkglibdir)
shared=$(pg_config --sharedir)/extension
folder=$1/postgresql
mkdir -p "$folder/dates" "$folder/built"
cp "$here"/Makefile "$here"/*.c "$here"/*.map "$here"/*.sql "$here"/*.control "$folder/built"
cp -r "$here/sql" "$here/expected" "$folder/built"
pgxs() { make -s -C "$folder/built" ROOT="$(realpath "$here/../..")" with_llvm=no COPT="-Wall -Wextra -Werror -Wno-unused-parameter ${flags:-}" "$@"; }
pgxs || exit 1
user=postgres
as_user() { if [ "$(id -u)" = 0 ]; then setpriv --reuid "$user" --regid "$user" --clear-groups env -u LD_LIBRARY_PATH "$@"; else "$@"; fi; }
as_root=
[ "$(id -u)" = 0 ] || as_root=sudo
# shellcheck disable=SC2154
cp "$registry" "$folder/registry"
cp "$registry" "$folder/dates/$(sed -n '1s/File-Date: //p' "$registry").txt"
cp "$1/tags" "$folder"
chmod 755 "$1" "$folder/dates"
chmod 644 "$folder"/registry "$folder"/tags "$folder"/dates/*
[ "$(id -u)" != 0 ] || chown "$user" "$folder" "$folder/built"
stop() {
    [ ! -e "$folder/data" ] || as_user "$tools/pg_ctl" -D "$folder/data" -m immediate stop > /dev/null 2>&1
    $as_root rm -f "$libraries/bcp47.so" "$shared/bcp47.control" "$shared"/bcp47--*.sql
}
trap stop EXIT
# One at a time: the server's folders are the system's.
exec 9< "$shared" && flock 9 || exit 1
$as_root install -m 755 "$folder/built/bcp47.so" "$libraries/bcp47.so" || exit 1
$as_root install -m 644 "$here/bcp47.control" "$here"/bcp47--*.sql "$shared" || exit 1
cd "$folder" || exit 1
as_user "$tools/initdb" -N -D "$folder/data" -A trust -E UTF8 --locale C > initdb.log 2>&1 || { cat initdb.log && exit 1; }
# A flag that comes later counts.
start() {
    as_user "$tools/pg_ctl" -D "$folder/data" -w -l "$folder/log" -o "-k $folder -c listen_addresses= -c fsync=off \
        -c shared_preload_libraries=bcp47 -c bcp47.registry=$folder/registry -c bcp47.folder=$folder/dates $*" start > start.log 2>&1
}
start || { cat start.log log && exit 1; }
ask() { as_user psql -h "$folder" -d "${database:-postgres}" -v ON_ERROR_STOP=1 -X -q -A -t -P null=NULL "$@"; }
# shellcheck disable=SC2034
copy="COPY books (tag) FROM '$folder/tags' WITH (FORMAT csv, DELIMITER E'\\x01', QUOTE E'\\x02')"
