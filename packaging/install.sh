#!/bin/sh
# Installs what `make` and `make lib` built, or takes away what it installed. It builds nothing.
#
# Usage: packaging/install.sh install|uninstall program|library..
#
# PREFIX (/usr/local) and LIBDIR (PREFIX/lib) are the folders in which it will be used, and DESTDIR is put before each of
# them. Where a part is not built, it says so before it writes anything, and ends with 1.
set -eu

root=$(cd "$(dirname "$0")/.." && pwd)
PREFIX=${PREFIX:-/usr/local}
LIBDIR=${LIBDIR:-$PREFIX/lib}
DESTDIR=${DESTDIR:-}

# The files of a part, a line each: a mode, the file in the repository, and where it goes. The mode `fill` is a file in
# which the folders are filled in, and `link` a link to a name beside it.
files() {
    case $1 in
        program)
            for page in "$root"/docs/*.md "$root"/docs/*.png; do
                echo "644 docs/${page##*/} $PREFIX/share/doc/langtag/docs/${page##*/}"
            done
            cat << END
755 build/langtag $PREFIX/bin/langtag
fill docs/langtag.1 $PREFIX/share/man/man1/langtag.1
644 completions/langtag.bash $PREFIX/share/bash-completion/completions/langtag
644 completions/langtag.fish $PREFIX/share/fish/vendor_completions.d/langtag.fish
644 completions/_langtag $PREFIX/share/zsh/site-functions/_langtag
644 examples/iana-2025-05-15.txt $PREFIX/share/langtag/registry.txt
755 packaging/update-registry.sh $PREFIX/share/langtag/update-registry.sh
fill packaging/langtag-registry.service $PREFIX/lib/systemd/system/langtag-registry.service
fill packaging/langtag-registry.timer $PREFIX/lib/systemd/system/langtag-registry.timer
fill packaging/langtag-registry.cron $PREFIX/share/doc/langtag/langtag-registry.cron
644 README.md $PREFIX/share/doc/langtag/README.md
644 CONTRIBUTING.md $PREFIX/share/doc/langtag/CONTRIBUTING.md
644 CHANGELOG.md $PREFIX/share/doc/langtag/CHANGELOG.md
644 LICENSE $PREFIX/share/doc/langtag/LICENSE
644 LICENSE-MIT $PREFIX/share/doc/langtag/LICENSE-MIT
644 LICENSE-APACHE $PREFIX/share/doc/langtag/LICENSE-APACHE
END
            ;;
        library)
            cat << END
644 bindings/c/bcp47.h $PREFIX/include/bcp47.h
644 bindings/c/bcp47.hpp $PREFIX/include/bcp47.hpp
644 build/libbcp47.a $LIBDIR/libbcp47.a
644 build/libbcp47.so.1 $LIBDIR/libbcp47.so.1
link libbcp47.so.1 $LIBDIR/libbcp47.so
fill bindings/c/bcp47.pc.in $LIBDIR/pkgconfig/bcp47.pc
END
            ;;
        *) usage ;;
    esac
}

usage() {
    echo 'usage: packaging/install.sh install|uninstall program|library..' >&2
    exit 3
}

# The files of all parts, which are built.
list() {
    for part in "$@"; do files "$part"; done
}

install_file() {
    folder=$(dirname "$DESTDIR$3")
    [ -d "$folder" ] || install -d "$folder"
    case $1 in
        link) ln -sf "$2" "$DESTDIR$3" ;;
        fill)
            # a folder of PREFIX is said by it, so that pkg-config can move both
            case $LIBDIR in
                "$PREFIX"/*) library="\${prefix}${LIBDIR#"$PREFIX"}" ;;
                *) library=$LIBDIR ;;
            esac
            sed "s#@PREFIX@#$PREFIX#g; s#@LIBDIR@#$library#g; s#/usr/local/share/#$PREFIX/share/#g" "$root/$2" > "$DESTDIR$3"
            chmod 644 "$DESTDIR$3"
            ;;
        *) install -m "$1" "$root/$2" "$DESTDIR$3" ;;
    esac
}

what=${1:-}
[ $# -ge 2 ] || usage
shift
for part in "$@"; do files "$part" > /dev/null; done
case $what in
    install)
        for part in "$@"; do
            case $part in
                program) built=build/langtag command=make ;;
                library) built=build/libbcp47.so.1 command='make lib' ;;
            esac
            if [ ! -e "$root/$built" ]; then
                echo "$built is not built: run \`$command\` first" >&2
                exit 1
            fi
        done
        list "$@" | while read -r mode source target; do install_file "$mode" "$source" "$target"; done
        ;;
    uninstall)
        list "$@" | while read -r mode source target; do rm -f "$DESTDIR$target"; done
        # its own folders, where nothing of another's is in them
        for folder in share/doc/langtag/docs share/doc/langtag share/langtag; do
            [ ! -d "$DESTDIR$PREFIX/$folder" ] || rmdir "$DESTDIR$PREFIX/$folder" 2> /dev/null || true
        done
        ;;
    *) usage ;;
esac
