#!/bin/bash
# Keeps the LLVM module of a program or a static library: what the kit's compiler hands to its clang. It is made for the oldest
# processor of x86-64, so that it names no instruction of a processor. Nothing is written where the crate is not proved.
#
# Usage: tools/module.sh CRATE TO.bc
set -euo pipefail
kit=$(dirname "$(rt doc)")
to=$(realpath -m "$2")
cd "$(dirname "$0")/.."
words="run --cpu x86-64 --backend llvm -- --help"
! grep -q "^$1 staticlib:" crates.txt || words="lib --cpu x86-64 --backend llvm"
cd "crates/$1"
room=$(mktemp -d)
trap 'rm -rf "$room"' EXIT

# rt takes its compiler from the kit that it stands in: here that is a folder of links to the kit, with a clang that copies what it is
# given and then runs the kit's. rt and its library are copies, since they look for the kit beside themselves.
mkdir -p "$room/bin" "$room/toolchain/bin" "$(dirname "$to")"
for part in "$kit"/* "$kit"/bin/* "$kit"/toolchain/* "$kit"/toolchain/bin/*; do
    [ -e "$room${part#"$kit"}" ] || ln -s "$part" "$room${part#"$kit"}"
done
cp --remove-destination "$kit/bin/rt" "$kit/bin/rtlib.py" "$room/bin"
rm "$room/toolchain/bin/clang"
cat > "$room/toolchain/bin/clang" << END
#!/bin/sh
[ ! -f module.bc ] || cp module.bc "$room/kept"
exec "$kit/toolchain/bin/clang" "\$@"
END
chmod 755 "$room/toolchain/bin/clang"

# a program that is built for other processors, or by another compiler, stays what it is
mkdir "$room/out"
cp -p out/"$1"{,.o,.stamp} "$room/out" 2> /dev/null || true
# shellcheck disable=SC2086
"$room/bin/rt" $words
cp -p "$room"/out/* out 2> /dev/null || true
install -m 644 "$room/kept" "$to"
