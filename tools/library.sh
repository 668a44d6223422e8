#!/bin/sh
# Proves the library for C, builds it, and lays it down:
#
#   tools/library.sh DIR
#
# DIR gets include/palmheap.h, lib/libpalmheap.a, lib/libpalmheap.so.1 with the link libpalmheap.so, and
# lib/pkgconfig/palmheap.pc. The version is that of the header. Needs rt, gcc, ld, objcopy and ar. The first call proves all crates below the library, one
# after the other; a later call only what changed. The status is 1 if a step fails.
set -e
case $#$1 in
    1 | 1-* | [!1]*)
        echo 'usage: palmheap --library DIR' >&2
        exit 2
        ;;
esac
top=$(dirname -- "$(dirname -- "$(readlink -f -- "$0")")")
mkdir -p -- "$1/include" "$1/lib/pkgconfig"
to=$(readlink -f -- "$1")
# The number changes if a program that was linked with one library can't use the next.
shared=libpalmheap.so.1
version=$(sed -n 's/^#define PALMHEAP_VERSION "\(.*\)"$/\1/p' "$top/include/palmheap.h")

python3 "$top/tools/check_header.py" >&2
# `rt lib` builds a library only if all of it is proved.
(cd -- "$top/crates/palmheap_c" && rt lib) >&2
kit=$(dirname -- "$(rt doc)")

# One object, with what it needs of the kit's C code. Only the functions of the header stay visible.
room=$(mktemp -d)
trap 'rm -rf -- "$room"' EXIT
ld -r -o "$room/palmheap.o" --whole-archive "$top/crates/palmheap_c/out/libpalmheap_c.a" --no-whole-archive \
    "$kit/c/liblibc_c.a"
objcopy --wildcard --keep-global-symbol='palmheap_*' "$room/palmheap.o"
ar rcs "$room/libpalmheap.a" "$room/palmheap.o"
gcc -shared -o "$room/$shared" -Wl,-soname,"$shared" -Wl,--version-script="$top/tools/palmheap.map" \
    "$room/palmheap.o" -Wl,-z,defs -s

# lay FILE PLACE: copies a file to a place, in one step: a program that has the old shared library open keeps it.
lay() {
    cp -- "$1" "$2.new.$$"
    mv -f -- "$2.new.$$" "$2"
}

lay "$top/include/palmheap.h" "$to/include/palmheap.h"
lay "$room/libpalmheap.a" "$to/lib/libpalmheap.a"
lay "$room/$shared" "$to/lib/$shared"
ln -sf "$shared" "$to/lib/libpalmheap.so"
# pkg-config takes a backslash before a character that separates words otherwise.
prefix=$(printf '%s\n' "$to" | sed "s/[\\\\ \"'#]/\\\\&/g")
cat >"$room/palmheap.pc" <<END
prefix=$prefix
includedir=\${prefix}/include
libdir=\${prefix}/lib

Name: palmheap
Description: Proved checks and conversions of Palm OS heap images and PDB and PRC files
Version: $version
Cflags: -I\${includedir}
Libs: -L\${libdir} -lpalmheap
END
lay "$room/palmheap.pc" "$to/lib/pkgconfig/palmheap.pc"
