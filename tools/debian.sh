#!/bin/bash
# Makes Debian packages of what is proved and built:
#
#   tools/debian.sh DIR PROGRAM [LIBRARY]
#
# `./palmheap --deb DIR` proves and builds the program first, and calls this. PROGRAM is the built program, and LIBRARY a
# folder that tools/library.sh made. Without it, this calls tools/library.sh. If that fails, only the first of these
# packages is made, and the status is 1:
#
#   palmheap          the program, its man page, completions of its words, documents for users
#   libpalmheap1      the shared library; its number is that of the library's SONAME
#   libpalmheap-dev   header, static library, palmheap.pc, examples in C
#   python3-palmheap  the package for Python
#
# The same files give the same bytes: all times are SOURCE_DATE_EPOCH, or else the time of the last commit. DEBFULLNAME
# and DEBEMAIL name the maintainer, or else the author of that commit is named.
# Needs dpkg-deb, objdump, strip and gcc, for the library also python3.
set -e
umask 022
case $# in
    2 | 3) ;;
    *)
        echo 'usage: tools/debian.sh DIR PROGRAM [LIBRARY]' >&2
        exit 2
        ;;
esac
top=$(dirname -- "$(dirname -- "$(readlink -f -- "$0")")")
mkdir -p -- "$1"
to=$(readlink -f -- "$1")
program=$(readlink -f -- "$2")
library=${3:+$(readlink -f -- "$3")}
room=$(mktemp -d)
trap 'rm -rf -- "$room"' EXIT

# of_commit FORMAT: prints something of the last commit, or nothing.
of_commit() {
    git -C "$top" log -1 --format="$1" 2>/dev/null || true
}

SOURCE_DATE_EPOCH=${SOURCE_DATE_EPOCH:-$(of_commit %ct)}
export SOURCE_DATE_EPOCH=${SOURCE_DATE_EPOCH:-$(stat -c %Y "$top/CHANGELOG.md")} DPKG_DEB_THREADS_MAX=1 LC_ALL=C
name=${DEBFULLNAME:-$(of_commit %an)}
mail=${DEBEMAIL:-$(of_commit %ae)}
maintainer="${name:-palmheap} <${mail:-palmheap@localhost}>"
version=$(sed -n 's/^#define PALMHEAP_VERSION "\(.*\)"$/\1/p' "$top/include/palmheap.h")+$(date -u -d "@$SOURCE_DATE_EPOCH" +%Y%m%d)-1
here=$(dpkg --print-architecture)
triplet=$(gcc -print-multiarch)

# put MODE FILE PLACE: copies a file to a place in the package that is being made.
put() {
    install -D -m "$1" -- "$2" "$tree/$3"
}

# squeezed PLACE: compresses a file of the package.
squeezed() {
    gzip -9n -- "$tree/$1"
}

# libc_of FILE: prints the package that a compiled file needs: that of the C library, in the least version that has all
# symbols. Nothing for a script.
libc_of() {
    objdump -p "$1" >"$room/parts" 2>/dev/null || return 0
    others=$(awk '$1 == "NEEDED" { print $2 }' "$room/parts" | grep -v -e '^libc\.so' -e '^libm\.so' -e '^ld-linux' || true)
    [ -z "$others" ] || {
        echo "debian.sh: no package is known for $others, which $1 needs" >&2
        exit 1
    }
    sed -n 's/.* GLIBC_\([0-9.]*\)$/\1/p' "$room/parts" | sort -V | tail -n 1 | sed 's/.*/libc6 (>= &)/'
}

# begin PACKAGE: begins a package with what each has.
begin() {
    package=$1
    tree=$room/$package
    mkdir -p "$tree/DEBIAN"
    put 644 "$top/share/copyright" "usr/share/doc/$package/copyright"
    put 644 "$top/CHANGELOG.md" "usr/share/doc/$package/changelog"
    squeezed "usr/share/doc/$package/changelog"
    cat >"$room/changelog" <<END
palmheap ($version) unstable; urgency=medium

  * The packages are made of a commit of this day.

 -- $maintainer  $(date -u -R -d "@$SOURCE_DATE_EPOCH")
END
    put 644 "$room/changelog" "usr/share/doc/$package/changelog.Debian"
    squeezed "usr/share/doc/$package/changelog.Debian"
}

# finish ARCHITECTURE SECTION DEPENDS 'FIRST LINE' [FIELD..]: makes the package; the input is the rest of its
# description.
finish() {
    cd "$tree"
    find . -path ./DEBIAN -prune -o -type f -printf '%P\n' | sort | xargs -d '\n' md5sum >"$room/md5sums"
    put 644 "$room/md5sums" DEBIAN/md5sums
    {
        echo "Package: $package"
        echo 'Source: palmheap'
        echo "Version: $version"
        echo "Architecture: $1"
        echo "Maintainer: $maintainer"
        find . -path ./DEBIAN -prune -o -type f -printf '%s\n' -o -printf '1\n' |
            awk '{ sum += int(($1 + 1023) / 1024) } END { print "Installed-Size: " sum }'
        [ -z "$3" ] || echo "Depends: $3"
        echo "Section: $2"
        echo 'Priority: optional'
        for field in "${@:5}"; do echo "$field"; done
        echo "Description: $4"
        sed 's/^/ /'
    } >"$room/control"
    put 644 "$room/control" DEBIAN/control
    find . -exec touch -h -d "@$SOURCE_DATE_EPOCH" {} +
    cd "$room"
    dpkg-deb --root-owner-group -Zxz --build "$tree" "$room/new.deb" >/dev/null
    mv -f -- "$room/new.deb" "$to/${package}_${version}_$1.deb"
    echo "$to/${package}_${version}_$1.deb"
}

begin palmheap
put 755 "$program" usr/bin/palmheap
strip --remove-section=.comment "$tree/usr/bin/palmheap" 2>/dev/null || true
put 644 "$top/share/palmheap.1" usr/share/man/man1/palmheap.1
squeezed usr/share/man/man1/palmheap.1
put 644 "$top/share/palmheap.bash" usr/share/bash-completion/completions/palmheap
put 644 "$top/share/_palmheap" usr/share/zsh/vendor-completions/_palmheap
for page in USING FORMAT; do
    put 644 "$top/docs/$page.md" "usr/share/doc/palmheap/$page.md"
done
finish "$here" utils "$(libc_of "$tree/usr/bin/palmheap")" 'PDB and PRC files, and heap images of Palm OS' \
    'Multi-Arch: foreign' <<'END'
palmheap lists PDB and PRC files, the database files of Palm OS, takes them
apart into folders, and reassembles them. It also makes, checks, draws and
changes heap images: the storage of a device in one file, in a layout of
this project's own. The storage manager inside is proved correct.
END

if [ -z "$library" ]; then
    library=$room/library
    "$top/tools/library.sh" "$library" >&2 || {
        echo 'debian.sh: the library for C was not built, so there are no packages libpalmheap, libpalmheap-dev and' \
            'python3-palmheap' >&2
        exit 1
    }
fi
shared=$(readlink -f -- "$library/lib/libpalmheap.so")
soname=$(objdump -p "$shared" | awk '$1 == "SONAME" { print $2 }')
number=${soname##*.so.}

begin "libpalmheap$number"
put 644 "$shared" "usr/lib/$triplet/$soname"
strip --remove-section=.comment --strip-unneeded "$tree/usr/lib/$triplet/$soname"
echo 'activate-noawait ldconfig' >"$room/triggers"
put 644 "$room/triggers" DEBIAN/triggers
echo "libpalmheap $number $package (>= $version)" >"$room/shlibs"
put 644 "$room/shlibs" DEBIAN/shlibs
finish "$here" libs "$(libc_of "$shared")" 'proved functions on files and heap images of Palm OS' 'Multi-Arch: same' <<'END'
The library checks, lists and rewrites PDB and PRC files, the database files
of Palm OS. It also checks heap images, and does the calls of the storage
managers on them. Its functions are proved correct.
END
runtime=$package

begin libpalmheap-dev
put 644 "$library/include/palmheap.h" usr/include/palmheap.h
put 644 "$library/lib/libpalmheap.a" "usr/lib/$triplet/libpalmheap.a"
strip --strip-debug --enable-deterministic-archives --remove-section=.comment "$tree/usr/lib/$triplet/libpalmheap.a"
ln -s "$soname" "$tree/usr/lib/$triplet/libpalmheap.so"
sed "s,^prefix=.*,prefix=/usr,; s,^libdir=.*,libdir=\${prefix}/lib/$triplet," "$library/lib/pkgconfig/palmheap.pc" \
    >"$room/palmheap.pc"
put 644 "$room/palmheap.pc" "usr/lib/$triplet/pkgconfig/palmheap.pc"
put 644 "$top/docs/C-LIBRARY.md" usr/share/doc/libpalmheap-dev/C-LIBRARY.md
for example in "$top"/examples/c/*.c; do
    put 644 "$example" "usr/share/doc/libpalmheap-dev/examples/${example##*/}"
done
finish "$here" libdevel "$runtime (= $version)" 'header and static library of libpalmheap' 'Multi-Arch: same' <<'END'
The library checks, lists and rewrites PDB and PRC files, the database files
of Palm OS, and works on heap images. This package has what a program in C
needs to be compiled with it, and examples.
END

begin python3-palmheap
(cd "$top/python" && PYTHONDONTWRITEBYTECODE=1 python3 -c 'import sys, build; build.build_wheel(sys.argv[1])' "$room")
packages=usr/lib/python3/dist-packages
mkdir -p "$tree/$packages"
python3 -m zipfile -e "$room"/palmheap-*.whl "$tree/$packages"
rm -f -- "$tree/$packages"/palmheap-*.dist-info/RECORD "$tree/$packages"/palmheap/*.so*
chmod -R u=rwX,go=rX "$tree/$packages"
put 644 "$top/docs/PYTHON.md" usr/share/doc/python3-palmheap/PYTHON.md
cat >"$room/postinst" <<'END'
#!/bin/sh
set -e
if command -v py3compile >/dev/null 2>&1; then
    py3compile -p python3-palmheap
fi
END
put 755 "$room/postinst" DEBIAN/postinst
# What Python compiled, when the package was installed or used.
cat >"$room/prerm" <<'END'
#!/bin/sh
set -e
if command -v py3clean >/dev/null 2>&1; then
    py3clean -p python3-palmheap
fi
rm -rf /usr/lib/python3/dist-packages/palmheap/__pycache__
END
put 755 "$room/prerm" DEBIAN/prerm
finish all python "python3:any (>= 3.9), $runtime (>= $version)" 'proved functions on Palm OS files for Python' <<'END'
The package calls libpalmheap: it reads and writes PDB and PRC files, the
database files of Palm OS, and works on heap images. Each refusal of a call
is an exception of its own.
END
