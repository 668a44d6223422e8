#!/bin/bash
# Tests the Debian packages: makes them twice, and installs, uses and removes them in a fresh system.
#
#   tests/debian.sh [PROGRAM LIBRARY]
#
# PROGRAM is a built program, and LIBRARY a folder that tools/library.sh made. Without them, both are proved and built.
# CHROOT names an archive of a Debian system with python3, gcc, libc6-dev, pkg-config and man-db; without it, mmdebstrap
# makes one, if it is installed. Needs to run as root for that. Without lintian or a system, it leaves out what they are
# for, and says so. The status is 1 if something fails. The gate doesn't run this.
#
# shellcheck disable=SC2016 # the system's shell expands these
top=$(cd -- "$(dirname -- "$0")/.." && pwd)
room=$(mktemp -d) || exit 1
trap 'rm -rf -- "$room"' EXIT

fail() {
    echo "debian.sh: $1" >&2
    exit 1
}

if [ $# = 2 ]; then
    program=$(readlink -f -- "$1")
    library=$(readlink -f -- "$2")
else
    "$top/palmheap" --build --keep || exit 125
    program=$top/crates/palmheap/out/palmheap
    library=$room/library
    "$top/tools/library.sh" "$library" >"$room/log" 2>&1 || { cat "$room/log"; fail 'the library was not built'; }
fi

# The same bytes twice, by another name of the folder, at another time, and with other permissions of new files.
"$top/tools/debian.sh" "$room/one" "$program" "$library" >"$room/made" || fail 'no packages were made'
sleep 1
(umask 077 && cd "$room" && TZ=Asia/Tokyo "$top/tools/debian.sh" "two folders" "$program" "$library" >/dev/null) ||
    fail 'no packages were made again'
diff -r "$room/one" "$room/two folders" || fail 'packages that are made again differ'
[ "$(wc -l <"$room/made")" = 4 ] || fail 'there are not four packages'

if command -v lintian >/dev/null; then
    lintian --fail-on error --allow-root "$room"/one/*.deb >"$room/log" 2>&1 ||
        { cat "$room/log"; fail 'lintian finds an error'; }
else
    echo 'not run: lintian'
fi

system=$room/system
mkdir "$system" || exit 1
if [ -n "$CHROOT" ]; then
    tar -C "$system" -xf "$CHROOT" || fail 'the system was not unpacked'
elif [ "$(id -u)" = 0 ] && command -v mmdebstrap >/dev/null; then
    mmdebstrap --variant=minbase --include=python3,gcc,libc6-dev,pkg-config,man-db stable "$room/system.tar" \
        >"$room/log" 2>&1 || { cat "$room/log"; fail 'no system was made'; }
    tar -C "$system" -xf "$room/system.tar" || fail 'the system was not unpacked'
else
    echo 'not run: a fresh system'
    exit 0
fi

# inside COMMAND: runs a command of the shell in the system.
inside() {
    chroot "$system" /usr/bin/env -i PATH=/usr/sbin:/usr/bin:/sbin:/bin LC_ALL=C.UTF-8 HOME=/root sh -ec "$1"
}

# What is there but for the system's own notes.
listed() {
    (cd "$system" && find . \( -path ./proc -o -path ./sys -o -path ./dev -o -path ./tmp -o -path ./var/lib/dpkg \
        -o -path ./var/log -o -path ./var/cache \) -prune -o -type f -print0 -o -type l -print0 -o -type d -print0 |
        sort -z | tr '\0' '\n')
}

# One call of the system's tools before, so that what they write themselves is there.
inside 'ldconfig; python3 -c pass; dpkg -l >/dev/null' || fail 'the system does not work'
listed >"$room/before"
mkdir "$system/tmp/packages" && cp "$room"/one/*.deb "$system/tmp/packages" || exit 1
inside 'dpkg -i /tmp/packages/*.deb' >"$room/log" 2>&1 || { cat "$room/log"; fail 'the packages are not installed'; }

# What README shows of the program, and its page.
mkdir "$system/tmp/try" && sed -n '/^## Convert/,/^## What is proved/{/^```sh/,/^```$/{/^```/d;p}}' "$top/README.md" |
    sed 's,\./palmheap,palmheap,g' >"$system/tmp/try/readme.sh"
inside 'cd /tmp/try && sh -e readme.sh' >"$room/printed" 2>"$room/log" ||
    { cat "$room/log"; fail 'the program does not run'; }
diff - "$room/printed" <<'END' || fail 'README shows something else'
canonical
ok 2
ok 116
0 01 1 96 10
1 01 2 106 10
ok
ok
ok 1
ok 1
ok
refused 1 InvalidHandle
ok 115
ok 115
ok size 512 slots 8 movable 4 fixed 0 free 296
databases 1
END
inside 'man -P cat palmheap' 2>"$room/log" | grep -q 'palmheap list' || { cat "$room/log"; fail 'there is no page'; }

# The examples in C by pkg-config, shared and static.
inside 'mkdir /tmp/c && cd /tmp/c && cp /usr/share/doc/libpalmheap-dev/examples/*.c .
    for name in demo store loan locks; do
        gcc -Wall -Werror $name.c $(pkg-config --cflags --libs palmheap) -o $name
        gcc -static $name.c $(pkg-config --cflags --libs palmheap) -o $name.static
    done
    ./demo ../try/try.pdb out && ./store a.img && ./store.static b.img && cmp a.img b.img && ./loan && ./locks' \
    >"$room/log" 2>&1 || { cat "$room/log"; fail 'the examples in C do not run'; }

cat >"$system/tmp/try/try.py" <<'END'
import palmheap

memos = palmheap.read("try.pdb")
memos.records.append(palmheap.Record(b"Call Anna\0"))
palmheap.write(memos, "memos.pdb")
with palmheap.Store.new(512, 8) as store, open("memos.pdb", "rb") as file:
    db = store.import_file(file.read())
    with store.lent(store.query_record(db, 1)) as view:
        view[5:9] = b"Otto"
    assert palmheap.Database.from_bytes(store.export_file(db)).records[1].data == b"Call Otto\0"
END
inside 'cd /tmp/try && python3 try.py
    python3 -m palmheap list memos.pdb >listing && palmheap list memos.pdb | cmp - listing' >"$room/log" 2>&1 ||
    { cat "$room/log"; fail 'the package for Python does not work'; }

runtime=$(sed -n 's,.*/\(libpalmheap[0-9]*\)_.*,\1,p' "$room/made")
inside "dpkg -P python3-palmheap libpalmheap-dev palmheap $runtime" >"$room/log" 2>&1 ||
    { cat "$room/log"; fail 'the packages are not removed'; }
listed >"$room/after"
diff "$room/before" "$room/after" || fail 'something is left'
grep -q 'not empty so not removed' "$room/log" && fail 'a folder is left'
echo 'installed, used and removed: nothing is left'
