#!/bin/sh
# Runs 'palmheap map' on five images, and compares each picture as text with the one in tests/maps, and each as SVG with
# what tests/maps/picture.py draws.
#
#   tests/maps.sh [PROGRAM]
#
# PROGRAM is the one that `../palmheap --build` builds, if none is given. The images are a blank one; one with databases, of which
# half the records were removed, so that it is in pieces; the same after a compaction; one with 65,533 records; and one
# with fixed chunks alone. Each picture that differs has its difference on standard error; the status is 1 then.
# tests/maps/picture.py draws an image by other means: the pictures in tests/maps are what it prints. The SVG of each image
# has to stay below 300,000 bytes.
top=$(cd -- "$(dirname -- "$0")/.." && pwd)
program=${1:-$top/crates/palmheap/out/palmheap}
if [ $# = 0 ]; then
    # proves and builds the program if need be
    "$top/palmheap" --build --keep || exit 125
fi
case $program in /*) ;; *) program=$PWD/$program ;; esac
folder=$(mktemp -d) || exit 1
trap 'rm -rf -- "$folder"' EXIT
cd -- "$folder" || exit 1
failed=0

# made NAME SIZE SLOTS SCRIPT: makes an image by a script
made() {
    "$program" new "$2" "$3" new.img >/dev/null && "$program" run new.img "$4" "$1.img" >/dev/null || failed=1
}

# drawn NAME: compares the picture of an image
drawn() {
    "$program" map "$1.img" >"$1.txt" || failed=1
    diff -- "$top/tests/maps/$1.txt" "$1.txt" >&2 || failed=1
    "$program" map "$1.img" "$1.svg" >/dev/null || failed=1
    # all lines but the styles and the kinds of the legend
    sed -e '/^<style>$/,/^<\/style>$/d' -e '/^<path class="c[0-5]" d="M[0-9]* 0h12v12h-12z"\/>/,/^<\/g>$/d' "$1.svg" >"$1.lines"
    python3 "$top/tests/maps/picture.py" "$1.img" svg | diff - "$1.lines" >&2 || failed=1
    if [ "$(wc -c <"$1.svg")" -ge 300000 ]; then
        echo "$1.svg is too large" >&2
        failed=1
    fi
}

: >nothing.txt
echo compact >compact.txt
awk 'BEGIN { print "create d \"Many\" \"DATA\" \"many\" 0 0"; for (i = 0; i < 65533; i++) printf "recnew d 65535 %d x\n", 8 + i * 7 % 32 }' >records.txt
awk 'BEGIN { for (i = 0; i < 40; i++) printf "ptrnew p%d %d %d\n", i, 200 + 37 * i % 500, 1 + i % 14 }' >fixed.txt

made blank 65528 700 nothing.txt
made pieces 65528 700 "$top/tests/maps/pieces.script"
"$program" run pieces.img compact.txt compacted.img >/dev/null || failed=1
made records 8388608 65535 records.txt
made fixed 16384 100 fixed.txt
for name in blank pieces compacted records fixed; do
    drawn "$name"
done
exit "$failed"
