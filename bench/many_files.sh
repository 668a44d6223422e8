#!/bin/bash
# Times `palmheap list`, `list --json` and `canonical --check` of many files in one call. Prints the milliseconds for
# each file, wall time, and the status is 1 if one is over LIMIT.
#
#   bench/many_files.sh [FILES [LIMIT [PROGRAM]]]
#
# FILES is 10000 and LIMIT 3 if none is given. PROGRAM is the one that `../palmheap --build` builds. File i has i % 500
# records of 100 bytes, and each tenth is damaged. With GNU parallel the same is timed with a call on each processor.
# It needs python3.
set -eu
files=${1:-10000}
limit=${2:-3}
top=$(cd -- "$(dirname -- "$0")/.." && pwd)
program=${3:-$top/crates/palmheap/out/palmheap}
case $program in /*) ;; *) program=$PWD/$program ;; esac
[ $# -ge 3 ] || "$top/palmheap" --build --keep
work=$(mktemp -d)
trap 'rm -rf -- "$work"' EXIT
cd -- "$work"
mkdir many
python3 - "$files" <<'END'
import struct
import sys

for index in range(int(sys.argv[1])):
    count = index % 500
    start = 78 + 8 * count + 2
    offsets = [start + 100 * record for record in range(count)]
    if index % 10 == 9 and count:
        offsets[-1] += 1000
    entries = b"".join(struct.pack(">II", at, record + 1) for record, at in enumerate(offsets))
    header = b"Many".ljust(60, b"\0") + b"DATATest" + bytes(8) + struct.pack(">H", count)
    with open(f"many/{index}.pdb", "wb") as file:
        file.write(header + entries + bytes(2) + bytes(range(100)) * count)
END

over=0
# timed NAME COMMAND..: runs a command, which may end with status 1, and prints its time for each file.
timed() {
    local name=$1 begin end status=0
    shift
    begin=$(date +%s%N)
    "$@" >printed || status=$?
    end=$(date +%s%N)
    awk -v name="$name" -v files="$files" -v ns=$((end - begin)) -v status="$status" -v limit="$limit" \
        -v lines="$(wc -l <printed)" 'BEGIN {
            each = ns / files / 1e6
            printf "%-40s %7.3f ms a file, status %d, %d lines\n", name, each, status, lines
            exit each > limit
        }' || over=1
}

timed 'list' "$program" list many/*.pdb
timed 'list --json' "$program" list --json many/*.pdb
timed 'canonical --check' "$program" canonical --check many/*.pdb
if command -v parallel >/dev/null; then
    find many -name '*.pdb' -print0 >paths
    timed 'list --json, by parallel' parallel -0 -X -a paths "$program" list --json --path
fi
exit "$over"
