#!/bin/bash
# Times a script of 60,000 `recnew` lines, run by `palmheap run` on an image of 16,777,208 bytes with 65,535
# slots, next to the C program bench/record_calls.c that makes the same records in memory. It prints the wall
# time and the processor time of each run, in seconds.
#
# usage: bench/record_script.sh [RECORDS [TURNS]]
#
# The two take turns. C reads no script, and doesn't read, check or write an image. The script stops if a
# line was refused, or if the two end with different sums over the words of their images. It needs rt, gcc, awk
# and od. The first run in a clone proves the program.
set -eu

records=${1:-60000}
turns=${2:-3}
size=16777208
slots=65535
cd "$(dirname "$0")/.."
work=$(mktemp -d)
trap 'rm -rf "$work"' EXIT
TIMEFORMAT='%R %U %S'

# The lines that make the database and the records, of 0 to 64 bytes, each after the last, as bench/record_calls.c
# does.
lines_of_records() {
    echo 'create records "Records" "DATA" "Test" 0 0'
    awk -v records="$records" 'BEGIN {
        for (i = 0; i < records; i++) printf "recnew records 65535 %d data\n", i % 65
    }'
}

# sum_of IMAGE: the sum over the words of an image, as bench/times.h has it.
sum_of() {
    od -An -v -tu4 --endian=big -w4 "$1" | awk '
        { sum = (sum * 32 % 4294967296 + int(sum / 134217728) + $1) % 4294967296 }
        END { printf "%.0f\n", sum }'
}

# timed NAME COMMAND: runs it, its output to a file, and prints its wall and its processor time.
timed() {
    local name=$1
    shift
    { time "$@" >"$work/said"; } 2>"$work/time"
    awk -v name="$name" '{ printf "  %-16s wall %7.2f  processor %7.2f\n", name, $1, $2 + $3 }' "$work/time"
}

gcc -O2 -o "$work/c" bench/record_calls.c
./palmheap --build --keep
./palmheap new "$size" "$slots" "$work/blank.image" >"$work/said"
lines_of_records >"$work/records.script"

echo "$records records made"
for turn in $(seq "$turns"); do
    timed "C, in memory" "$work/c" "$size" "$slots" "$records"
    words=$(sed -n 's/.* words //p' "$work/said")
    timed "palmheap run" ./palmheap run "$work/blank.image" "$work/records.script" "$work/full.image"
    if [ "$(grep -c '^ok' "$work/said")" -ne $((records + 1)) ]; then
        grep -v '^ok' "$work/said" | head -n 3
        exit 1
    fi
done
timed "palmheap check" ./palmheap check "$work/full.image"
cat "$work/said"
if [ "$(sum_of "$work/full.image")" != "$words" ]; then
    echo "C and palmheap end with different images"
    exit 1
fi
