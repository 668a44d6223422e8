#!/bin/sh
# Times calls on an open store through the library for C next to the same calls of Rattle, on heaps of 16,777,208 bytes
# with a chunk under each of 65,535 slots, and on one of 2,048 bytes with 16. It prints the processor time of a call in
# nanoseconds, the best of both programs, and the difference: what a call through C costs more.
#
# usage: bench/library_calls.sh [ROUNDS [TURNS]]
#
# The programs are bench/memory_calls.c over the shared library, and crates/benchmarks. bench/turns.sh says what a turn
# is. The script stops if the two end with different sums over their replies or over the words of their heaps. It needs
# rt, gcc, ld, objcopy and ar. The first run in a clone proves the crates that it uses.
set -eu

rounds=${1:-5}
turns=${2:-3}
cd "$(dirname "$0")/.."
. bench/turns.sh

if ! tools/library.sh "$work/lib" >"$work/log" 2>&1; then
    cat "$work/log"
    exit 1
fi
build_both memory_calls memory -DLIBRARY -I"$work/lib/include" -L"$work/lib/lib" -lpalmheap -Wl,-rpath,"$work/lib/lib"

# The kinds of call whose time doesn't depend on the heap. In the small heap the others are too few to be timed.
steady='lock_and_unlock\|size\|owner\|locks\|read\|write\|take_out_and_put_back'

# print_differences TITLE KINDS WORDS: the best times of each kind of call, from runs on these words.
print_differences() {
    title=$1
    kinds=$2
    shift 2
    take_turns "$@"
    echo "$title: $(cat "$work/rattle.sums")"
    sed -n 's/ calls .*//p' "$work/c.says" | grep "$kinds" >"$work/names"
    awk '
        { key = $1 " " $2; time = $4 / $3 }
        !(key in best) || time < best[key] { best[key] = time }
        END {
            printf "  %-26s %10s %10s %10s\n", "ns a call", "through C", "Rattle", "more"
            while ((getline name < names) > 0)
                printf "  %-26s %10.1f %10.1f %10.1f\n", name, best["c " name], best["rattle " name],
                    best["c " name] - best["rattle " name]
        }' names="$work/names" "$work/times"
}

print_differences "heap of 16777208 bytes, 65535 chunks" "$steady\|filling\|anywhere\|at_the_end" 16777208 65535 16 "$rounds"
print_differences "heap of 2048 bytes, 16 chunks" "$steady" 2048 16 65536 "$rounds"
