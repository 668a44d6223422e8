#!/bin/sh
# Times calls of the memory manager next to the same calls in plain C, on heaps of 16,777,208 bytes
# with a chunk under each of 65,535 slots, and on one of 2,048 bytes with 16. It prints the processor
# time of a call in nanoseconds, of both programs, and the ratio of the best times, Rattle's over C's.
#
# usage: bench/memory_calls.sh [ROUNDS [TURNS]]
#
# bench/turns.sh says what a turn is. The script stops if the two programs end with different sums over
# their replies or over the words of their heaps. It needs rt and gcc. The first run in a clone proves the
# crates that it uses.
set -eu

rounds=${1:-5}
turns=${2:-3}
cd "$(dirname "$0")/.."
. bench/turns.sh

build_both memory_calls memory

# The kinds of call whose time doesn't depend on the heap. In the small heap the others are too few to
# be timed.
steady='lock_and_unlock\|size\|owner\|locks\|read\|write\|take_out_and_put_back'

print_table "heap of 16777208 bytes, 65535 chunks" . 16777208 65535 16 "$rounds"
print_table "heap of 2048 bytes, 16 chunks" "$steady" 2048 16 65536 "$rounds"
