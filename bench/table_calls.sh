#!/bin/sh
# Times calls of the memory manager on a heap of 16,777,208 bytes with 4,000 further tables of 15 slots, next to the same
# calls in plain C, and those on a heap with as many slots in one table. It prints the processor time of a call in
# nanoseconds, of both programs, and the ratio of the best times, Rattle's over C's.
#
# usage: bench/table_calls.sh [ROUNDS [TURNS]]
#
# bench/turns.sh says what a turn is. The script stops if the two programs end with different sums over
# their replies or over the words of their heaps. It needs rt and gcc. The first run in a clone proves the
# crates that it uses.
set -eu

rounds=${1:-5}
turns=${2:-3}
cd "$(dirname "$0")/.."
. bench/turns.sh

kinds='lock_and_unlock\|size\|owner\|locks\|read\|write\|filling\|anywhere\|at_the_end'

build_both table_calls tables
print_table "4000 further tables of 15 slots in a row" "$kinds" 16777208 60000 16 "$rounds"
build_both table_calls tables_apart -DAPART
print_table "4000 further tables of 15 slots, with 8 to 1032 free bytes between them" "$kinds" 16777208 60000 16 "$rounds"
build_both memory_calls memory
print_table "one table of 60000 slots" "$kinds" 16777208 60000 16 "$rounds"
