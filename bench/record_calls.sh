#!/bin/sh
# Times the calls on records next to the same calls in plain C, on a database of 60,000 records of 0 to 64
# bytes in an image of 16,777,208 bytes with 65,535 slots, and some on as many resources in another such image.
# It prints the processor time of a call in nanoseconds, of both programs, and the ratio of the best times,
# Rattle's over C's.
#
# usage: bench/record_calls.sh [ROUNDS [TURNS]]
#
# The records and the resources are made once in each turn; in a round 200 of them are made, moved or taken out,
# or all records are asked for 16 times. bench/turns.sh says what a turn is. The script stops if the two programs
# end with different sums over their replies or over the words of their images. It needs rt and gcc. The first
# run in a clone proves the crates that it uses.
set -eu

rounds=${1:-5}
turns=${2:-3}
cd "$(dirname "$0")/.."
. bench/turns.sh

build_both record_calls records
print_table "60000 records" . 16777208 65535 60000 200 16 "$rounds"
