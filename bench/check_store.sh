#!/bin/sh
# Times the checker of stores next to the checker of heaps, on images that the program makes itself, and
# prints what is found of each image, the times of both in milliseconds and the ratio, the store's over
# the heap's.
#
# usage: bench/check_store.sh [REPEATS]
#
# Each image is checked REPEATS times by both, which take turns. It needs rt. The first run in a clone
# proves the crates that it uses.
set -eu

repeats=${1:-50}
cd "$(dirname "$0")/.."
work=$(mktemp -d)
trap 'rm -rf "$work"' EXIT

if ! (cd crates/benchmarks && rt run) >"$work/log" 2>&1; then
    cat "$work/log"
    exit 1
fi
crates/benchmarks/out/benchmarks stores "$repeats" | awk '
    function row(name, best, median) { printf "  %-6s best %7.2f  median %7.2f\n", name, best, median }
    $1 == "image" { printf "%s: ", $2; next }
    $1 == "heap" { best = $3; median = $5; row("heap", best / 1000, median / 1000); next }
    $1 == "store" { row("store", $3 / 1000, $5 / 1000); row("ratio", $3 / best, $5 / median); next }
    { print }'
