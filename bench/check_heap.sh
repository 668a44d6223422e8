#!/bin/sh
# Times the checker of heap images next to the same checks in plain C, on two images of 16,777,208
# bytes, and prints the times of both in milliseconds and the ratio, Rattle's time over C's.
#
# usage: bench/check_heap.sh [REPEATS [ROUNDS]]
#
# In each round the C program and then the Rattle program check the image REPEATS times. Both
# programs time in process. `best` is the least time of all rounds, `median` the median of the
# rounds' medians, and `floor` the time that C takes to read each word of the image once. It needs rt,
# cc and python3. The first run in a clone proves the crates that it uses.
set -eu

repeats=${1:-50}
rounds=${2:-5}
cd "$(dirname "$0")/.."
work=$(mktemp -d)
trap 'rm -rf "$work"' EXIT

python3 bench/make_images.py "$work"
cc -O2 -o "$work/c" bench/check_heap.c
if ! (cd crates/benchmarks && rt run) >"$work/log" 2>&1; then
    cat "$work/log"
    exit 1
fi
cp crates/benchmarks/out/benchmarks "$work/benchmarks"

for image in fixed movable; do
    : >"$work/times"
    for round in $(seq "$rounds"); do
        "$work/c" "$work/$image.image" "$repeats" >"$work/c.says"
        "$work/benchmarks" check "$work/$image.image" "$repeats" >"$work/rattle.says"
        for program in c rattle; do
            sed -n "s/^check /$program /p; s/^floor /floor /p" "$work/$program.says" >>"$work/times"
            head -n 1 "$work/$program.says" >"$work/$program.answer"
        done
        if ! cmp -s "$work/c.answer" "$work/rattle.answer"; then
            echo "$image: C and Rattle differ"
            cat "$work/c.answer" "$work/rattle.answer"
            exit 1
        fi
    done
    echo "$image: $(cat "$work/rattle.answer")"
    sort -n -k 5,5 "$work/times" | awk '
        !($1 in best) || $3 < best[$1] { best[$1] = $3 }
        { medians[$1, ++count[$1]] = $5 }
        function middle(name) { return medians[name, int((count[name] + 1) / 2)] }
        function row(name) { printf "  %-8s best %7.2f  median %7.2f\n", name, best[name] / 1000, middle(name) / 1000 }
        END {
            row("floor")
            row("c")
            row("rattle")
            printf "  %-8s best %7.2f  median %7.2f\n", "ratio", best["rattle"] / best["c"], middle("rattle") / middle("c")
        }'
done
