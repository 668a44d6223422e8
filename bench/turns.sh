# Functions of the scripts that time calls in Rattle next to the same calls in plain C. They set `rounds` and
# `turns`, and source it in the repository's folder. It makes the folder `$work` for the run.
#
# In each turn the C program and then the Rattle program time so many rounds of each kind of call. `best`
# is the best round of all turns, and `median` the median of the turns' medians. The script stops if the
# two programs end with different sums.

work=$(mktemp -d)
trap 'rm -rf "$work"' EXIT

# build_both NAME BENCHMARK [FLAG..]: builds the C program bench/NAME.c, with flags of gcc, and the Rattle program
# crates/benchmarks, and notes which of its benchmarks is run.
build_both() {
    source=$1
    benchmark=$2
    shift 2
    gcc -O2 -o "$work/c" "bench/$source.c" "$@"
    if ! (cd crates/benchmarks && rt run) >"$work/log" 2>&1; then
        cat "$work/log"
        exit 1
    fi
    cp crates/benchmarks/out/benchmarks "$work/benchmarks"
}

# take_turns WORDS: runs both programs on these words, turn by turn.
take_turns() {
    : >"$work/times"
    for turn in $(seq "$turns"); do
        "$work/c" "$@" >"$work/c.says"
        "$work/benchmarks" "$benchmark" "$@" >"$work/rattle.says"
        for program in c rattle; do
            sed -n "s/^\(.*\) calls \(.*\) best \(.*\) median \(.*\)/$program \1 \2 \3 \4/p" \
                "$work/$program.says" >>"$work/times"
            tail -n 1 "$work/$program.says" >"$work/$program.sums"
        done
        if ! cmp -s "$work/c.sums" "$work/rattle.sums"; then
            echo "C and Rattle differ on $*"
            cat "$work/c.sums" "$work/rattle.sums"
            exit 1
        fi
    done
}

# print_table TITLE KINDS WORDS: a line for each kind of call that the pattern KINDS has, in the order in
# which they are done, from runs on these words.
print_table() {
    title=$1
    kinds=$2
    shift 2
    take_turns "$@"
    sed -n 's/ calls .*//p' "$work/c.says" | grep "$kinds" >"$work/names"
    echo "$title: $(cat "$work/rattle.sums")"
    sort -n -k 5,5 "$work/times" | awk '
        { key = $1 " " $2; calls[key] = $3 }
        !(key in best) || $4 < best[key] { best[key] = $4 }
        { medians[key, ++count[key]] = $5 }
        function middle(key) { return medians[key, int((count[key] + 1) / 2)] }
        function each(key, time) { return time / calls[key] }
        function row(name,   c, rattle) {
            c = "c " name
            rattle = "rattle " name
            printf "  %-26s %10.1f %10.1f %10.1f %10.1f %6.2f\n", name,
                each(c, best[c]), each(c, middle(c)),
                each(rattle, best[rattle]), each(rattle, middle(rattle)), best[rattle] / best[c]
        }
        END {
            printf "  %-26s %10s %10s %10s %10s %6s\n", "ns a call", "C best", "C median", "R. best", "R. median", "ratio"
            while ((getline line < names) > 0) row(line)
        }' names="$work/names"
}
