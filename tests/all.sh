#!/bin/bash
# Runs the scripts of tests/ but for the gate, and those of bench/ with little work, which stop if C and Rattle
# answer otherwise. Times that it prints mean nothing; docs/MEASUREMENTS.md has those.
#
#   tests/all.sh
#
# It takes some 10 minutes, and the first run in a clone as long again as it proves the crates `palmheap` and
# `benchmarks`. A script whose tools are missing is not run. For each script there is a line: `passed`, `FAILED`
# with the end of what it printed, or `not run` and what is missing. The status is 1 if one failed, and 2 if all
# others passed and one was not run.
cd -- "$(dirname -- "$0")/.." || exit 1
log=$(mktemp) || exit 1
trap 'rm -f -- "$log"' EXIT
failed=0
missing=0

# lacks TOOL..: prints the tools that are not installed; Palm::PDB stands for the modules of perl.
lacks() {
    for tool; do
        case $tool in
            Palm::PDB) perl -MPalm::PDB -MPalm::Memo -MPalm::Address -e 1 2>/dev/null || printf ' %s' "$tool" ;;
            *) command -v "$tool" >/dev/null || printf ' %s' "$tool" ;;
        esac
    done
}

# run 'TOOLS' COMMAND..
run() {
    # shellcheck disable=SC2086
    lacking=$(lacks $1)
    shift
    if [ -n "$lacking" ]; then
        echo "not run $*: missing$lacking"
        missing=1
        return
    fi
    begin=$SECONDS
    if "$@" >"$log" 2>&1; then
        echo "passed $* in $((SECONDS - begin)) s"
    else
        echo "FAILED $*, which printed at its end:"
        tail -n 20 "$log"
        failed=1
    fi
}

run 'rt python3' ./palmheap --build --keep
run 'grep' tests/growths.sh
run 'rt' tests/dropped_loans.sh
run 'rt' tests/program.sh
run 'rt cmp' tests/hostile.sh
run 'rt python3' tests/salvage.py crates/palmheap/out/palmheap 2000
run 'rt python3' tests/listing.py crates/palmheap/out/palmheap 1000
run 'rt awk diff python3' tests/maps.sh
run 'rt python3' tests/exact_folders.py crates/palmheap/out/palmheap
run 'rt python3' tests/kept_files.py crates/palmheap/out/palmheap
run 'gcc python3' tests/abi.py
run 'rt gcc python3' tests/library.sh 1000
run 'rt gcc python3' tests/python.sh
run 'rt gcc python3 dpkg-deb' tests/debian.sh
run 'rt perl Palm::PDB txt2pdbdoc pgmtoimgv imgvtopnm' tests/peers.sh
run 'rt cc python3' bench/check_heap.sh 1 1
run 'rt' bench/check_store.sh 1
run 'rt gcc' bench/memory_calls.sh 1 1
run 'rt gcc' bench/table_calls.sh 1 1
run 'rt gcc' bench/record_calls.sh 1 1
run 'rt gcc' bench/files.sh 1 1
run 'rt gcc awk od' bench/record_script.sh 1000 1
run 'rt python3' bench/many_files.sh 500 1000
[ "$failed" = 0 ] || exit 1
[ "$missing" = 0 ] || exit 2
