#!/bin/bash
# The gate: `rt ci`, which proves all, tries all must-fail edits, and runs programs and tests, and then the scripts
# that need no other tools. Those that run `palmheap` take the program that `rt ci` has just built.
#
#   tests/gate.sh
#
# A script that fails has a line after what it printed. The last line is that of `rt ci`. The status is 1 if
# anything failed.
set -o pipefail
cd -- "$(dirname -- "$0")/.." || exit 1
log=$(mktemp) || exit 1
trap 'rm -f -- "$log"' EXIT
program=crates/palmheap/out/palmheap
failed=0

# run COMMAND..
run() {
    if "$@"; then
        echo "passed $*"
    else
        echo "FAILED $*"
        failed=1
    fi
}

rt ci 2>&1 | tee "$log" || failed=1
run tests/growths.sh
run tests/dropped_loans.sh
if [ -x "$program" ]; then
    run tests/program.sh "$program"
    run tests/maps.sh "$program"
else
    echo "FAILED tests/program.sh and tests/maps.sh: there is no $program"
    failed=1
fi
tail -n 1 "$log"
exit "$failed"
