#!/bin/bash
# Runs the program palmheap with little of what it needs: less and less memory, files that may have few bytes, an output
# that is closed or full. Kills runs in the middle, also of unpack, and runs pairs on one OUT. Looks at the status, at
# what is printed, and at the file that OUT names, which must be the old one or a new one, and never a part.
#
#   tests/hostile.sh [PROGRAM [KILLS [PAIRS]]]
#
# PROGRAM is the one that `../palmheap --build` builds, if none is given. KILLS is how many runs are killed, 200 if it is
# not given, and PAIRS how many pairs run at once, 1000 if it is not given. Needs bash, Linux with
# /dev/full, GNU coreutils (a sleep of parts of a second among them), cmp, and 100 MB in the folder for temporary files.
# Takes some five minutes. Each case that fails has a line on standard error; the status is 1 then. Standard output has
# the results. The gate runs none of this.
top=$(cd -- "$(dirname -- "$0")/.." && pwd)
program=${1:-$top/crates/palmheap/out/palmheap}
if [ $# = 0 ]; then
    # proves and builds the program if need be
    "$top/palmheap" --build --keep || exit 125
fi
kills=${2:-200}
pairs=${3:-1000}
case $program in /*) ;; *) program=$PWD/$program ;; esac
folder=$(mktemp -d) || exit 1
trap 'rm -rf -- "$folder"' EXIT
cd -- "$folder" || exit 1
failed=0

# wrong WORDS..: says that a case failed.
wrong() {
    printf '%s\n' "$*" >&2
    failed=1
}

# is NAME WANTED FOUND
is() {
    [ "$2" = "$3" ] || wrong "$1: wanted"$'\n'"$2"$'\n'"and there is"$'\n'"$3"
}

# is_whole NAME: OUT is the old file or the new one.
is_whole() {
    cmp -s out.img old.img || cmp -s out.img new.img || wrong "$1: OUT is a part of a file"
}

# leaves NAME STATUS: after a run that ended with STATUS, OUT is the new file if that is 0, else the old one, and no
# other file is next to it.
leaves() {
    case $2 in
        0) cmp -s out.img new.img || wrong "$1: status 0, and OUT is not the new file" ;;
        3 | 4) cmp -s out.img old.img || wrong "$1: status $2, and OUT is not the old file" ;;
        *) wrong "$1: status $2" ;;
    esac
    [ -e out.img.palmheap-new ] && wrong "$1: a file is left beside OUT"
    rm -f out.img.palmheap-new
}

# renewed: OUT is the old file, and no other file is next to it.
renewed() {
    rm -f out.img out.img.*
    cp old.img out.img
}

# A large image in which a run writes, a script on files, and what comes of both.
"$program" new 16777208 4 large.img >/dev/null
printf 'new a 8000000 1\nlock a\nset a 0 8000000 65\nunlock a\nfreebytes\n' >large.txt
"$program" run large.img large.txt new.img >wanted.txt
printf 'the old file' >old.img
{
    printf Empty
    head -c 55 /dev/zero
    printf DATATest
    head -c 10 /dev/zero
} >empty.pdb
"$program" new 1024 16 small.img >/dev/null
printf 'import d 1\nexport d\nexport d\n' >files.txt

# Memory that is refused: status 4 and nothing else is said or written; and the more there is, the further a run gets.
told=0
done_in=0
for ((kilobytes = 2048; kilobytes <= 163840; kilobytes += kilobytes / 8)); do
    renewed
    (ulimit -v "$kilobytes" && exec timeout 60 "$program" run large.img large.txt out.img) >said 2>complained
    status=$?
    case $status in
        0)
            is "run in $kilobytes KB" "$(cat wanted.txt)" "$(cat said)"
            [ "$done_in" = 0 ] && done_in=$kilobytes
            ;;
        4)
            is "run in $kilobytes KB" 'fault memory' "$(cat said complained)"
            told=$((told + 1))
            ;;
        126 | 127 | 125 | 134 | 139)
            # less than what the program needs to be started; below 4 MB its stack can lack room
            [ "$told" = 0 ] || [ "$kilobytes" -lt 4096 ] || wrong "run in $kilobytes KB: status $status"
            continue
            ;;
    esac
    leaves "run in $kilobytes KB" "$status"
done
[ "$told" -gt 0 ] || wrong 'no run was refused memory'
[ "$done_in" -gt 0 ] || wrong 'no run had memory enough'
echo "memory: $told sizes are refused, $done_in KB are enough for an image of 16 MB"
for words in 'check large.img' 'new 16777208 4 out.img'; do
    for ((kilobytes = 2048; kilobytes <= 65536; kilobytes += kilobytes / 8)); do
        renewed
        # shellcheck disable=SC2086
        (ulimit -v "$kilobytes" && exec timeout 60 "$program" $words) >said 2>complained
        case $? in
            0) [ -s said ] || wrong "$words in $kilobytes KB: nothing is said" ;;
            4)
                is "$words in $kilobytes KB" 'fault memory' "$(cat said complained)"
                cmp -s out.img old.img || wrong "$words in $kilobytes KB: OUT is not the old file"
                ;;
            126 | 127 | 125 | 134 | 139) ;;
            *) wrong "$words in $kilobytes KB: another status" ;;
        esac
    done
done

# Files that may have so many blocks of 1,024 bytes: status 3, and the old file is there.
cut=0
for blocks in 1 2 7 64 1000 8191 16383; do
    renewed
    (trap '' XFSZ && ulimit -f "$blocks" && exec timeout 60 "$program" run large.img large.txt out.img) 2>complained |
        cat >said
    status=${PIPESTATUS[0]}
    is "a file of $blocks blocks, status" 3 "$status"
    is "a file of $blocks blocks" "fault write
out.img: File too large (os error 27)" "$(cat complained)"
    leaves "a file of $blocks blocks" "$status"
    cut=$((cut + 1))
done
echo "file size: $cut limits, and the old file is there each time"

# An output that is closed, full, or read by nobody.
renewed
timeout 60 "$program" run small.img files.txt out.img empty.pdb >&- 2>complained
status=$?
is 'standard output that is closed, status' 3 "$status"
is 'standard output that is closed' 'fault write' "$(head -n 1 complained)"
leaves 'standard output that is closed' "$status"
renewed
timeout 60 "$program" run small.img files.txt out.img empty.pdb >/dev/full 2>complained
status=$?
is 'standard output that is full, status' 3 "$status"
leaves 'standard output that is full' "$status"
renewed
timeout 60 "$program" run large.img large.txt out.img >/dev/full 2>&-
status=$?
is 'standard error that is closed, status' 3 "$status"
leaves 'standard error that is closed' "$status"
for words in 'check large.img' 'new 1024 16 out.img'; do
    # shellcheck disable=SC2086
    timeout 60 "$program" $words >&- 2>/dev/null
    is "$words, and standard output is closed, status" 3 "$?"
done
# A long text whose reader goes away: the write fails, or the signal ends the program; the old file is there.
for ((line = 0; line < 200000; line += 1)); do echo freebytes; done >long.txt
for how in default ignored; do
    renewed
    if [ "$how" = ignored ]; then
        (trap '' PIPE && exec timeout 60 "$program" run small.img long.txt out.img 2>complained) | head -n 1 >said
    else
        timeout 60 "$program" run small.img long.txt out.img 2>complained | head -n 1 >said
    fi
    status=${PIPESTATUS[0]}
    case $status in
        3) is "a reader that goes away ($how)" 'fault write' "$(head -n 1 complained)" ;;
        141) ;;
        *) wrong "a reader that goes away ($how): status $status" ;;
    esac
    cmp -s out.img old.img || wrong "a reader that goes away ($how): OUT is not the old file"
    echo "a reader that goes away ($how): status $status"
done

# Runs that are killed, each a little later than the one before: first how long one takes.
renewed
begin=$(date +%s%N)
"$program" run large.img large.txt out.img >/dev/null 2>&1 &
wait "$!"
took=$((($(date +%s%N) - begin) / 1000))
old=0
new=0
beside=0
for ((number = 0; number < kills; number += 1)); do
    renewed
    # from nothing up to twice what a run takes
    delay=$((took * 2 * number / kills))
    "$program" run large.img large.txt out.img >/dev/null 2>&1 &
    run=$!
    sleep "$(printf '%d.%06d' $((delay / 1000000)) $((delay % 1000000)))"
    kill -KILL "$run" 2>/dev/null
    wait "$run" 2>/dev/null
    is_whole "killed behind $delay microseconds"
    if cmp -s out.img old.img; then old=$((old + 1)); else new=$((new + 1)); fi
    if [ -e out.img.palmheap-new ]; then
        beside=$((beside + 1))
        # a file that a killed run leaves next to OUT is no hindrance for the next run, which leaves it
        "$program" run large.img large.txt out.img >/dev/null || wrong 'a run behind a killed one'
        cmp -s out.img new.img || wrong 'a run behind a killed one: OUT is not the new file'
        is 'a run behind a killed one' 'out.img out.img.palmheap-new' "$(echo out.img*)"
    fi
done
echo "killed: $kills runs of $took microseconds; OUT is the old file $old times and the new one $new times;" \
    "$beside times a file was left beside it"

# Two files of databases that a canonical form changes: a run writes 1 MB in many parts.
for size in 1000 900; do
    {
        echo 'create book "Book" "DATA" "Test" 0 0'
        for ((record = 0; record < 1000; record += 1)); do echo "recnew book $record $size r"; done
        echo 'export book'
    } >book.txt
    "$program" new 2000000 1100 book.img >/dev/null
    "$program" run book.img book.txt book.img >/dev/null || wrong "a book of records of $size bytes"
    mv book.img.1 "$size.pdb"
    "$program" canonical "$size.pdb" "$size.wanted" >/dev/null || wrong "the rewritten book of $size"
done

# end_run RUN NAME: waits for a run; its status is 0, 3 with a reason, or that of a killed run. Counts those with 0.
end_run() {
    wait "$1"
    case $? in
        0) done_runs=$((done_runs + 1)) ;;
        3) is "$2" 'fault write' "$(head -n 1 "complained.$1")"; [ "$(wc -l <"complained.$1")" -ge 2 ] || wrong "$2: no reason" ;;
        137) killed_runs=$((killed_runs + 1)) ;;
        *) wrong "$2: another status" ;;
    esac
}

# Pairs of runs on one OUT at once, of which none, one or both are killed: OUT is whole, and no old file if a run is done.
RANDOM=73
done_runs=0
killed_runs=0
for ((number = 0; number < pairs; number += 1)); do
    rm -f complained.*
    # what killed runs of earlier pairs left stays a while
    [ $((number % 20)) = 0 ] && rm -f out.img*
    cp old.img out.img
    before=$done_runs
    runs=()
    for size in 1000 900; do
        (exec "$program" canonical "$size.pdb" out.img >/dev/null 2>"complained.$BASHPID") 2>/dev/null &
        runs+=("$!")
    done
    if [ $((number % 4)) -ge 2 ]; then
        sleep "0.0$(printf '%02d' $((RANDOM % 40)))"
        kill -KILL "${runs[@]:number % 2}" 2>/dev/null
    fi
    for run in "${runs[@]}"; do end_run "$run" "pair $number"; done
    if cmp -s out.img old.img; then
        [ "$before" = "$done_runs" ] || wrong "pair $number: a run is done, and OUT is the old file"
    else
        cmp -s out.img 1000.wanted || cmp -s out.img 900.wanted || wrong "pair $number: OUT is a part of a file"
    fi
done
echo "pairs: of $((2 * pairs)) runs on one OUT at once $done_runs are done and $killed_runs killed; OUT is whole each time"

# Killed runs of unpack: `pack` refuses the folder, or makes the file of which it is.
refused=0
whole=0
"$program" unpack 900.pdb parts >/dev/null || wrong 'unpack'
"$program" pack parts packed.pdb >/dev/null || wrong 'pack'
rm -rf parts
begin=$(date +%s%N)
"$program" unpack 900.pdb parts >/dev/null &
wait "$!"
took=$((($(date +%s%N) - begin) / 1000))
for ((number = 0; number < kills; number += 1)); do
    rm -rf parts
    rm -f again.pdb
    # most kills come near the end, when the text is written
    delay=$((took / 2 + took * number / kills))
    "$program" unpack 900.pdb parts >/dev/null 2>&1 &
    run=$!
    sleep "$(printf '%d.%06d' $((delay / 1000000)) $((delay % 1000000)))"
    kill -KILL "$run" 2>/dev/null
    wait "$run" 2>/dev/null
    if [ ! -d parts ] || ! "$program" pack parts again.pdb >/dev/null 2>&1; then
        refused=$((refused + 1))
    else
        whole=$((whole + 1))
        cmp -s packed.pdb again.pdb || wrong "unpack killed after $delay microseconds: records are missing"
    fi
done
echo "unpack: of $kills killed runs $refused folders are refused, and $whole are whole"

exit "$failed"
