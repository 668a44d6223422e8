#!/bin/bash
# Builds the library for C, and shows that it works from C, Python and Rust:
#
#   tests/library.sh [FILES]
#
# Runs the programs in examples/, those for C also under valgrind and with the address and undefined-behavior
# sanitizers. Compares the library with the commands `list`, `list --json` and `salvage` on FILES damaged files (100000),
# and with `canonical` on each tenth. What is read of each is written as the same file. Compares as many calls on a store, and palmheap_run on scripts of the same
# calls, with the command `run`: by text, files and image, with buffers that are long enough or too short, and on
# scripts and images with faults. Compares pictures and lists of the images with `map` and `databases`.
# Passes NULL with the length 0. Lends chunks at random, 10 steps for each of FILES. Damages each field of a file.
# Links by pkg-config, shared and static, sees that wrong headers are refused, and lets each allocation fail in turn.
# Makes each call on a stack of the size that docs/C-LIBRARY.md gives for it. Makes calls that only ask in threads, also
# under helgrind. Compares the names that the library exports, and its version, with the header.
# Needs rt, gcc and python3. Without g++, pkg-config, valgrind or cargo, it leaves out what they run, and says so.
# PALMHEAP names a built program to compare with (./palmheap). The status is 1 if something differs. The gate doesn't
# run this.
top=$(cd -- "$(dirname -- "$0")/.." && pwd)
files=${1:-100000}
program=${PALMHEAP:-$top/palmheap}
[ -n "$PALMHEAP" ] || "$top/palmheap" --build --keep || exit 125
room=$(mktemp -d) || exit 1
trap 'rm -rf -- "$room"' EXIT

fail() {
    echo "library.sh: $1" >&2
    exit 1
}

"$top/tools/library.sh" "$room/lib" >"$room/log" 2>&1 || { cat "$room/log"; fail 'the library was not built'; }
export PKG_CONFIG_PATH=$room/lib/lib/pkgconfig LD_LIBRARY_PATH=$room/lib/lib
flags="-O1 -g -Wall -Wextra -Werror -I $room/lib/include"
static=$room/lib/lib/libpalmheap.a

# The header is C99 and C++11.
gcc -std=c99 -pedantic -Wall -Wextra -Werror -fsyntax-only -x c "$top/include/palmheap.h" ||
    fail 'the header is not C99'
if command -v g++ >/dev/null; then
    g++ -std=c++11 -pedantic -Wall -Wextra -Werror -fsyntax-only -x c++ "$top/include/palmheap.h" ||
        fail 'the header is not C++11'
else
    echo 'not run: g++'
fi
# A header with one change is refused: of a type, a result, an order, a field, a number or a list of refusals.
while read -r change; do
    sed "$change" "$top/include/palmheap.h" >"$room/wrong.h"
    cmp -s "$top/include/palmheap.h" "$room/wrong.h" && fail "no change of the header: $change"
    python3 "$top/tools/check_header.py" "$room/wrong.h" >"$room/log" && fail "a wrong header is accepted: $change"
done <<'END'
/palmheap_MemHandleLock(/s/uint8_t \*count/uint32_t *count/
/palmheap_MemHandleLock(/s/uint32_t \*place, uint8_t \*count/uint8_t *count, uint32_t *place/
/palmheap_DmSet(/s/uint32_t at, uint32_t count/uint32_t count, uint32_t at/
/palmheap_pdb_check(/s/const uint8_t/uint8_t/
s/^bool palmheap_lent/uint32_t palmheap_lent/
s/^void palmheap_start(.*/void palmheap_start(const palmheap_store *store, uint8_t *start);/
/palmheap_MemHandleSize(/s/const palmheap_store/palmheap_store/
/palmheap_MemHandleUnlock(/s/palmheap_store/const palmheap_store/
s/^#define PALMHEAP_VERSION .*/#define PALMHEAP_VERSION "0.2.0"/
s/^#define PALMHEAP_VERSION_NUMBER .*/#define PALMHEAP_VERSION_NUMBER 2000/
s/palmheap_unlock_pointer/palmheap_start/
s/^void palmheap_put_back/uint8_t *palmheap_more(void);\n&/
s/uint16_t attributes;/uint8_t attributes;/
/PALMHEAP_REFUSED_CHUNK_LOCKED =/s/3/4/
s/Refusals: 7, 27\./Refusals: 7./
END

# Programs that were compiled before can use the library.
python3 "$top/tests/abi.py" >"$room/log" || { cat "$room/log"; fail 'the header does not suit older programs'; }

# A file with one record and one with none.
python3 "$top/tests/library.py" files "$room" || fail 'no files were made'
for case in 'plain' 'sanitized -fsanitize=address,undefined -fno-sanitize-recover'; do
    name=${case%% *}
    for demo in demo store loan locks; do
        # shellcheck disable=SC2086
        gcc $flags ${case#"$name"} "$top/examples/c/$demo.c" "$static" -o "$room/$name.$demo" ||
            fail "the $name $demo was not built"
    done
    for file in "$room"/*.pdb; do
        "$room/$name.demo" "$file" "$room/out" >"$room/$name.$(basename "$file").txt" ||
            fail "the $name demo failed on $file"
    done
    "$room/$name.store" "$room/$name.image" >"$room/$name.store.txt" || fail "the $name store failed"
    "$room/$name.loan" >"$room/$name.loan.txt" || fail "the $name loan failed"
    "$room/$name.locks" >"$room/$name.locks.txt" || fail "the $name locks failed"
    # shellcheck disable=SC2086
    gcc $flags ${case#"$name"} "$top/tests/library_edges.c" "$static" -o "$room/$name.edges" ||
        fail "the $name test of NULL and of equal blocks was not built"
    "$room/$name.edges" >"$room/$name.edges.txt" || { cat "$room/$name.edges.txt"; fail "the $name test of NULL failed"; }
    # shellcheck disable=SC2086
    gcc $flags ${case#"$name"} "$top/tests/library_loans.c" "$static" -o "$room/$name.loans" ||
        fail "the $name test of loans was not built"
    "$room/$name.loans" $((10 * files)) 1 >"$room/$name.loans.txt" ||
        { cat "$room/$name.loans.txt"; fail "the $name test of loans failed"; }
done
for file in "$room"/*.pdb; do
    base=$(basename "$file").txt
    cmp "$room/plain.$base" "$room/sanitized.$base" || fail 'the demos differ'
done
cmp "$room/plain.store.txt" "$room/sanitized.store.txt" || fail 'the stores differ'
cmp "$room/plain.image" "$room/sanitized.image" || fail 'the images of the stores differ'
cmp "$room/plain.locks.txt" "$room/sanitized.locks.txt" || fail 'the address books differ'
cmp "$room/plain.loans.txt" "$room/sanitized.loans.txt" || fail 'the loans differ'
cat "$room/plain.loans.txt"
grep '^record' "$room/plain.locks.txt" >"$room/records" || fail 'the address book has no records'
[ "$(wc -l <"$room/records")" = 5 ] && LC_ALL=C sort -c -k 3 "$room/records" || fail 'the address book is not sorted'
grep -q '^record 0: Buy milk$' "$room/plain.store.txt" || fail 'the store has no such record'
"$program" check "$room/plain.image" | grep -q 'databases 1' || fail 'the image of the store has not one database'
# The version of the header is that of the library, of the program and of pkg-config.
version=$(sed -n 's/^#define PALMHEAP_VERSION "\(.*\)"$/\1/p' "$top/include/palmheap.h")
# shellcheck disable=SC2086
printf '#include <palmheap.h>\nint main(void) { return palmheap_version() != PALMHEAP_VERSION_NUMBER; }\n' |
    gcc $flags -x c - -x none "$static" -o "$room/version" && "$room/version" || fail 'the library has another version'
[ "$("$program" --version)" = "palmheap $version" ] || fail 'the program has another version'
# Linked by pkg-config: shared, and static, which needs no file of the library to run.
if command -v pkg-config >/dev/null; then
    [ "$(pkg-config --modversion palmheap)" = "$version" ] || fail 'pkg-config has another version'
    for kind in shared static; do
        # shellcheck disable=SC2046
        gcc -Wall -Wextra -Werror $([ $kind = shared ] || echo -static) "$top/examples/c/store.c" \
            $(pkg-config --cflags --libs palmheap) -o "$room/$kind" || fail "pkg-config does not link the $kind library"
        [ $kind = shared ] || unset LD_LIBRARY_PATH
        "$room/$kind" "$room/out" >"$room/$kind.txt" || fail "the $kind library fails"
        cmp "$room/plain.store.txt" "$room/$kind.txt" || fail "the $kind library differs"
    done
    export LD_LIBRARY_PATH=$room/lib/lib
else
    echo 'not run: pkg-config'
fi
# Each allocation fails in turn.
wraps=-Wl,--wrap=malloc,--wrap=realloc,--wrap=free
# shellcheck disable=SC2086
gcc $flags $wraps "$top/tests/library_memory.c" "$static" -o "$room/plain.memory" ||
    fail 'the test of memory was not built'
"$room/plain.memory" >"$room/memory.txt" || { cat "$room/memory.txt"; fail 'a failed allocation does harm'; }
# Files have faults at the places that the library says.
# shellcheck disable=SC2086
gcc $flags "$top/tests/library_files.c" "$static" -o "$room/plain.files" || fail 'the test of files was not built'
"$room/plain.files" >"$room/files.txt" || { cat "$room/files.txt"; fail 'the test of files failed'; }
# No function needs more stack than docs/C-LIBRARY.md says.
for name in $(grep -o 'palmheap_[A-Za-z_]*;' "$top/tools/palmheap.map" | tr -d ';'); do
    grep -q "$name(" "$top/tests/library_stack.c" || fail "the stack of $name is not tested"
done
# shellcheck disable=SC2086
gcc $flags "$top/tests/library_stack.c" "$static" -o "$room/plain.stack" || fail 'the test of the stack was not built'
"$room/plain.stack" >"$room/stack.txt" || { cat "$room/stack.txt"; fail 'the stack is too small'; }
cat "$room/stack.txt"
# Only the functions of the header are visible, each with its version.
awk '/^PALMHEAP_/ { node = $1; print "A " node } /^ *palmheap_/ { sub(";", ""); print "T " $1 "@@" node }' \
    "$top/tools/palmheap.map" | LC_ALL=C sort >"$room/listed"
nm -D --defined-only --with-symbol-versions "$room/lib/lib/libpalmheap.so" | sed 's/^[^ ]* //' | LC_ALL=C sort |
    diff "$room/listed" - || fail 'other names are visible than those of the header'
nm -g --defined-only "$static" | awk 'NF == 3 { print $3 }' | grep -v '^palmheap_' && fail 'a name escapes'
[ "$(readlink "$room/lib/lib/libpalmheap.so")" = "$(objdump -p "$room/lib/lib/libpalmheap.so" |
    awk '$1 == "SONAME" { print $2 }')" ] || fail 'the link has another name than the shared library'

# Threads make each call that only asks.
for name in $(grep -o 'palmheap_[A-Za-z_]*(const palmheap_store' "$top/include/palmheap.h" | sed 's/(.*//'); do
    grep -q "$name(" "$top/tests/library_threads.c" || fail "no thread calls $name"
done
# shellcheck disable=SC2086
gcc $flags -pthread "$top/tests/library_threads.c" "$static" -o "$room/plain.threads" ||
    fail 'the test of threads was not built'
"$room/plain.threads" "$files" || fail 'calls that only ask disturb each other'

if command -v valgrind >/dev/null; then
    for words in "demo $room/memos.pdb $room/out" "store $room/out" loan locks memory files edges 'loans 10000 2'; do
        # shellcheck disable=SC2086
        valgrind -q --error-exitcode=9 --leak-check=full --errors-for-leak-kinds=all "$room"/plain.$words >/dev/null ||
            fail 'valgrind found an error'
    done
    valgrind -q --tool=helgrind --error-exitcode=9 "$room/plain.threads" 100 >"$room/log" 2>&1 ||
        { cat "$room/log"; fail 'calls that only ask race'; }
    valgrind -q --tool=helgrind --error-exitcode=9 "$room/plain.threads" 100 race >"$room/log" 2>&1
    [ $? = 9 ] || fail 'helgrind finds no race'
else
    echo 'not run: valgrind'
fi
if command -v cargo >/dev/null; then
    (cd "$top/examples/rust" && CARGO_TARGET_DIR=$room/target RUSTFLAGS="-L $room/lib/lib" \
        cargo run -q --offline -- "$room/memos.pdb") >"$room/rust" || fail 'the demo in Rust failed'
    python3 "$top/tests/c_calls.py" "$room/memos.pdb" >"$room/python" || fail 'the demo in Python failed'
    cmp "$room/rust" "$room/python" || fail 'the demos in Rust and Python differ'
else
    echo 'not run: cargo'
fi
python3 "$top/tests/library.py" damaged "$program" "$files" || fail 'the library and the program differ'
python3 "$top/tests/library.py" calls "$program" "$files" || fail 'calls on a store and the program differ'
