#!/bin/bash
# Looks in the source for what no proof shows of memory: that only allowance allocates, that only allowance cites the
# lemma on which the allocator's refusal rests, that `grant` and `failed` are called where they must be, and that each
# allocation of a size by a number asks for the size that is listed here.
#
#   tests/growths.sh
#
# Each line that shouldn't be there is printed; the status is 1 then.
cd -- "$(dirname -- "$0")/../crates" || exit 1
status=0

# absent WORDS PATTERN FILES..: prints the lines that match, and says so.
absent() {
    local words=$1 pattern=$2
    shift 2
    if grep -nE -- "$pattern" "$@"; then
        printf '%s\n' "$words" >&2
        status=1
    fi
}

sources=()
proofs=()
all=()
while IFS= read -r file; do
    case $file in
        ./test_* | ./benchmarks/* | ./example_memos/* | *.antt) ;;
        *) all+=("$file") ;;
    esac
    case $file in
        *.antt) proofs+=("$file") ;;
        ./test_* | ./benchmarks/* | ./example_memos/*) ;;
        ./program_io/src/command_line.rt | ./program_io/src/requested.rt | ./program_io/src/output_file.rt) ;;
        ./command_files/src/files.rt | ./file_commands/src/folders.rt) ;;
        ./image_program/src/words.rt | ./palmheap_program/src/stores.rt) ;;
        # it fills room that allowance took
        ./canonical_file/src/blocks.rt) ;;
        # it makes a box, or an entry of a map, as docs/C-LIBRARY.md says
        ./palmheap_c/src/opening.rt | ./palmheap_c/src/pointers.rt) ;;
        *) sources+=("$file") ;;
    esac
done < <(find . -name out -prune -o -path ./allowance -prune -o '(' -name '*.rt' -o -name '*.antt' ')' -print)

absent 'memory grows outside of allowance' \
    'vec!\[in|format!\(in|(Vec|String|Map|Set|Deque|Heap)::with_capacity|Vec::from|String::from|Box::new|\.(extend_from_slice|reserve|collect|to_vec)\(' \
    "${sources[@]}"
absent 'a map grows outside of allowance' '\.(insert\([^()]+,|or_insert)' "${sources[@]}"
absent 'allowance alone may cite its lemma' 'told_of_failure' "${proofs[@]}" "${all[@]}"
# A function under another name would not be seen below.
absent 'a function of allowance has another name' \
    '(^|[^a-z_])(failed|zeros|filled|room_for|zeroed_from|of_zeros|refused_(write|block|entry)) as |allowance::\*' \
    "${all[@]}"

# functions PATTERN: the functions whose body has a line that matches, as FILE:FUNCTION, in order.
functions() {
    awk -v pattern="$1" '
        /^[ ]*\/\// || /^(pub )?use / { next }
        match($0, /fn [a-z_0-9]+/) { name = substr($0, RSTART + 3, RLENGTH - 3); if ($0 !~ /=>|= /) next }
        $0 ~ pattern { print FILENAME ":" name }
    ' "${all[@]}" | sort -u
}

# only PATTERN FUNCTION..: these functions alone match.
only() {
    local pattern=$1 found
    shift
    found=$(functions "$pattern")
    if [ "$found" != "$(printf '%s\n' "$@" | sort)" ]; then
        printf '%s is in:\n%s\n' "$pattern" "$found" >&2
        status=1
    fi
}

# a failure can be noted by allowance alone, as no other crate can make a `Failure`
only '\.grant\(' ./raw_region/src/region.rt:of_zeros
# each of these says that an allocation failed, and no contract can express that it did
only '(^|[^a-z_])failed[ ]*(::<[^(]*>)?\(' \
    ./palmheap_c/src/buffers.rt:refused_block ./palmheap_c/src/buffers.rt:refused_entry \
    ./palmheap_c/src/buffers.rt:refused_write ./palmheap_c/src/explaining.rt:refused_text \
    ./pdb_files/src/exporting.rt:refused_write ./raw_region/src/region.rt:of_zeros
only '(^|[^a-z_])refused_(write|block|entry|text)[ ]*(::<[^(]*>)?\(' \
    ./palmheap_c/src/database_lists.rt:listing_of ./palmheap_c/src/pictures.rt:picture_of \
    ./palmheap_c/src/documents.rt:fault_document ./palmheap_c/src/documents.rt:listing_document \
    ./palmheap_c/src/explaining.rt:palmheap_explain ./palmheap_c/src/files.rt:listing_of \
    ./palmheap_c/src/salvaging.rt:lines_of ./palmheap_c/src/salvaging.rt:salvaged_of \
    ./palmheap_c/src/opening.rt:boxed ./palmheap_c/src/opening.rt:palmheap_write_image ./palmheap_c/src/pointers.rt:keep_loan \
    ./palmheap_c/src/runs.rt:run_on ./pdb_files/src/exporting.rt:file_bytes
# the vectors of the program itself grow without a grant; the other two functions pass one on
only '\.push\(' \
    ./command_files/src/files.rt:read_files ./palmheap_program/src/stores.rt:words_of \
    ./script_lines/src/reading.rt:parse_from ./script_lines/src/value.rt:add_value

# Out of memory can be invented by a request that no allocator grants: a clause says that an allocation failed, not that
# it asked for no more than was needed. So each request by a number is listed. All others copy or append what is there.
# the functions of allowance and of raw_region that take a number, and those that pass one on
sized='(zeros|filled|room_for|zeroed_from|of_zeros|buffer|set_for|zeros_for|widen|grow|Cells::new|empty_set|no_marks|no_owners|unbound_(names|databases)|with_room)'
requests() {
    awk '
        /^[ ]*\/\// || /^(pub )?use / { next }
        match($0, /fn [a-z_0-9]+/) { name = substr($0, RSTART + 3, RLENGTH - 3) }
        / fn |^fn / || !match($0, /(^|[^a-z_])'"$sized"'(::<[^(]*>)?\(/) { next }
        {
            request = substr($0, RSTART)
            sub(/^[^a-z]/, "", request)
            sub(/( else \{|[;,])$/, "", request)
            # functions of the same names find room in a heap, and make a chunk longer
            if (request !~ /^(room_for\(space|grow\(heap),/) print FILENAME ":" name " " request
        }
    ' "${all[@]}" | sort
}
listed=$(
    sort <<'END'
./canonical_file/src/canonical.rt:canonical_bytes room_for(memory, file_size(file))?
./canonical_file/src/canonical.rt:head_of room_for(memory, file.first_place() as usize)?
./canonical_file/src/mended.rt:mended_start room_for(memory, size)?
./chunk_format/src/image.rt:blank_from zeroed_from(memory, size)
./command_files/src/region_input.rt:buffer zeros(memory, MOST_READ)
./command_files/src/region_input.rt:read_region_from buffer(memory)
./command_files/src/region_input.rt:read_region_from zeroed_from(memory, size)
./file_commands/src/starts/parts.rt:read_part zeros(memory, count)
./file_ids/src/give.rt:give_ids set_for(memory, GREATEST_ID as usize / 8 + 1)?
./file_ids/src/give.rt:give_ids zeros_for(memory, file.entry_count())?
./file_ids/src/give.rt:set_for zeros(memory, size)
./file_ids/src/give.rt:zeros_for filled(memory, 0, count as usize)
./file_parts/src/exact_listed.rt:ranks_of zeros(memory, listed.rank_count()) {
./file_parts/src/exact_packing.rt:place_blocks filled(memory, 0u32, exact.listed.rank_count())
./file_parts/src/exact_writing.rt:place_blocks filled(memory, 0u32, source.rank_count())
./heap_map/src/cells.rt:cells_of Cells::new(memory, size, ((area + (size - 1)) / size) as usize)?
./heap_map/src/cells.rt:marks_of room_for(memory, firsts.len())?
./heap_map/src/cells.rt:new filled(memory, 0u32, count)?
./heap_map/src/cells.rt:new filled(memory, FREE, count)?
./heap_map/src/numbers.rt:database_numbers filled(memory, 0u16, word_count(region))?
./heap_migration/src/migration.rt:grown_from zeroed_from(memory, size as u32)
./heap_svg/src/pieces.rt:new room_for(memory, 0)?
./heap_svg/src/rooms.rt:new room_for(memory, 0)?
./heap_svg/src/strips.rt:new room_for(memory, 0)?
./live_scripts/src/live.rt:run_read zeros(memory, MOST_READ)
./live_scripts/src/session.rt:make_room grow(memory, &mut self.databases, Db(0), database_end)?
./live_scripts/src/session.rt:make_room grow(memory, &mut self.names, Name(0), chunk_end)?
./live_scripts/src/session.rt:make_room widen(memory, &mut self.buffer, line.byte_count())
./live_scripts/src/tables.rt:widen zeros(memory, count)?
./palm_script/src/lists.rt:run_calls_from room_for(memory, calls.len())
./palm_script/src/runs.rt:run_from room_for(memory, script.export_count())
./palm_script/src/runs.rt:run_from unbound_databases(memory, script.database_label_count())
./palm_script/src/runs.rt:run_from unbound_names(memory, script.chunk_label_count())
./palm_script/src/runs.rt:run_from zeros(memory, script.most_bytes())
./palm_script/src/runs.rt:unbound_databases filled(memory, Db(0), count)
./palm_script/src/runs.rt:unbound_names filled(memory, Name(0), count)
./palmheap_c/src/images.rt:bits_for zeros(&alloc, bits_needed(region))
./pdb_files/src/exporting.rt:file_bytes room_for(memory, file_size(store, bytes) as usize)?)
./pdb_files/src/importing.rt:no_names filled(memory, Name(0), blocks.len())
./pdb_format/src/blocks.rt:find_blocks filled(memory, None, rank_count(file) as usize)?
./program_io/src/input.rt:buffer zeros(memory, n)
./program_io/src/input.rt:read_within buffer(memory, MOST_READ)
./program_io/src/input.rt:read_within with_room(memory, room)
./program_io/src/input.rt:with_room room_for(memory, n)
./raw_region/src/region.rt:copied_from of_zeros(memory, bytes.len())?
./raw_region/src/region.rt:of_zeros room_for(memory, size / 64 + 1)?
./raw_region/src/region.rt:zeroed zeroed_from(&alloc, size)
./raw_region/src/region.rt:zeroed_from of_zeros(memory, size as usize)
./script_commands/src/line.rt:refused_growth zeros(memory, size).unwrap_err()
./store_check/src/check.rt:check_ids_and_names empty_set(memory, set_size(region, headers))
./store_check/src/check.rt:check_marks no_marks(memory, mark_count(region))
./store_check/src/ids.rt:empty_set zeros(memory, size)
./store_check/src/marks.rt:no_marks zeros(memory, count)
./store_check/src/owners.rt:no_owners filled(memory, NO_OWNER, count)
./store_check/src/owners.rt:noted_owners no_owners(memory, mark_count(region))?
END
)
if [ "$(requests)" != "$listed" ]; then
    diff <(printf '%s\n' "$listed") <(requests) >&2
    printf 'these requests of memory are not as listed\n' >&2
    status=1
fi

# A request inside allowance could ask for more than its caller does, and then say that an allocation failed.
own=$(grep -hE '[a-z_]+!\[|[a-z_]+!\(in|[A-Z][A-Za-z]+::[a-z_]+\(|\.(resize|reserve|push|extend_from_slice|insert)\(' \
    allowance/src/*.rt | sed '/^ *\/\//d; s/^ *//')
listed=$(
    cat <<'END'
outcome(memory, vec![in memory.grant()?; 0u8; count])
let mut filled = Vec::new(memory.grant()?);
let grown = filled.resize(count, item);
outcome(memory, Vec::from_slice(memory.grant()?, bytes))
outcome(memory, Vec::with_capacity(memory.grant()?, count))
let grown = match items.push(item) {
let grown = bytes.extend_from_slice(more);
let grown = match map.insert(key, value) {
outcome(memory, String::format(memory.grant()?, value))
END
)
if [ "$own" != "$listed" ]; then
    diff <(printf '%s\n' "$listed") <(printf '%s\n' "$own") >&2
    printf 'these requests of allowance are not as listed\n' >&2
    status=1
fi
exit "$status"
