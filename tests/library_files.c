/* Part of tests/library.sh: where files have faults, files as structures, salvaged files, and explanations.
 *
 *   gcc library_files.c libpalmheap.a -o files && ./files
 *
 * Damages a file of three records, the last one deleted and without data, at each field that can be wrong, and compares
 * what palmheap_pdb_damage says of it. Reads the file, with room for its entries or too little. Writes it from what was
 * read, also with changes, and with each byte changed to each value. Salvages what is left of the damaged file, and
 * writes its document. Asks for explanations. The status is 1 if something is wrong.
 */
#include <palmheap.h>
#include <stdio.h>
#include <stdlib.h>
#include <string.h>

enum { ENTRIES_END = 78 + 3 * 8, AT_APP = ENTRIES_END + 2, SIZE = AT_APP + 3 + 5 + 4 };

static uint8_t file[SIZE];

static void need(bool is_right, const char *what) {
    if (is_right) return;
    puts(what);
    exit(1);
}

static void put_u32(size_t at, uint32_t number) {
    for (int i = 0; i < 4; i++) file[at + i] = (uint8_t)(number >> (24 - 8 * i));
}

/* A file with an AppInfo block of 3 bytes and records of 5 and 4 bytes. */
static void make(void) {
    memset(file, 0, SIZE);
    memcpy(file, "Three", 5);
    put_u32(36, 7);
    put_u32(52, AT_APP);
    memcpy(file + 60, "DATAtest", 8);
    file[77] = 3;
    put_u32(78, AT_APP + 3);
    put_u32(82, 0x40000000 | 11);
    put_u32(86, AT_APP + 8);
    put_u32(90, 12);
    put_u32(98, 0x80000000 | 13);
    memcpy(file + AT_APP, "appfirsttwo", 12);
}

/* The first fault of the file, or of the start of it, is this one. */
static void is_damaged(size_t size, uint32_t kind, uint32_t entry, palmheap_damage wanted) {
    palmheap_damage damage = {9, 9, 9, 9, false};
    palmheap_answer answer = palmheap_pdb_damage(file, size, &damage);
    need(answer.kind == kind && answer.at == entry && answer.entry == 0, "another fault");
    need(damage.at == wanted.at && damage.found == wanted.found, "another place or number");
    need(damage.least == wanted.least && damage.most == wanted.most, "other numbers are allowed");
    need(damage.or_zero == wanted.or_zero, "another use of 0");
    answer = palmheap_pdb_check(file, size);
    need(answer.kind == kind && answer.at == entry, "the faults differ");
    make();
}

static palmheap_database_info header;
static palmheap_block app, sort;
static palmheap_file_entry entries[5];

static palmheap_answer read_entries(size_t size, size_t room, size_t *count) {
    memset(&header, 9, sizeof header);
    memset(&app, 0, sizeof app);
    memset(&sort, 1, sizeof sort);
    memset(entries, 7, sizeof entries);
    *count = 99;
    return palmheap_pdb_read(file, size, &header, &app, &sort, entries, room, count);
}

static bool is_entry(const palmheap_file_entry *entry, uint32_t id, uint8_t attributes, size_t start, size_t end) {
    bool has_data = start != 0;
    return entry->id == id && entry->attributes == attributes && entry->kind == 0 && entry->has_data == has_data &&
        (!has_data || (entry->start == start && entry->end == end));
}

static void read_file(void) {
    size_t count;
    make();
    need(read_entries(SIZE, 2, &count).kind == PALMHEAP_NO_ROOM && count == 3, "another count");
    need(header.name[0] == 9 && entries[0].kind == 0x07070707 && app.start == 0, "something is written without room");
    need(read_entries(40, 5, &count).kind == PALMHEAP_TRUNCATED && count == 99, "another fault or count");
    need(header.name[0] == 9 && entries[0].kind == 0x07070707, "a fault changes something");
    uint32_t kind = palmheap_pdb_read(file, SIZE, &header, &app, &sort, NULL, 0, &count).kind;
    need(kind == PALMHEAP_NO_ROOM && count == 3, "room in nothing");
    need(read_entries(SIZE, 4, &count).kind == PALMHEAP_OK && count == 3, "not read");
    need(header.name_length == 5 && memcmp(header.name, "Three\0\0", 7) == 0 && header.name[31] == 0, "another name");
    need(header.creation_date == 7 && header.kind == 0x44415441 && header.creator == 0x74657374, "another header");
    need(header.attributes == 0 && header.entry_count == 3 && header.seed == 0, "another header");
    need(app.is_there && app.start == AT_APP && app.end == AT_APP + 3 && !sort.is_there, "other info blocks");
    need(is_entry(entries, 11, 0x40, AT_APP + 3, AT_APP + 8), "another first record");
    need(is_entry(entries + 1, 12, 0, AT_APP + 8, SIZE), "another second record");
    need(is_entry(entries + 2, 13, 0x80, 0, 0), "another deleted record");
    need(entries[3].kind == 0x07070707, "an entry too many is written");
}

static palmheap_answer write_entries(size_t count, const uint32_t *order, size_t len, uint8_t *out, size_t *size) {
    return palmheap_pdb_write(file, SIZE, &header, &app, &sort, entries, count, file + ENTRIES_END,
        AT_APP - ENTRIES_END, order, len, out, 2 * SIZE, size);
}

/* Adds a rank to an order by the starts of the blocks, if the block is there. */
static void add_rank(uint32_t *order, size_t *starts, size_t *len, uint32_t rank, size_t start, bool is_there) {
    size_t at = *len;
    if (!is_there) return;
    for (; at > 0 && starts[at - 1] > start; at--) {
        order[at] = order[at - 1];
        starts[at] = starts[at - 1];
    }
    order[at] = rank;
    starts[at] = start;
    ++*len;
}

/* If the file has no fault, what is read of it makes the same bytes again. Returns whether it has none. */
static bool is_written_back(void) {
    static uint8_t out[2 * SIZE];
    uint32_t order[7];
    size_t starts[7], count, len = 0, size = 99;
    if (read_entries(SIZE, 5, &count).kind != PALMHEAP_OK) return false;
    add_rank(order, starts, &len, 0, app.start, app.is_there);
    add_rank(order, starts, &len, 1, sort.start, sort.is_there);
    for (uint32_t i = 0; i < count; i++) add_rank(order, starts, &len, 2 + i, entries[i].start, entries[i].has_data);
    size_t end = 78 + count * (header.attributes & 1 ? 10 : 8), first = len > 0 ? starts[0] : SIZE;
    memcpy(header.name, file, 32);
    palmheap_answer answer = palmheap_pdb_write(file, SIZE, &header, &app, &sort, entries, count, file + end,
        first - end, order, len, out, sizeof out, &size);
    need(answer.kind == PALMHEAP_OK && size == SIZE && memcmp(out, file, SIZE) == 0, "another file is written");
    return true;
}

/* The same with each byte changed to each value. */
static void write_each_back(void) {
    int written = 0;
    for (size_t at = 0; at < SIZE; at++) {
        for (int byte = 0; byte < 256; byte++) {
            make();
            file[at] = (uint8_t)byte;
            written += is_written_back();
        }
    }
    need(written > 256 * SIZE / 2, "few files are written");
    make();
}

/* Writes the file from what is read of it, and with changes. */
static void write_file(void) {
    static uint8_t out[2 * SIZE];
    static const uint32_t order[] = {2, 0}, twice[] = {2, 2}, none[] = {1}, lower[] = {3, 2};
    size_t count, size = 99;
    make();
    memcpy(file + 9, "behind", 6);
    need(read_entries(SIZE, 3, &count).kind == PALMHEAP_OK, "not read");
    memcpy(header.name, file, 32);
    need(write_entries(3, NULL, 0, out, &size).kind == PALMHEAP_OK && size == SIZE, "not written");
    need(memcmp(out, file, SIZE) == 0, "another file is written");
    uint32_t kind =
        palmheap_pdb_write(file, SIZE, &header, &app, &sort, entries, 3, NULL, 0, NULL, 0, NULL, 0, &size).kind;
    need(kind == PALMHEAP_NO_ROOM && size == SIZE - 2, "another size without filler");
    need(write_entries(3, order, 2, out, &size).kind == PALMHEAP_OK && size == SIZE, "no order");
    need(memcmp(out + AT_APP, "firstapptwo", 11) == 0, "another order");
    need(palmheap_pdb_check(out, size).kind == PALMHEAP_OK, "a faulty file is written");
    need(write_entries(2, NULL, 0, out, &size).kind == PALMHEAP_OK && size == SIZE - 8, "an entry less");
    need(out[77] == 2, "another number of entries");
    /* An edited block, and one without bytes. */
    entries[0] = (palmheap_file_entry){.start = 0, .end = 3, .id = 11, .attributes = 0x40, .has_data = true};
    need(write_entries(3, NULL, 0, out, &size).kind == PALMHEAP_OK && size == SIZE - 2, "no edited block");
    need(memcmp(out + AT_APP, "appThrtwo", 9) == 0 && memcmp(out + 86, file + 86, 3) == 0 && out[89] == AT_APP + 6,
        "another edited block");
    entries[1].end = entries[1].start;
    need(write_entries(3, NULL, 0, out, &size).kind == PALMHEAP_OK && size == SIZE - 6, "no empty block");
    size = 99;
    memset(out, 8, sizeof out);
    need(write_entries(3, lower, 2, out, &size).kind == PALMHEAP_NO_FILE, "an empty block before a lower rank");
    need(write_entries(3, twice, 2, out, &size).kind == PALMHEAP_NO_FILE, "a rank twice");
    need(write_entries(3, none, 1, out, &size).kind == PALMHEAP_NO_FILE, "a rank without a block");
    header.name[5] = 1;
    need(write_entries(3, NULL, 0, out, &size).kind == PALMHEAP_NO_FILE, "a name that goes on");
    header.name[5] = 0;
    entries[1].end = SIZE + 1;
    need(write_entries(3, NULL, 0, out, &size).kind == PALMHEAP_NO_FILE, "a place outside");
    entries[1].end = entries[1].start - 1;
    need(write_entries(3, NULL, 0, out, &size).kind == PALMHEAP_NO_FILE, "a place that ends before its start");
    entries[1].has_data = false;
    need(write_entries(3, NULL, 0, out, &size).kind == PALMHEAP_NO_FILE, "a record without data");
    need(size == 99 && out[0] == 8, "something is written");
    entries[1].attributes = 0x80;
    need(write_entries(3, NULL, 0, out, &size).kind == PALMHEAP_OK && size == SIZE - 6, "a deleted record");
    header.name_length = 0;
    need(write_entries(3, NULL, 0, out, &size).kind == PALMHEAP_NO_FILE, "no name");
    make();
}

/* What palmheap_salvage makes of the file has no fault, `records` records and this size, and these lines are about it. */
static void is_salvaged(bool exact_ids, size_t records, size_t wanted, const char *lines) {
    static uint8_t salvaged[SIZE + 1], text[512];
    size_t size = 9, faults = 9, len = 9, line_count = 0;
    palmheap_answer answer = palmheap_salvage(file, SIZE, exact_ids, NULL, 0, &size, &faults);
    need(answer.kind == PALMHEAP_NO_ROOM && size == wanted, "another size of a salvaged file");
    for (const char *at = lines; *at != 0; at++) line_count += *at == '\n';
    need(faults == line_count, "another number of faults");
    memset(salvaged, 7, sizeof salvaged);
    need(palmheap_salvage(file, SIZE, exact_ids, salvaged, SIZE + 1, &size, &faults).kind == PALMHEAP_OK, "not salvaged");
    need(size == wanted && faults == line_count && salvaged[size] == 7, "the salvaged file is longer than its size");
    need(palmheap_pdb_check(salvaged, size).kind == PALMHEAP_OK && salvaged[77] == records, "another salvaged file");
    need(palmheap_salvage_lines(file, SIZE, text, sizeof text, &len).kind == PALMHEAP_OK, "no lines");
    need(len == strlen(lines) && memcmp(text, lines, len) == 0, "other lines");
    make();
}

static void salvage(void) {
    size_t size = 99, faults = 99;
    make();
    is_salvaged(false, 3, SIZE, "");
    put_u32(86, 0);
    is_salvaged(false, 2, SIZE - 8, "entry 1 offset 0 within the entries: dropped\n");
    put_u32(72, 1);
    put_u32(52, SIZE + 1);
    is_salvaged(true, 3, SIZE - 3, "chained list: ignored\napp offset 117 beyond the end: dropped\n");
    need(palmheap_salvage(file, 77, false, NULL, 0, &size, &faults).kind == PALMHEAP_TRUNCATED, "a header is salvaged");
    need(palmheap_salvage_lines(file, 77, NULL, 0, &size).kind == PALMHEAP_TRUNCATED, "lines without a header");
    need(size == 99 && faults == 99, "a refused file changes something");
}

/* The document of the file, or of the start of it, begins with this. */
static void has_document(size_t size, const char *front) {
    static uint8_t text[1024];
    size_t count = 0, len;
    need(palmheap_pdb_json(file, size, NULL, 0, &len).kind == PALMHEAP_NO_ROOM && len <= sizeof text, "no size");
    need(palmheap_pdb_json(file, size, text, len, &count).kind == PALMHEAP_OK && count == len, "no document");
    need(memcmp(text, front, strlen(front)) == 0 && text[len - 1] == '\n', "another document");
    make();
}

static void documents(void) {
    palmheap_needs needs = {9, 9};
    make();
    has_document(SIZE, "{\"size\":116,\"name\":\"Three\",");
    has_document(50, "{\"fault\":\"Truncated\",\"numbers\":[],\"at\":50}\n");
    put_u32(86, 0);
    has_document(SIZE, "{\"fault\":\"BadOffset\",\"numbers\":[1],\"at\":86}\n");
    need(palmheap_pdb_needs(file, 50, &needs).kind == PALMHEAP_TRUNCATED && needs.size == 9, "needs of a damaged file");
    /* The directory, the header with three entries, and three blocks, in a table of five slots. */
    need(palmheap_pdb_needs(file, SIZE, &needs).kind == PALMHEAP_OK && needs.slots == 5, "another number of slots");
    need(needs.size == 40 + 16 + 112 + 3 * 16, "another size of an image");
}

/* The explanation of a word begins with these bytes, and ends with a line's end. */
static void is_explained(const char *word, const char *front) {
    static uint8_t text[1024];
    size_t count = 0, len;
    uint32_t result = palmheap_explain((const uint8_t *)word, strlen(word), NULL, 0, &len);
    need(result == PALMHEAP_CALL_NO_ROOM && len > strlen(front) && len <= sizeof text, "another size of a text");
    need(palmheap_explain((const uint8_t *)word, strlen(word), text, len, &count) == 0 && count == len, "not explained");
    need(memcmp(text, front, strlen(front)) == 0 && text[len - 1] == '\n', "another explanation");
    need(palmheap_explain((const uint8_t *)word, strlen(word), text, len - 1, &count) == PALMHEAP_CALL_NO_ROOM, "room");
}

static void explain(void) {
    size_t count = 99;
    is_explained("25", "25 BadFile, a refusal: ");
    is_explained("Lent", "27 Lent, a refusal: ");
    is_explained("badchunk", "BadChunk o, a fault of an image: ");
    uint32_t result = palmheap_explain((const uint8_t *)"28", 2, NULL, 0, &count);
    need(result == PALMHEAP_CALL_NO_WORD && count == 99, "a refusal too many");
}

int main(void) {
    explain();
    read_file();
    write_file();
    write_each_back();
    salvage();
    documents();
    make();
    is_damaged(SIZE, PALMHEAP_OK, 0, (palmheap_damage){9, 9, 9, 9, false});
    is_damaged(50, PALMHEAP_TRUNCATED, 0, (palmheap_damage){50, 50, 78, SIZE_MAX, false});
    const size_t less = ENTRIES_END - 1;
    is_damaged(less, PALMHEAP_TRUNCATED, 0, (palmheap_damage){less, less, ENTRIES_END, SIZE_MAX, false});
    put_u32(72, 5);
    is_damaged(SIZE, PALMHEAP_CHAINED_LIST, 0, (palmheap_damage){72, 5, 0, 0, true});
    file[0] = 0;
    is_damaged(SIZE, PALMHEAP_EMPTY_NAME, 0, (palmheap_damage){0, 0, 1, 255, false});
    put_u32(52, SIZE + 1);
    is_damaged(SIZE, PALMHEAP_BAD_APP_INFO, 0, (palmheap_damage){52, SIZE + 1, ENTRIES_END, SIZE, true});
    put_u32(56, 77);
    is_damaged(SIZE, PALMHEAP_BAD_SORT_INFO, 0, (palmheap_damage){56, 77, ENTRIES_END, SIZE, true});
    put_u32(86, 0);
    is_damaged(SIZE, PALMHEAP_BAD_OFFSET, 1, (palmheap_damage){86, 0, ENTRIES_END, SIZE, true});
    return 0;
}
