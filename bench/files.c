/*
 * Files of databases in plain C, for comparison with `benchmarks files`.
 *
 *   files SIZE SLOTS RECORDS BYTES ROUNDS
 *
 * It makes files of RECORDS records with BYTES bytes each, as `benchmarks files` does, and in each round imports
 * one into an image of SIZE bytes with SLOTS slots and with nothing in it, and exports the database again. It prints
 * the processor time of both, and the sums by which the two programs are compared.
 *
 * A file is looked at for faults first. Its blocks are sorted by their offsets, and at one offset by their rank. The
 * first use of each ID is kept, with a bit for each that there can be, and the other records get the next free ones.
 * Then the chunks are made, the directory last, and the blocks copied. An export writes the header and the entries
 * with the offsets of the blocks, and then the blocks. The chunks are those of heap.h.
 */
#include "databases.h"
#include "heap.h"
#include "times.h"

/* What the entry of a record takes, and where its attributes stand in it, with the ID behind them. */
enum { ENTRY_SIZE = 8, LABEL_AT = 4 };

/* Where the fields of a header stand that are looked at here, and how long its name is. */
enum { APP_INFO_AT = 52, SORT_INFO_AT = 56, NEXT_LIST_AT = 72, NAME_SIZE = 32 };

/* The bits of a deleted and of a busy record. */
enum { DELETED = 0x80, BUSY = 0x20 };

enum { GREATEST_ID = 0xFFFFFF };

static const uint32_t KIND = 0x44415441, CREATOR = 0x54657374;

/* A file, and its bytes. */
struct file {
    uint8_t *bytes;
    size_t len;
};

/* Where a block begins and ends, if it is there. */
struct block {
    uint32_t start, end;
    bool there;
};

static void *or_exit(void *memory)
{
    if (memory == NULL) {
        fprintf(stderr, "no memory\n");
        exit(1);
    }
    return memory;
}

static uint8_t *entry_at(uint8_t *body, uint32_t index)
{
    return body + ENTRIES_AT + ENTRY_SIZE * (size_t)index;
}

static size_t entries_end(uint32_t count)
{
    return ENTRIES_AT + ENTRY_SIZE * (size_t)count;
}

static bool is_outside(const struct file *file, size_t end, uint32_t at)
{
    return at < end || file->len < at;
}

static bool is_bad(const struct file *file, size_t end, uint32_t at)
{
    return at != 0 && is_outside(file, end, at);
}

/* Whether a file of records has a fault. */
static bool has_fault(const struct file *file)
{
    if (file->len < ENTRIES_AT || file->len < entries_end(entries_in(file->bytes)))
        return true;
    uint32_t count = entries_in(file->bytes);
    size_t end = entries_end(count);
    if (u32_at(file->bytes, NEXT_LIST_AT) != 0 || file->bytes[0] == 0 ||
        is_bad(file, end, u32_at(file->bytes, APP_INFO_AT)) ||
        is_bad(file, end, u32_at(file->bytes, SORT_INFO_AT)))
        return true;
    for (uint32_t index = 0; index < count; index++) {
        uint8_t *entry = entry_at(file->bytes, index);
        uint32_t at = u32_at(entry, 0);
        if ((at != 0 || !(entry[LABEL_AT] & DELETED)) && is_outside(file, end, at))
            return true;
    }
    return false;
}

static uint32_t offset_of(const struct file *file, uint32_t rank)
{
    if (rank == 0)
        return u32_at(file->bytes, APP_INFO_AT);
    if (rank == 1)
        return u32_at(file->bytes, SORT_INFO_AT);
    return u32_at(entry_at(file->bytes, rank - 2), 0);
}

/* The blocks of a file by their rank: the AppInfo block, the SortInfo block, and the data of the records. */
static struct block *find_blocks(const struct file *file, uint32_t ranks)
{
    uint64_t *starts = or_exit(malloc(ranks * sizeof *starts));
    struct block *blocks = or_exit(calloc(ranks, sizeof *blocks));
    size_t count = 0;
    for (uint32_t rank = 0; rank < ranks; rank++) {
        uint64_t at = offset_of(file, rank);
        if (at != 0)
            starts[count++] = at << 32 | rank;
    }
    qsort(starts, count, sizeof *starts, by_size);
    for (size_t i = 0; i < count; i++) {
        size_t end = i + 1 < count ? starts[i + 1] >> 32 : file->len;
        blocks[(uint32_t)starts[i]] = (struct block){(uint32_t)(starts[i] >> 32), (uint32_t)end, true};
    }
    free(starts);
    return blocks;
}

/* The IDs of the records of a file, and the seed behind them. */
static uint32_t *give_ids(const struct file *file, uint32_t count, uint32_t *seed)
{
    uint32_t *ids = or_exit(calloc(count + 1, sizeof *ids));
    uint8_t *taken = or_exit(calloc((GREATEST_ID + 1) / 8, 1));
    for (uint32_t index = 0; index < count; index++) {
        uint32_t id = u32_at(entry_at(file->bytes, index), LABEL_AT) & GREATEST_ID;
        if (id == 0 || taken[id / 8] >> id % 8 & 1)
            continue;
        taken[id / 8] |= (uint8_t)(1 << id % 8);
        ids[index] = id;
    }
    *seed = u32_at(file->bytes, SEED_AT) & GREATEST_ID;
    for (uint32_t index = 0; index < count; index++) {
        if (ids[index] != 0)
            continue;
        do
            *seed = *seed < GREATEST_ID ? *seed + 1 : 1;
        while (taken[*seed / 8] >> *seed % 8 & 1);
        taken[*seed / 8] |= (uint8_t)(1 << *seed % 8);
        ids[index] = *seed;
    }
    free(taken);
    return ids;
}

/* Makes the chunks of a database with such blocks, and the directory. Room is known to be there. */
static enum refusal make_chunks(struct heap *heap, const struct block *blocks, uint32_t ranks,
                                uint32_t *names, uint32_t *db)
{
    uint32_t directory;
    struct found found;
    enum refusal refusal = make_chunk(heap, (uint32_t)entries_end(ranks - 2), MANAGER, db);
    for (uint32_t rank = 0; rank < ranks && refusal == DONE; rank++)
        if (blocks[rank].there)
            refusal = make_chunk(heap, blocks[rank].end - blocks[rank].start, DATABASE, &names[rank]);
    if (refusal == DONE)
        refusal = make_chunk(heap, 4, MANAGER, &directory);
    if (refusal != DONE)
        return refusal;
    if (!find_chunk(heap, directory, &found))
        return INVALID_HANDLE;
    put_u32(body_of(heap, &found), 0, *db);
    put_u32(heap->image, DIRECTORY_AT, directory);
    return DONE;
}

/* Imports the database of a file into a heap that has none. */
static enum refusal import_file(struct heap *heap, const struct file *file, uint32_t *db)
{
    if (has_fault(file))
        return INVALID_HANDLE;
    uint32_t count = entries_in(file->bytes), ranks = count + 2, seed;
    struct found found;
    struct block *blocks = find_blocks(file, ranks);
    uint32_t *ids = give_ids(file, count, &seed);
    uint32_t *names = or_exit(calloc(ranks, sizeof *names));
    enum refusal refusal = make_chunks(heap, blocks, ranks, names, db);
    if (refusal == DONE && find_chunk(heap, *db, &found)) {
        uint8_t *body = body_of(heap, &found);
        memcpy(body, file->bytes, ENTRIES_AT);
        size_t name = strnlen((const char *)file->bytes, NAME_SIZE - 1);
        memset(body + name, 0, NAME_SIZE - name);
        put_u32(body, APP_INFO_AT, names[0]);
        put_u32(body, SORT_INFO_AT, names[1]);
        put_u32(body, SEED_AT, (u32_at(body, SEED_AT) & ~(uint32_t)GREATEST_ID) | seed);
        for (uint32_t index = 0; index < count; index++) {
            uint8_t *entry = entry_at(body, index);
            uint32_t attributes = entry_at(file->bytes, index)[LABEL_AT] & ~(uint32_t)BUSY;
            put_u32(entry, 0, names[index + 2]);
            put_u32(entry, LABEL_AT, attributes << 24 | ids[index]);
        }
        for (uint32_t rank = 0; rank < ranks; rank++)
            if (blocks[rank].there && find_chunk(heap, names[rank], &found))
                memcpy(body_of(heap, &found), file->bytes + blocks[rank].start, found.length);
    }
    free(names);
    free(ids);
    free(blocks);
    return refusal;
}

static uint32_t length_of(const struct heap *heap, uint32_t name)
{
    struct found found;
    return name != 0 && find_chunk(heap, name, &found) ? found.length : 0;
}

/* How many bytes the file of a database has. */
static size_t file_size(const struct heap *heap, uint8_t *body)
{
    uint32_t count = entries_in(body);
    size_t size = entries_end(count) + 2 + length_of(heap, u32_at(body, APP_INFO_AT)) +
                  length_of(heap, u32_at(body, SORT_INFO_AT));
    for (uint32_t index = 0; index < count; index++)
        size += length_of(heap, u32_at(entry_at(body, index), 0));
    return size;
}

/* The offset for a block, and that for the one behind it. */
static uint32_t next_offset(const struct heap *heap, uint32_t name, uint32_t *at)
{
    uint32_t here = *at;
    *at += length_of(heap, name);
    return name == 0 ? 0 : here;
}

static uint8_t *put_block(const struct heap *heap, uint32_t name, uint8_t *to)
{
    struct found found;
    if (name == 0 || !find_chunk(heap, name, &found))
        return to;
    memcpy(to, body_of(heap, &found), found.length);
    return to + found.length;
}

/* Exports a database. */
static enum refusal export_file(const struct heap *heap, uint32_t db, struct file *file)
{
    struct found found;
    if (!find_database(heap, db, &found))
        return NO_SUCH_DATABASE;
    uint8_t *body = body_of(heap, &found);
    uint32_t count = entries_in(body), at = (uint32_t)entries_end(count) + 2;
    file->len = file_size(heap, body);
    file->bytes = or_exit(malloc(file->len));
    memcpy(file->bytes, body, ENTRIES_AT);
    put_u32(file->bytes, APP_INFO_AT, next_offset(heap, u32_at(body, APP_INFO_AT), &at));
    put_u32(file->bytes, SORT_INFO_AT, next_offset(heap, u32_at(body, SORT_INFO_AT), &at));
    for (uint32_t index = 0; index < count; index++) {
        uint8_t *entry = entry_at(file->bytes, index);
        uint32_t label = u32_at(entry_at(body, index), LABEL_AT);
        put_u32(entry, 0, next_offset(heap, u32_at(entry_at(body, index), 0), &at));
        put_u32(entry, LABEL_AT, label & ~((uint32_t)BUSY << 24));
    }
    uint8_t *to = file->bytes + entries_end(count);
    *to++ = 0;
    *to++ = 0;
    to = put_block(heap, u32_at(body, APP_INFO_AT), to);
    to = put_block(heap, u32_at(body, SORT_INFO_AT), to);
    for (uint32_t index = 0; index < count; index++)
        to = put_block(heap, u32_at(entry_at(body, index), 0), to);
    return DONE;
}

/* What the files have that are imported. */
enum shape { RISING, EQUAL_IDS, ONE_START, SHAPES };

static const char *const imports[SHAPES] = {"import", "import_equal_ids", "import_one_start"};
static const char *const exports[SHAPES] = {"export", "export_equal_ids", "export_one_start"};

/* A file of so many records of so many bytes. */
static struct file make_file(enum shape shape, uint32_t records, uint32_t bytes)
{
    size_t start = entries_end(records) + 2;
    struct file file = {NULL, start + (size_t)records * bytes};
    file.bytes = or_exit(calloc(file.len, 1));
    memcpy(file.bytes, "Files", 5);
    put_u32(file.bytes, KIND_AT, KIND);
    put_u32(file.bytes, CREATOR_AT, CREATOR);
    put_u16(file.bytes, ENTRY_COUNT_AT, records);
    for (uint32_t index = 0; index < records; index++) {
        uint8_t *entry = entry_at(file.bytes, index);
        size_t at = start + (shape == ONE_START ? 0 : (size_t)index * bytes);
        put_u32(entry, 0, (uint32_t)at);
        put_u32(entry, LABEL_AT, (index % 16) << 24 | (shape == EQUAL_IDS ? 7 : index + 1));
    }
    for (size_t at = start; at < file.len; at++)
        file.bytes[at] = (uint8_t)(at * 31);
    return file;
}

static uint32_t sum_of(const struct file *file)
{
    uint32_t sum = 0;
    for (size_t at = 0; at + 4 <= file->len; at += 4)
        sum = sum_with(sum, u32_at(file->bytes, at));
    return sum;
}

/* Imports a file and exports the database, in each round on a blank heap. */
static void time_shape(enum shape shape, uint32_t size, uint32_t slots, uint32_t records, uint32_t bytes,
                       size_t rounds, struct sums *sums)
{
    struct file file = make_file(shape, records, bytes);
    uint64_t *import_times = or_exit(malloc((rounds + 1) * sizeof *import_times));
    uint64_t *export_times = or_exit(malloc((rounds + 1) * sizeof *export_times));
    for (size_t round = 0; round < rounds; round++) {
        struct heap heap;
        struct file out = {NULL, 0};
        uint32_t db = 0;
        if (!make_blank(&heap, size, slots))
            exit(2);
        uint64_t start = nanoseconds();
        enum refusal refusal = import_file(&heap, &file, &db);
        uint64_t middle = nanoseconds();
        if (refusal == DONE)
            refusal = export_file(&heap, db, &out);
        import_times[round] = middle - start;
        export_times[round] = nanoseconds() - middle;
        sums->replies = sum_with(sums->replies, refusal == DONE ? (uint32_t)out.len : refusal);
        sums->words = sum_with(sums->words, words_of(&heap));
        sums->words = sum_with(sums->words, sum_of(&out));
        free(out.bytes);
        free(heap.image);
    }
    print_times(imports[shape], 1, import_times, rounds);
    print_times(exports[shape], 1, export_times, rounds);
    free(import_times);
    free(export_times);
    free(file.bytes);
}

int main(int argc, char **argv)
{
    if (argc != 6) {
        fprintf(stderr, "usage: files SIZE SLOTS RECORDS BYTES ROUNDS\n");
        return 2;
    }
    struct sums sums = {0, 0};
    for (enum shape shape = RISING; shape < SHAPES; shape++)
        time_shape(shape, (uint32_t)atol(argv[1]), (uint32_t)atol(argv[2]), (uint32_t)atol(argv[3]),
                   (uint32_t)atol(argv[4]), (size_t)atol(argv[5]), &sums);
    printf("replies %u words %u\n", sums.replies, sums.words);
    return 0;
}
