/*
 * Calls on records in plain C, some on resources, and their times: what the Rattle calls are measured beside.
 *
 * usage: record_calls [SIZE SLOTS RECORDS [CALLS PASSES ROUNDS]]
 *
 * With three words it only makes the records, and prints the sums of their replies and of their image.
 *
 * It does the same calls in the same order as crates/benchmarks/src/records, on databases in images of the same
 * format (docs/FORMAT.md) and by the same algorithm, and prints the same lines. Each call looks first whether
 * its database is there, holds records, and may be written where it is to be. Entries are moved by one memmove.
 * A new record gets the first ID behind the seed that no record has. How far the IDs are free from the one next
 * to the seed on takes a pass over the entries, and is remembered; only where that one is taken, a second pass
 * marks those near the seed, and where all of these are taken a third one has a bit for each record. No call here
 * sets an ID, so nothing that is remembered has to be forgotten. The chunks are
 * those of heap.h, and the calls on resources those of resources.h.
 */
#include "databases.h"
#include "heap.h"
#include "resources.h"
#include "times.h"

/* What the entry of a record takes, and where its attributes stand in it, with the ID behind them. */
enum { ENTRY_SIZE = 8, LABEL_AT = 4 };

/* The attributes of a new record, dirty and busy; the bits of a dirty and of a deleted one, and of the category. */
enum { NEW_ATTRIBUTES = 0x60, DIRTY = 0x40, DELETED = 0x80, CATEGORY = 0x0F };

/* The bits that stay where attributes are set: those of a deleted and of a busy record. */
enum { KEPT = 0xA0 };

/* How many categories there are, and what stands for all of them where records are counted. */
enum { CATEGORIES = 16, ALL_CATEGORIES = 0xFF };

enum { GREATEST_ID = 0xFFFFFF };

/* How many bytes have the bits of the IDs near the seed, and how many a bit for each record. */
enum { FEW = 128, MANY = 8192 };

/* What the calls here are done with: an index behind all records, and the most bytes of a record. */
enum { END = 0xFFFF, MOST_BYTES = 64 };

/* The types and the creator of the two databases. */
static const uint32_t KIND = 0x44415441, PROGRAM = 0x6170706C, CREATOR = 0x54657374;

/* What the entry of a record says. */
struct record {
    uint32_t attributes, id, slot;
};

static uint8_t *entry_at(uint8_t *body, uint32_t index)
{
    return body + ENTRIES_AT + ENTRY_SIZE * index;
}

static uint32_t database_size(uint32_t entries)
{
    return ENTRIES_AT + ENTRY_SIZE * entries;
}

/* The chunk of a database of records. */
static enum refusal find_readable(const struct heap *heap, uint32_t db, struct found *found)
{
    if (!find_database(heap, db, found))
        return NO_SUCH_DATABASE;
    return has_resources(heap, found) ? NOT_RECORD_DATABASE : DONE;
}

static enum refusal find_writable(const struct heap *heap, uint32_t db, struct found *found)
{
    enum refusal refusal = find_readable(heap, db, found);
    if (refusal != DONE)
        return refusal;
    return is_read_only(heap, found) ? READ_ONLY : DONE;
}

static uint32_t steps_to(uint32_t seed, uint32_t id)
{
    return id > seed ? id - seed - 1 : GREATEST_ID - seed + id - 1;
}

static uint32_t id_behind(uint32_t seed, uint32_t steps)
{
    uint32_t last = seed + steps;
    return last < GREATEST_ID ? last + 1 : last - GREATEST_ID + 1;
}

/* Marks the IDs of the records by their steps behind the seed, as far as there are bits, and answers the
 * first step without a mark. */
static uint32_t first_step(const uint8_t *body, uint32_t seed, uint8_t *taken, uint32_t bytes)
{
    uint32_t count = entries_in(body);
    memset(taken, 0, bytes);
    for (uint32_t index = 0; index < count; index++) {
        uint32_t id = u32_at(body, ENTRIES_AT + ENTRY_SIZE * index + LABEL_AT) & GREATEST_ID;
        if (id == 0)
            continue;
        uint32_t steps = steps_to(seed, id);
        if (steps < 8 * bytes)
            taken[steps / 8] |= (uint8_t)(1 << steps % 8);
    }
    uint32_t step = 0;
    while (step < 8 * bytes && taken[step / 8] >> step % 8 & 1)
        step++;
    return step;
}

/* IDs of a database that no record has: those from the first on, below the end. */
static struct {
    uint32_t db, first, end;
} known;

/* The least ID of a record that is not below this one, or the number behind the greatest ID. */
static uint32_t end_of_free(const uint8_t *body, uint32_t first)
{
    uint32_t count = entries_in(body), end = GREATEST_ID + 1;
    for (uint32_t index = 0; index < count; index++) {
        uint32_t id = u32_at(body, ENTRIES_AT + ENTRY_SIZE * index + LABEL_AT) & GREATEST_ID;
        if (first <= id && id < end)
            end = id;
    }
    return end;
}

/* The first ID behind the seed that no record has. The caller's record gets it. */
static uint32_t fresh_id(const uint8_t *body, uint32_t db)
{
    uint8_t taken[MANY];
    uint32_t seed = u32_at(body, SEED_AT) & GREATEST_ID;
    uint32_t next = id_behind(seed, 0);
    if (known.db != db || next < known.first || next >= known.end) {
        known.db = db;
        known.end = end_of_free(body, next);
    }
    known.first = next + 1;
    if (next < known.end)
        return next;
    uint32_t steps = first_step(body, seed, taken, FEW);
    if (steps == 8 * FEW)
        steps = first_step(body, seed, taken, MANY);
    uint32_t id = id_behind(seed, steps);
    known.first = id + 1;
    known.end = end_of_free(body, id);
    return id;
}

/* Gives a chunk another owner. */
static void set_owner(struct heap *heap, const struct found *found, uint32_t owner)
{
    heap->image[found->place - 4] = (uint8_t)((found->lock << 4) | owner);
}

/* Puts an entry in, for which the chunk of the database has grown already. */
static void put_in(uint8_t *body, uint32_t at, const struct record *record)
{
    uint32_t count = entries_in(body);
    uint8_t *entry = entry_at(body, at);
    memmove(entry + ENTRY_SIZE, entry, ENTRY_SIZE * (count - at));
    put_u32(entry, 0, record->slot);
    put_u32(entry, LABEL_AT, record->attributes << 24 | record->id);
    put_u32(body, SEED_AT, (u32_at(body, SEED_AT) & ~(uint32_t)GREATEST_ID) | record->id);
    put_u16(body, ENTRY_COUNT_AT, count + 1);
    raise_modification(body);
}

static enum refusal new_record(struct heap *heap, uint32_t db, uint32_t at, uint32_t size,
                               uint32_t *index, uint32_t *name)
{
    struct found found;
    enum refusal refusal = find_writable(heap, db, &found);
    if (refusal != DONE)
        return refusal;
    uint32_t count = entries_in(body_of(heap, &found));
    if (count >= MOST_ENTRIES)
        return TOO_MANY_ENTRIES;
    struct record record = {.attributes = NEW_ATTRIBUTES, .id = fresh_id(body_of(heap, &found), db)};
    refusal = make_chunk(heap, size, DATABASE, &record.slot);
    if (refusal != DONE)
        return refusal;
    if (!find_chunk(heap, db, &found))
        return NO_SUCH_DATABASE;
    refusal = resize_chunk(heap, db, &found, database_size(count + 1));
    if (refusal != DONE) {
        free_slot(heap, record.slot);
        return refusal;
    }
    if (!find_chunk(heap, db, &found))
        return NO_SUCH_DATABASE;
    *index = at < count ? at : count;
    *name = record.slot;
    put_in(body_of(heap, &found), *index, &record);
    return DONE;
}

/* Makes a caller's chunk the data of a new record. */
static enum refusal attach(struct heap *heap, uint32_t db, uint32_t at, uint32_t name, uint32_t *index)
{
    struct found found, given;
    enum refusal refusal = find_writable(heap, db, &found);
    if (refusal != DONE)
        return refusal;
    if (!find_chunk(heap, name, &given) || given.owner == MANAGER)
        return INVALID_HANDLE;
    if (given.owner == DATABASE)
        return OWNED_BY_DATABASE;
    if (given.lock == FIXED)
        return CHUNK_FIXED;
    uint32_t count = entries_in(body_of(heap, &found));
    if (count >= MOST_ENTRIES)
        return TOO_MANY_ENTRIES;
    struct record record = {
        .attributes = DIRTY, .id = fresh_id(body_of(heap, &found), db), .slot = name
    };
    refusal = resize_chunk(heap, db, &found, database_size(count + 1));
    if (refusal != DONE)
        return refusal;
    if (!find_chunk(heap, db, &found) || !find_chunk(heap, name, &given))
        return NO_SUCH_DATABASE;
    *index = at < count ? at : count;
    put_in(body_of(heap, &found), *index, &record);
    set_owner(heap, &given, DATABASE);
    return DONE;
}

/* Takes a record out, and hands its data over to an owner. */
static enum refusal detach(struct heap *heap, uint32_t db, uint32_t index, uint32_t owner, uint32_t *name)
{
    struct found found, data;
    enum refusal refusal = find_writable(heap, db, &found);
    if (refusal != DONE)
        return refusal;
    uint8_t *body = body_of(heap, &found);
    uint32_t count = entries_in(body);
    if (index >= count)
        return INDEX_OUT_OF_RANGE;
    uint8_t *entry = entry_at(body, index);
    if (entry[LABEL_AT] & DELETED)
        return RECORD_DELETED;
    if (owner == MANAGER || owner >= DATABASE)
        return INVALID_OWNER;
    *name = u32_at(entry, 0);
    if (!find_chunk(heap, *name, &data))
        return INVALID_HANDLE;
    memmove(entry, entry + ENTRY_SIZE, ENTRY_SIZE * (count - index - 1));
    resize_in_place(heap, &found, database_size(count - 1));
    put_u16(body, ENTRY_COUNT_AT, count - 1);
    set_owner(heap, &data, owner);
    raise_modification(body);
    return DONE;
}

/* Sets the attributes of a record, but the bits of a deleted and of a busy one. */
static enum refusal set_record_info(struct heap *heap, uint32_t db, uint32_t index, uint32_t attributes)
{
    struct found found;
    enum refusal refusal = find_writable(heap, db, &found);
    if (refusal != DONE)
        return refusal;
    uint8_t *body = body_of(heap, &found);
    if (index >= entries_in(body))
        return INDEX_OUT_OF_RANGE;
    uint8_t *entry = entry_at(body, index);
    entry[LABEL_AT] = (uint8_t)((entry[LABEL_AT] & KEPT) | (attributes & ~KEPT));
    raise_modification(body);
    return DONE;
}

static enum refusal num_records(const struct heap *heap, uint32_t db, uint32_t *count)
{
    struct found found;
    enum refusal refusal = find_readable(heap, db, &found);
    if (refusal != DONE)
        return refusal;
    *count = entries_in(body_of(heap, &found));
    return DONE;
}

static enum refusal record_info(const struct heap *heap, uint32_t db, uint32_t index,
                                struct record *record)
{
    struct found found;
    enum refusal refusal = find_readable(heap, db, &found);
    if (refusal != DONE)
        return refusal;
    uint8_t *body = body_of(heap, &found);
    if (index >= entries_in(body))
        return INDEX_OUT_OF_RANGE;
    uint8_t *entry = entry_at(body, index);
    uint32_t label = u32_at(entry, LABEL_AT);
    record->slot = u32_at(entry, 0);
    record->attributes = label >> 24;
    record->id = label & GREATEST_ID;
    return DONE;
}

static enum refusal find_by_id(const struct heap *heap, uint32_t db, uint32_t id, uint32_t *index)
{
    struct found found;
    enum refusal refusal = find_readable(heap, db, &found);
    if (refusal != DONE)
        return refusal;
    uint8_t *body = body_of(heap, &found);
    uint32_t count = entries_in(body);
    for (*index = 0; *index < count; ++*index)
        if ((u32_at(entry_at(body, *index), LABEL_AT) & GREATEST_ID) == id)
            return DONE;
    return UNIQUE_ID_NOT_FOUND;
}

/* Whether a record is not deleted and of a category, or of any. */
static bool has_category(const uint8_t *entry, uint32_t category)
{
    uint8_t attributes = entry[LABEL_AT];
    return !(attributes & DELETED) &&
           (category == ALL_CATEGORIES || (attributes & CATEGORY) == category);
}

static enum refusal num_in_category(const struct heap *heap, uint32_t db, uint32_t category,
                                    uint32_t *number)
{
    struct found found;
    enum refusal refusal = find_readable(heap, db, &found);
    if (refusal != DONE)
        return refusal;
    if (category >= CATEGORIES && category != ALL_CATEGORIES)
        return INVALID_CATEGORY;
    uint8_t *body = body_of(heap, &found);
    uint32_t count = entries_in(body);
    *number = 0;
    for (uint32_t index = 0; index < count; index++)
        *number += has_category(entry_at(body, index), category);
    return DONE;
}

static enum refusal move_category(struct heap *heap, uint32_t db, uint32_t to, uint32_t from)
{
    struct found found;
    enum refusal refusal = find_writable(heap, db, &found);
    if (refusal != DONE)
        return refusal;
    if (to >= CATEGORIES || from >= CATEGORIES)
        return INVALID_CATEGORY;
    uint8_t *body = body_of(heap, &found);
    uint32_t count = entries_in(body);
    for (uint32_t index = 0; index < count; index++) {
        uint8_t *entry = entry_at(body, index);
        if (has_category(entry, from))
            entry[LABEL_AT] = (uint8_t)((entry[LABEL_AT] & ~CATEGORY) | to);
    }
    raise_modification(body);
    return DONE;
}

/* Deletes each record of a category: its data is freed, and its entry stays. */
static enum refusal delete_category(struct heap *heap, uint32_t db, uint32_t category)
{
    struct found found;
    enum refusal refusal = find_writable(heap, db, &found);
    if (refusal != DONE)
        return refusal;
    if (category >= CATEGORIES)
        return INVALID_CATEGORY;
    uint8_t *body = body_of(heap, &found);
    uint32_t count = entries_in(body);
    for (uint32_t index = 0; index < count; index++) {
        uint8_t *entry = entry_at(body, index);
        if (has_category(entry, category) && is_locked(heap, u32_at(entry, 0)))
            return CHUNK_LOCKED;
    }
    for (uint32_t index = 0; index < count; index++) {
        uint8_t *entry = entry_at(body, index);
        if (!has_category(entry, category))
            continue;
        uint32_t slot = u32_at(entry, 0);
        put_u32(entry, 0, 0);
        entry[LABEL_AT] |= DELETED;
        free_slot(heap, slot);
    }
    raise_modification(body);
    return DONE;
}

static enum refusal remove_record(struct heap *heap, uint32_t db, uint32_t index)
{
    struct found found;
    enum refusal refusal = find_writable(heap, db, &found);
    if (refusal != DONE)
        return refusal;
    uint8_t *body = body_of(heap, &found);
    uint32_t count = entries_in(body);
    if (index >= count)
        return INDEX_OUT_OF_RANGE;
    uint8_t *entry = entry_at(body, index);
    uint32_t slot = u32_at(entry, 0);
    if (is_locked(heap, slot))
        return CHUNK_LOCKED;
    memmove(entry, entry + ENTRY_SIZE, ENTRY_SIZE * (count - index - 1));
    resize_in_place(heap, &found, database_size(count - 1));
    put_u16(body, ENTRY_COUNT_AT, count - 1);
    free_slot(heap, slot);
    raise_modification(body);
    return DONE;
}

static enum refusal move_record(struct heap *heap, uint32_t db, uint32_t from, uint32_t to)
{
    struct found found;
    enum refusal refusal = find_writable(heap, db, &found);
    if (refusal != DONE)
        return refusal;
    uint8_t *body = body_of(heap, &found);
    uint32_t count = entries_in(body);
    if (from >= count || to > count)
        return INDEX_OUT_OF_RANGE;
    uint8_t entry[ENTRY_SIZE];
    memcpy(entry, entry_at(body, from), ENTRY_SIZE);
    if (to < from) {
        memmove(entry_at(body, to + 1), entry_at(body, to), ENTRY_SIZE * (from - to));
        memcpy(entry_at(body, to), entry, ENTRY_SIZE);
    } else if (from + 1 < to) {
        memmove(entry_at(body, from), entry_at(body, from + 1), ENTRY_SIZE * (to - from - 1));
        memcpy(entry_at(body, to - 1), entry, ENTRY_SIZE);
    }
    raise_modification(body);
    return DONE;
}

/* The owner that gets what is taken out of the database, and the category that is deleted. */
enum { CALLER = 1, DELETED_CATEGORY = 2 };

/* What a run does. */
struct work {
    uint32_t size, slots, records, calls, passes;
    size_t rounds;
    bool prints_times, makes_records_alone;
};

/* A heap with a database, and the sum of all replies to the calls so far. */
struct load {
    struct heap heap;
    uint32_t db, made, replies;
};

/* The two types that resources have by turns, those of even indexes the first. */
static const uint32_t KINDS[2] = {0x636F6465, 0x74535452};

static void add(struct load *load, uint32_t number)
{
    load->replies = sum_with(load->replies, number);
}

static uint32_t count_of(const struct load *load)
{
    uint32_t count;
    return num_records(&load->heap, load->db, &count) == DONE ? count : 0;
}

/* Makes so many records behind the last, of 0 to 64 bytes. */
static void make(struct load *load, uint32_t count)
{
    for (uint32_t i = 0; i < count; i++) {
        uint32_t index, name;
        uint32_t size = load->made++ % (MOST_BYTES + 1);
        enum refusal refusal = new_record(&load->heap, load->db, END, size, &index, &name);
        if (refusal == DONE) {
            add(load, index);
            add(load, name);
        } else {
            add(load, refusal);
        }
    }
}

static void remove_last(struct load *load, uint32_t count)
{
    uint32_t records = count_of(load);
    for (uint32_t i = 0; i < count; i++)
        add(load, remove_record(&load->heap, load->db, records > i ? records - i - 1 : 0));
}

static void remove_first(struct load *load, uint32_t count)
{
    for (uint32_t i = 0; i < count; i++)
        add(load, remove_record(&load->heap, load->db, 0));
}

static void move_to_the_end(struct load *load, uint32_t count)
{
    uint32_t records = count_of(load);
    for (uint32_t i = 0; i < count; i++)
        add(load, move_record(&load->heap, load->db, 0, records));
}

static void move_to_the_front(struct load *load, uint32_t count)
{
    uint32_t records = count_of(load);
    for (uint32_t i = 0; i < count; i++)
        add(load, move_record(&load->heap, load->db, records > 0 ? records - 1 : 0, 0));
}

/* Asks for each record. */
static void ask_each(struct load *load)
{
    uint32_t records = count_of(load);
    for (uint32_t index = 0; index < records; index++) {
        struct record record;
        enum refusal refusal = record_info(&load->heap, load->db, index, &record);
        if (refusal != DONE) {
            add(load, refusal);
            continue;
        }
        add(load, record.attributes);
        add(load, record.id);
        add(load, record.slot);
    }
}

/* The index of the record with an ID, or the number of records where none of them has it. */
static uint32_t index_of(const struct load *load, uint32_t id, uint32_t records)
{
    for (uint32_t index = 0; index < records; index++) {
        struct record record;
        if (record_info(&load->heap, load->db, index, &record) == DONE && record.id == id)
            return index;
    }
    return records;
}

static void search(struct load *load, uint32_t passes)
{
    struct record last;
    uint32_t records = count_of(load);
    if (record_info(&load->heap, load->db, records > 0 ? records - 1 : 0, &last) != DONE)
        return;
    for (uint32_t pass = 0; pass < passes; pass++)
        add(load, index_of(load, last.id, records));
}

static void find_last(struct load *load, uint32_t passes)
{
    struct record last;
    uint32_t records = count_of(load), index;
    if (record_info(&load->heap, load->db, records > 0 ? records - 1 : 0, &last) != DONE)
        return;
    for (uint32_t pass = 0; pass < passes; pass++) {
        enum refusal refusal = find_by_id(&load->heap, load->db, last.id, &index);
        add(load, refusal == DONE ? index : (uint32_t)refusal);
    }
}

static void count_category(struct load *load, uint32_t passes)
{
    for (uint32_t pass = 0; pass < passes; pass++) {
        uint32_t number;
        enum refusal refusal = num_in_category(&load->heap, load->db, 0, &number);
        add(load, refusal == DONE ? number : (uint32_t)refusal);
    }
}

/* Moves all records to another category and back. */
static void move_all(struct load *load, uint32_t passes)
{
    for (uint32_t pass = 0; pass < passes; pass++)
        add(load, move_category(&load->heap, load->db, (pass + 1) % 2, pass % 2));
}

/* Takes the last record out, and makes its data the last record's again. */
static void detach_and_attach(struct load *load, uint32_t count)
{
    for (uint32_t i = 0; i < count; i++) {
        uint32_t name, index;
        uint32_t records = count_of(load);
        enum refusal refusal = detach(&load->heap, load->db, records > 0 ? records - 1 : 0, CALLER, &name);
        if (refusal == DONE)
            refusal = attach(&load->heap, load->db, END, name, &index);
        add(load, refusal == DONE ? index : (uint32_t)refusal);
    }
}

/* Gives every second record the category that is deleted. */
static void categorize(struct load *load)
{
    uint32_t records = count_of(load);
    for (uint32_t index = 1; index < records; index += 2)
        add(load, set_record_info(&load->heap, load->db, index, DELETED_CATEGORY));
}

/* Makes so many resources behind the last, of 0 to 64 bytes. */
static void make_resources(struct load *load, uint32_t count)
{
    for (uint32_t i = 0; i < count; i++) {
        uint32_t index, name;
        uint32_t number = load->made++;
        enum refusal refusal = new_resource(&load->heap, load->db, KINDS[number % 2], number & 0xFFFF,
                                            number % (MOST_BYTES + 1), &index, &name);
        if (refusal == DONE) {
            add(load, index);
            add(load, name);
        } else {
            add(load, refusal);
        }
    }
}

/* What the last resource is, and how many there are. */
static enum refusal last_resource(const struct load *load, struct resource *last, uint32_t *count)
{
    enum refusal refusal = num_resources(&load->heap, load->db, count);
    if (refusal != DONE)
        return refusal;
    return resource_info(&load->heap, load->db, *count > 0 ? *count - 1 : 0, last);
}

static void find_last_resource(struct load *load, uint32_t passes)
{
    struct resource last;
    uint32_t count, index;
    if (last_resource(load, &last, &count) != DONE)
        return;
    for (uint32_t pass = 0; pass < passes; pass++) {
        enum refusal refusal = find_resource(&load->heap, load->db, last.kind, last.id, &index);
        add(load, refusal == DONE ? index : (uint32_t)refusal);
    }
}

static void find_last_of_type(struct load *load, uint32_t passes)
{
    struct resource last;
    uint32_t count, index;
    if (last_resource(load, &last, &count) != DONE)
        return;
    for (uint32_t pass = 0; pass < passes; pass++) {
        enum refusal refusal = find_type(&load->heap, load->db, last.kind, (count - 1) / 2, &index);
        add(load, refusal == DONE ? index : (uint32_t)refusal);
    }
}

static void remove_first_resource(struct load *load, uint32_t count)
{
    for (uint32_t i = 0; i < count; i++)
        add(load, remove_resource(&load->heap, load->db, 0));
}

/* The loads on records and on resources. */
struct loads {
    struct load records, resources;
};

enum call {
    NEW_AT_THE_END,
    REMOVE_THE_LAST,
    REMOVE_THE_FIRST,
    MOVE_TO_THE_END,
    MOVE_TO_THE_FRONT,
    INFO,
    SEARCH_BY_ID,
    FIND_THE_LAST,
    COUNT_CATEGORY,
    MOVE_CATEGORY,
    DETACH_AND_ATTACH,
    FIND_RESOURCE,
    FIND_TYPE,
    REMOVE_RESOURCE,
    CALLS
};

static const char *const CALL_NAMES[CALLS] = {
    "new_record_at_the_end",
    "remove_the_last",
    "remove_the_first",
    "move_to_the_end",
    "move_to_the_front",
    "record_info",
    "search_by_id",
    "find_by_id_of_the_last",
    "num_in_category",
    "move_category",
    "detach_and_attach",
    "find_resource_of_the_last",
    "find_type_of_the_last",
    "remove_the_first_resource",
};

/* How many calls of a kind `repeat` does. */
static uint64_t calls_of(const struct loads *loads, enum call call, const struct work *work)
{
    if (call == INFO)
        return (uint64_t)count_of(&loads->records) * work->passes;
    if (call == FIND_RESOURCE || call == FIND_TYPE)
        return work->passes;
    return call >= SEARCH_BY_ID && call <= MOVE_CATEGORY ? work->passes : work->calls;
}

/* Does calls of a kind. */
static void repeat(struct loads *loads, enum call call, const struct work *work)
{
    struct load *records = &loads->records, *resources = &loads->resources;
    switch (call) {
    case NEW_AT_THE_END: make(records, work->calls); break;
    case REMOVE_THE_LAST: remove_last(records, work->calls); break;
    case REMOVE_THE_FIRST: remove_first(records, work->calls); break;
    case MOVE_TO_THE_END: move_to_the_end(records, work->calls); break;
    case MOVE_TO_THE_FRONT: move_to_the_front(records, work->calls); break;
    case INFO:
        for (uint32_t pass = 0; pass < work->passes; pass++)
            ask_each(records);
        break;
    case FIND_THE_LAST: find_last(records, work->passes); break;
    case COUNT_CATEGORY: count_category(records, work->passes); break;
    case MOVE_CATEGORY: move_all(records, work->passes); break;
    case DETACH_AND_ATTACH: detach_and_attach(records, work->calls); break;
    case FIND_RESOURCE: find_last_resource(resources, work->passes); break;
    case FIND_TYPE: find_last_of_type(resources, work->passes); break;
    case REMOVE_RESOURCE: remove_first_resource(resources, work->calls); break;
    default: search(records, work->passes); break;
    }
}

/* Brings the databases back to as many entries as they had before calls of a kind. */
static void even_out(struct loads *loads, enum call call, const struct work *work)
{
    if (call == NEW_AT_THE_END)
        remove_last(&loads->records, work->calls);
    if (call == REMOVE_THE_LAST || call == REMOVE_THE_FIRST)
        make(&loads->records, work->calls);
    if (call == REMOVE_RESOURCE)
        make_resources(&loads->resources, work->calls);
}

/* Makes the records and the resources. */
static void fill(struct loads *loads, const struct work *work, uint64_t *times)
{
    uint64_t start = nanoseconds();
    make(&loads->records, work->records);
    times[0] = nanoseconds() - start;
    if (work->prints_times)
        print_times("new_record_filling", work->records, times, 1);
    start = nanoseconds();
    make_resources(&loads->resources, work->records);
    times[0] = nanoseconds() - start;
    if (work->prints_times)
        print_times("new_resource_filling", work->records, times, 1);
}

static void time_calls(struct loads *loads, const struct work *work, uint64_t *times)
{
    for (enum call call = NEW_AT_THE_END; call < CALLS; call++) {
        for (size_t i = 0; i < work->rounds; i++) {
            uint64_t start = nanoseconds();
            repeat(loads, call, work);
            times[i] = nanoseconds() - start;
            even_out(loads, call, work);
        }
        if (work->prints_times)
            print_times(CALL_NAMES[call], calls_of(loads, call, work), times, work->rounds);
    }
}

/* Deletes every second record by its category. */
static void time_deletion(struct load *load, const struct work *work, uint64_t *times)
{
    categorize(load);
    uint64_t start = nanoseconds();
    add(load, delete_category(&load->heap, load->db, DELETED_CATEGORY));
    times[0] = nanoseconds() - start;
    if (work->prints_times)
        print_times("delete_category", 1, times, 1);
}

static bool read_work(int argc, char **argv, struct work *work)
{
    if (argc == 1)
        *work = (struct work){
            .size = 16384,
            .slots = 128,
            .records = 100,
            .calls = 8,
            .passes = 2,
            .rounds = 2,
        };
    if (argc == 4 || argc == 7)
        *work = (struct work){
            .size = (uint32_t)strtoul(argv[1], NULL, 10),
            .slots = (uint32_t)strtoul(argv[2], NULL, 10),
            .records = (uint32_t)strtoul(argv[3], NULL, 10),
            .makes_records_alone = argc == 4,
        };
    if (argc == 7) {
        work->calls = (uint32_t)strtoul(argv[4], NULL, 10);
        work->passes = (uint32_t)strtoul(argv[5], NULL, 10);
        work->rounds = strtoul(argv[6], NULL, 10);
        work->prints_times = true;
    }
    return argc == 1 || argc == 4 || argc == 7;
}

/* Makes the heap of the records, and its database. */
static bool make_records_load(struct load *records, const struct work *work)
{
    return make_blank(&records->heap, work->size, work->slots) &&
           create(&records->heap, "Records", KIND, CREATOR, 0, &records->db) == DONE;
}

/* Makes the heap of the resources, and its database. */
static bool make_resources_load(struct load *resources, const struct work *work)
{
    return make_blank(&resources->heap, work->size, work->slots) &&
           create(&resources->heap, "Resources", PROGRAM, CREATOR, RESOURCES, &resources->db) == DONE;
}

static int print_sums(uint32_t replies, uint32_t words)
{
    printf("replies %u words %u\n", replies, words);
    return 0;
}

int main(int argc, char **argv)
{
    struct work work;
    struct loads loads = {.records = {.made = 0}, .resources = {.made = 0}};
    if (!read_work(argc, argv, &work) || !make_records_load(&loads.records, &work)) {
        fprintf(stderr, "usage: record_calls [SIZE SLOTS RECORDS [CALLS PASSES ROUNDS]]\n");
        return 2;
    }
    if (work.makes_records_alone) {
        make(&loads.records, work.records);
        return print_sums(loads.records.replies, words_of(&loads.records.heap));
    }
    if (!make_resources_load(&loads.resources, &work))
        return 2;
    uint64_t *times = calloc(work.rounds + 1, sizeof *times);
    if (times == NULL)
        return 2;
    fill(&loads, &work, times);
    time_calls(&loads, &work, times);
    time_deletion(&loads.records, &work, times);
    uint32_t replies = sum_with(loads.records.replies, loads.resources.replies);
    uint32_t words = sum_with(words_of(&loads.records.heap), words_of(&loads.resources.heap));
    return print_sums(replies, words);
}
