/*
 * Heaps in plain C, on images of the format of docs/FORMAT.md: what the programs here share.
 *
 * A movable chunk is found by its slot. Free chunks are linked in lists, one for each class of sizes: the
 * second word of each is the offset of the next. A new chunk goes to the front of the first chunk of a list
 * that has room; where no list begins with one, to the front of the first run of neighbouring free chunks
 * that has it, which is looked for from the first chunk on. One that is freed goes to the front of its
 * list, joined with none. A free chunk that is taken is looked for in its list, among the first ones where a
 * chunk grows over it; where it isn't one of them, or where more than one is taken, all lists are dropped, and
 * they are built again, with all neighbours joined, when a chunk is made or freed. Where no free run has the room for a new
 * chunk, the first stretch that has it is packed, by one move for each chunk that goes down over the free
 * one in front of it; that drops the lists, and puts what is free behind the packed chunks into its own. Where
 * the stretch isn't the whole heap, they are not built with this chunk, so that no walk follows the packing. A
 * chunk that is to be larger than it and the free chunks behind it goes where a new one would go; else its
 * stretch is packed, and what is behind it is lifted in one move; else another stretch is packed. No chunk here is
 * fixed but further tables, so that a name of no slot names nothing.
 *
 * Further tables are remembered by their places, so that a slot of theirs is found without a walk along the chain. The
 * search for an empty slot begins with the table of the slot that was given last, unless one before it may be empty. The
 * last slot of a further table that was freed is given first.
 */
#ifndef HEAP_H
#define HEAP_H

#include <endian.h>
#include <stdbool.h>
#include <stdint.h>
#include <stdlib.h>
#include <string.h>

/* The most bytes of an image, what the header of a chunk takes, the owner of a database's data, and what stands
 * in the place of the locks of a fixed chunk. */
enum { MAX_SIZE = 16777208, HEADER = 8, DATABASE = 15, FIXED = 15 };

/* How many classes of sizes free chunks have. */
enum { CLASSES = 21 };

/* What the word `next` of a table takes, and how many slots a table has that is made. */
enum { NEXT = 4, TABLE_SLOTS = 15 };

/* How many tables are remembered at most, each by the block of so many bytes in which its body begins. */
enum { KNOWN = 16384, BLOCK = 64, REACH = 7 };

/* How many chunks of a list are looked at, at most, for one that a chunk grows over; and more than any list has. */
enum { FEW_PROBES = 64, ALL_PROBES = 0x200000 };

static const uint32_t MAGIC = 0x50484931;
static const uint32_t CHAINED_MAGIC = 0x50484932;
static const uint32_t FREE_BIT = 0x80000000;

/* Why a call was refused, by the numbers of heap_model's Refusal. */
enum refusal {
    DONE,
    INVALID_HANDLE,
    OWNED_BY_DATABASE,
    CHUNK_LOCKED,
    CHUNK_NOT_LOCKED,
    LOCK_OVERFLOW,
    CHUNK_FIXED,
    INVALID_OWNER,
    NOT_ENOUGH_SPACE,
    OUT_OF_BOUNDS,
    NO_SUCH_DATABASE,
    NOT_RECORD_DATABASE,
    NOT_RESOURCE_DATABASE,
    READ_ONLY,
    INDEX_OUT_OF_RANGE,
    RECORD_DELETED,
    TOO_MANY_ENTRIES = 17,
    INVALID_CATEGORY,
    UNIQUE_ID_NOT_FOUND = 20,
    RESOURCE_NOT_FOUND = 23,
    LENT = 27,
};

/* The slots of a table: where it is, 0 for the first one, and how many slots are before its own. */
struct row {
    uint32_t table, before;
};

/* An image that is an accepted heap. The slots of all numbers below `lowest` are in use. The last slot was given in
 * the `row`. The slot `freed` is a further table's that was freed last, or 0. The bytes of so many chunks are `out`. Each has
 * a bit in `marks`, one for 8 bytes of the image, which are allocated with the first. A list begins at each head that isn't
 * 0; all free chunks were in their lists when they were `built`. A stretch was `packed` for the next chunk that is made. */
struct heap {
    uint8_t *image;
    uint32_t len;
    uint32_t lowest, freed, out;
    uint8_t *marks;
    struct row row;
    uint32_t known[KNOWN + 1];
    uint32_t heads[CLASSES];
    bool built, packed;
};

static uint32_t u16_at(const uint8_t *image, size_t at)
{
    uint16_t word;
    memcpy(&word, image + at, sizeof word);
    return be16toh(word);
}

static uint32_t u32_at(const uint8_t *image, size_t at)
{
    uint32_t word;
    memcpy(&word, image + at, sizeof word);
    return be32toh(word);
}

static void put_u16(uint8_t *image, size_t at, uint32_t number)
{
    uint16_t word = htobe16((uint16_t)number);
    memcpy(image + at, &word, sizeof word);
}

static void put_u32(uint8_t *image, size_t at, uint32_t number)
{
    uint32_t word = htobe32(number);
    memcpy(image + at, &word, sizeof word);
}

static uint32_t slot_count(const struct heap *heap)
{
    return u16_at(heap->image, 8);
}

static bool is_chained(const struct heap *heap)
{
    return u32_at(heap->image, 0) == CHAINED_MAGIC;
}

static uint32_t start_behind(uint32_t slots, bool chained)
{
    return (16 + 4 * slots + (chained ? NEXT : 0) + 7) / 8 * 8;
}

static uint32_t area_start(const struct heap *heap)
{
    return start_behind(slot_count(heap), is_chained(heap));
}

/* What a chunk with a body of `length` bytes takes, or 0 where no image has so much. */
static uint32_t chunk_size(uint32_t length)
{
    return length > MAX_SIZE - HEADER ? 0 : HEADER + (length + 7) / 8 * 8;
}

static uint32_t size_of_chunk(const struct heap *heap, uint32_t at)
{
    return u32_at(heap->image, at) & 0xFFFFFF;
}

static bool is_free(const struct heap *heap, uint32_t at)
{
    return u32_at(heap->image, at) >= FREE_BIT;
}

static void put_free(struct heap *heap, uint32_t at, uint32_t size)
{
    put_u32(heap->image, at, FREE_BIT | size);
}

/* The word `next` behind the first table, 0 where there is none. */
static uint32_t first_next(const struct heap *heap)
{
    return is_chained(heap) ? u32_at(heap->image, 16 + 4 * slot_count(heap)) : 0;
}

/* How many slots the further table at a place has. */
static uint32_t slots_at(const struct heap *heap, uint32_t place)
{
    uint32_t word1 = u32_at(heap->image, place - 8);
    return ((word1 & 0xFFFFFF) - HEADER - (word1 >> 24) - NEXT) / 4;
}

static bool is_slot_of(const struct heap *heap, uint32_t place, uint32_t name)
{
    return place != 0 && name > place && name % 4 == 0 &&
           name < place + NEXT + 4 * slots_at(heap, place);
}

/* Remembers a table of 15 slots at least, in the entry of its block or in the first empty one of the next seven. */
static void remember(struct heap *heap, uint32_t place)
{
    if (slots_at(heap, place) < TABLE_SLOTS)
        return;
    for (uint32_t step = 0; step <= REACH; step++) {
        uint32_t *entry = &heap->known[(place / BLOCK + step) % KNOWN];
        if (*entry == 0) {
            *entry = place;
            return;
        }
    }
}

/* Whether a name is one of the words after the first of a body. At 0 is none. */
static bool is_word_of(uint32_t place, uint32_t name)
{
    uint32_t behind = name - place;
    return place != 0 && behind < BLOCK && behind % 4 == 0 && behind != 0;
}

/* Whether one of the first slots of a table that is remembered in the entry of its block is at an offset. Its body
 * begins in the same block or in the one before. In the same one it isn't looked for if that has entry 0. A rotation
 * tells the words between the first slot and the offset. */
static bool is_known_slot(const struct heap *heap, uint32_t name)
{
    if (name < BLOCK)
        return false;
    uint32_t before = (name / BLOCK - 1) % KNOWN;
    uint32_t here = name - 4 - heap->known[before + 1];
    uint32_t least = name - 4 - heap->known[before];
    least = here < least ? here : least;
    return (least >> 2 | least << 30) < TABLE_SLOTS;
}

/* The same for a table in any of its entries. */
static bool is_known_further_on(const struct heap *heap, uint32_t name)
{
    for (uint32_t step = 0; step <= REACH + 1; step++)
        if (is_word_of(heap->known[(name / BLOCK - 1 + step) % KNOWN], name))
            return true;
    return false;
}

/* Whether a further table has a slot at an offset. */
static bool is_further_slot(const struct heap *heap, uint32_t name)
{
    if (is_known_slot(heap, name) || is_known_further_on(heap, name))
        return true;
    for (uint32_t place = first_next(heap); place != 0; place = u32_at(heap->image, place))
        if (is_slot_of(heap, place, name))
            return true;
    return false;
}

/* A movable chunk: where its body is, and its numbers. */
struct found {
    uint32_t place, length, lock, owner;
};

/* The chunk that a name stands for, whoever owns it: the name is the offset of a slot that isn't empty. */
static bool find_chunk(const struct heap *heap, uint32_t name, struct found *found)
{
    bool in_first = name >= 16 && name < 16 + 4 * slot_count(heap) && name % 4 == 0;
    if (!in_first && (first_next(heap) == 0 || !is_further_slot(heap, name)))
        return false;
    uint32_t place = u32_at(heap->image, name);
    if (place < HEADER || place > heap->len)
        return false;
    uint32_t word1 = u32_at(heap->image, place - 8);
    uint32_t word2 = u32_at(heap->image, place - 4);
    found->place = place;
    found->length = (word1 & 0xFFFFFF) - HEADER - (word1 >> 24);
    found->lock = word2 >> 28;
    found->owner = word2 >> 24 & 15;
    return true;
}

/* Finds the first run of neighbouring free chunks that has `size` bytes. */
static bool find_run(const struct heap *heap, uint32_t size, uint32_t *run_at, uint32_t *run_size)
{
    uint32_t run = 0;
    uint32_t at = area_start(heap);
    while (at < heap->len) {
        uint32_t word1 = u32_at(heap->image, at);
        uint32_t chunk = word1 & 0xFFFFFF;
        at += chunk;
        run = word1 >= FREE_BIT ? run + chunk : 0;
        if (run >= size) {
            *run_at = at - run;
            *run_size = run;
            return true;
        }
    }
    return false;
}

/* The class of a free chunk of `size` bytes. */
static uint32_t class_of(uint32_t size)
{
    return 31 - (uint32_t)__builtin_clz(size / 8);
}

/* Puts a free chunk in front of its list. */
static void push(struct heap *heap, uint32_t at, uint32_t size)
{
    uint32_t class = class_of(size);
    put_u32(heap->image, at + 4, heap->heads[class]);
    heap->heads[class] = at;
}

static void drop_lists(struct heap *heap)
{
    memset(heap->heads, 0, sizeof heap->heads);
    heap->built = false;
}

/* Finds a free chunk with `size` bytes at the front of a list. */
static bool find_listed(const struct heap *heap, uint32_t size, uint32_t *at, uint32_t *found)
{
    for (uint32_t class = class_of(size); class < CLASSES; class++) {
        *at = heap->heads[class];
        if (*at == 0)
            continue;
        *found = size_of_chunk(heap, *at);
        if (*found >= size)
            return true;
    }
    return false;
}

/* Finds a free chunk at the front of a list or a run of free chunks that has `size` bytes. */
static bool find_room(const struct heap *heap, uint32_t size, uint32_t *at, uint32_t *found)
{
    return find_listed(heap, size, at, found) || find_run(heap, size, at, found);
}

/* Takes a free chunk out of its list. Where it isn't among the first `probes`, the lists are dropped. */
static void take_out(struct heap *heap, uint32_t at, uint32_t size, size_t probes)
{
    uint32_t class = class_of(size);
    if (heap->heads[class] == at) {
        heap->heads[class] = u32_at(heap->image, at + 4);
        return;
    }
    uint32_t here = heap->heads[class];
    for (size_t i = 0; i < probes; i++) {
        if (here == 0)
            return;
        uint32_t next = u32_at(heap->image, here + 4);
        if (next == at) {
            put_u32(heap->image, here + 4, u32_at(heap->image, at + 4));
            return;
        }
        here = next;
    }
    drop_lists(heap);
}

/* Takes free chunks from their lists. Where they are more than one, the lists are dropped. */
static void unlink_run(struct heap *heap, uint32_t at, uint32_t size, size_t probes)
{
    if (size == 0)
        return;
    if (size_of_chunk(heap, at) == size)
        take_out(heap, at, size, probes);
    else
        drop_lists(heap);
}

/* The sizes together of the free chunks that stand at `at`. */
static uint32_t free_run(const struct heap *heap, uint32_t at)
{
    uint32_t end = at;
    while (end < heap->len && is_free(heap, end))
        end += size_of_chunk(heap, end);
    return end - at;
}

/* Builds the lists, where they are not built: joins free neighbours, and puts each free chunk into its
 * list. */
static void build(struct heap *heap)
{
    if (heap->built)
        return;
    drop_lists(heap);
    for (uint32_t at = area_start(heap); at < heap->len;) {
        uint32_t size = free_run(heap, at);
        if (size == 0) {
            at += size_of_chunk(heap, at);
            continue;
        }
        put_free(heap, at, size);
        push(heap, at, size);
        at += size;
    }
    heap->built = true;
}

static bool stays(const struct heap *heap, uint32_t at)
{
    return !is_free(heap, at) && u32_at(heap->image, at + 4) >> 28 != 0;
}

/* Finds the first stretch whose room has `size` bytes. */
static bool find_stretch(const struct heap *heap, uint32_t size, uint32_t *start, uint32_t *end)
{
    uint32_t at = area_start(heap);
    uint32_t room = 0;
    for (*start = at; at < heap->len; at += size_of_chunk(heap, at)) {
        if (stays(heap, at)) {
            if (room >= size)
                break;
            *start = at + size_of_chunk(heap, at);
            room = 0;
        } else if (is_free(heap, at)) {
            room += size_of_chunk(heap, at);
        }
    }
    *end = at;
    return room >= size;
}

/* Where the chunk at `at` is to name the slot that the word `word2` of a chunk at `from` names. */
static uint32_t named_from(uint32_t word2, uint32_t from, uint32_t at, uint32_t *slot)
{
    *slot = from + 2 * (uint32_t)((int32_t)(word2 << 8) >> 8);
    return (word2 & 0xFF000000) | ((uint32_t)(((int32_t)*slot - (int32_t)at) / 2) & 0xFFFFFF);
}

/* Mends the chunk that was moved from `from` to `at`: it names its slot again, and the slot holds its
 * place. */
static void mend(struct heap *heap, uint32_t from, uint32_t at)
{
    uint32_t slot;
    put_u32(heap->image, at + 4, named_from(u32_at(heap->image, at + 4), from, at, &slot));
    put_u32(heap->image, slot, at + HEADER);
}

/* Puts the free chunk of `room` bytes that ends at `end`, if there are any, into its list. */
static void push_room(struct heap *heap, uint32_t end, uint32_t room)
{
    if (room > 0)
        push(heap, end - room, room);
}

/* Packs the chunks from `start` up to `end`, and answers how many bytes were moved. `room` is how much is
 * free behind them then. The free chunks that are left of them are those in the lists then. */
static uint32_t pack(struct heap *heap, uint32_t start, uint32_t end, uint32_t *room)
{
    uint32_t moved = 0;
    *room = 0;
    drop_lists(heap);
    heap->built = start == area_start(heap) && end == heap->len;
    for (uint32_t at = start; at < end;) {
        uint32_t size = size_of_chunk(heap, at);
        if (is_free(heap, at)) {
            put_free(heap, at - *room, *room + size);
            *room += size;
        } else if (stays(heap, at)) {
            push_room(heap, at, *room);
            *room = 0;
        } else if (*room > 0) {
            memmove(heap->image + at - *room, heap->image + at, size);
            mend(heap, at, at - *room);
            put_free(heap, at - *room + size, *room);
            moved += size;
        }
        at += size;
    }
    push_room(heap, end, *room);
    return moved;
}

/* Moves the chunks from `start` up to `end` behind the free chunk that follows them, whose size is `gap`. */
static void lift(struct heap *heap, uint32_t start, uint32_t end, uint32_t gap)
{
    memmove(heap->image + start + gap, heap->image + start, end - start);
    put_free(heap, start, gap);
    for (uint32_t at = start + gap; at < end + gap; at += size_of_chunk(heap, at))
        mend(heap, at - gap, at);
}

/* Finds a run of free chunks that has `size` bytes. Where there is none, the first stretch that has the
 * room is packed. */
static bool make_room(struct heap *heap, uint32_t size, uint32_t *run_at, uint32_t *run_size)
{
    uint32_t start, end, room;
    if (find_room(heap, size, run_at, run_size))
        return true;
    if (!find_stretch(heap, size, &start, &end))
        return false;
    pack(heap, start, end, &room);
    heap->packed = !heap->built;
    return find_run(heap, size, run_at, run_size);
}

/* The first empty slot of a table from a number on, which is raised, or 0 where none is empty. */
static uint32_t empty_in_row(const struct heap *heap, struct row row, uint32_t *number)
{
    uint32_t first = row.table == 0 ? 16 : row.table + NEXT;
    uint32_t count = row.table == 0 ? slot_count(heap) : slots_at(heap, row.table);
    for (; *number < row.before + count; (*number)++) {
        uint32_t slot = first + 4 * (*number - row.before);
        if (u32_at(heap->image, slot) == 0)
            return slot;
    }
    return 0;
}

/* Finds an empty slot. All slots before the number are in use; the table is that of the slot, or one before it. */
static uint32_t find_empty(const struct heap *heap, uint32_t *number, struct row *row)
{
    *number = heap->lowest;
    *row = heap->row;
    if (heap->freed != 0 && u32_at(heap->image, heap->freed) == 0)
        return heap->freed;
    *row = heap->row.before <= heap->lowest ? heap->row : (struct row){0, 0};
    for (;;) {
        uint32_t slot = empty_in_row(heap, *row, number);
        if (slot != 0)
            return slot;
        uint32_t count = row->table == 0 ? slot_count(heap) : slots_at(heap, row->table);
        uint32_t next = row->table == 0 ? first_next(heap) : u32_at(heap->image, row->table);
        if (next == 0)
            return 0;
        *row = (struct row){next, row->before + count};
    }
}

/* Takes the front of a run of free chunks. What is left becomes a free chunk. */
static void take_front(struct heap *heap, uint32_t at, uint32_t run, uint32_t size)
{
    unlink_run(heap, at, run, ALL_PROBES);
    if (run > size) {
        put_free(heap, at + size, run - size);
        push(heap, at + size, run - size);
    }
}

/* Builds the lists after a chunk was made, unless a stretch was packed for it. */
static void build_after_new(struct heap *heap)
{
    if (heap->packed)
        heap->packed = false;
    else
        build(heap);
}

/* Makes a chunk of zeros under the first empty slot, for any owner. */
static enum refusal make_chunk(struct heap *heap, uint32_t length, uint32_t owner, uint32_t *name)
{
    uint32_t number, at, run;
    struct row row;
    uint32_t slot = find_empty(heap, &number, &row);
    uint32_t size = chunk_size(length);
    if (slot == 0 || size == 0 || !make_room(heap, size, &at, &run))
        return NOT_ENOUGH_SPACE;
    take_front(heap, at, run, size);
    uint32_t h_offset = (uint32_t)(((int32_t)slot - (int32_t)at) / 2) & 0xFFFFFF;
    put_u32(heap->image, at, (size - HEADER - length) << 24 | size);
    put_u32(heap->image, at + 4, owner << 24 | h_offset);
    memset(heap->image + at + HEADER, 0, length);
    put_u32(heap->image, slot, at + HEADER);
    build_after_new(heap);
    heap->lowest = number;
    heap->row = row;
    *name = slot;
    return DONE;
}

/* Adds a table of empty slots at the end of the chain. */
static enum refusal more_slots(struct heap *heap)
{
    uint32_t length = NEXT + 4 * TABLE_SLOTS, size = chunk_size(length);
    uint32_t at, run;
    if (!is_chained(heap) || !make_room(heap, size, &at, &run))
        return NOT_ENOUGH_SPACE;
    take_front(heap, at, run, size);
    put_u32(heap->image, at, (size - HEADER - length) << 24 | size);
    put_u32(heap->image, at + 4, (uint32_t)FIXED << 28);
    memset(heap->image + at + HEADER, 0, length);
    uint32_t last = 16 + 4 * slot_count(heap);
    for (uint32_t next = first_next(heap); next != 0; next = u32_at(heap->image, next))
        last = next;
    put_u32(heap->image, last, at + HEADER);
    remember(heap, at + HEADER);
    build_after_new(heap);
    return DONE;
}

/* Frees a chunk. */
static void free_chunk(struct heap *heap, uint32_t name, const struct found *found)
{
    uint32_t number = (name - 16) / 4;
    if (number >= slot_count(heap)) {
        number = slot_count(heap);
        heap->freed = name;
    }
    if (number < heap->lowest)
        heap->lowest = number;
    build(heap);
    uint32_t at = found->place - HEADER;
    uint32_t size = size_of_chunk(heap, at);
    put_free(heap, at, size);
    put_u32(heap->image, name, 0);
    push(heap, at, size);
}

/* Gives a chunk another length where it stands, out of its own size and of `behind` free bytes. */
static void resize_at(struct heap *heap, const struct found *found, uint32_t length, uint32_t behind)
{
    uint32_t at = found->place - HEADER;
    uint32_t size = chunk_size(length);
    uint32_t own = chunk_size(found->length);
    uint32_t left = own + behind - size;
    unlink_run(heap, at + own, behind, FEW_PROBES);
    if (length > found->length)
        memset(heap->image + found->place + found->length, 0, length - found->length);
    put_u32(heap->image, at, (size - HEADER - length) << 24 | size);
    if (left > 0) {
        put_free(heap, at + size, left);
        push(heap, at + size, left);
    }
}

static bool resize_in_place(struct heap *heap, const struct found *found, uint32_t length)
{
    uint32_t own = chunk_size(found->length);
    uint32_t behind = free_run(heap, found->place - HEADER + own);
    uint32_t size = chunk_size(length);
    if (size == 0 || size > own + behind)
        return false;
    resize_at(heap, found, length, behind);
    return true;
}

/* Where the stretch of a chunk begins and ends, and its room. */
static uint32_t stretch_around(const struct heap *heap, uint32_t place, uint32_t *start, uint32_t *end)
{
    uint32_t at = area_start(heap);
    for (*start = at; at < heap->len; at += size_of_chunk(heap, at)) {
        if (!stays(heap, at))
            continue;
        if (at > place - HEADER)
            break;
        *start = at + size_of_chunk(heap, at);
    }
    *end = at;
    uint32_t room = 0;
    for (at = *start; at < *end; at += size_of_chunk(heap, at))
        room += is_free(heap, at) ? size_of_chunk(heap, at) : 0;
    return room;
}

/* Moves the chunk of a name to the front of a free run. */
static void relocate(struct heap *heap, uint32_t name, uint32_t length, uint32_t at, uint32_t run)
{
    struct found found;
    find_chunk(heap, name, &found);
    uint32_t size = chunk_size(length);
    uint32_t kept = length < found.length ? length : found.length;
    take_front(heap, at, run, size);
    put_u32(heap->image, at, (size - HEADER - length) << 24 | size);
    put_u32(heap->image, at + 4, u32_at(heap->image, found.place - 4));
    memset(heap->image + at + HEADER, 0, length);
    memmove(heap->image + at + HEADER, heap->image + found.place, kept);
    uint32_t from = found.place - HEADER;
    uint32_t freed = chunk_size(found.length);
    put_free(heap, from, freed);
    push(heap, from, freed);
    mend(heap, from, at);
    heap->packed = false;
}

/* Gives a chunk a length that it can't have in its place. */
static bool resize_by_moving(struct heap *heap, uint32_t name, const struct found *found,
                             uint32_t length)
{
    uint32_t size = chunk_size(length);
    uint32_t at, run, start, end;
    if (size == 0)
        return false;
    if (find_room(heap, size, &at, &run)) {
        relocate(heap, name, length, at, run);
        return true;
    }
    if (chunk_size(found->length) + stretch_around(heap, found->place, &start, &end) >= size) {
        struct found now;
        pack(heap, start, end, &run);
        find_chunk(heap, name, &now);
        if (run > 0) {
            uint32_t behind = now.place - HEADER + chunk_size(now.length);
            lift(heap, behind, end - run, run);
            memset(heap->heads, 0, sizeof heap->heads);
            push(heap, behind, run);
        }
        return resize_in_place(heap, &now, length);
    }
    if (!make_room(heap, size, &at, &run))
        return false;
    relocate(heap, name, length, at, run);
    return true;
}

/* Gives a chunk a length, in its place where it has that there. */
static enum refusal resize_chunk(struct heap *heap, uint32_t name, const struct found *found,
                                 uint32_t length)
{
    if (resize_in_place(heap, found, length))
        return DONE;
    if (found->lock != 0)
        return CHUNK_LOCKED;
    return resize_by_moving(heap, name, found, length) ? DONE : NOT_ENOUGH_SPACE;
}

/* Makes an image with nothing in it. */
static bool make_blank(struct heap *heap, uint32_t size, uint32_t slots)
{
    uint32_t start = start_behind(slots, false);
    if (size < 64 || size > MAX_SIZE || size % 8 != 0 || slots == 0 || slots > 65535 ||
        size < start + 8)
        return false;
    *heap = (struct heap){.image = calloc(size, 1), .len = size};
    if (heap->image == NULL)
        return false;
    put_u32(heap->image, 0, MAGIC);
    put_u32(heap->image, 4, size);
    put_u16(heap->image, 8, slots);
    put_free(heap, start, size - start);
    return true;
}

#endif
