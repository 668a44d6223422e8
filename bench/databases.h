/*
 * Databases in heaps of heap.h, on images of the format of docs/FORMAT.md: what the calls on records and those on
 * resources share.
 */
#ifndef DATABASES_H
#define DATABASES_H

#include "heap.h"

/* Where fields stand: of the image the directory; of a database its numbers and its entries. */
enum {
    DIRECTORY_AT = 12,
    ATTRIBUTES_AT = 32,
    MODIFICATION_NUMBER_AT = 48,
    KIND_AT = 60,
    CREATOR_AT = 64,
    SEED_AT = 68,
    ENTRY_COUNT_AT = 76,
    ENTRIES_AT = 78,
};

enum { MANAGER = 0, RESOURCES = 0x0001, ONLY_READ = 0x0002, MOST_ENTRIES = 65535 };

static uint8_t *body_of(const struct heap *heap, const struct found *found)
{
    return heap->image + found->place;
}

static uint32_t entries_in(const uint8_t *body)
{
    return u16_at(body, ENTRY_COUNT_AT);
}

/* The chunk of a database: a chunk of the manager's that isn't the directory. */
static bool find_database(const struct heap *heap, uint32_t db, struct found *found)
{
    return find_chunk(heap, db, found) && found->owner == MANAGER &&
           db != u32_at(heap->image, DIRECTORY_AT);
}

static bool has_resources(const struct heap *heap, const struct found *found)
{
    return u16_at(body_of(heap, found), ATTRIBUTES_AT) & RESOURCES;
}

static bool is_read_only(const struct heap *heap, const struct found *found)
{
    return u16_at(body_of(heap, found), ATTRIBUTES_AT) & ONLY_READ;
}

static bool is_locked(const struct heap *heap, uint32_t slot)
{
    struct found found;
    return slot != 0 && find_chunk(heap, slot, &found) && found.lock != 0;
}

static void free_slot(struct heap *heap, uint32_t slot)
{
    struct found found;
    if (slot != 0 && find_chunk(heap, slot, &found))
        free_chunk(heap, slot, &found);
}

static void raise_modification(uint8_t *body)
{
    put_u32(body, MODIFICATION_NUMBER_AT, u32_at(body, MODIFICATION_NUMBER_AT) + 1);
}

/* Makes the first database of a heap, and the directory. */
static enum refusal create(struct heap *heap, const char *name, uint32_t kind, uint32_t creator,
                           uint32_t attributes, uint32_t *db)
{
    uint32_t directory;
    struct found found;
    enum refusal refusal = make_chunk(heap, ENTRIES_AT, MANAGER, db);
    if (refusal == DONE)
        refusal = make_chunk(heap, 4, MANAGER, &directory);
    if (refusal != DONE)
        return refusal;
    if (!find_chunk(heap, directory, &found))
        return INVALID_HANDLE;
    put_u32(body_of(heap, &found), 0, *db);
    put_u32(heap->image, DIRECTORY_AT, directory);
    if (!find_chunk(heap, *db, &found))
        return NO_SUCH_DATABASE;
    uint8_t *body = body_of(heap, &found);
    memcpy(body, name, strlen(name));
    put_u16(body, ATTRIBUTES_AT, attributes);
    put_u32(body, KIND_AT, kind);
    put_u32(body, CREATOR_AT, creator);
    return DONE;
}

#endif
