/*
 * Calls on resources in plain C, over databases.h: each looks first whether its database is there, holds resources,
 * and may be written where it is to be. Entries are moved by one memmove.
 */
#ifndef RESOURCES_H
#define RESOURCES_H

#include "databases.h"

/* What the entry of a resource takes, and where its ID and its slot stand in it, behind its type. */
enum { RESOURCE_SIZE = 10, RESOURCE_ID_AT = 4, RESOURCE_SLOT_AT = 6 };

/* What the entry of a resource says. */
struct resource {
    uint32_t kind, id, slot;
};

static uint8_t *resource_at(uint8_t *body, uint32_t index)
{
    return body + ENTRIES_AT + RESOURCE_SIZE * index;
}

static uint32_t resources_size(uint32_t entries)
{
    return ENTRIES_AT + RESOURCE_SIZE * entries;
}

static struct resource read_resource(const uint8_t *entry)
{
    return (struct resource){
        .kind = u32_at(entry, 0),
        .id = u16_at(entry, RESOURCE_ID_AT),
        .slot = u32_at(entry, RESOURCE_SLOT_AT),
    };
}

/* The chunk of a database of resources. */
static enum refusal find_resources(const struct heap *heap, uint32_t db, struct found *found)
{
    if (!find_database(heap, db, found))
        return NO_SUCH_DATABASE;
    return has_resources(heap, found) ? DONE : NOT_RESOURCE_DATABASE;
}

static enum refusal find_writable_resources(const struct heap *heap, uint32_t db, struct found *found)
{
    enum refusal refusal = find_resources(heap, db, found);
    if (refusal != DONE)
        return refusal;
    return is_read_only(heap, found) ? READ_ONLY : DONE;
}

static enum refusal num_resources(const struct heap *heap, uint32_t db, uint32_t *count)
{
    struct found found;
    enum refusal refusal = find_resources(heap, db, &found);
    if (refusal != DONE)
        return refusal;
    *count = entries_in(body_of(heap, &found));
    return DONE;
}

static enum refusal resource_info(const struct heap *heap, uint32_t db, uint32_t index,
                                  struct resource *resource)
{
    struct found found;
    enum refusal refusal = find_resources(heap, db, &found);
    if (refusal != DONE)
        return refusal;
    uint8_t *body = body_of(heap, &found);
    if (index >= entries_in(body))
        return INDEX_OUT_OF_RANGE;
    *resource = read_resource(resource_at(body, index));
    return DONE;
}

static enum refusal new_resource(struct heap *heap, uint32_t db, uint32_t kind, uint32_t id,
                                 uint32_t size, uint32_t *index, uint32_t *name)
{
    struct found found;
    enum refusal refusal = find_writable_resources(heap, db, &found);
    if (refusal != DONE)
        return refusal;
    uint32_t count = entries_in(body_of(heap, &found));
    if (count >= MOST_ENTRIES)
        return TOO_MANY_ENTRIES;
    refusal = make_chunk(heap, size, DATABASE, name);
    if (refusal != DONE)
        return refusal;
    if (!find_chunk(heap, db, &found))
        return NO_SUCH_DATABASE;
    refusal = resize_chunk(heap, db, &found, resources_size(count + 1));
    if (refusal != DONE) {
        free_slot(heap, *name);
        return refusal;
    }
    if (!find_chunk(heap, db, &found))
        return NO_SUCH_DATABASE;
    uint8_t *body = body_of(heap, &found);
    uint8_t *entry = resource_at(body, count);
    put_u32(entry, 0, kind);
    put_u16(entry, RESOURCE_ID_AT, id);
    put_u32(entry, RESOURCE_SLOT_AT, *name);
    put_u16(body, ENTRY_COUNT_AT, count + 1);
    raise_modification(body);
    *index = count;
    return DONE;
}

static enum refusal remove_resource(struct heap *heap, uint32_t db, uint32_t index)
{
    struct found found;
    enum refusal refusal = find_writable_resources(heap, db, &found);
    if (refusal != DONE)
        return refusal;
    uint8_t *body = body_of(heap, &found);
    uint32_t count = entries_in(body);
    if (index >= count)
        return INDEX_OUT_OF_RANGE;
    uint8_t *entry = resource_at(body, index);
    uint32_t slot = u32_at(entry, RESOURCE_SLOT_AT);
    if (is_locked(heap, slot))
        return CHUNK_LOCKED;
    memmove(entry, entry + RESOURCE_SIZE, RESOURCE_SIZE * (count - index - 1));
    resize_in_place(heap, &found, resources_size(count - 1));
    put_u16(body, ENTRY_COUNT_AT, count - 1);
    free_slot(heap, slot);
    raise_modification(body);
    return DONE;
}

/* The first resource of a type and an id. */
static enum refusal find_resource(const struct heap *heap, uint32_t db, uint32_t kind, uint32_t id,
                                  uint32_t *index)
{
    struct found found;
    enum refusal refusal = find_resources(heap, db, &found);
    if (refusal != DONE)
        return refusal;
    uint8_t *body = body_of(heap, &found);
    uint32_t count = entries_in(body);
    for (*index = 0; *index < count; ++*index) {
        struct resource resource = read_resource(resource_at(body, *index));
        if (resource.kind == kind && resource.id == id)
            return DONE;
    }
    return RESOURCE_NOT_FOUND;
}

/* The resource of a type in front of which so many others of the type stand. */
static enum refusal find_type(const struct heap *heap, uint32_t db, uint32_t kind, uint32_t nth,
                              uint32_t *index)
{
    struct found found;
    enum refusal refusal = find_resources(heap, db, &found);
    if (refusal != DONE)
        return refusal;
    uint8_t *body = body_of(heap, &found);
    uint32_t count = entries_in(body), passed = 0;
    for (*index = 0; *index < count; ++*index) {
        if (read_resource(resource_at(body, *index)).kind != kind)
            continue;
        if (passed == nth)
            return DONE;
        passed++;
    }
    return RESOURCE_NOT_FOUND;
}

#endif
