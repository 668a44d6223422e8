/*
 * Calls of the memory manager in plain C.
 */
#ifndef PLAIN_CALLS_H
#define PLAIN_CALLS_H

#include "heap.h"
#include "times.h"

enum { MOST_LOCKS = 14 };

/* The caller's chunk that a name stands for. */
static bool find(const struct heap *heap, uint32_t name, struct found *found)
{
    return find_chunk(heap, name, found) && found->owner != 0;
}

static enum refusal heap_size(const struct heap *heap, uint32_t name, uint32_t *size)
{
    struct found found;
    if (!find(heap, name, &found))
        return INVALID_HANDLE;
    *size = found.length;
    return DONE;
}

static enum refusal heap_owner(const struct heap *heap, uint32_t name, uint32_t *owner)
{
    struct found found;
    if (!find(heap, name, &found))
        return INVALID_HANDLE;
    *owner = found.owner;
    return DONE;
}

static enum refusal heap_locks(const struct heap *heap, uint32_t name, uint32_t *count)
{
    struct found found;
    if (!find(heap, name, &found))
        return INVALID_HANDLE;
    *count = found.lock;
    return DONE;
}

static bool reaches_beyond(uint32_t at, uint32_t count, uint32_t length)
{
    return count > length || at > length - count;
}

/* Whether the bytes of the chunk at a place are out. */
static bool is_out(const struct heap *heap, size_t place)
{
    return heap->out != 0 && (heap->marks[place / 64] >> place / 8 % 8 & 1) != 0;
}

static enum refusal heap_read(const struct heap *heap, uint32_t name, uint32_t at, uint32_t count,
                              const uint8_t **bytes)
{
    struct found found;
    if (!find(heap, name, &found))
        return INVALID_HANDLE;
    if (is_out(heap, found.place))
        return LENT;
    if (reaches_beyond(at, count, found.length))
        return OUT_OF_BOUNDS;
    *bytes = heap->image + found.place + at;
    return DONE;
}

static enum refusal heap_write(struct heap *heap, uint32_t name, uint32_t at, const uint8_t *bytes,
                               uint32_t count)
{
    struct found found;
    if (!find(heap, name, &found))
        return INVALID_HANDLE;
    if (found.lock == 0)
        return CHUNK_NOT_LOCKED;
    if (is_out(heap, found.place))
        return LENT;
    if (reaches_beyond(at, count, found.length))
        return OUT_OF_BOUNDS;
    memcpy(heap->image + found.place + at, bytes, count);
    return DONE;
}

static void relock(struct heap *heap, uint32_t place, uint32_t lock)
{
    uint32_t word2 = u32_at(heap->image, place - 4);
    put_u32(heap->image, place - 4, (word2 & 0xFFFFFFF) | lock << 28);
}

static enum refusal heap_lock(struct heap *heap, uint32_t name, uint32_t *place, uint32_t *count)
{
    struct found found;
    if (!find(heap, name, &found))
        return INVALID_HANDLE;
    if (found.lock == MOST_LOCKS)
        return LOCK_OVERFLOW;
    relock(heap, found.place, found.lock + 1);
    *place = found.place;
    *count = found.lock + 1;
    return DONE;
}

static enum refusal heap_unlock(struct heap *heap, uint32_t name, uint32_t *count)
{
    struct found found;
    if (!find(heap, name, &found))
        return INVALID_HANDLE;
    if (found.lock == 0)
        return CHUNK_NOT_LOCKED;
    if (is_out(heap, found.place))
        return LENT;
    relock(heap, found.place, found.lock - 1);
    *count = found.lock - 1;
    return DONE;
}

/* Lends the bytes of a locked chunk. Those of others may be out. */
static enum refusal heap_take_out_also(struct heap *heap, uint32_t name, uint8_t **bytes, uint32_t *length)
{
    struct found found;
    if (!find(heap, name, &found))
        return INVALID_HANDLE;
    if (found.lock == 0)
        return CHUNK_NOT_LOCKED;
    if (is_out(heap, found.place))
        return LENT;
    if (heap->marks == NULL && (heap->marks = calloc(heap->len / 64 + 1, 1)) == NULL)
        return NOT_ENOUGH_SPACE;
    heap->marks[found.place / 64] |= 1 << found.place / 8 % 8;
    heap->out++;
    *bytes = heap->image + found.place;
    *length = found.length;
    return DONE;
}

/* Lends the bytes of a locked chunk, if nothing is out. */
static enum refusal heap_take_out(struct heap *heap, uint32_t name, uint8_t **bytes, uint32_t *length)
{
    if (heap->out != 0)
        return LENT;
    return heap_take_out_also(heap, name, bytes, length);
}

static void heap_put_back(struct heap *heap, const uint8_t *bytes)
{
    size_t place = bytes - heap->image;
    heap->marks[place / 64] &= ~(1 << place / 8 % 8);
    heap->out--;
}

static void heap_take_out_many(struct heap *heap, const uint32_t *names, size_t count)
{
    uint8_t *bytes;
    uint32_t length;
    for (size_t i = 0; i < count; i++)
        heap_take_out_also(heap, names[i], &bytes, &length);
}

static void heap_put_back_many(struct heap *heap, const uint32_t *names, size_t count)
{
    struct found found;
    for (size_t i = 0; i < count; i++)
        if (find(heap, names[i], &found))
            heap_put_back(heap, heap->image + found.place);
}

static enum refusal heap_handle_new(struct heap *heap, uint32_t length, uint32_t owner,
                                    uint32_t *name)
{
    if (owner == 0 || owner > 14)
        return INVALID_OWNER;
    return make_chunk(heap, length, owner, name);
}

static enum refusal heap_free(struct heap *heap, uint32_t name)
{
    struct found found;
    if (!find(heap, name, &found))
        return INVALID_HANDLE;
    if (found.owner == DATABASE)
        return OWNED_BY_DATABASE;
    if (found.lock != 0)
        return CHUNK_LOCKED;
    free_chunk(heap, name, &found);
    return DONE;
}

/* The sizes of the free chunks together. */
static uint32_t free_bytes(const struct heap *heap)
{
    uint32_t sum = 0;
    for (uint32_t at = area_start(heap); at < heap->len; at += size_of_chunk(heap, at))
        sum += is_free(heap, at) ? size_of_chunk(heap, at) : 0;
    return sum;
}

/* The greatest room of a stretch, 0 where there is none. */
static uint32_t heap_largest_stretch(const struct heap *heap)
{
    uint32_t largest = 0, room = 0;
    for (uint32_t at = area_start(heap); at < heap->len; at += size_of_chunk(heap, at)) {
        if (is_free(heap, at))
            room += size_of_chunk(heap, at);
        else if (stays(heap, at))
            room = 0;
        if (room > largest)
            largest = room;
    }
    return largest;
}

static uint32_t heap_compact(struct heap *heap)
{
    uint32_t room;
    return pack(heap, area_start(heap), heap->len, &room);
}

static enum refusal heap_resize(struct heap *heap, uint32_t name, uint32_t length)
{
    struct found found;
    if (!find(heap, name, &found))
        return INVALID_HANDLE;
    if (found.owner == DATABASE)
        return OWNED_BY_DATABASE;
    return resize_chunk(heap, name, &found, length);
}

/* Makes a heap a copy of another one of the same size, whose free chunks are in no list yet. */
static bool copy_heap(struct heap *heap, const struct heap *from)
{
    memcpy(heap->image, from->image, heap->len);
    memset(heap->known, 0, sizeof heap->known);
    heap->lowest = 0;
    heap->packed = false;
    drop_lists(heap);
    return true;
}

#endif
