/*
 * Calls of the memory manager through the library for C, on a store that stays open: those of plain_calls.h.
 */
#ifndef LIBRARY_CALLS_H
#define LIBRARY_CALLS_H

#include "palmheap.h"
#include "times.h"

/* The result of a call: DONE, or the number of a refusal. */
enum refusal { DONE, LAST_REFUSAL = PALMHEAP_REFUSED_LENT };

/* An open store, the loan of one of its chunks, and room for its image. */
struct heap {
    palmheap_store store;
    palmheap_loan loan;
    uint8_t *image;
    uint32_t len;
    bool is_open;
};

static palmheap_store *store_of(const struct heap *heap)
{
    return (palmheap_store *)&heap->store;
}

static bool open_image(struct heap *heap)
{
    heap->is_open = palmheap_open(heap->image, heap->len, &heap->store).kind == PALMHEAP_OK;
    return heap->is_open;
}

static bool make_blank(struct heap *heap, uint32_t size, uint32_t slots)
{
    *heap = (struct heap){.image = malloc(size), .len = size};
    return heap->image != NULL && palmheap_new(heap->image, size, (uint16_t)slots).kind == PALMHEAP_OK && open_image(heap);
}

/* Makes a heap a copy of another one of the same size, by a new store. */
static bool copy_heap(struct heap *heap, const struct heap *from)
{
    size_t count;
    if (heap->is_open && palmheap_close(&heap->store) != 0)
        return false;
    return palmheap_write_image(store_of(from), heap->image, heap->len, &count) == 0 && open_image(heap);
}

static uint32_t words_of(const struct heap *heap)
{
    size_t count;
    return palmheap_write_image(store_of(heap), heap->image, heap->len, &count) == 0 ? words_in(heap->image, heap->len) : 0;
}

static enum refusal heap_handle_new(struct heap *heap, uint32_t length, uint32_t owner, uint32_t *name)
{
    return palmheap_MemHandleNew(&heap->store, length, (uint8_t)owner, name);
}

static enum refusal heap_free(struct heap *heap, uint32_t name)
{
    return palmheap_MemChunkFree(&heap->store, name);
}

static enum refusal heap_lock(struct heap *heap, uint32_t name, uint32_t *place, uint32_t *count)
{
    uint8_t locks;
    enum refusal refusal = palmheap_MemHandleLock(&heap->store, name, place, &locks);
    *count = locks;
    return refusal;
}

static enum refusal heap_unlock(struct heap *heap, uint32_t name, uint32_t *count)
{
    uint8_t locks;
    enum refusal refusal = palmheap_MemHandleUnlock(&heap->store, name, &locks);
    *count = locks;
    return refusal;
}

static enum refusal heap_size(const struct heap *heap, uint32_t name, uint32_t *size)
{
    return palmheap_MemHandleSize(store_of(heap), name, size);
}

static enum refusal heap_owner(const struct heap *heap, uint32_t name, uint32_t *owner)
{
    uint8_t number;
    enum refusal refusal = palmheap_MemHandleOwner(store_of(heap), name, &number);
    *owner = number;
    return refusal;
}

static enum refusal heap_locks(const struct heap *heap, uint32_t name, uint32_t *count)
{
    uint8_t locks;
    enum refusal refusal = palmheap_MemHandleLockCount(store_of(heap), name, &locks);
    *count = locks;
    return refusal;
}

/* Reads into a buffer of its own, of MOST_BYTES bytes. */
static enum refusal heap_read(const struct heap *heap, uint32_t name, uint32_t at, uint32_t count,
                              const uint8_t **bytes)
{
    static uint8_t buffer[MOST_BYTES];
    size_t len;
    *bytes = buffer;
    return palmheap_read(store_of(heap), name, at, count, buffer, sizeof buffer, &len);
}

static enum refusal heap_write(struct heap *heap, uint32_t name, uint32_t at, const uint8_t *bytes,
                               uint32_t count)
{
    return palmheap_DmWrite(&heap->store, name, at, bytes, count);
}

static enum refusal heap_take_out(struct heap *heap, uint32_t name, uint8_t **bytes, uint32_t *length)
{
    enum refusal refusal = palmheap_take_out(&heap->store, name, &heap->loan);
    *bytes = heap->loan.bytes;
    *length = (uint32_t)heap->loan.count;
    return refusal;
}

static void heap_put_back(struct heap *heap, const uint8_t *bytes)
{
    (void)bytes;
    palmheap_put_back(&heap->store, &heap->loan);
}

/* The loans of many chunks. One that is refused has no bytes. */
static palmheap_loan loans[MOST_OUT];

static void heap_take_out_many(struct heap *heap, const uint32_t *names, size_t count)
{
    for (size_t i = 0; i < count; i++)
        if (palmheap_take_out_also(&heap->store, names[i], &loans[i]) != 0)
            loans[i] = (palmheap_loan){0};
}

static void heap_put_back_many(struct heap *heap, const uint32_t *names, size_t count)
{
    (void)names;
    for (size_t i = 0; i < count; i++)
        if (loans[i].bytes != NULL)
            palmheap_put_back(&heap->store, &loans[i]);
}

static uint32_t free_bytes(const struct heap *heap)
{
    uint32_t count = 0;
    palmheap_MemHeapFreeBytes(store_of(heap), &count);
    return count;
}

static uint32_t heap_largest_stretch(const struct heap *heap)
{
    uint32_t count = 0;
    palmheap_largest_stretch(store_of(heap), &count);
    return count;
}

static uint32_t heap_compact(struct heap *heap)
{
    uint32_t count = 0;
    palmheap_MemHeapCompact(&heap->store, &count);
    return count;
}

static enum refusal heap_resize(struct heap *heap, uint32_t name, uint32_t length)
{
    return palmheap_MemHandleResize(&heap->store, name, length);
}

#endif
