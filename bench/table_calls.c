/*
 * Calls of the memory manager on a heap with a chain of tables in plain C, and their times.
 *
 * usage: table_calls [SIZE SLOTS PASSES ROUNDS]
 *
 * It does the same calls in the same order as crates/benchmarks/src/tables.rt. The heap has one slot in its first table
 * and as many further tables of 15 slots as give SLOTS slots more. With -DAPART free bytes are between them.
 */
#include "memory_load.h"

/* Chunks between tables have fewer bytes than this; 0 for none. */
#ifdef APART
enum { MOST_BETWEEN = 1021 };
#else
enum { MOST_BETWEEN = 0 };
#endif

/* Makes an image with one slot, and then so many further tables, after each of which a chunk was made. These are freed. */
static bool make_chained(struct heap *heap, uint32_t size, uint32_t tables)
{
    if (!make_blank(heap, size, 1))
        return false;
    put_u32(heap->image, 0, CHAINED_MAGIC);
    uint32_t *between = calloc(tables + 1, sizeof *between);
    if (between == NULL)
        return false;
    bool made = true;
    for (uint32_t i = 0; i < tables && made; i++) {
        made = more_slots(heap) == DONE;
        if (made && MOST_BETWEEN > 0)
            made = heap_handle_new(heap, i * 7919 % (MOST_BETWEEN + !MOST_BETWEEN), OWNER,
                                   &between[i]) == DONE;
    }
    for (uint32_t i = 0; i < tables && made && MOST_BETWEEN > 0; i++)
        made = heap_free(heap, between[i]) == DONE;
    free(between);
    return made;
}

int main(int argc, char **argv)
{
    struct work work;
    struct load load;
    if (!read_work(argc, argv, &work) || !make_load(&load, &work, MOST_BYTES) ||
        !make_chained(&load.heap, work.size, work.slots / TABLE_SLOTS)) {
        fprintf(stderr, "usage: table_calls [SIZE SLOTS PASSES ROUNDS]\n");
        return 2;
    }
    uint64_t *times = calloc(2 * work.rounds + 1, sizeof *times);
    if (times == NULL)
        return 2;
    time_load(&load, &work, times);
    printf("replies %u words %u\n", load.replies, words_of(&load.heap));
    return 0;
}
