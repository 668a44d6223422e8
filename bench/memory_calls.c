/*
 * Calls of the memory manager in C, and their times: what the Rattle calls are measured beside. They are plain C, or,
 * with -DLIBRARY, calls of the library for C on an open store.
 *
 * usage: memory_calls [SIZE SLOTS PASSES ROUNDS]
 *
 * It does the same calls in the same order as crates/benchmarks/src/memory, on an image of the same format
 * (docs/FORMAT.md) and by the same algorithm (heap.h), and prints the same lines. Compaction is one walk,
 * with one move for each chunk that goes down over the free one in front of it.
 */
#include "memory_load.h"

enum { STRETCHES = 64 };

/* Frees the chunks of every second handle, the first among them. */
static void free_every_second(struct load *load)
{
    for (size_t i = 0; i < load->handle_count; i += 2)
        add(&load->replies, heap_free(&load->heap, load->handles[i]));
}

/* The most bytes of a chunk where a heap with one under each slot is nearly full: twice what is left to
 * each of them on average, behind its header and what rounding adds. */
static uint32_t most_when_full(const struct work *work)
{
    uint32_t each = (work->size - 16 - 4 * work->slots) / work->slots;
    uint32_t most = each > 12 ? 2 * (each - 12) : 0;
    return most < UINT16_MAX ? most : UINT16_MAX;
}

/* A heap of which every second chunk is free, its other chunks in order, and how many bytes these have. */
struct scattered {
    struct heap heap;
    uint32_t *kept, *lengths;
    size_t count;
};

static bool scatter(struct load *load, size_t count, struct scattered *scattered)
{
    make_chunks(load, count);
    free_every_second(load);
    *scattered = (struct scattered){
        .heap = load->heap,
        .kept = calloc(count, sizeof *scattered->kept),
        .lengths = calloc(count, sizeof *scattered->lengths),
    };
    if (scattered->kept == NULL || scattered->lengths == NULL)
        return false;
    for (size_t i = 1; i < load->handle_count; i += 2) {
        uint32_t name = load->handles[i];
        if (heap_size(&load->heap, name, &scattered->lengths[scattered->count]) == DONE)
            scattered->kept[scattered->count++] = name;
    }
    return true;
}

/* Calls that walk through all chunks or move them. */
enum walk { NOTHING, LARGEST_STRETCH, COMPACT, HANDLE_NEW, RESIZE_IN_PLACE, RESIZE_BY_MOVING, WALKS };

static const char *const WALK_NAMES[WALKS] = {
    "nothing", "largest_stretch", "compact", "handle_new_by_packing", "resize_in_place", "resize_by_moving",
};

static size_t calls_of_walk(const struct scattered *scattered, enum walk walk)
{
    if (walk == HANDLE_NEW)
        return STRETCHES / 2;
    return walk == RESIZE_IN_PLACE ? 2 * scattered->count : 1;
}

/* Locks chunks that part a heap into stretches of about as many chunks each. */
static void part(struct heap *heap, const struct scattered *scattered)
{
    size_t step = scattered->count / STRETCHES;
    for (size_t i = 0; i < scattered->count; i += step > 0 ? step : 1) {
        uint32_t place, count;
        heap_lock(heap, scattered->kept[i], &place, &count);
    }
}

static uint32_t make_large(struct heap *heap)
{
    uint32_t replies = 0;
    for (size_t i = 0; i < STRETCHES / 2; i++) {
        uint32_t name;
        enum refusal refusal =
            heap_handle_new(heap, heap->len / (2 * STRETCHES) / 4 * 3, OWNER, &name);
        replies = sum_with(replies, refusal == DONE ? name : refusal);
    }
    return replies;
}

static uint32_t resize_each(struct heap *heap, const struct scattered *scattered)
{
    uint32_t replies = 0;
    for (size_t i = 0; i < scattered->count; i++) {
        uint32_t name = scattered->kept[i], length = scattered->lengths[i];
        replies = sum_with(replies, heap_resize(heap, name, length + 8));
        replies = sum_with(replies, heap_resize(heap, name, length));
    }
    return replies;
}

/* Does the calls, and answers the sum of their replies. */
static uint32_t do_walk(struct heap *heap, const struct scattered *scattered, enum walk walk)
{
    switch (walk) {
    case NOTHING: return 0;
    case LARGEST_STRETCH: return heap_largest_stretch(heap);
    case COMPACT: return heap_compact(heap);
    case HANDLE_NEW: return make_large(heap);
    case RESIZE_IN_PLACE: return resize_each(heap, scattered);
    default:
        if (scattered->count == 0)
            return 0;
        return heap_resize(heap, scattered->kept[scattered->count / 2], heap->len / 4);
    }
}

/* Does calls of each kind in each round, on a new copy of a heap. */
static bool time_walks(const struct scattered *scattered, const struct work *work, struct sums *sums,
                       uint64_t *times)
{
    struct heap heap = {.image = malloc(scattered->heap.len), .len = scattered->heap.len};
    if (heap.image == NULL)
        return false;
    for (enum walk walk = NOTHING; walk < WALKS; walk++) {
        for (size_t i = 0; i < work->rounds; i++) {
            if (!copy_heap(&heap, &scattered->heap))
                return false;
            if (walk == HANDLE_NEW)
                part(&heap, scattered);
            uint64_t start = nanoseconds();
            uint32_t replies = do_walk(&heap, scattered, walk);
            times[i] = nanoseconds() - start;
            sums->replies = sum_with(sums->replies, replies);
            sums->words = sum_with(sums->words, words_of(&heap));
        }
        if (work->prints_times)
            print_times(WALK_NAMES[walk], calls_of_walk(scattered, walk), times, work->rounds);
    }
    return true;
}

/* A heap whose free chunks are all of one class: small ones, and in their middle a few large ones. Between
 * two of them stands a chunk of no bytes, and nothing else is free. */
struct one_class {
    struct heap heap;
    uint32_t *kept;
    size_t count, large, freed;
};

enum { SMALL = 56, LARGE = 112, MOST_LARGE = 32, MOST_FREED = 2000 };

static bool fill_with_one_class(const struct work *work, struct one_class *one)
{
    size_t pairs = work->slots / 2;
    *one = (struct one_class){.kept = calloc(pairs + 1, sizeof *one->kept)};
    uint32_t *freed = calloc(pairs + 1, sizeof *freed);
    if (one->kept == NULL || freed == NULL || !make_blank(&one->heap, work->size, work->slots))
        return false;
    one->large = pairs / 4 < MOST_LARGE ? pairs / 4 : MOST_LARGE;
    size_t freed_count = 0;
    for (size_t i = 0; i < pairs; i++) {
        bool is_large = i >= pairs / 2 && i - pairs / 2 < one->large;
        if (heap_handle_new(&one->heap, is_large ? LARGE : SMALL, OWNER, &freed[freed_count]) == DONE)
            freed_count++;
        if (heap_handle_new(&one->heap, 0, OWNER, &one->kept[one->count]) == DONE)
            one->count++;
    }
    one->freed = one->count / 4 < MOST_FREED ? one->count / 4 : MOST_FREED;
    uint32_t rest = free_bytes(&one->heap), name;
    if (heap_handle_new(&one->heap, rest > 8 ? rest - 8 : 0, OWNER, &name) == DONE)
        for (size_t i = 0; i < freed_count; i++)
            heap_free(&one->heap, freed[i]);
    free(freed);
    return true;
}

/* Orders of calls for which the list of that class helps least: new chunks that need a large free one, a chunk
 * that goes to a large one and a new chunk in turns, and one chunk over many that were freed one by one. */
enum order { FAR_IN_A_LIST, RESIZE_IN_TURN, OVER_MANY_FREED, ORDERS };

static const char *const ORDER_NAMES[ORDERS] = {
    "handle_new_far_in_a_list", "resize_in_turn", "handle_new_over_freed",
};

static uint32_t sum_with_new(uint32_t replies, struct heap *heap, uint32_t length)
{
    uint32_t name;
    enum refusal refusal = heap_handle_new(heap, length, OWNER, &name);
    return sum_with(replies, refusal == DONE ? name : refusal);
}

/* Does the calls, and answers the sum of their replies. */
static uint32_t do_order(struct heap *heap, const struct one_class *one, enum order order)
{
    uint32_t replies = 0;
    if (order == OVER_MANY_FREED)
        return sum_with_new(replies, heap, (uint32_t)one->freed * (SMALL + 16) + SMALL);
    for (size_t i = 0; i < one->large; i++) {
        if (order == RESIZE_IN_TURN)
            replies = sum_with(replies, heap_resize(heap, one->kept[i], LARGE));
        replies = sum_with_new(replies, heap, order == RESIZE_IN_TURN ? SMALL - 16 : LARGE);
    }
    return replies;
}

/* Does calls in each order in each round, on a new copy of a heap. */
static bool time_orders(const struct one_class *one, const struct work *work, struct sums *sums,
                        uint64_t *times)
{
    struct heap heap = {.image = malloc(one->heap.len), .len = one->heap.len};
    if (heap.image == NULL)
        return false;
    const size_t calls[ORDERS] = {one->large, 2 * one->large, 1};
    for (enum order order = FAR_IN_A_LIST; order < ORDERS; order++) {
        for (size_t i = 0; i < work->rounds; i++) {
            if (!copy_heap(&heap, &one->heap))
                return false;
            for (size_t j = 0; order == OVER_MANY_FREED && j < one->freed; j++)
                heap_free(&heap, one->kept[j]);
            uint64_t start = nanoseconds();
            uint32_t replies = do_order(&heap, one, order);
            times[i] = nanoseconds() - start;
            sums->replies = sum_with(sums->replies, replies);
            sums->words = sum_with(sums->words, words_of(&heap));
        }
        if (work->prints_times)
            print_times(ORDER_NAMES[order], calls[order], times, work->rounds);
    }
    return true;
}

int main(int argc, char **argv)
{
    struct work work;
    struct load load, blank;
    struct scattered scattered;
    if (!read_work(argc, argv, &work) || !make_blank_load(&load, &work, MOST_BYTES)) {
        fprintf(stderr, "usage: memory_calls [SIZE SLOTS PASSES ROUNDS]\n");
        return 2;
    }
    uint64_t *times = calloc(2 * work.rounds + 1, sizeof *times);
    if (times == NULL || !make_blank_load(&blank, &work, most_when_full(&work)))
        return 2;

    time_load(&load, &work, times);
    struct sums sums = {.replies = load.replies, .words = words_of(&load.heap)};

    struct one_class one;
    if (!scatter(&blank, work.slots, &scattered) || !time_walks(&scattered, &work, &sums, times))
        return 2;
    if (!fill_with_one_class(&work, &one) || !time_orders(&one, &work, &sums, times))
        return 2;
    printf("replies %u words %u\n", sums.replies, sums.words);
    return 0;
}
