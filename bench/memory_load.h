/*
 * A heap under load in C: calls of the memory manager, in the same order as crates/benchmarks/src/memory/load.rt has
 * them, and their times. With -DLIBRARY the calls are those of the library for C.
 */
#ifndef MEMORY_LOAD_H
#define MEMORY_LOAD_H

/* What the calls here are done with. */
enum { OWNER = 1, MOST_BYTES = 64, WIDTH = 16, MOST_MOVED = 2000, MOST_OUT = 1000 };

#ifdef LIBRARY
#include "library_calls.h"
#else
#include "plain_calls.h"
#endif

/* A heap, the handles of its chunks and of those that have 16 bytes, and the sum of all replies. Chunks
 * are made with 0 to `most` bytes. */
struct load {
    struct heap heap;
    uint32_t most;
    uint32_t *handles, *wide;
    size_t handle_count, wide_count;
    uint32_t random, replies;
};

static void add(uint32_t *replies, uint32_t number)
{
    *replies = sum_with(*replies, number);
}

/* A number below a limit, the same in each run. */
static size_t below(struct load *load, size_t limit)
{
    load->random = load->random * 1664525 + 1013904223;
    return (load->random >> 16) % limit;
}

/* Brings the last handles into another order, so many of them. */
static void shuffle(struct load *load, size_t count)
{
    size_t from = load->handle_count > count ? load->handle_count - count : 0;
    uint32_t *handles = load->handles + from;
    for (size_t i = 1; i < load->handle_count - from; i++) {
        size_t j = below(load, i + 1);
        uint32_t name = handles[i];
        handles[i] = handles[j];
        handles[j] = name;
    }
}

static void make_chunks(struct load *load, size_t count)
{
    for (size_t i = 0; i < count; i++) {
        uint32_t name;
        enum refusal refusal =
            heap_handle_new(&load->heap, (uint32_t)below(load, load->most + 1), OWNER, &name);
        if (refusal == DONE)
            load->handles[load->handle_count++] = name;
        add(&load->replies, refusal == DONE ? name : refusal);
    }
}

static void free_chunks(struct load *load, size_t count)
{
    for (size_t i = 0; i < count && load->handle_count > 0; i++)
        add(&load->replies, heap_free(&load->heap, load->handles[--load->handle_count]));
}

static void find_wide(struct load *load)
{
    for (size_t i = 0; i < load->handle_count; i++) {
        uint32_t size;
        if (heap_size(&load->heap, load->handles[i], &size) == DONE && size >= WIDTH)
            load->wide[load->wide_count++] = load->handles[i];
    }
}

static void lock_wide(struct load *load)
{
    for (size_t i = 0; i < load->wide_count; i++) {
        uint32_t place, count;
        enum refusal refusal = heap_lock(&load->heap, load->wide[i], &place, &count);
        add(&load->replies, refusal == DONE ? place : refusal);
    }
}

/* The following functions are never in line, and keep the replies in a register, so that no kind of call changes the
 * code of another. */

static __attribute__((noinline)) void lock_and_unlock(struct load *load)
{
    uint32_t replies = load->replies;
    for (size_t i = 0; i < load->handle_count; i++) {
        uint32_t place, count;
        enum refusal refusal = heap_lock(&load->heap, load->handles[i], &place, &count);
        add(&replies, refusal == DONE ? place ^ count : refusal);
        refusal = heap_unlock(&load->heap, load->handles[i], &count);
        add(&replies, refusal == DONE ? count : refusal);
    }
    load->replies = replies;
}

static __attribute__((noinline)) void ask_sizes(struct load *load)
{
    uint32_t replies = load->replies;
    for (size_t i = 0; i < load->handle_count; i++) {
        uint32_t size;
        enum refusal refusal = heap_size(&load->heap, load->handles[i], &size);
        add(&replies, refusal == DONE ? size : refusal);
    }
    load->replies = replies;
}

static __attribute__((noinline)) void ask_owners(struct load *load)
{
    uint32_t replies = load->replies;
    for (size_t i = 0; i < load->handle_count; i++) {
        uint32_t owner;
        enum refusal refusal = heap_owner(&load->heap, load->handles[i], &owner);
        add(&replies, refusal == DONE ? owner : refusal);
    }
    load->replies = replies;
}

static __attribute__((noinline)) void ask_locks(struct load *load)
{
    uint32_t replies = load->replies;
    for (size_t i = 0; i < load->handle_count; i++) {
        uint32_t count;
        enum refusal refusal = heap_locks(&load->heap, load->handles[i], &count);
        add(&replies, refusal == DONE ? count : refusal);
    }
    load->replies = replies;
}

/* How many bodies are out while the other chunks are read. */
static size_t out_among(const struct load *load)
{
    return load->wide_count / 2 < MOST_OUT ? load->wide_count / 2 : MOST_OUT;
}

static __attribute__((noinline)) void read_chunks(struct load *load, size_t from)
{
    uint32_t replies = load->replies;
    for (size_t i = from; i < load->wide_count; i++) {
        const uint8_t *bytes;
        enum refusal refusal = heap_read(&load->heap, load->wide[i], 0, WIDTH, &bytes);
        if (refusal != DONE) {
            add(&replies, refusal);
            continue;
        }
        add(&replies, bytes[0]);
        add(&replies, bytes[WIDTH - 1]);
    }
    load->replies = replies;
}

static __attribute__((noinline)) void write_chunks(struct load *load, uint8_t byte)
{
    uint8_t bytes[WIDTH];
    memset(bytes, byte, sizeof bytes);
    uint32_t replies = load->replies;
    for (size_t i = 0; i < load->wide_count; i++)
        add(&replies, heap_write(&load->heap, load->wide[i], 0, bytes, WIDTH));
    load->replies = replies;
}

static __attribute__((noinline)) void take_out_and_put_back(struct load *load)
{
    uint32_t replies = load->replies;
    for (size_t i = 0; i < load->wide_count; i++) {
        uint8_t *bytes;
        uint32_t length;
        enum refusal refusal = heap_take_out(&load->heap, load->wide[i], &bytes, &length);
        if (refusal != DONE) {
            add(&replies, refusal);
            continue;
        }
        add(&replies, bytes[0]);
        add(&replies, bytes[length - 1]);
        heap_put_back(&load->heap, bytes);
    }
    load->replies = replies;
}

enum call { LOCK_AND_UNLOCK, ASK_SIZE, ASK_OWNER, ASK_LOCKS, READ, WRITE, TAKE_OUT_AND_PUT_BACK, READ_WITH_OUT, CALLS };

static const char *const CALL_NAMES[CALLS] = {
    "lock_and_unlock", "size", "owner", "locks", "read", "write", "take_out_and_put_back", "read_with_1000_out",
};

/* Does a call at each handle, or at each one of a chunk that has 16 bytes, so many times. */
static void repeat(struct load *load, enum call call, uint32_t passes)
{
    size_t out = call == READ_WITH_OUT ? out_among(load) : 0;
    heap_take_out_many(&load->heap, load->wide, out);
    for (uint32_t pass = 0; pass < passes; pass++) {
        switch (call) {
        case LOCK_AND_UNLOCK: lock_and_unlock(load); break;
        case ASK_SIZE: ask_sizes(load); break;
        case ASK_OWNER: ask_owners(load); break;
        case ASK_LOCKS: ask_locks(load); break;
        case READ: read_chunks(load, 0); break;
        case READ_WITH_OUT: read_chunks(load, out); break;
        case WRITE: write_chunks(load, (uint8_t)pass); break;
        default: take_out_and_put_back(load); break;
        }
    }
    heap_put_back_many(&load->heap, load->wide, out);
}

/* How many calls a pass of this kind has. */
static size_t calls_of_pass(const struct load *load, enum call call)
{
    if (call == LOCK_AND_UNLOCK)
        return 2 * load->handle_count;
    if (call == TAKE_OUT_AND_PUT_BACK)
        return 2 * load->wide_count;
    if (call == READ_WITH_OUT)
        return load->wide_count - out_among(load);
    return call < READ ? load->handle_count : load->wide_count;
}

/* What a run does. */
struct work {
    uint32_t size, slots, passes;
    size_t rounds;
    bool prints_times;
};

static size_t moved(const struct work *work)
{
    return work->slots / 4 < MOST_MOVED ? work->slots / 4 : MOST_MOVED;
}

/* Makes a chunk under each slot. */
static void fill(struct load *load, const struct work *work, uint64_t *times)
{
    uint64_t start = nanoseconds();
    make_chunks(load, work->slots);
    times[0] = nanoseconds() - start;
    if (work->prints_times)
        print_times("handle_new_filling", work->slots, times, 1);
}

/* Frees chunks and makes as many, in each round. Those freed are taken from the last handles, so many
 * of them. */
static void move_chunks(struct load *load, const struct work *work, const char *const names[2],
                        size_t among, uint64_t *times)
{
    for (size_t i = 0; i < work->rounds; i++) {
        shuffle(load, among);
        uint64_t start = nanoseconds();
        free_chunks(load, moved(work));
        uint64_t middle = nanoseconds();
        make_chunks(load, moved(work));
        times[i] = middle - start;
        times[work->rounds + i] = nanoseconds() - middle;
    }
    for (size_t i = 0; i < 2 && work->prints_times; i++)
        print_times(names[i], moved(work), times + i * work->rounds, work->rounds);
}

static void time_calls(struct load *load, const struct work *work, uint64_t *times)
{
    for (enum call call = LOCK_AND_UNLOCK; call < CALLS; call++) {
        if (call == WRITE)
            lock_wide(load);
        for (size_t i = 0; i < work->rounds; i++) {
            uint64_t start = nanoseconds();
            repeat(load, call, work->passes);
            times[i] = nanoseconds() - start;
        }
        if (work->prints_times)
            print_times(CALL_NAMES[call], calls_of_pass(load, call) * (uint64_t)work->passes,
                        times, work->rounds);
    }
}

/* A load on a heap that is yet to be made. */
static bool make_load(struct load *load, const struct work *work, uint32_t most)
{
    *load = (struct load){.random = 1, .most = most};
    load->handles = calloc(work->slots, sizeof *load->handles);
    load->wide = calloc(work->slots, sizeof *load->wide);
    return load->handles != NULL && load->wide != NULL;
}

static bool make_blank_load(struct load *load, const struct work *work, uint32_t most)
{
    return make_load(load, work, most) && make_blank(&load->heap, work->size, work->slots);
}

static bool read_work(int argc, char **argv, struct work *work)
{
    if (argc == 1)
        *work = (struct work){.size = 4096, .slots = 64, .passes = 2, .rounds = 2};
    if (argc == 5)
        *work = (struct work){
            .size = (uint32_t)strtoul(argv[1], NULL, 10),
            .slots = (uint32_t)strtoul(argv[2], NULL, 10),
            .passes = (uint32_t)strtoul(argv[3], NULL, 10),
            .rounds = strtoul(argv[4], NULL, 10),
            .prints_times = true,
        };
    return argc == 1 || argc == 5;
}

/* Makes a chunk under each slot, frees and makes chunks, and then does the calls whose time doesn't depend on the
 * heap. */
static void time_load(struct load *load, const struct work *work, uint64_t *times)
{
    static const char *const AT_THE_END[2] = {"free_at_the_end", "handle_new_at_the_end"};
    static const char *const ANYWHERE[2] = {"free_anywhere", "handle_new_anywhere"};
    fill(load, work, times);
    move_chunks(load, work, AT_THE_END, moved(work), times);
    move_chunks(load, work, ANYWHERE, work->slots, times);
    shuffle(load, work->slots);
    find_wide(load);
    time_calls(load, work, times);
}

#endif
