/*
 * What the programs here print: times of calls, and sums by which two programs that do the same calls are
 * compared.
 */
#ifndef TIMES_H
#define TIMES_H

#ifndef LIBRARY
#include "heap.h"
#endif

#include <endian.h>
#include <stdint.h>
#include <stdio.h>
#include <stdlib.h>
#include <string.h>
#include <time.h>

/* The sum of the numbers seen so far and one more: it is turned, so that their order counts. */
static uint32_t sum_with(uint32_t sum, uint32_t number)
{
    return (sum << 5 | sum >> 27) + number;
}

/* The sum of all replies, and that of the words of the heaps in the end. */
struct sums {
    uint32_t replies, words;
};

/* The sum of the words of an image. */
static uint32_t words_in(const uint8_t *image, uint32_t len)
{
    uint32_t words = 0;
    for (uint32_t at = 0; at + 4 <= len; at += 4) {
        uint32_t word;
        memcpy(&word, image + at, sizeof word);
        words = sum_with(words, be32toh(word));
    }
    return words;
}

#ifndef LIBRARY
/* The same of a heap. */
static uint32_t words_of(const struct heap *heap)
{
    return words_in(heap->image, heap->len);
}
#endif

/* The processor time used so far. */
static uint64_t nanoseconds(void)
{
    struct timespec now;
    clock_gettime(CLOCK_THREAD_CPUTIME_ID, &now);
    return (uint64_t)now.tv_sec * 1000000000 + (uint64_t)now.tv_nsec;
}

static int by_size(const void *a, const void *b)
{
    uint64_t x = *(const uint64_t *)a, y = *(const uint64_t *)b;
    return (x > y) - (x < y);
}

static void print_times(const char *name, uint64_t calls, uint64_t *times, size_t rounds)
{
    if (rounds == 0)
        return;
    qsort(times, rounds, sizeof *times, by_size);
    printf("%s calls %lu best %lu median %lu\n", name, (unsigned long)calls,
           (unsigned long)times[0], (unsigned long)times[rounds / 2]);
}

#endif
