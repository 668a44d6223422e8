/*
 * The checker of heap images in plain C, and its time: what the Rattle checker is measured beside.
 *
 * usage: check_heap IMAGE REPEATS
 *
 * It looks for the same faults in the same order as crates/heap_check: the head, one walk over the
 * chunks that marks the slots, and then the table. It prints the counts or the fault, then the best
 * and the median time of a check, and of a bare reading of the image's words, in microseconds.
 */
#include <endian.h>
#include <stdbool.h>
#include <stdint.h>
#include <stdio.h>
#include <stdlib.h>
#include <string.h>
#include <time.h>

enum { MAX_SLOTS = 65536, FIXED_LOCK = 15 };

static const uint32_t MAGIC = 0x50484931;
static const uint32_t FREE_BIT = 0x80000000;

/* The offset of a chunk that isn't there. */
static const uint32_t NONE = UINT32_MAX;

enum fault {
    NO_FAULT,
    TOO_SHORT,
    BAD_MAGIC,
    BAD_SIZE,
    BAD_SLOT_COUNT,
    BAD_RESERVED,
    BAD_PADDING,
    BAD_CHUNK,
    SLOT_MISMATCH,
    CHUNK_WITHOUT_SLOT,
    BAD_FIXED_OWNER,
    BAD_DIRECTORY,
};

static const char *const FAULT_NAMES[] = {
    "",           "TooShort", "BadMagic",     "BadSize",          "BadSlotCount",  "BadReserved",
    "BadPadding", "BadChunk", "SlotMismatch", "ChunkWithoutSlot", "BadFixedOwner", "BadDirectory",
};

/* What a check says: a fault and its offset, or the counts. */
struct answer {
    enum fault fault;
    uint32_t offset;
    uint32_t size, slots, movable, fixed, free;
};

static struct answer fault_at(enum fault fault, uint32_t offset)
{
    return (struct answer){.fault = fault, .offset = offset};
}

static struct answer fault(enum fault fault)
{
    return fault_at(fault, 0);
}

static uint32_t u16_at(const uint8_t *image, size_t at)
{
    uint16_t word;
    memcpy(&word, image + at, sizeof word);
    return be16toh(word);
}

static uint32_t u32_at(const uint8_t *image, size_t at)
{
    uint32_t word;
    memcpy(&word, image + at, sizeof word);
    return be32toh(word);
}

static bool is_slot(uint32_t offset, uint32_t slots)
{
    return offset >= 16 && offset < 16 + 4 * slots && offset % 4 == 0;
}

static enum fault check_head(const uint8_t *image, size_t len)
{
    if (len < 16 || (u32_at(image, 0) == MAGIC && u32_at(image, 4) > len))
        return TOO_SHORT;
    if (u32_at(image, 0) != MAGIC)
        return BAD_MAGIC;
    if (u32_at(image, 4) != len || len % 8 != 0 || len < 64 || len > 16777208)
        return BAD_SIZE;
    uint32_t slots = u16_at(image, 8);
    uint32_t end = 16 + 4 * slots;
    uint32_t start = (end + 7) / 8 * 8;
    if (slots == 0 || len < start + 8)
        return BAD_SLOT_COUNT;
    if (u16_at(image, 10) != 0)
        return BAD_RESERVED;
    if (end != start && u32_at(image, end) != 0)
        return BAD_PADDING;
    return NO_FAULT;
}

/* Whether the directory word is 0, or a slot in use whose chunk has owner 0. */
static bool has_directory(const uint8_t *image, uint32_t slots)
{
    uint32_t directory = u32_at(image, 12);
    if (directory == 0)
        return true;
    if (!is_slot(directory, slots))
        return false;
    uint32_t place = u32_at(image, directory);
    return place != 0 && (u32_at(image, place - 4) >> 24 & 15) == 0;
}

static struct answer check_heap(const uint8_t *image, size_t len)
{
    enum fault head = check_head(image, len);
    if (head != NO_FAULT)
        return fault(head);

    bool marks[MAX_SLOTS];
    memset(marks, 0, sizeof marks);
    uint32_t slots = u16_at(image, 8);
    uint32_t movable = 0, fixed = 0, free_bytes = 0;
    uint32_t without_slot = NONE, bad_owner = NONE;
    uint32_t end = (uint32_t)len;
    uint32_t at = (16 + 4 * slots + 7) / 8 * 8;
    while (at < end) {
        uint32_t word1 = u32_at(image, at);
        uint32_t size = word1 & 0xFFFFFF;
        if (size < 8 || size % 8 != 0 || size > end - at)
            return fault_at(BAD_CHUNK, at);
        if (word1 >= FREE_BIT) {
            free_bytes += size;
            at += size;
            continue;
        }
        uint32_t adjustment = word1 >> 24;
        if (adjustment > 7 || adjustment > size - 8)
            return fault_at(BAD_CHUNK, at);
        uint32_t word2 = u32_at(image, at + 4);
        uint32_t lock = word2 >> 28;
        uint32_t owner = word2 >> 24 & 15;
        uint32_t h_offset = word2 & 0xFFFFFF;
        if (lock == FIXED_LOCK) {
            if (h_offset != 0)
                return fault_at(BAD_CHUNK, at);
            fixed++;
            if ((owner == 0 || owner == 15) && bad_owner == NONE)
                bad_owner = at;
        } else {
            if (lock != 0 && owner == 0)
                return fault_at(BAD_CHUNK, at);
            movable++;
            uint32_t slot = (at + 2 * h_offset) & 0x1FFFFFF;
            if (is_slot(slot, slots) && u32_at(image, slot) == at + 8)
                marks[(slot - 16) / 4] = true;
            else if (without_slot == NONE)
                without_slot = at;
        }
        at += size;
    }

    for (uint32_t number = 0; number < slots; number++)
        if (u32_at(image, 16 + 4 * number) != 0 && !marks[number])
            return fault_at(SLOT_MISMATCH, 16 + 4 * number);
    if (without_slot != NONE)
        return fault_at(CHUNK_WITHOUT_SLOT, without_slot);
    if (bad_owner != NONE)
        return fault_at(BAD_FIXED_OWNER, bad_owner);
    if (!has_directory(image, slots))
        return fault(BAD_DIRECTORY);
    return (struct answer){
        .size = end, .slots = slots, .movable = movable, .fixed = fixed, .free = free_bytes};
}

/* The floor: each word of the image is read once. */
static uint32_t sum_of_words(const uint8_t *image, size_t len)
{
    uint32_t sum = 0;
    for (size_t at = 0; at + 4 <= len; at += 4)
        sum += u32_at(image, at);
    return sum;
}

static void print_answer(struct answer answer)
{
    if (answer.fault == NO_FAULT)
        printf("ok size %u slots %u movable %u fixed %u free %u\n", answer.size, answer.slots,
               answer.movable, answer.fixed, answer.free);
    else if (answer.fault >= BAD_CHUNK && answer.fault <= BAD_FIXED_OWNER)
        printf("bad %s %u\n", FAULT_NAMES[answer.fault], answer.offset);
    else
        printf("bad %s\n", FAULT_NAMES[answer.fault]);
}

static uint64_t nanoseconds(void)
{
    struct timespec now;
    clock_gettime(CLOCK_MONOTONIC, &now);
    return (uint64_t)now.tv_sec * 1000000000 + (uint64_t)now.tv_nsec;
}

static int by_size(const void *a, const void *b)
{
    uint64_t x = *(const uint64_t *)a, y = *(const uint64_t *)b;
    return (x > y) - (x < y);
}

static void print_times(const char *name, uint64_t *times, size_t repeats)
{
    qsort(times, repeats, sizeof *times, by_size);
    printf("%s best %lu median %lu\n", name, (unsigned long)(times[0] / 1000),
           (unsigned long)(times[repeats / 2] / 1000));
}

static uint8_t *read_file(const char *path, size_t *len)
{
    FILE *file = fopen(path, "rb");
    if (file == NULL || fseek(file, 0, SEEK_END) != 0)
        return NULL;
    long size = ftell(file);
    rewind(file);
    uint8_t *bytes = size < 0 ? NULL : malloc((size_t)size + 1);
    if (bytes != NULL && fread(bytes, 1, (size_t)size, file) != (size_t)size)
        return NULL;
    fclose(file);
    *len = (size_t)size;
    return bytes;
}

int main(int argc, char **argv)
{
    size_t len = 0, repeats = argc == 3 ? strtoul(argv[2], NULL, 10) : 0;
    uint8_t *image = repeats == 0 ? NULL : read_file(argv[1], &len);
    uint64_t *times = repeats == 0 ? NULL : calloc(repeats, sizeof *times);
    if (image == NULL || times == NULL) {
        fprintf(stderr, "usage: check_heap IMAGE REPEATS\n");
        return 2;
    }

    struct answer answer = check_heap(image, len);
    print_answer(answer);
    for (size_t i = 0; i < repeats; i++) {
        uint64_t start = nanoseconds();
        struct answer again = check_heap(image, len);
        times[i] = nanoseconds() - start;
        if (again.fault != answer.fault || again.fixed != answer.fixed)
            return 1;
    }
    print_times("check", times, repeats);

    uint32_t sum = sum_of_words(image, len);
    for (size_t i = 0; i < repeats; i++) {
        uint64_t start = nanoseconds();
        uint32_t again = sum_of_words(image, len);
        times[i] = nanoseconds() - start;
        if (again != sum)
            return 1;
    }
    print_times("floor", times, repeats);
    return 0;
}
