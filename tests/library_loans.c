/* Part of tests/library.sh: lends chunks at random, by loans and by pointers, many at once, and puts them back in any
 * order, with other calls between. It unlocks a pointer by its chunk or by its address, and tries addresses that no
 * pointer has.
 *
 *   gcc library_loans.c libpalmheap.a -o loans && ./loans STEPS SEED
 *
 * It keeps the chunks in an array of its own, and compares each result and all bytes with it. The status is 1 if a call
 * has another result than it should, or a chunk other bytes.
 */
#include "palmheap.h"
#include <stdio.h>
#include <stdlib.h>
#include <string.h>

enum { SIZE = 262144, SLOTS = 1000, MOST = 600, MOST_OUT = 300, MOST_BYTES = 200, FIXED = 15, MOST_LOCKS = 14 };

/* A chunk as it should be. bytes is NULL unless it is lent: then either a loan has it, or a pointer to it is out. */
struct chunk {
    uint32_t name, size, pointers;
    uint8_t owner, locks, content[MOST_BYTES];
    uint8_t *bytes;
    palmheap_loan loan;
};

static palmheap_store store;
static struct chunk chunks[MOST];
static uint8_t image[SIZE];
static uint32_t count, out, goal, most_out;
static unsigned lent_by_loan, lent_by_pointer, given_again, by_address, no_pointer, refused, no_space;
static uint64_t state;

/* ---- what should be */

static void fail(const char *what, uint32_t result, uint32_t wanted) {
    printf("%s: %u, and not %u\n", what, result, wanted);
    exit(1);
}

static void want(const char *what, uint32_t result, uint32_t wanted) {
    if (result != wanted) fail(what, result, wanted);
    refused += result != 0 && result != PALMHEAP_CALL_NO_POINTER;
}

/* A number below another, by the generator xorshift64*. */
static uint32_t draw(uint32_t below) {
    state ^= state >> 12;
    state ^= state << 25;
    state ^= state >> 27;
    return (uint32_t)((state * 0x2545F4914F6CDD1D) >> 32) % below;
}

static void want_bytes(const char *what, const struct chunk *it, const uint8_t *bytes, size_t len) {
    if (len != it->size || memcmp(bytes, it->content, len) != 0) fail(what, (uint32_t)len, it->size);
}

/* The first chunk from a random one on that is lent, or that isn't. NULL if there is none. */
static struct chunk *pick(bool is_lent) {
    uint32_t start = count == 0 ? 0 : draw(count);
    for (uint32_t i = 0; i < count; i++) {
        struct chunk *it = &chunks[(start + i) % count];
        if ((it->bytes != NULL) == is_lent) return it;
    }
    return NULL;
}

/* ---- calls on chunks */

static void make(void) {
    struct chunk it = {.size = draw(MOST_BYTES + 1), .owner = (uint8_t)(1 + draw(14)), .locks = draw(5) ? 0 : FIXED};
    if (count == MOST) return;
    uint32_t result = it.locks ? palmheap_MemPtrNew(&store, it.size, it.owner, &it.name)
                               : palmheap_MemHandleNew(&store, it.size, it.owner, &it.name);
    if (result == PALMHEAP_REFUSED_NOT_ENOUGH_SPACE) {
        no_space++;
        return;
    }
    want("make", result, 0);
    chunks[count++] = it;
}

static void free_chunk(struct chunk *it) {
    uint32_t wanted = it->locks % FIXED ? PALMHEAP_REFUSED_CHUNK_LOCKED : it->bytes ? PALMHEAP_REFUSED_LENT : 0;
    want("free", palmheap_MemChunkFree(&store, it->name), wanted);
    if (wanted == 0) *it = chunks[--count];
}

static void lock(struct chunk *it) {
    uint32_t place, wanted = it->locks == FIXED ? PALMHEAP_REFUSED_CHUNK_FIXED
        : it->locks == MOST_LOCKS ? PALMHEAP_REFUSED_LOCK_OVERFLOW : 0;
    uint8_t locks = 0;
    want("lock", palmheap_MemHandleLock(&store, it->name, &place, &locks), wanted);
    if (wanted == 0 && locks != ++it->locks) fail("locks", locks, it->locks);
}

static void unlock(struct chunk *it) {
    uint32_t wanted = it->locks == FIXED ? PALMHEAP_REFUSED_CHUNK_FIXED
        : it->locks == 0 ? PALMHEAP_REFUSED_CHUNK_NOT_LOCKED : it->bytes ? PALMHEAP_REFUSED_LENT : 0;
    uint8_t locks = 0;
    want("unlock", palmheap_MemHandleUnlock(&store, it->name, &locks), wanted);
    if (wanted == 0 && locks != --it->locks) fail("locks left", locks, it->locks);
}

/* A locked chunk can grow only if free chunks are after it, another one only if there is room. */
static void resize(struct chunk *it) {
    uint32_t size = draw(MOST_BYTES + 1), result = palmheap_MemHandleResize(&store, it->name, size);
    uint32_t wanted = it->locks == FIXED ? PALMHEAP_REFUSED_CHUNK_FIXED : it->bytes ? PALMHEAP_REFUSED_LENT : 0;
    uint32_t full = it->locks ? PALMHEAP_REFUSED_CHUNK_LOCKED : PALMHEAP_REFUSED_NOT_ENOUGH_SPACE;
    if (wanted == 0 && size > it->size && result == full) wanted = full;
    want("resize", result, wanted);
    if (wanted != 0) return;
    if (size < it->size) memset(it->content + size, 0, it->size - size);
    it->size = size;
}

static void read_part(const struct chunk *it) {
    static uint8_t buffer[MOST_BYTES];
    uint32_t at = draw(MOST_BYTES), len = draw(MOST_BYTES - at + 1);
    uint32_t wanted = it->bytes ? PALMHEAP_REFUSED_LENT : at + len > it->size ? PALMHEAP_REFUSED_OUT_OF_BOUNDS : 0;
    size_t got = 0;
    want("read", palmheap_read(&store, it->name, at, len, buffer, sizeof buffer, &got), wanted);
    if (wanted == 0 && (got != len || memcmp(buffer, it->content + at, len) != 0)) fail("bytes", it->name, at);
}

static void write_part(struct chunk *it) {
    uint8_t bytes[MOST_BYTES];
    uint32_t at = draw(MOST_BYTES), len = draw(MOST_BYTES - at + 1);
    uint32_t wanted = it->locks == 0 ? PALMHEAP_REFUSED_CHUNK_NOT_LOCKED : it->bytes ? PALMHEAP_REFUSED_LENT
        : at + len > it->size ? PALMHEAP_REFUSED_OUT_OF_BOUNDS : 0;
    memset(bytes, (int)draw(256), len);
    want("write", palmheap_DmWrite(&store, it->name, at, bytes, len), wanted);
    if (wanted == 0) memcpy(it->content + at, bytes, len);
}

/* Frees all chunks of an owner, locked ones too, unless one of them is lent. */
static void free_by_owner(uint8_t owner) {
    uint32_t wanted = 0;
    uint32_t freed = 0, before = count;
    for (uint32_t i = 0; i < count; i++)
        if (chunks[i].owner == owner && chunks[i].bytes) wanted = PALMHEAP_REFUSED_LENT;
    want("free by owner", palmheap_MemHeapFreeByOwnerID(&store, owner, &freed), wanted);
    for (uint32_t i = 0; wanted == 0 && i < count;)
        if (chunks[i].owner == owner) chunks[i] = chunks[--count];
        else i++;
    if (freed != before - count) fail("freed", freed, before - count);
}

/* Calls on the whole store: all go on while chunks are lent, but for the last two. */
static void whole_store(void) {
    uint32_t moved, size, wanted = out ? PALMHEAP_REFUSED_LENT : 0;
    size_t len;
    if (draw(4) == 0) free_by_owner((uint8_t)(1 + draw(14)));
    want("compact", palmheap_MemHeapCompact(&store, &moved), 0);
    want("free bytes", palmheap_MemHeapFreeBytes(&store, &size), 0);
    want("write image", palmheap_write_image(&store, image, sizeof image, &len), wanted);
    if (out) want("close", palmheap_close(&store), wanted);
}

/* ---- loans and pointers */

static void lend(struct chunk *it, uint8_t *bytes, size_t len) {
    want_bytes("the lent bytes", it, bytes, len);
    it->bytes = bytes;
    if (++out > most_out) most_out = out;
}

static void take_out(struct chunk *it) {
    bool also = draw(8) != 0;
    uint32_t wanted = it->locks == 0 ? PALMHEAP_REFUSED_CHUNK_NOT_LOCKED
        : (also ? it->bytes != NULL : out != 0) ? PALMHEAP_REFUSED_LENT : 0;
    palmheap_loan loan = {0};
    want("take out", (also ? palmheap_take_out_also : palmheap_take_out)(&store, it->name, &loan), wanted);
    if (wanted != 0) return;
    lent_by_loan++;
    if (loan.name != it->name) fail("the name of a loan", loan.name, it->name);
    it->loan = loan;
    lend(it, loan.bytes, loan.count);
}

static void lock_pointer(struct chunk *it) {
    uint32_t wanted = it->pointers ? 0 : it->locks == FIXED ? PALMHEAP_REFUSED_CHUNK_FIXED
        : it->locks == MOST_LOCKS ? PALMHEAP_REFUSED_LOCK_OVERFLOW : it->bytes ? PALMHEAP_REFUSED_LENT : 0;
    uint8_t *bytes = NULL;
    size_t len = 0;
    want("lock pointer", palmheap_lock_pointer(&store, it->name, &bytes, &len), wanted);
    if (wanted != 0) return;
    if (it->pointers++ == 0) {
        lent_by_pointer++;
        it->locks++;
        lend(it, bytes, len);
    } else {
        given_again++;
        if (bytes != it->bytes || len != it->size) fail("another pointer", it->name, it->pointers);
    }
}

/* Writes to the bytes of a lent chunk, which no call has changed. */
static void change(struct chunk *it) {
    want_bytes("the bytes while they are lent", it, it->bytes, it->size);
    for (uint32_t i = draw(MOST_BYTES); i < it->size; i++) it->bytes[i] = it->content[i] = (uint8_t)draw(256);
}

static uint8_t *start_of_image(void) {
    uint8_t *start;
    palmheap_start(&store, &start);
    return start;
}

/* The address of the bytes of a chunk. If it can't be locked, that of the image. */
static const uint8_t *address_of(const struct chunk *it) {
    uint32_t place = 0;
    uint8_t locks;
    if (it->bytes) return it->bytes;
    if (palmheap_MemHandleLock(&store, it->name, &place, &locks) == 0)
        want("unlock again", palmheap_MemHandleUnlock(&store, it->name, &locks), 0);
    return start_of_image() + place;
}

/* Unlocks a pointer to a chunk once, by the chunk or by its address. */
static void unlock_pointer(const struct chunk *it) {
    uint32_t wanted = it->pointers ? 0 : PALMHEAP_CALL_NO_POINTER;
    if (draw(2)) {
        want("unlock handle", palmheap_unlock_handle(&store, it->name), wanted);
        return;
    }
    want("unlock pointer", palmheap_unlock_pointer(&store, address_of(it)), wanted);
    by_address += wanted == 0;
}

/* Unlocks or puts back a lent chunk. Other chunks are unlocked in vain. */
static void give_back(struct chunk *it) {
    uint8_t locks;
    if (it->bytes) change(it);
    unlock_pointer(it);
    if (it->bytes == NULL) return;
    if (it->pointers == 0) palmheap_put_back(&store, &it->loan);
    else if (--it->pointers) return;
    else it->locks--;
    it->bytes = NULL;
    out--;
    want("lock count", palmheap_MemHandleLockCount(&store, it->name, &locks), 0);
    if (locks != it->locks) fail("locks after it was put back", locks, it->locks);
    read_part(it);
}

/* ---- the whole */

/* Finds each lent chunk once, in order of place. */
static void check_lent(void) {
    uint32_t after = 0, found = 0, name, place, names[MOST] = {0};
    size_t all = 0;
    want("loans", palmheap_loans(&store, names, MOST, &all), 0);
    while (palmheap_loan_above(&store, after, &name, &place)) {
        uint32_t i = 0;
        while (i < count && (chunks[i].name != name || chunks[i].bytes == NULL)) i++;
        if (i == count || place <= after) fail("a lent chunk", name, place);
        if (found == all || names[found] != name) fail("all lent chunks", name, found);
        if (chunks[i].bytes != start_of_image() + place) fail("the address of a lent chunk", name, place);
        after = place;
        found++;
    }
    if (found != out || palmheap_lent(&store, &name) != (out != 0)) fail("lent chunks", found, out);
    if (found != all) fail("the number of all lent chunks", found, (uint32_t)all);
    /* one place less than there are lent chunks, and the number alone */
    const uint32_t short_of = found ? PALMHEAP_CALL_NO_ROOM : 0, first = names[0];
    names[0] = first + 1;
    want("loans without room", palmheap_loans(&store, names, found ? found - 1 : 0, &all), short_of);
    want("the number of loans", palmheap_loans(&store, NULL, 0, &all), short_of);
    if (found != all || names[0] != first + 1) fail("loans without room", found, (uint32_t)all);
}

/* Unlocks an address that no pointer has: NULL, one before, behind or within the image, or in the body of a chunk. */
static void unlock_wrong(const struct chunk *it) {
    const uintptr_t start = (uintptr_t)start_of_image();
    const uint32_t far = draw(SIZE), kind = draw(5);
    const uintptr_t within = (uintptr_t)address_of(it) + 1 + far % (it->size + 1);
    const uintptr_t wrong[] = {0, start - 1 - far, start + SIZE + far, start + far, within};
    uint8_t locks;
    for (uint32_t i = 0; i < count; i++)
        if (chunks[i].pointers && (uintptr_t)chunks[i].bytes == wrong[kind]) return;
    want("unlock nothing", palmheap_unlock_pointer(&store, (const void *)wrong[kind]), PALMHEAP_CALL_NO_POINTER);
    no_pointer++;
    want("lock count", palmheap_MemHandleLockCount(&store, it->name, &locks), 0);
    if (locks != it->locks) fail("locks after it was not unlocked", locks, it->locks);
    if (draw(50) == 0) check_lent();
}

/* Puts all back, and closes the store and opens its image. */
static void reopen(void) {
    static uint8_t bytes[MOST_BYTES];
    palmheap_counts counts;
    uint32_t fixed = 0;
    size_t len;
    while (out) give_back(pick(true));
    for (uint32_t i = 0; i < count; i++) {
        want("read", palmheap_read(&store, chunks[i].name, 0, chunks[i].size, bytes, sizeof bytes, &len), 0);
        want_bytes("the bytes", &chunks[i], bytes, len);
        fixed += chunks[i].locks == FIXED;
    }
    want("write image", palmheap_write_image(&store, image, sizeof image, &len), 0);
    want("check", palmheap_check(image, len, &counts).kind, PALMHEAP_OK);
    if (counts.fixed != fixed || counts.movable != count - fixed) fail("chunks", counts.fixed + counts.movable, count);
    want("close", palmheap_close(&store), 0);
    want("open", palmheap_open(image, len, &store).kind, PALMHEAP_OK);
}

static void step(void) {
    struct chunk *it = count ? &chunks[draw(count)] : NULL, *lent = pick(true);
    uint32_t kind = draw(100);
    if (it == NULL || kind < 10) make();
    else if (kind < 14) free_chunk(it);
    else if (kind < 25) lock(it);
    else if (kind < 37) unlock(it);
    else if (kind < 42) resize(it);
    else if (kind < 50) read_part(it);
    else if (kind < 56) write_part(it);
    else if (kind < 57) whole_store();
    else if (kind < 62 && lent) change(lent);
    else if (kind < 65) unlock_wrong(lent && draw(2) ? lent : it);
    else if (out < goal && draw(4)) (draw(2) ? take_out : lock_pointer)(it);
    else give_back(lent ? lent : it);
}

int main(int argc, char **argv) {
    if (argc != 3) return 2;
    long steps = atol(argv[1]);
    state = (uint64_t)atol(argv[2]) + 1;
    want("new", palmheap_new(image, sizeof image, SLOTS).kind, PALMHEAP_OK);
    want("open", palmheap_open(image, sizeof image, &store).kind, PALMHEAP_OK);
    for (long i = 0; i < steps; i++) {
        if (i % 1000 == 0) {
            goal = draw(MOST_OUT + 1);
            check_lent();
        }
        if (i % 10000 == 9999) reopen();
        step();
    }
    reopen();
    want("close", palmheap_close(&store), 0);
    printf("%ld steps: %u loans, %u pointers, %u of them given again; at most %u out\n", steps, lent_by_loan,
        lent_by_pointer + given_again, given_again, most_out);
    printf("%u pointers were unlocked by address, and %u addresses in vain\n", by_address, no_pointer);
    printf("%u calls were refused, and %u chunks not made for want of space\n", refused, no_space);
    return 0;
}
