/* Sorts an address book by name, through pointers to its records, while the heap is compacted:
 *
 *   gcc locks.c $(pkg-config --cflags --libs palmheap) -o locks && ./locks
 *
 * To be copied. The status is 3 if a call has another result than it should.
 */
#include "palmheap.h"
#include <stdio.h>
#include <stdlib.h>
#include <string.h>

enum { COUNT = 200, SIZE = 65536, SLOTS = 500, FOUR_DATA = 0x44415441, FOUR_ADDR = 0x61646472 };

/* A record while it is locked: its chunk, its unique ID, and its text, which ends with a zero byte. */
struct entry {
    uint32_t chunk, id;
    char *text;
};

static palmheap_store store;
static uint32_t db;
static struct entry entries[COUNT];

static void want(const char *what, uint32_t result, uint32_t wanted) {
    if (result == wanted) return;
    fprintf(stderr, "%s: %u\n", what, result);
    exit(3);
}

/* Makes a record, and a chunk between it and the next one, so that there is something to compact. */
static void add(uint32_t number, uint32_t *gap) {
    char text[32];
    uint32_t index, chunk, place;
    uint8_t locks;
    int len = snprintf(text, sizeof text, "%c%c%c, %u", (int)('A' + number * 7 % 26), (int)('a' + number * 11 % 26),
        (int)('a' + number * 5 % 26), number);
    want("record", palmheap_DmNewRecord(&store, db, UINT32_MAX, (uint32_t)len + 1, &index, &chunk), 0);
    want("lock", palmheap_MemHandleLock(&store, chunk, &place, &locks), 0);
    want("write", palmheap_DmWrite(&store, chunk, 0, (uint8_t *)text, (size_t)len + 1), 0);
    want("unlock", palmheap_MemHandleUnlock(&store, chunk, &locks), 0);
    want("release", palmheap_DmReleaseRecord(&store, db, index, true), 0);
    want("gap", palmheap_MemHandleNew(&store, 24, 1, gap), 0);
}

/* Takes a pointer to each record. From now on its bytes stay where they are. */
static void lock_all(void) {
    for (uint32_t i = 0; i < COUNT; i++) {
        palmheap_record_info info;
        uint8_t *bytes;
        size_t count;
        want("info", palmheap_DmRecordInfo(&store, db, i, &info), 0);
        want("lock pointer", palmheap_lock_pointer(&store, info.data, &bytes, &count), 0);
        entries[i] = (struct entry){info.data, info.id, (char *)bytes};
    }
}

/* A key function as applications have one: it takes the pointer for itself, and gives it back. */
static char first_letter(const struct entry *entry) {
    uint8_t *bytes;
    size_t count;
    want("lock again", palmheap_lock_pointer(&store, entry->chunk, &bytes, &count), 0);
    if ((char *)bytes != entry->text) exit(3);
    char first = (char)bytes[0];
    want("unlock once", palmheap_unlock_pointer(&store, bytes), 0);
    return first;
}

static int by_name(const void *one, const void *other) {
    const struct entry *a = one, *b = other;
    char first = first_letter(a), second = first_letter(b);
    return first != second ? first - second : strcmp(a->text, b->text);
}

/* Puts the records of the database in the order of the entries. They may move: their data doesn't. */
static void reorder(void) {
    for (uint32_t i = 0; i < COUNT; i++) {
        uint32_t from;
        want("find", palmheap_DmFindRecordByID(&store, db, entries[i].id, &from), 0);
        want("move", palmheap_DmMoveRecord(&store, db, from, i), 0);
    }
}

int main(void) {
    static uint8_t image[SIZE], copy[SIZE];
    static uint32_t gaps[COUNT];
    uint32_t moved, size, name;
    size_t count;
    want("new", palmheap_new(image, sizeof image, SLOTS).kind, PALMHEAP_OK);
    want("open", palmheap_open(image, sizeof image, &store).kind, PALMHEAP_OK);
    const uint8_t *title = (const uint8_t *)"AddressDB";
    want("create", palmheap_DmCreateDatabase(&store, title, 9, FOUR_DATA, FOUR_ADDR, false, 0, &db), 0);
    for (uint32_t i = 0; i < COUNT; i++) add(i, &gaps[i]);

    lock_all();
    for (uint32_t i = 0; i < COUNT; i++) want("free", palmheap_MemChunkFree(&store, gaps[i]), 0);
    want("compact", palmheap_MemHeapCompact(&store, &moved), 0);
    qsort(entries, COUNT, sizeof *entries, by_name);
    reorder();
    want("compact", palmheap_MemHeapCompact(&store, &moved), 0);
    for (uint32_t i = 0; i < COUNT; i++) entries[i].text[0] ^= 'a' ^ 'A';

    /* What a caller can't do with bytes that a pointer is out to. */
    name = entries[0].chunk;
    want("free", palmheap_DmRemoveRecord(&store, db, 0), PALMHEAP_REFUSED_CHUNK_LOCKED);
    want("resize", palmheap_DmResizeRecord(&store, db, 0, 100), PALMHEAP_REFUSED_LENT);
    want("read", palmheap_read(&store, name, 0, 1, copy, sizeof copy, &count), PALMHEAP_REFUSED_LENT);
    want("write", palmheap_DmSet(&store, name, 0, 1, 0), PALMHEAP_REFUSED_LENT);
    want("write image", palmheap_write_image(&store, copy, sizeof copy, &count), PALMHEAP_REFUSED_LENT);
    want("close", palmheap_close(&store), PALMHEAP_REFUSED_LENT);

    for (uint32_t i = 0; i < COUNT; i++) want("unlock", palmheap_unlock_pointer(&store, entries[i].text), 0);
    want("unlock once more", palmheap_unlock_pointer(&store, entries[0].text), PALMHEAP_CALL_NO_POINTER);
    for (uint32_t i = 0; i < COUNT; i += 40) {
        want("query", palmheap_DmQueryRecord(&store, db, i, &name), 0);
        want("size", palmheap_MemHandleSize(&store, name, &size), 0);
        want("read", palmheap_read(&store, name, 0, size, copy, sizeof copy, &count), 0);
        printf("record %u: %s\n", i, (char *)copy);
    }
    want("compact", palmheap_MemHeapCompact(&store, &moved), 0);
    printf("moved after the last unlock: %s\n", moved > 0 ? "some bytes" : "none");
    want("write image", palmheap_write_image(&store, copy, sizeof copy, &count), 0);
    want("close", palmheap_close(&store), 0);
    return 0;
}
