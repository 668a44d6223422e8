/* Opens a blank image, makes a database with one record, and writes the new image:
 *
 *   gcc store.c $(pkg-config --cflags --libs palmheap) -o store && ./store OUT.image
 *
 * To be copied. The status is 1 if a call fails, 2 without one word, and 3 if a file or memory fails.
 */
#include "palmheap.h"
#include <stdio.h>
#include <stdlib.h>
#include <string.h>

enum { SIZE = 4096, SLOTS = 40 };

/* A call on a store is done, or the end of the program. */
static void done(const char *call, uint32_t refusal) {
    if (refusal == 0) return;
    uint8_t name[32];
    size_t count;
    if (palmheap_refusal_name(refusal, name, sizeof name, &count) != 0) count = 0;
    fprintf(stderr, "%s: refused %u %.*s\n", call, refusal, (int)count, (char *)name);
    exit(1);
}

/* The number of four characters; a char can be negative. */
static uint32_t type_of(const char four[4]) {
    const uint8_t *bytes = (const uint8_t *)four;
    return (uint32_t)bytes[0] << 24 | (uint32_t)bytes[1] << 16 | (uint32_t)bytes[2] << 8 | (uint32_t)bytes[3];
}

/* Makes a database with one record, and writes a text into the record. A chunk is written only while it is locked. */
static void make_memo(palmheap_store *store, const char *text) {
    uint32_t db, index, chunk, place;
    uint8_t locks;
    done("create", palmheap_DmCreateDatabase(store, (const uint8_t *)"MemoDB", 6, type_of("DATA"), type_of("memo"), false,
        0, &db));
    done("new", palmheap_DmNewRecord(store, db, 0, (uint32_t)strlen(text) + 1, &index, &chunk));
    done("lock", palmheap_MemHandleLock(store, chunk, &place, &locks));
    done("write", palmheap_DmStrCopy(store, chunk, 0, (const uint8_t *)text, strlen(text)));
    done("unlock", palmheap_MemHandleUnlock(store, chunk, &locks));
    printf("database %u, record %u, chunk %u at %u\n", db, index, chunk, place);
}

/* Finds the database again, and prints its first record, but not the zero byte at its end. An empty record has none. */
static void show_memo(const palmheap_store *store) {
    uint32_t db, chunk, size;
    uint8_t text[64];
    size_t len;
    done("find", palmheap_DmFindDatabase(store, (const uint8_t *)"MemoDB", 6, &db));
    done("query", palmheap_DmQueryRecord(store, db, 0, &chunk));
    done("size", palmheap_MemHandleSize(store, chunk, &size));
    done("read", palmheap_read(store, chunk, 0, size, text, sizeof text, &len));
    if (len > 0 && text[len - 1] == 0) len--;
    printf("record 0: %.*s\n", (int)len, (char *)text);
}

/* Writes the image of a store to a file. The first call is for the size. */
static int write_image(const palmheap_store *store, const char *path) {
    size_t len = 0;
    uint32_t result = palmheap_write_image(store, NULL, 0, &len);
    if (result != PALMHEAP_CALL_NO_ROOM) done("write_image", result);
    uint8_t *image = malloc(len);
    if (!image) { perror("memory"); return 3; }
    done("write_image", palmheap_write_image(store, image, len, &len));
    FILE *out = fopen(path, "wb");
    bool written = out && fwrite(image, 1, len, out) == len;
    written = out && fclose(out) == 0 && written;
    free(image);
    if (!written) { perror(path); return 3; }
    return 0;
}

int main(int argc, char **argv) {
    if (argc != 2) { fprintf(stderr, "usage: store OUT\n"); return 2; }
    static uint8_t image[SIZE];
    palmheap_store store;
    palmheap_answer answer = palmheap_new(image, sizeof image, SLOTS);
    if (answer.kind == PALMHEAP_OK) answer = palmheap_open(image, sizeof image, &store);
    if (answer.kind != PALMHEAP_OK) { fprintf(stderr, "kind %u at %u\n", answer.kind, answer.at); return 1; }
    make_memo(&store, "Buy milk");
    show_memo(&store);
    int status = write_image(&store, argv[1]);
    done("close", palmheap_close(&store));
    return status;
}
